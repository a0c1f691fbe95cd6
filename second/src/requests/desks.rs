//! The functions of a bench file.

use super::{refusable, Answer};
use crate::arguments::Arguments;
use crate::bench::sections::LONGEST_TAG;
use crate::desk::{longest_row, Desk, Done, Outcome};
use crate::raster::raster_of;
use crate::refusal::Refusal;
use crate::runs::runs;
use crate::session::{Buffers, Numbers, Verdict};

type Taken = Result<(usize, Outcome), Refusal>;

/// "for each take: refusal, bytes taken, OUTCOME; then the OUTCOME of finish, RUNS Y, RUNS C"
pub fn desk(arguments: &mut Arguments) -> Answer {
    let (lengths, bytes) = (arguments.list()?, arguments.bytes()?);
    let [mut y, mut c] = [arguments.runs()?, arguments.runs()?];
    let mut desk = Desk::default();
    let mut left = &bytes[..];
    let mut answer = Vec::new();
    // "a last one is lent all that are left"
    for length in lengths.into_iter().map(usize::from).chain([usize::MAX]) {
        let result = take_some(&mut desk, &mut left, length, &mut [&mut y, &mut c]);
        answer.extend(taken(result));
    }
    answer.extend(desk.finish().numbers());
    answer.extend([runs(&y), runs(&c)].concat());
    Ok(answer)
}

/// A take that is lent so many bytes "from the first byte that is not yet taken on (or as many as there are)".
fn take_some(desk: &mut Desk, left: &mut &[u8], length: usize, rows: &mut Buffers) -> Taken {
    let result = desk.take(&left[..length.min(left.len())], rows);
    *left = &left[result.as_ref().map_or(0, |(taken, _)| *taken)..];
    result
}

/// "refusal, bytes taken, OUTCOME"
fn taken(result: Taken) -> Vec<u32> {
    let (result, outcome) = match result {
        Ok((taken, outcome)) => (Ok([taken as u32]), outcome),
        Err(refusal) => (Err(refusal), Outcome::Nothing),
    };
    [refusable(result), outcome.numbers()].concat()
}

/// "refusal, bytes taken, OUTCOME; then the desk's SESSION, RUNS Y, RUNS C"
pub fn take(arguments: &mut Arguments) -> Answer {
    let (lengths, bytes) = (arguments.list()?, arguments.bytes()?);
    let numbers = arguments.session()?;
    let [mut y, mut c] = [arguments.runs()?, arguments.runs()?];
    let (desk, left) = desk_after(&lengths, &bytes);
    if !is_of_desk(&desk, &numbers) {
        return Err("the raster read is not that of the session".to_string());
    }
    let mut desk = desk.with_session(numbers);
    let result = desk.take(left, &mut [&mut y, &mut c]);
    let numbers = desk.numbers().list();
    Ok([&taken(result)[..], &numbers, &runs(&y), &runs(&c)].concat())
}

/// A fresh desk after a take for each length, and the bytes that are left; these takes have buffers of their own.
pub fn desk_after<'a>(lengths: &[u16], bytes: &'a [u8]) -> (Desk, &'a [u8]) {
    let [mut y, mut c] = [(); 2].map(|()| vec![0; longest_row()]);
    let mut desk = Desk::default();
    let mut left = bytes;
    for &length in lengths {
        // What it answers is not told.
        let _ = take_some(&mut desk, &mut left, length.into(), &mut [&mut y, &mut c]);
    }
    (desk, left)
}

/// Where words are read, a session that is running and in range has "the raster that was read".
fn is_of_desk(desk: &Desk, numbers: &Numbers) -> bool {
    let raster = raster_of(desk.reader.raster.into());
    let is_refused = !numbers.open || !numbers.in_range();
    !desk.reader.is_in_words()
        || is_refused
        || raster.is_ok_and(|raster| raster.code == numbers.raster)
}

pub fn outcome_line(arguments: &mut Arguments) -> Answer {
    let line = outcome(arguments)?.line();
    let bytes = line.iter().map(|&byte| u32::from(byte));
    Ok([line.len() as u32].into_iter().chain(bytes).collect())
}

fn outcome(arguments: &mut Arguments) -> Result<Outcome, String> {
    let (kind, refusal) = (arguments.number()?, arguments.number()?);
    let job = Done {
        tag: arguments.bytes()?,
        raster: arguments.number()?,
        wipe: arguments.flag()?,
        rows: arguments.number()?,
        faults: arguments.number()?,
        verdict: verdict(arguments.number()?)?,
    };
    match (kind, refusal) {
        (0, 0) if job == Done::default() => Ok(Outcome::Nothing),
        (1, 0) if job.tag.len() as u32 <= LONGEST_TAG => Ok(Outcome::Done(job)),
        (2, _) if job == Done::default() => Ok(Outcome::Refused(refusal)),
        _ => Err("not the numbers of an outcome".to_string()),
    }
}

/// "0 refused, 1 NO SIGNAL, 2 FAIL, 3 SHORT, 4 PASS"
fn verdict(number: u32) -> Result<Option<Verdict>, String> {
    Ok(match number {
        0 => None,
        1 => Some(Verdict::NoSignal),
        2 => Some(Verdict::Fail),
        3 => Some(Verdict::Short),
        4 => Some(Verdict::Pass),
        _ => return Err(format!("{number:x} is no verdict")),
    })
}
