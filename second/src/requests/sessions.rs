//! The functions of a module session.

use super::{refusable, Answer};
use crate::arguments::Arguments;
use crate::refusal::Refusal;
use crate::runs::{list, runs};
use crate::session::{Numbers, Report, Session};

/// A call on a session: what it answers, and the session afterwards, which a refused call leaves "as it is".
fn called<T>(
    numbers: Numbers,
    call: impl FnOnce(&mut Session) -> Result<T, Refusal>,
) -> (Result<T, Refusal>, Numbers) {
    let result = numbers.session().and_then(|mut session| {
        let answered = call(&mut session)?;
        Ok((answered, session.numbers()))
    });
    match result {
        Ok((answered, numbers)) => (Ok(answered), numbers),
        Err(refusal) => (Err(refusal), numbers),
    }
}

/// "refusal, SESSION"
pub fn begin(arguments: &mut Arguments) -> Answer {
    let (numbers, code) = (arguments.session()?, arguments.number()?);
    let (result, numbers) = called(numbers, |session| session.begin(code));
    Ok([&refusable(result.map(|()| []))[..], &numbers.list()].concat())
}

/// "refusal, SESSION, RUNS Y, RUNS C"
pub fn feed(arguments: &mut Arguments) -> Answer {
    let numbers = arguments.session()?;
    let words = arguments.signal(numbers.history)?;
    let [mut y, mut c] = [arguments.runs()?, arguments.runs()?];
    let (result, numbers) = called(numbers, |session| {
        session.feed(&words, &mut [&mut y, &mut c])
    });
    let refusal = refusable(result.map(|()| []));
    Ok([&refusal[..], &numbers.list(), &runs(&y), &runs(&c)].concat())
}

/// "refusal, raster, rows, faults, verdict (0 refused, 1 NO SIGNAL, 2 FAIL, 3 SHORT, 4 PASS), SESSION"
pub fn end(arguments: &mut Arguments) -> Answer {
    let (result, numbers) = called(arguments.session()?, Session::end);
    Ok(ended(result, numbers))
}

fn ended(result: Result<Report, Refusal>, numbers: Numbers) -> Vec<u32> {
    let report = result.map(|report| {
        let verdict = report.verdict as u32;
        [report.raster, report.rows, report.faults, verdict]
    });
    [&refusable(report)[..], &numbers.list()].concat()
}

/// "a module: begin on a fresh session, feeds, end"; "refusal of begin, LIST refusals of the feeds, then as 72, RUNS Y, RUNS C"
pub fn module(arguments: &mut Arguments) -> Answer {
    let (code, lengths) = (arguments.number()?, arguments.list()?);
    let words = arguments.signal(0)?;
    let [mut y, mut c] = [arguments.runs()?, arguments.runs()?];
    let mut session = Session::default();
    let begun = session.begin(code);
    let mut feeds = Vec::new();
    for part in parts(&words, &lengths)? {
        let fed = session.feed(part, &mut [&mut y, &mut c]);
        feeds.push(number(fed) as u16);
    }
    let result = session.end();
    let answer = [
        vec![number(begun)],
        list(&feeds),
        ended(result, session.numbers()),
        runs(&y),
        runs(&c),
    ];
    Ok(answer.concat())
}

fn number(result: Result<(), Refusal>) -> u32 {
    result.map_or_else(Refusal::number, |()| 0)
}

/// "The LIST has the words of each feed in turn; a last feed takes the words that are left, also where there are none."
fn parts<'a>(words: &'a [u16], lengths: &[u16]) -> Result<Vec<&'a [u16]>, String> {
    let mut parts = Vec::new();
    let mut left = words;
    for &length in lengths {
        let (part, rest) = left
            .split_at_checked(length.into())
            .ok_or("feeds of more words than there are")?;
        parts.push(part);
        left = rest;
    }
    parts.push(left);
    Ok(parts)
}
