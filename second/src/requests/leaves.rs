//! The functions of rasters, CRC, cable bits, timing codes and line numbers.

use super::{refusable, Answer};
use crate::arguments::Arguments;
use crate::raster::Kind;
use crate::refusal::Refusal;
use crate::runs::list;
use crate::{cable, crc, raster, timing};

pub fn raster_row(arguments: &mut Arguments) -> Answer {
    let row = raster::raster_of(arguments.number()?);
    let numbers = row.map(|row| [row.code, row.total, row.active, row.rows, row.kind as u32]);
    Ok(refusable(numbers))
}

pub fn name_raster(arguments: &mut Arguments) -> Answer {
    let (total, active) = (arguments.number()?, arguments.number()?);
    let (rows, two_fields) = (arguments.number()?, arguments.flag()?);
    let kind = match two_fields {
        true => Kind::TwoFields,
        false => Kind::Progressive,
    };
    Ok(vec![raster::name(total, active, rows, kind)])
}

pub fn v_and_f(arguments: &mut Arguments) -> Answer {
    let result = raster::v_and_f(arguments.number()?, arguments.number()?);
    Ok(refusable(result.map(|(v, f)| [v.into(), f.into()])))
}

pub fn crc_after_words(arguments: &mut Arguments) -> Answer {
    let result = crc::checked_after_words(arguments.number()?, &arguments.list()?);
    Ok(refusable(result.map(|register| [register])))
}

pub fn crc_words(arguments: &mut Arguments) -> Answer {
    Ok(refusable(two(crc::crc_words(arguments.number()?))))
}

/// Two words that are answered, or the refusal.
fn two(words: Result<(u16, u16), Refusal>) -> Result<[u32; 2], Refusal> {
    words.map(|(first, second)| [first.into(), second.into()])
}

/// Scrambling, or unscrambling: history, words and output, and the next history.
type Scrambler = fn(u16, &[u16], &mut [u16]) -> Result<u16, Refusal>;

pub fn scrambler(arguments: &mut Arguments, scrambler: Scrambler) -> Answer {
    let (history, words) = (arguments.word()?, arguments.list()?);
    let mut output = arguments.list()?;
    let next = scrambler(history, &words, &mut output);
    Ok([refusable(next.map(|next| [next.into()])), list(&output)].concat())
}

pub fn find_sync(arguments: &mut Arguments) -> Answer {
    let result = cable::find_sync(&arguments.list()?);
    let found = |place: Option<usize>| place.map_or([0, 0], |place| [1, place as u32]);
    Ok(refusable(result.map(found)))
}

pub fn xyz(arguments: &mut Arguments) -> Answer {
    let (f, v, h) = (arguments.flag()?, arguments.flag()?, arguments.flag()?);
    Ok(vec![timing::xyz(f, v, h).into()])
}

pub fn read_xyz(arguments: &mut Arguments) -> Answer {
    let result = timing::read_xyz(arguments.word()?);
    let exact = |(f, v, h): (bool, bool, bool)| [1, f.into(), v.into(), h.into()];
    Ok(refusable(result.map(|read| read.map_or([0; 4], exact))))
}

pub fn line_words(arguments: &mut Arguments) -> Answer {
    let words = timing::line_words(arguments.number()?, arguments.number()?);
    Ok(refusable(two(words)))
}

pub fn read_line(arguments: &mut Arguments) -> Answer {
    let code = arguments.number()?;
    let result = timing::read_line(code, arguments.word()?, arguments.word()?);
    Ok(refusable(result.map(|line| [line])))
}
