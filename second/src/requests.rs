//! Answers requests: each is a call of the face, or the few that the request format's table says.

pub mod desks;
mod leaves;
mod packets;
mod rows;
mod sessions;

use crate::arguments::Arguments;
use crate::cable::{scramble, unscramble};
use crate::functions::*;
use crate::refusal::Refusal;

type Answer = Result<Vec<u32>, String>;

pub fn answer(line: &str) -> Result<String, String> {
    let mut arguments = Arguments::parse(line)?;
    let numbers = call(&mut arguments)?;
    arguments.end()?;
    Ok(format_line(&numbers))
}

/// A line of hexadecimal numbers.
pub fn format_line(numbers: &[u32]) -> String {
    let texts: Vec<String> = numbers.iter().map(|number| format!("{number:x}")).collect();
    texts.join(" ")
}

fn call(arguments: &mut Arguments) -> Answer {
    let function = arguments.number()?;
    match function {
        RASTER_ROW => leaves::raster_row(arguments),
        NAME_RASTER => leaves::name_raster(arguments),
        V_AND_F => leaves::v_and_f(arguments),
        CRC_AFTER_WORDS => leaves::crc_after_words(arguments),
        CRC_WORDS => leaves::crc_words(arguments),
        SCRAMBLE => leaves::scrambler(arguments, scramble),
        UNSCRAMBLE => leaves::scrambler(arguments, unscramble),
        FIND_SYNC => leaves::find_sync(arguments),
        XYZ => leaves::xyz(arguments),
        READ_XYZ => leaves::read_xyz(arguments),
        LINE_WORDS => leaves::line_words(arguments),
        READ_LINE => leaves::read_line(arguments),
        BUILD_PACKET => packets::build(arguments),
        FIND_PACKET => packets::find(arguments),
        EXTRACT => packets::extract(arguments),
        CHECK_ROW => rows::check_row(arguments),
        CORRECT_ROW => rows::correct_row(arguments),
        BUILD_ROW => rows::build_row(arguments),
        BEGIN => sessions::begin(arguments),
        FEED => sessions::feed(arguments),
        END => sessions::end(arguments),
        MODULE => sessions::module(arguments),
        DESK => desks::desk(arguments),
        TAKE => desks::take(arguments),
        OUTCOME_LINE => desks::outcome_line(arguments),
        _ => Err(format!("there is no function {function:x}")),
    }
}

/// The refusal number, then the values: "A refusal comes with zeros for all that follows it."
fn refusable<const COUNT: usize>(result: Result<[u32; COUNT], Refusal>) -> Vec<u32> {
    match result {
        Ok(values) => [&[0], &values[..]].concat(),
        Err(refusal) => [&[refusal.number()], &[0; COUNT][..]].concat(),
    }
}
