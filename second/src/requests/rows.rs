//! The functions of rows.

use super::{refusable, Answer};
use crate::arguments::Arguments;
use crate::crc::Carry;
use crate::refusal::Refusal;
use crate::runs::runs;
use crate::{build, check, correct};

pub fn check_row(arguments: &mut Arguments) -> Answer {
    let (code, line, carry) = (arguments.number()?, arguments.number()?, arguments.carry()?);
    let (y, c) = (arguments.runs()?, arguments.runs()?);
    let result = check::check(code, line, carry, [&y, &c]);
    // "flags, CARRY"
    Ok(refusable(result.map(|(flags, [y, c])| [flags, 1, y, c])))
}

pub fn correct_row(arguments: &mut Arguments) -> Answer {
    let (code, line) = (arguments.number()?, arguments.number()?);
    let (carry, wipe) = (arguments.carry()?, arguments.flag()?);
    let (mut y, mut c) = (arguments.runs()?, arguments.runs()?);
    let result = correct::correct(code, line, carry, wipe, [&mut y, &mut c]);
    Ok(made(result, [&y, &c]))
}

pub fn build_row(arguments: &mut Arguments) -> Answer {
    let (code, line, carry) = (arguments.number()?, arguments.number()?, arguments.carry()?);
    let active = [arguments.runs()?, arguments.runs()?];
    let blanking = [arguments.runs()?, arguments.runs()?];
    let [mut y, mut c] = [arguments.runs()?, arguments.runs()?];
    let [active, blanking] = [&active, &blanking].map(|words| words.each_ref().map(Vec::as_slice));
    let result = build::build(code, line, carry, active, blanking, [&mut y, &mut c]);
    Ok(made(result, [&y, &c]))
}

/// "refusal, CARRY, RUNS Y, RUNS C"
fn made(result: Result<Carry, Refusal>, [y, c]: [&[u16]; 2]) -> Vec<u32> {
    [refusable(result.map(|[y, c]| [1, y, c])), runs(y), runs(c)].concat()
}
