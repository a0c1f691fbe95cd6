//! The functions of packets.

use super::{refusable, Answer};
use crate::arguments::Arguments;
use crate::packet;
use crate::refusal::Refusal;
use crate::runs::runs;
use crate::search;

pub fn build(arguments: &mut Arguments) -> Answer {
    let (did, sdid, user) = (arguments.byte()?, arguments.byte()?, arguments.runs()?);
    let mut output = arguments.runs()?;
    let result = packet::build(did, sdid, &user, &mut output);
    Ok(written(result, &output))
}

pub fn find(arguments: &mut Arguments) -> Answer {
    let (code, line) = (arguments.number()?, arguments.number()?);
    let wanted = (arguments.byte()?, arguments.byte()?);
    let (y, c) = (arguments.runs()?, arguments.runs()?);
    let result = search::find(code, line, wanted, [&y, &c]);
    let part = runs(result.unwrap_or_default());
    Ok([refusable(result.map(|_| [])), part].concat())
}

pub fn extract(arguments: &mut Arguments) -> Answer {
    let (code, line) = (arguments.number()?, arguments.number()?);
    let channel = arguments.flag()?.into();
    let (y, c) = (arguments.runs()?, arguments.runs()?);
    let mut output = arguments.runs()?;
    let result = search::extract(code, line, channel, [&y, &c], &mut output);
    Ok(written(result, &output))
}

/// "refusal, words written, RUNS output"
fn written(result: Result<usize, Refusal>, output: &[u16]) -> Vec<u32> {
    [refusable(result.map(|count| [count as u32])), runs(output)].concat()
}
