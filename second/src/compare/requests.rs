//! Requests, put to the command all in one run; the first that differs is shrunk.

use super::budget::Budget;
use super::command::Command;
use super::judge::{Difference, Judge};
use super::parts::Parts;
use super::shrinking::Shrinking;
use crate::requests::{answer, format_line};
use crate::Failure;

/// How many are answered alike, which are all of them.
pub fn compare(
    made_by: &str,
    requests: impl Iterator<Item = Vec<u32>>,
    command: &Command,
) -> Result<usize, Failure> {
    let lines: Vec<String> = requests.map(|request| format_line(&request)).collect();
    let Some(difference) = Judge::new(command, Budget::endless()).first_difference(&lines)? else {
        return Ok(lines.len());
    };
    let Difference { place, theirs } = difference;
    let (line, theirs, note) = shrunk(lines[place].clone(), theirs, command)?;
    let own = answer(&line).map_err(Failure::Message)?;
    Err(Failure::Message(format!(
        "they differ on request {} of `second {made_by}`\n{note}\nrequest {line}\ncommand {theirs}\nsecond  {own}",
        place + 1
    )))
}

/// The smallest request found, what the command answers to it, and what is to be said of it.
type Shrunk = (String, String, String);

fn shrunk(first: String, theirs: String, command: &Command) -> Result<Shrunk, Failure> {
    let mut judge = Judge::new(command, Budget::to_shrink());
    let alone = judge.first_difference(std::slice::from_ref(&first))?;
    if alone.is_none() {
        let note = "not shrunk: put alone it is answered alike, so what was put before it matters";
        return Ok((first, theirs, note.to_string()));
    }
    let parts = Parts::of_line(&first).expect("it was made of its parts");
    let mut smallest = (first, theirs);
    let find = |puts: &[Vec<u8>]| {
        let lines = puts.iter().map(|put| String::from_utf8_lossy(put));
        let lines: Vec<String> = lines.map(|line| line.into_owned()).collect();
        let difference = judge.first_difference(&lines)?;
        Ok(difference.map(|Difference { place, theirs }| {
            smallest = (lines[place].clone(), theirs);
            place
        }))
    };
    let ended = Shrinking::of(parts, find).shrink();
    let (line, theirs) = smallest;
    Ok((line, theirs, judge.budget.note(ended)))
}
