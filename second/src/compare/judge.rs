//! The command's answers to requests, each compared with this program's own.

use super::budget::Budget;
use super::command::Command;
use crate::requests::answer;
use crate::Failure;
use std::io::{BufRead, BufReader, Read, Write};

/// No more is read of a line; no right answer is nearly as long.
const LONGEST: u64 = 1 << 20;

/// A request that the command does not answer as this program does.
pub struct Difference {
    pub place: usize,
    /// What it answers instead.
    pub theirs: String,
}

/// How many answers came (all that are too many count as one), and the first that is another.
type Reading = (usize, Option<Difference>);

pub struct Judge<'a> {
    pub budget: Budget,
    command: &'a Command<'a>,
}

impl<'a> Judge<'a> {
    pub fn new(command: &'a Command<'a>, budget: Budget) -> Self {
        Self { budget, command }
    }

    /// Puts the requests to one run of the command.
    pub fn first_difference(&mut self, lines: &[String]) -> Result<Option<Difference>, Failure> {
        self.budget
            .spend(lines.iter().map(|line| line.len() + 1).sum())?;
        let ((answers, difference), status) = self.command.run(
            |stdin| lines.iter().try_for_each(|line| writeln!(stdin, "{line}")),
            |stdout| read(lines, BufReader::new(stdout)),
        )?;
        if answers == lines.len() && status.success() {
            return Ok(difference);
        }
        let wrong = difference.map(|difference| difference.theirs + " ");
        let wrong = wrong.unwrap_or_default();
        let requests = lines.len();
        let uneven = format!("{wrong}({answers} answers to {requests} requests, {status})");
        self.narrow(lines, uneven)
    }

    /// Where there is not one answer for each request it cannot be told which is whose, so each half is put alone.
    fn narrow(&mut self, lines: &[String], uneven: String) -> Result<Option<Difference>, Failure> {
        let (front, back) = lines.split_at(lines.len() / 2);
        if front.is_empty() {
            let (place, theirs) = (0, uneven);
            return Ok(Some(Difference { place, theirs }));
        }
        if let Some(difference) = self.first_difference(front)? {
            return Ok(Some(difference));
        }
        let Some(Difference { place, theirs }) = self.first_difference(back)? else {
            let alone = "each half of them is answered rightly";
            return Err(Failure::Message(format!("{uneven}, but {alone}")));
        };
        let place = front.len() + place;
        Ok(Some(Difference { place, theirs }))
    }
}

fn read(lines: &[String], mut answers: impl BufRead) -> Result<Reading, Failure> {
    let mut difference = None;
    for (place, line) in lines.iter().enumerate() {
        let Some(theirs) = next_line(&mut answers)? else {
            return Ok((place, difference));
        };
        if difference.is_none() && theirs != answer(line).map_err(Failure::Message)? {
            difference = Some(Difference { place, theirs });
        }
    }
    let answers = lines.len() + usize::from(next_line(&mut answers)?.is_some());
    Ok((answers, difference))
}

/// A line, or none at the end.
fn next_line(input: &mut impl BufRead) -> Result<Option<String>, Failure> {
    let mut bytes = Vec::new();
    let read = input.take(LONGEST).read_until(b'\n', &mut bytes);
    read.map_err(|error| Failure::Message(error.to_string()))?;
    let text = String::from_utf8_lossy(&bytes);
    Ok(match text.strip_suffix('\n') {
        Some(line) => Some(line.to_string()),
        None if text.is_empty() => None,
        None => Some(format!("{text} (and no end of the line)")),
    })
}
