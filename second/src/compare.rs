//! Compares what a command answers or prints with this program's own, and finds the smallest input that they differ on.

mod budget;
mod changes;
mod command;
mod files;
mod judge;
mod parts;
mod requests;
mod shrinking;

use crate::generate::{self, captures, cuts, fixed};
use crate::{decimal, usage, vectors, Failure};
use command::Command;
use std::io::Write;

/// What `second` makes files by.
type Names = Box<dyn Iterator<Item = String>>;

/// Writes how many were alike. What they differ on is a failure, whose message has it.
pub fn compare(words: &[&str], output: &mut impl Write) -> Result<(), Failure> {
    let alike = match words {
        ["requests", seed, count, command @ ..] => {
            let requests = generate::requests(decimal(seed)?, decimal(count)?);
            let made_by = format!("requests {seed} {count}");
            requests::compare(&made_by, requests, &command_of(command)?)?
        }
        ["vectors", command @ ..] => {
            requests::compare("vectors", vectors::requests(), &command_of(command)?)?
        }
        _ => {
            let (names, command) = files_of(words)?;
            files::compare(names, &command_of(command)?)?
        }
    };
    if alike == 0 {
        return Err(Failure::Message("there is nothing to compare".to_string()));
    }
    Ok(writeln!(output, "{alike}")?)
}

fn command_of<'a>(words: &'a [&'a str]) -> Result<Command<'a>, Failure> {
    let [program, arguments @ ..] = words else {
        return Err(usage());
    };
    Ok(Command { program, arguments })
}

/// What makes each of the files that the words ask for, and the words of the command.
fn files_of<'a>(words: &'a [&'a str]) -> Result<(Names, &'a [&'a str]), Failure> {
    Ok(match words {
        ["files", first, last, command @ ..] => {
            let seeds = decimal(first)?..=decimal(last)?;
            (Box::new(seeds.map(|seed| format!("file {seed}"))), command)
        }
        ["captures", command @ ..] => {
            let names = captures::names().into_iter();
            (
                Box::new(names.map(|name| format!("capture {name}"))),
                command,
            )
        }
        ["frames", command @ ..] => {
            let names = (0..=11).map(|code| format!("frames {code} 1 1"));
            (Box::new(names), command)
        }
        ["cuts", command @ ..] => {
            let names = (0..=cuts::file().len()).map(|place| format!("cut {place}"));
            (Box::new(names), command)
        }
        ["fixed", command @ ..] => {
            let names = (0..fixed::count()).map(|number| format!("fixed {number}"));
            (Box::new(names), command)
        }
        _ => return Err(usage()),
    })
}
