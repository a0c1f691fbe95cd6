//! Bench files, each put to a run of the command; the first on which it prints something else is shrunk.

use super::budget::Budget;
use super::command::Command;
use super::parts::Parts;
use super::shrinking::Shrinking;
use crate::bench::printed;
use crate::{made_file, Failure};
use std::env::temp_dir;
use std::fs;
use std::io::{Read, Write};
use std::process;
use std::thread::{self, ScopedJoinHandle};

/// Of a longer file the report has only the size; the bytes go to a file.
const MOST_SHOWN: usize = 4096;

/// So many bytes more than this program prints are read of what the command prints.
const MORE: usize = 256;

/// So many files are put to the command at once.
const AT_ONCE: usize = 2;

/// How many files give the same, which are all of them. A file has the name that `second` makes it by.
pub fn compare(
    mut names: impl Iterator<Item = String>,
    command: &Command,
) -> Result<usize, Failure> {
    let mut alike = 0;
    loop {
        let some: Vec<String> = names.by_ref().take(AT_ONCE).collect();
        if some.is_empty() {
            return Ok(alike);
        }
        let made = some
            .iter()
            .map(|name| made_file(&name.split(' ').collect::<Vec<_>>()));
        let files = made.collect::<Result<Vec<_>, _>>()?;
        let outputs = outputs_of_each(&files, command);
        for ((name, bytes), outputs) in some.into_iter().zip(files).zip(outputs) {
            let outputs = outputs?;
            if outputs.differ() {
                return Err(Failure::Message(report(&name, bytes, outputs, command)));
            }
            alike += 1;
        }
    }
}

/// What is printed for some files, all at once.
fn outputs_of_each<'a>(
    files: &'a [Vec<u8>],
    command: &'a Command,
) -> Vec<Result<Outputs, Failure>> {
    thread::scope(|scope| {
        let start = |bytes: &'a Vec<u8>| scope.spawn(move || Outputs::of(bytes, command));
        let runs: Vec<_> = files.iter().map(start).collect();
        let ended = |run: ScopedJoinHandle<'_, _>| run.join().expect("a run does not panic");
        runs.into_iter().map(ended).collect()
    })
}

/// What is printed for a file.
struct Outputs {
    theirs: Vec<u8>,
    own: Vec<u8>,
}

impl Outputs {
    fn of(bytes: &[u8], command: &Command) -> Result<Self, Failure> {
        let (mut outputs, status) = command.run(
            |stdin| stdin.write_all(bytes),
            |stdout| {
                // Worked out while the command works.
                let own = printed(bytes).into_bytes();
                let mut theirs = Vec::new();
                let most = own.len() + MORE;
                let read = stdout.take(most as u64).read_to_end(&mut theirs);
                read.map_err(|error| Failure::Message(error.to_string()))?;
                Ok(Self { theirs, own })
            },
        )?;
        // "status 0 whatever the file says"
        if !status.success() {
            outputs.theirs.extend(format!("({status})").bytes());
        }
        Ok(outputs)
    }

    fn differ(&self) -> bool {
        self.theirs != self.own
    }
}

fn report(name: &str, bytes: Vec<u8>, outputs: Outputs, command: &Command) -> String {
    let size = bytes.len();
    let mut smallest = (bytes, outputs);
    let note = shrink(&mut smallest, command);
    let (bytes, Outputs { theirs, own }) = smallest;
    format!(
        "they differ on `second {name}` of {size} bytes\n{note}\nfile of {} bytes: {}\ncommand prints{}\nsecond prints{}",
        bytes.len(),
        shown_file(&bytes),
        shown_lines(&theirs),
        shown_lines(&own),
    )
}

/// Answers what is to be said of it.
fn shrink(smallest: &mut (Vec<u8>, Outputs), command: &Command) -> String {
    let mut budget = Budget::to_shrink();
    let first = smallest.0.clone();
    let mut differs = |bytes: &[u8]| {
        budget.spend(bytes.len())?;
        let outputs = Outputs::of(bytes, command)?;
        let differ = outputs.differ();
        if differ {
            *smallest = (bytes.to_vec(), outputs);
        }
        Ok(differ)
    };
    let ended = shrink_file(&first, &mut differs);
    budget.note(ended)
}

/// By its jobs; of a file that is refused the jobs need not stay whole, so it is shrunk as bytes too.
fn shrink_file<Error>(
    file: &[u8],
    differs: &mut impl FnMut(&[u8]) -> Result<bool, Error>,
) -> Result<(), Error> {
    let mut smallest = file.to_vec();
    loop {
        let before = smallest.clone();
        for parts_of in [Parts::of_file, Parts::of_bytes] {
            let parts = parts_of(&smallest);
            if parts.jobs() == 0 && !is_bad(&smallest) {
                continue;
            }
            let find = |puts: &[Vec<u8>]| {
                for (place, put) in puts.iter().enumerate() {
                    if differs(put)? {
                        smallest = put.clone();
                        return Ok(Some(place));
                    }
                }
                Ok(None)
            };
            Shrinking::of(parts, find).shrink()?;
        }
        if smallest == before {
            return Ok(());
        }
    }
}

fn is_bad(bytes: &[u8]) -> bool {
    printed(bytes)
        .lines()
        .any(|line| line.starts_with("bad file "))
}

/// In hexadecimal, or where it is written to.
fn shown_file(bytes: &[u8]) -> String {
    if bytes.len() <= MOST_SHOWN {
        return bytes.iter().map(|byte| format!("{byte:02x}")).collect();
    }
    // Other comparisons may be running.
    let path = temp_dir().join(format!("difference-{}.bench", process::id()));
    match fs::write(&path, bytes) {
        Ok(()) => format!("written to {}", path.display()),
        Err(error) => format!("cannot be written to {}: {error}", path.display()),
    }
}

/// Each line with its end, so that a missing one is seen.
fn shown_lines(output: &[u8]) -> String {
    let lines = output.split_inclusive(|&byte| byte == b'\n');
    lines
        .map(|line| format!("\n  {}", line.escape_ascii()))
        .collect()
}
