//! A second reading of the HD-SDI bench rules, to compare the library with.

#![forbid(unsafe_code)]

mod arguments;
mod bench;
mod build;
mod cable;
mod check;
mod compare;
mod correct;
mod crc;
mod desk;
mod functions;
#[cfg(test)]
mod gate;
mod generate;
mod job;
mod layout;
mod line;
#[cfg(test)]
mod made;
mod packet;
mod random;
mod raster;
mod refusal;
mod requests;
mod runs;
mod search;
mod session;
mod timing;
mod vectors;
mod words;

use generate::{captures, cuts, files, fixed, frames, loads};
use refusal::Refusal;
use requests::format_line;
use std::env;
use std::fmt::{self, Display, Formatter};
use std::io::{self, stdin, stdout, BufRead, BufWriter, ErrorKind::BrokenPipe, Write};
use std::process::ExitCode;

const USAGE: &str =
    "usage: second answer | requests SEED COUNT | vectors | bench | file SEED | kinds COUNT \
     | frames RASTER COUNT SEED | flipped RASTER COUNT SEED | slipped RASTER COUNT SEED | noise COUNT SEED | dead COUNT | jobs COUNT SEED \
     | cuts | cut PLACE | fixed | fixed NUMBER | captures | capture NAME \
     | compare requests SEED COUNT COMMAND.. | compare vectors COMMAND.. | compare files FIRST LAST COMMAND.. \
     | compare captures COMMAND.. | compare frames COMMAND.. | compare cuts COMMAND.. \
     | compare fixed COMMAND..";

/// Why the program ends early.
enum Failure {
    Output(io::Error),
    Message(String),
}

impl From<io::Error> for Failure {
    fn from(error: io::Error) -> Self {
        Self::Output(error)
    }
}

impl Display for Failure {
    fn fmt(&self, formatter: &mut Formatter) -> fmt::Result {
        match self {
            Self::Output(error) => error.fmt(formatter),
            Self::Message(message) => message.fmt(formatter),
        }
    }
}

fn main() -> ExitCode {
    let arguments: Vec<String> = env::args().skip(1).collect();
    let arguments: Vec<&str> = arguments.iter().map(String::as_str).collect();
    match run(&arguments) {
        Ok(()) => ExitCode::SUCCESS,
        // Nobody reads on.
        Err(Failure::Output(error)) if error.kind() == BrokenPipe => ExitCode::SUCCESS,
        Err(failure) => {
            eprintln!("second: {failure}");
            ExitCode::FAILURE
        }
    }
}

fn run(arguments: &[&str]) -> Result<(), Failure> {
    let mut output = BufWriter::new(stdout().lock());
    match arguments {
        ["answer"] => print_answers(&mut output)?,
        ["requests", seed, count] => {
            print_requests(
                &mut output,
                generate::requests(decimal(seed)?, decimal(count)?),
            )?;
        }
        ["vectors"] => print_requests(&mut output, vectors::requests())?,
        ["bench"] => bench::bench(stdin().lock(), &mut output)?,
        ["kinds", count] => print_kinds(&mut output, decimal(count)?)?,
        ["compare", words @ ..] => compare::compare(words, &mut output)?,
        ["cuts"] => writeln!(output, "{}", cuts::file().len())?,
        ["fixed"] => writeln!(output, "{}", fixed::count())?,
        ["captures"] => writeln!(output, "{}", captures::names().join("\n"))?,
        _ => output.write_all(&made_file(arguments)?)?,
    }
    Ok(output.flush()?)
}

fn decimal(text: &str) -> Result<u64, Failure> {
    let message = |_| Failure::Message(format!("'{text}' is not a decimal number; {USAGE}"));
    text.parse().map_err(message)
}

fn print_answers(output: &mut impl Write) -> Result<(), Failure> {
    for (place, line) in stdin().lock().lines().enumerate() {
        let line = line.map_err(|error| Failure::Message(error.to_string()))?;
        let answer = requests::answer(&line)
            .map_err(|error| Failure::Message(format!("request {}: {error}", place + 1)))?;
        writeln!(output, "{answer}")?;
    }
    Ok(())
}

fn print_requests(
    output: &mut impl Write,
    mut requests: impl Iterator<Item = Vec<u32>>,
) -> io::Result<()> {
    requests.try_for_each(|request| writeln!(output, "{}", format_line(&request)))
}

/// In how many of the files of seeds 1 to the count each kind comes.
fn print_kinds(output: &mut impl Write, count: u64) -> io::Result<()> {
    let files: Vec<_> = (1..=count).map(|seed| files::file(seed).kinds).collect();
    for kind in files::kinds() {
        let with = files.iter().filter(|kinds| kinds.contains(&kind)).count();
        writeln!(output, "{with:5} {kind}")?;
    }
    Ok(())
}

/// The bench file that is asked for.
fn made_file(arguments: &[&str]) -> Result<Vec<u8>, Failure> {
    let place = |number| Ok::<_, Failure>(decimal(number)?.try_into().unwrap_or(usize::MAX));
    let file = match arguments {
        ["file", seed] => Some(files::file(decimal(seed)?).bytes),
        ["frames", words @ ..] => frames(frames::frames, words)?,
        ["flipped", words @ ..] => frames(frames::flipped, words)?,
        ["slipped", words @ ..] => frames(frames::slipped, words)?,
        ["noise", count, seed] => Some(loads::noise(decimal(count)?, decimal(seed)?)),
        ["dead", count] => Some(loads::dead(decimal(count)?)),
        ["jobs", count, seed] => Some(loads::jobs(decimal(count)?, decimal(seed)?)),
        ["cut", bytes] => cuts::file().get(..place(bytes)?).map(<[u8]>::to_vec),
        ["fixed", number] => fixed::file(place(number)?),
        ["capture", name] => captures::capture(name),
        _ => return Err(usage()),
    };
    let asked = arguments.join(" ");
    file.ok_or_else(|| Failure::Message(format!("there is no file '{asked}'; {USAGE}")))
}

fn usage() -> Failure {
    Failure::Message(USAGE.to_string())
}

/// A maker of frames, of a raster's code, how many, and a seed.
type Maker = fn(u32, u64, u64) -> Result<Vec<u8>, Refusal>;

/// None where there is no such raster.
fn frames(maker: Maker, words: &[&str]) -> Result<Option<Vec<u8>>, Failure> {
    let [raster, count, seed] = words else {
        return Err(usage());
    };
    let code = decimal(raster)?.try_into().unwrap_or(u32::MAX);
    Ok(maker(code, decimal(count)?, decimal(seed)?).ok())
}
