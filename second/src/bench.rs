//! Program `bench`: "reads standard input and prints a line per job; on a refusal `bad file` and its number, and stops".

#[cfg(test)]
mod capture_tests;
#[cfg(test)]
mod coverage;
pub mod module;
mod open_rows;
mod places;
pub mod sections;
#[cfg(test)]
mod tests;
#[cfg(test)]
mod two_sessions;

use crate::line;
use crate::refusal::Refusal;
use crate::session::Report;
use sections::Sections;
use std::io::{self, BufReader, Read, Write};

/// Reads a bench file from the input and writes its lines; only writing can fail.
pub fn bench(input: impl Read, mut output: impl Write) -> io::Result<()> {
    let mut sections = Sections::of(BufReader::new(input));
    loop {
        match job(&mut sections) {
            Ok(Some(line)) => output.write_all(&line)?,
            // "Empty input prints nothing."
            Ok(None) => return Ok(()),
            Err(refusal) => return output.write_all(&line::of_refusal(refusal.number())),
        }
    }
}

/// "Each: tag, options (raster, wipe), words". The line of the next job, or none where there is no job any more.
fn job(sections: &mut Sections<impl Read>) -> Result<Option<Vec<u8>>, Refusal> {
    let Some(tag) = sections.tag()? else {
        return Ok(None);
    };
    let raster = sections.raster()?;
    let words = sections.words()?;
    let Report {
        raster,
        rows,
        faults,
        verdict,
    } = module::report(raster, &words);
    let line = line::of_job(&tag, [raster, rows, faults], Some(verdict));
    Ok(Some(line))
}

/// What is printed for an input.
pub fn printed(input: impl Read) -> String {
    let mut output = Vec::new();
    bench(input, &mut output).expect("a list takes all that is written");
    String::from_utf8(output).expect("lines are ASCII")
}
