//! A module session: "Begin (raster), feed (words), end (verdict)."

mod module;
mod numbers;

pub use numbers::{last_of_bits, Numbers};

use crate::raster::raster_of;
use crate::refusal::{refuse, Refusal};
use crate::words::all_words;
use module::Module;
use std::fmt::{self, Display, Formatter};

/// "The row buffers are lent to each feed": Y and C.
pub type Buffers<'a> = [&'a mut [u16]; 2];

/// A module while one is open; nothing is kept of one that has ended: "one closed session, the same after every module".
#[derive(Default)]
pub struct Session(Option<Module>);

#[derive(Clone, Copy, Debug, PartialEq, Eq)]
pub enum Verdict {
    NoSignal = 1,
    Fail = 2,
    Short = 3,
    Pass = 4,
}

impl Display for Verdict {
    fn fmt(&self, formatter: &mut Formatter) -> fmt::Result {
        formatter.write_str(match self {
            Self::NoSignal => "NO SIGNAL",
            Self::Fail => "FAIL",
            Self::Short => "SHORT",
            Self::Pass => "PASS",
        })
    }
}

/// "Verdict, first that holds: NO SIGNAL, no sync; FAIL, faults not 0; SHORT, rows below N; PASS."
pub fn verdict(seen: bool, needed: u32, rows: u32, faults: u32) -> Verdict {
    if !seen {
        Verdict::NoSignal
    } else if faults != 0 {
        Verdict::Fail
    } else if rows < needed {
        Verdict::Short
    } else {
        Verdict::Pass
    }
}

/// "End answers raster, both counts and verdict".
pub struct Report {
    pub raster: u32,
    pub rows: u32,
    pub faults: u32,
    pub verdict: Verdict,
}

impl Session {
    /// "begin when open" is 7; then "raster not 0..11".
    pub fn begin(&mut self, code: u32) -> Result<(), Refusal> {
        refuse(&[(Refusal::Session, self.0.is_some())])?;
        self.0 = Some(Module::new(raster_of(code)?));
        Ok(())
    }

    /// "feed or end when not" open is 7; then a word above 3FF, then a row buffer too short for T.
    pub fn feed(&mut self, words: &[u16], buffers: &mut Buffers) -> Result<(), Refusal> {
        let module = self.0.as_mut().ok_or(Refusal::Session)?;
        let short = |buffer: &&mut [u16]| buffer.len() < module.total();
        refuse(&[
            (Refusal::Word, !all_words(words)),
            (Refusal::Short, buffers.iter().any(short)),
        ])?;
        module.feed(words, buffers);
        Ok(())
    }

    pub fn end(&mut self) -> Result<Report, Refusal> {
        let module = self.0.take().ok_or(Refusal::Session)?;
        Ok(module.report())
    }
}
