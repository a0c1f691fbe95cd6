//! A desk: it is lent the bytes of a bench file, cut anywhere, and tells what comes of them.

#[cfg(test)]
mod as_bench;
mod outcome;
pub mod reader;

pub use outcome::{Done, Outcome};

use crate::raster::TABLE;
use crate::refusal::{refuse, Refusal};
use crate::session::{Buffers, Numbers, Session};
use reader::{Ended, Piece, Reader};

#[derive(Default)]
pub struct Desk {
    pub reader: Reader,
    /// The session, if it is running and in range.
    running: Option<Session>,
    /// Its numbers, if it is not.
    idle: Numbers,
}

impl Desk {
    pub fn with_session(self, numbers: Numbers) -> Self {
        let session = numbers.session().ok();
        Self {
            running: session.filter(|_| numbers.open),
            idle: numbers,
            ..self
        }
    }

    pub fn numbers(&self) -> Numbers {
        self.running.as_ref().map_or(self.idle, Session::numbers)
    }

    /// Takes bytes up to the one that ends a job or is refused; answers how many it took, and what comes of them.
    pub fn take(
        &mut self,
        bytes: &[u8],
        buffers: &mut Buffers,
    ) -> Result<(usize, Outcome), Refusal> {
        let short = |buffer: &&mut [u16]| buffer.len() < longest_row();
        let is_closed = self.reader.is_in_words() && self.running.is_none();
        refuse(&[
            (Refusal::Session, is_closed),
            (Refusal::Short, buffers.iter().any(short)),
        ])?;
        for (place, &byte) in bytes.iter().enumerate() {
            let outcome = self.take_byte(byte, buffers);
            if outcome != Outcome::Nothing {
                return Ok((place + 1, outcome));
            }
        }
        Ok((bytes.len(), Outcome::Nothing))
    }

    fn take_byte(&mut self, byte: u8, buffers: &mut Buffers) -> Outcome {
        let (piece, ended) = self.reader.take(byte);
        match piece {
            Piece::Nothing => {}
            Piece::Options(raster) => self.begin(raster),
            Piece::Word(word) => self.feed(word, buffers),
            Piece::Refused(refusal) => {
                self.close();
                return Outcome::Refused(refusal.number());
            }
        }
        ended.map_or(Outcome::Nothing, |ended| self.end(ended))
    }

    /// "Its session is begun anew when the options are read".
    fn begin(&mut self, raster: u8) {
        let mut session = Session::default();
        let begun = session.begin(raster.into());
        begun.expect("it is fresh, and the raster was read");
        self.running = Some(session);
    }

    /// "fed a word at a time"; a session is running while words are read.
    fn feed(&mut self, word: u16, buffers: &mut Buffers) {
        if let Some(session) = &mut self.running {
            let fed = session.feed(&[word], buffers);
            fed.expect("it is open, and word and buffers were judged");
        }
    }

    /// "closed (as `fresh` answers it)"
    fn close(&mut self) -> Option<Session> {
        self.idle = Numbers::default();
        self.running.take()
    }

    fn end(&mut self, Ended { tag, wipe }: Ended) -> Outcome {
        let report = self.close().and_then(|mut session| session.end().ok());
        report.map_or(Outcome::Nothing, |report| {
            Outcome::Done(Done {
                tag,
                raster: report.raster,
                wipe,
                rows: report.rows,
                faults: report.faults,
                verdict: Some(report.verdict),
            })
        })
    }

    /// "the file is refused with 9 where it is cut short, else nothing"
    pub fn finish(&self) -> Outcome {
        if self.reader.is_cut_short() {
            Outcome::Refused(Refusal::File.number())
        } else {
            Outcome::Nothing
        }
    }
}

/// "1 where a buffer has fewer than 4,125 words, whatever the raster": T of the longest row.
pub fn longest_row() -> usize {
    let totals = TABLE.map(|raster| raster.total as usize);
    totals.into_iter().max().unwrap_or(0)
}
