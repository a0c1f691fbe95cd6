//! Where words sections, what a desk is lent of them, and words above 3FF end: about the lengths that may be taken at once.

use super::walk::{Places, Walk};
use super::Tally;
use crate::desk::reader::{Piece, Reader, Stage};
use crate::desk::Desk;
use crate::generate::long_sections::{LENGTHS, READ};
use crate::generate::sessions::begun;

/// What is seen on the way.
#[derive(Default)]
pub struct Seen {
    pub places: Places,
    /// How often each end comes.
    pub ends: Tally,
}

/// A desk's reading of bytes; its session is walked through in one feed for all words that a take is lent.
pub struct Reading {
    reader: Reader,
    walk: Option<Walk>,
    /// How many words of the section were read.
    read: usize,
    waiting: Vec<u16>,
}

impl Reading {
    pub fn of(desk: &Desk) -> Self {
        let numbers = desk.numbers();
        let is_running = numbers.open && numbers.in_range();
        Self {
            reader: desk.reader.clone(),
            walk: is_running.then(|| Walk::of(&numbers)),
            read: 0,
            waiting: Vec::new(),
        }
    }

    /// Takes bytes up to the one that ends a job or is refused, and answers how many.
    pub fn take(&mut self, bytes: &[u8], seen: &mut Seen) -> usize {
        let ends = |&byte: &u8| self.take_byte(byte, seen);
        let last = bytes.iter().position(ends);
        let taken = last.map_or(bytes.len(), |last| last + 1);
        if self.reader.is_in_words() {
            self.note("lent", seen);
        }
        self.feed(seen);
        taken
    }

    fn feed(&mut self, seen: &mut Seen) {
        let words = std::mem::take(&mut self.waiting);
        if let Some(walk) = &mut self.walk {
            walk.feed(&words, &mut seen.places);
        }
    }

    /// Whether the byte ends a job or is refused.
    fn take_byte(&mut self, byte: u8, seen: &mut Seen) -> bool {
        let stage = self.reader.stage;
        let (piece, ended) = self.reader.take(byte);
        match piece {
            Piece::Nothing => {}
            Piece::Options(raster) => {
                self.walk = Some(Walk::of(&begun(raster.into())));
                self.read = 0;
            }
            Piece::Word(word) => {
                self.read += 1;
                self.waiting.push(word);
            }
            Piece::Refused(_) if stage == Stage::High => self.note("bad", seen),
            Piece::Refused(_) => {}
        }
        if ended.is_some() {
            self.note("section", seen);
            self.feed(seen);
        }
        ended.is_some() || matches!(piece, Piece::Refused(_))
    }

    /// Something ends after so many words, if that is about one of the lengths, or they are few; a cut also after half a word.
    fn note(&self, what: &str, seen: &mut Seen) {
        let half = match self.reader.stage {
            Stage::High if what == "cut" => " and a half",
            _ => "",
        };
        let about = |length: &&usize| self.read.abs_diff(**length) <= 2;
        if self.read <= 3 || LENGTHS.iter().any(|length| about(&length)) {
            seen.ends.note(format!("{what} {}{half}", self.read));
        }
    }

    /// The bytes end here.
    pub fn note_cut(&self, seen: &mut Seen) {
        if self.reader.is_in_words() {
            self.note("cut", seen);
        }
    }
}

/// A file that is read so many bytes at a time, up to a refusal.
pub fn read_file(file: &[u8], seen: &mut Seen) {
    let mut reading = Reading::of(&Desk::default());
    for read in file.chunks(READ) {
        let mut left = read;
        while !left.is_empty() && reading.reader.stage != Stage::Stopped {
            left = &left[reading.take(left, seen)..];
        }
        if read.len() == READ && reading.reader.is_in_words() {
            let half = reading.reader.stage == Stage::High;
            let left = reading.reader.left.min(3);
            seen.ends
                .note(format!("read to {left} left, amid a word {half}"));
        }
    }
    reading.note_cut(seen);
}
