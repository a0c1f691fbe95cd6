//! A camera that sends good rows, one after another, and a recording of what comes over its cable.

use super::rows::Head;
use super::signals::{row_bits, whole_words};
use crate::build::build;
use crate::cable::scramble;
use crate::crc::Carry;
use crate::layout::Row;
use crate::raster::{raster_of, Raster};
use crate::words::WORD_BITS;

pub struct Camera {
    raster: Raster,
    /// The line of the next row.
    pub line: u32,
    /// What the row before has left.
    pub carry: Option<Carry>,
}

impl Camera {
    /// A camera of which nothing came before this line.
    pub fn new(code: u32, line: u32) -> Self {
        Self {
            raster: raster_of(code).expect("the code is of the table"),
            line,
            carry: None,
        }
    }

    /// The bits of the next row.
    pub fn next_row(&mut self, active: Row, packets: Row) -> Vec<bool> {
        let words = self.next_words(active, packets);
        row_bits(&words, 0..words[0].len())
    }

    /// The words of the next row, built of A active words and of packets a channel.
    pub fn next_words(&mut self, active: Row, packets: Row) -> [Vec<u16>; 2] {
        let total = self.raster.total as usize;
        let mut words = [vec![0; total], vec![0; total]];
        let buffers = words.each_mut().map(Vec::as_mut_slice);
        let code = self.raster.code;
        let built = build(code, self.line, self.carry, active, packets, buffers);
        self.carry = Some(built.expect("the row can be built"));
        self.line = self.line % self.raster.rows + 1;
        words
    }

    /// What the next row is built for.
    pub fn head(&self) -> Head {
        Head {
            code: self.raster.code,
            line: self.line,
            carry: self.carry,
        }
    }
}

/// What bits are on the cable, scrambled from history 0; those of a last word that is not whole are not recorded.
#[derive(Default)]
pub struct Recording {
    history: u16,
    waiting: Vec<bool>,
    words: Vec<u16>,
}

impl Recording {
    pub fn send(&mut self, bits: &[bool]) {
        self.waiting.extend(bits);
        let words = whole_words(&self.waiting);
        self.waiting.drain(..words.len() * WORD_BITS);
        let start = self.words.len();
        self.words.resize(start + words.len(), 0);
        let next = scramble(self.history, &words, &mut self.words[start..]);
        self.history = next.expect("history and words are at most 3FF");
    }

    pub fn words(self) -> Vec<u16> {
        self.words
    }
}
