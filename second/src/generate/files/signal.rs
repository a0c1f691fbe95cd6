//! The bits of a module's rows as they are sent.

use super::aim;
use crate::generate::rows::Row;
use crate::generate::signals::{self, PAIR_BITS};
use crate::layout::{Layout, EAV};
use crate::random::Random;
use crate::words::WORD_BITS;

/// The bits of rows, and of what came before them.
pub struct Signal {
    pub bits: Vec<bool>,
    /// Where the rows start.
    starts: Vec<usize>,
    /// The bits of a whole row.
    pub row_bits: usize,
    /// How many bits after its start a row's EAV and its SAV end.
    pub code_ends: [usize; 2],
}

impl Signal {
    pub fn of(before: Vec<bool>, rows: &[Row], layout: &Layout) -> Self {
        let mut bits = before;
        let mut starts = Vec::new();
        for row in rows {
            starts.push(bits.len());
            bits.extend(signals::row_bits(&row.words, 0..row.words[0].len()));
        }
        Self {
            bits,
            starts,
            row_bits: layout.total() * PAIR_BITS,
            code_ends: [EAV.end, layout.sav().end].map(|pairs| pairs * PAIR_BITS),
        }
    }

    /// Where some row starts, as it was sent.
    pub fn start(&self, random: &mut Random) -> usize {
        self.starts[aim(random, self.starts.len())]
    }

    /// Where the T pairs of some row end, of those that another row follows.
    pub fn end(&self, random: &mut Random) -> usize {
        let followed = (self.starts.len() - 1).max(1);
        self.starts[aim(random, followed)] + self.row_bits
    }

    /// The place of a bit in or about some row.
    pub fn place(&self, random: &mut Random) -> usize {
        let place = self.start(random) + random.place(self.row_bits);
        place.min(self.bits.len().saturating_sub(1))
    }

    /// Nothing is sent from this bit on; what came first is some bits longer, so that a word ends there.
    pub fn stop(&mut self, end: usize) {
        self.bits.truncate(end);
        let more = self.bits.len().next_multiple_of(WORD_BITS) - self.bits.len();
        self.bits.splice(0..0, vec![false; more]);
        self.starts.iter_mut().for_each(|start| *start += more);
    }
}

/// Loses so many bits from a place on, or as many as there are.
pub fn lose(bits: &mut Vec<bool>, place: usize, count: usize) {
    let end = bits.len().min(place + count);
    bits.drain(place..end);
}

/// So many bits from a place on, or as many as there are, come twice.
pub fn double(bits: &mut Vec<bool>, place: usize, count: usize) {
    let end = bits.len().min(place + count);
    let doubled = bits[place..end].to_vec();
    bits.splice(place..place, doubled);
}
