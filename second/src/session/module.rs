//! A module that was begun, bit by bit: alignment, rows and their judging.

use super::{verdict, Buffers, Report};
use crate::cable::{cable_bits, is_sync, next_history, unscrambled, SYNC_BITS};
use crate::check::judge;
use crate::crc::Carry;
use crate::layout::{Layout, EAV, LINE, Y};
use crate::raster::Raster;
use crate::timing::{line_of, read_xyz, SYNC_WORDS};
use crate::words::{word_of, WORD_BITS};
use std::mem::take;

pub const PAIR_BITS: usize = 2 * WORD_BITS;
const EAV_BITS: usize = EAV.end * PAIR_BITS;

/// So many words are unscrambled at once, that a long stream needs no long list of bits.
const PART: usize = 1024;

pub struct Module {
    pub raster: Raster,
    pub history: u16,
    /// The last sixty unscrambled bits, oldest first.
    pub last: Vec<bool>,
    /// How many bits of a sync's XYZ pair are still to come.
    pub ahead: usize,
    pub seen: bool,
    /// How many bits of the open row have come, from its EAV's first on.
    pub row: Option<usize>,
    pub line: Option<u32>,
    pub carry: Option<Carry>,
    pub rows: u32,
    pub faults: u32,
}

impl Module {
    /// "Begin sets history, counts and carry to zero or none."
    pub fn new(raster: Raster) -> Self {
        Self {
            raster,
            history: 0,
            last: vec![false; SYNC_BITS],
            ahead: 0,
            seen: false,
            row: None,
            line: None,
            carry: None,
            rows: 0,
            faults: 0,
        }
    }

    /// T.
    pub fn total(&self) -> usize {
        self.raster.total as usize
    }

    pub fn feed(&mut self, words: &[u16], buffers: &mut Buffers) {
        for part in words.chunks(PART) {
            let cable = cable_bits(self.history, part);
            self.history = next_history(&cable);
            let mut bits = take(&mut self.last);
            bits.extend(unscrambled(&cable));
            for window in bits.windows(SYNC_BITS).skip(1) {
                self.take_bit(window, buffers);
            }
            self.last = bits.split_off(bits.len() - SYNC_BITS);
        }
    }

    /// Takes the last bit of the window, which has the bits before it too.
    fn take_bit(&mut self, window: &[bool], buffers: &mut Buffers) {
        self.take_row_bit(window, buffers);
        if self.ends_xyz() && is_eav(window) {
            self.take_eav(window, buffers);
        }
        if is_sync(window) {
            self.take_sync();
        }
        // "the four pairs after the T-th not an EAV": with an EAV the row would have been another by now.
        if self.row == Some(self.whole_row()) {
            self.drop_row();
        }
    }

    /// The bits of a row and of the EAV after it.
    fn whole_row(&self) -> usize {
        self.total() * PAIR_BITS + EAV_BITS
    }

    /// "They hold an open row's pairs at their places as each pair ends".
    fn take_row_bit(&mut self, window: &[bool], buffers: &mut Buffers) {
        let Some(bits) = &mut self.row else {
            return;
        };
        *bits += 1;
        if *bits % PAIR_BITS == 0 {
            let place = *bits / PAIR_BITS - 1;
            // The pairs after the T-th have no place in the row.
            if place < self.total() {
                lay_pair(buffers, place, last_pair(window));
            }
        }
    }

    /// "the next 20 bits are the XYZ pair": whether this bit was the last of them.
    fn ends_xyz(&mut self) -> bool {
        let awaited = self.ahead > 0;
        self.ahead = self.ahead.saturating_sub(1);
        awaited && self.ahead == 0
    }

    /// "A row opens at a sync whose Y XYZ is an exact EAV code, also where that EAV has just ended or dropped another row."
    fn take_eav(&mut self, window: &[bool], buffers: &mut Buffers) {
        match self.row {
            // "It is complete when the next EAV comes T pairs later, and is then judged."
            Some(bits) if bits == self.whole_row() => self.judge(buffers),
            // "an EAV at another distance"
            Some(_) => self.drop_row(),
            None => {}
        }
        self.row = Some(EAV_BITS);
        // "the first four when its EAV ends"
        for (place, word) in SYNC_WORDS.into_iter().enumerate() {
            lay_pair(buffers, place, [word; 2]);
        }
        lay_pair(buffers, SYNC_WORDS.len(), last_pair(window));
    }

    fn take_sync(&mut self) {
        self.seen = true;
        self.ahead = PAIR_BITS;
        // "a sync at another alignment": another place modulo twenty bits.
        if self.row.is_some_and(|bits| bits % PAIR_BITS != 0) {
            self.drop_row();
        }
    }

    /// "The last three [..] drop the row, carry and expected line."
    fn drop_row(&mut self) {
        self.count_fault();
        self.row = None;
        self.carry = None;
        self.line = None;
    }

    /// "Both counts stay at 4,294,967,295 once there."
    fn count_fault(&mut self) {
        self.faults = self.faults.saturating_add(1);
    }

    /// Judges a complete row; line and carry are those of the next afterwards.
    fn judge(&mut self, buffers: &Buffers) {
        let total = self.total();
        let row = buffers.each_ref().map(|buffer| &buffer[..total]);
        let Some(line) = self.line_of_row(row[Y]) else {
            // "else one fault; that row is not judged, leaves no carry, and the next is tried"
            self.carry = None;
            return self.count_fault();
        };
        let layout = Layout::of(self.raster.code, line).expect("the line is of the raster");
        let (flags, next) = judge(&layout, self.carry, row);
        self.line = Some(self.line_after(line));
        // "A row counts once its CRC could be judged": where the row gives the line there is no carry.
        if self.carry.replace(next).is_some() {
            self.rows = self.rows.saturating_add(1);
        }
        if flags != 0 {
            self.count_fault();
        }
    }

    /// "The expected line is taken from the Y line words of the first complete row while none is known".
    fn line_of_row(&self, y: &[u16]) -> Option<u32> {
        let line_words = [y[LINE.start], y[LINE.start + 1]];
        self.line.or_else(|| line_of(self.raster, line_words))
    }

    /// "goes up by one and from N to 1"
    fn line_after(&self, line: u32) -> u32 {
        line % self.raster.rows + 1
    }

    pub fn report(&self) -> Report {
        Report {
            raster: self.raster.code,
            rows: self.rows,
            faults: self.faults,
            verdict: verdict(self.seen, self.raster.rows, self.rows, self.faults),
        }
    }
}

/// Y and C of the pair that ends the window; it came "C word first, then Y".
fn last_pair(window: &[bool]) -> [u16; 2] {
    let (before, y) = window.split_at(window.len() - WORD_BITS);
    let c = &before[before.len() - WORD_BITS..];
    [word_of(y), word_of(c)]
}

/// Whether the XYZ pair that ends the window is that of an EAV, by its Y word: "H is 1 in EAV".
fn is_eav(window: &[bool]) -> bool {
    let [y, _] = last_pair(window);
    matches!(read_xyz(y), Ok(Some((_, _, true))))
}

fn lay_pair(buffers: &mut Buffers, place: usize, pair: [u16; 2]) {
    for (buffer, word) in buffers.iter_mut().zip(pair) {
        buffer[place] = word;
    }
}
