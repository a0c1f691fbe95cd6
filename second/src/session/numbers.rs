//! The fifteen numbers of a session, their ranges, and the session that they stand for.

use super::module::{Module, PAIR_BITS};
use super::Session;
use crate::cable::SYNC_BITS;
use crate::crc::{carry_numbers, is_carry, Carry};
use crate::layout::EAV;
use crate::raster::raster_of;
use crate::refusal::{refuse, Refusal};
use crate::words::is_word;

/// A session as requests and answers have it. The numbers of `fresh` are all 0.
#[derive(Clone, Copy, Debug, Default, PartialEq, Eq)]
pub struct Numbers {
    pub open: bool,
    pub raster: u32,
    pub history: u16,
    /// "the last sixty bits below 2^32 and above (two numbers)", the oldest lowest.
    pub last: [u32; 2],
    pub ahead: u8,
    pub seen: bool,
    pub pairs: u32,
    pub bit: u8,
    pub line: u32,
    pub carry: Option<Carry>,
    pub rows: u32,
    pub faults: u32,
}

impl Numbers {
    pub fn list(&self) -> [u32; 15] {
        let [below, above] = self.last;
        let [has_carry, y, c] = carry_numbers(self.carry);
        [
            self.open.into(),
            self.raster,
            self.history.into(),
            below,
            above,
            self.ahead.into(),
            self.seen.into(),
            self.pairs,
            self.bit.into(),
            self.line,
            has_carry,
            y,
            c,
            self.rows,
            self.faults,
        ]
    }

    /// Whether every number is in the range given for it.
    pub fn in_range(&self) -> bool {
        // "1 to 11 while running, else 0"; "T and N are those of the session's raster (of raster 7 for 0)".
        let Ok(raster) = raster_of(self.raster) else {
            return false;
        };
        self.open == (self.raster != 0)
            && is_word(self.history)
            && self.bits_in_range(raster.total)
            && self.line <= raster.rows
            && self.carry_in_range()
    }

    /// "registers 0 to 3FFFF; none where line is 0"
    fn carry_in_range(&self) -> bool {
        match self.carry {
            Some(registers) => self.line != 0 && registers.into_iter().all(is_carry),
            None => true,
        }
    }

    /// Whether the numbers that bits change are in range, in rows of T pairs: "while a row is open 0 or 20 - bit".
    fn bits_in_range(&self, total: u32) -> bool {
        let (ahead, bit) = (usize::from(self.ahead), usize::from(self.bit));
        let in_row = if self.pairs == 0 {
            bit == 0 && ahead <= PAIR_BITS
        } else {
            let eav = EAV.end as u32;
            (eav..total + eav).contains(&self.pairs)
                && bit < PAIR_BITS
                && (ahead == 0 || ahead + bit == PAIR_BITS)
        };
        self.last[1] < 1 << (SYNC_BITS - 32) && in_row
    }

    /// The session, or refusal 7: "a session number outside the range docs/ gives for it".
    pub fn session(&self) -> Result<Session, Refusal> {
        refuse(&[(Refusal::Session, !self.in_range())])?;
        Ok(Session(self.open.then(|| self.module())))
    }

    fn module(&self) -> Module {
        Module {
            raster: raster_of(self.raster).expect("the raster is in range"),
            history: self.history,
            last: bits_of_last(self.last),
            ahead: self.ahead.into(),
            seen: self.seen,
            row: (self.pairs > 0).then(|| self.pairs as usize * PAIR_BITS + usize::from(self.bit)),
            line: (self.line > 0).then_some(self.line),
            carry: self.carry,
            rows: self.rows,
            faults: self.faults,
        }
    }
}

impl Session {
    pub fn numbers(&self) -> Numbers {
        self.0.as_ref().map(Module::numbers).unwrap_or_default()
    }
}

impl Module {
    fn numbers(&self) -> Numbers {
        let bits = self.row.unwrap_or(0);
        Numbers {
            open: true,
            raster: self.raster.code,
            history: self.history,
            last: last_of_bits(&self.last),
            ahead: self.ahead as u8,
            seen: self.seen,
            pairs: (bits / PAIR_BITS) as u32,
            bit: (bits % PAIR_BITS) as u8,
            line: self.line.unwrap_or(0),
            carry: self.carry,
            rows: self.rows,
            faults: self.faults,
        }
    }
}

fn bits_of_last(last: [u32; 2]) -> Vec<bool> {
    let bit = |place: usize| last[place / 32] >> (place % 32) & 1 == 1;
    (0..SYNC_BITS).map(bit).collect()
}

pub fn last_of_bits(bits: &[bool]) -> [u32; 2] {
    let mut last = [0; 2];
    for (place, &bit) in bits.iter().enumerate() {
        last[place / 32] |= u32::from(bit) << (place % 32);
    }
    last
}
