//! Where a row's parts stand, and what raster and line say of them:
//! "A row of T pairs: EAV 4, LN 2, CRC 2, blanking T-A-12, SAV 4, active A."

use crate::raster::{raster_with_line, v_and_f, Raster};
use crate::refusal::Refusal;
use crate::timing::{encode_line, xyz};
use std::ops::Range;

/// "A row's channels are two lent slices of words, Y and C."
pub type Row<'a> = [&'a [u16]; 2];
pub const Y: usize = 0;
pub const C: usize = 1;

/// "Blanking is 040 in Y, 200 in C."
pub const BLANKING: [u16; 2] = [0x040, 0x200];

pub const EAV: Range<usize> = 0..4;
pub const LINE: Range<usize> = 4..6;
pub const CRC: Range<usize> = 6..8;

pub struct Layout {
    raster: Raster,
    line: u32,
    pub v: bool,
    f: bool,
}

impl Layout {
    /// The layout of a line of a raster, or refusal 4 or 5.
    pub fn of(code: u32, line: u32) -> Result<Self, Refusal> {
        let raster = raster_with_line(code, line)?;
        let (v, f) = v_and_f(code, line)?;
        Ok(Self { raster, line, v, f })
    }

    /// T.
    pub fn total(&self) -> usize {
        self.raster.total as usize
    }

    pub fn active(&self) -> Range<usize> {
        self.total() - self.raster.active as usize..self.total()
    }

    pub fn sav(&self) -> Range<usize> {
        self.active().start - 4..self.active().start
    }

    pub fn blanking(&self) -> Range<usize> {
        CRC.end..self.sav().start
    }

    /// "H is 1 in EAV, 0 in SAV."
    pub fn eav_words(&self) -> [u16; 4] {
        self.timing_words(true)
    }

    pub fn sav_words(&self) -> [u16; 4] {
        self.timing_words(false)
    }

    fn timing_words(&self, h: bool) -> [u16; 4] {
        [0x3ff, 0x000, 0x000, xyz(self.f, self.v, h)]
    }

    pub fn line_words(&self) -> [u16; 2] {
        encode_line(self.line).into()
    }

    /// "Packets lie in the blanking of every row, and in the active words of rows whose expected line has V = 1";
    /// "blanking before active words".
    pub fn packet_regions(&self) -> Vec<Range<usize>> {
        if self.v {
            vec![self.blanking(), self.active()]
        } else {
            vec![self.blanking()]
        }
    }
}
