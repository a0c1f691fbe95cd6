//! Built rows, each word at its place by the scope's tables, then checked.

use super::packets::NINTH;
use super::{vector, Vector, ROWS};
use crate::crc::{after_words, encode};
use crate::functions::*;
use crate::runs::runs;

/// A packet of C: DID 61, SDID 02, user words 004 and 3FB; its checksum is worked by hand.
pub const OTHER: [u16; 9] = [
    0x000, 0x3ff, 0x3ff, 0x161, 0x102, 0x102, 0x004, 0x3fb, 0x164,
];
pub const CARRY: [u32; 2] = [0x12345, 0x3ffff];
pub const PACKETS: [&[u16]; 2] = [&NINTH, &OTHER];
pub const BLANKING: [u16; 2] = [0x040, 0x200];
const PICTURE: [u16; 2] = [0x3ac, 0x1e6];

/// A row with a packet at the start of each channel's blanking and, where V is 1, at the end of its active words.
#[derive(Clone)]
pub struct Row {
    pub code: u32,
    pub line: u32,
    pub v: bool,
    pub sav: usize,
    pub words: [Vec<u16>; 2],
}

/// Raster, line, its V, the XYZ words of EAV and SAV, and the line number words.
type Entry = (u32, u32, bool, [u16; 2], [u16; 2]);

const ENTRIES: [Entry; 12] = [
    (1, 26, false, [0x274, 0x200], [0x268, 0x200]),
    (2, 750, true, [0x2d8, 0x2ac], [0x1b8, 0x214]),
    (3, 64, false, [0x274, 0x200], [0x100, 0x200]),
    (4, 1, true, [0x2d8, 0x2ac], [0x204, 0x200]),
    (5, 745, false, [0x274, 0x200], [0x1a4, 0x214]),
    (6, 21, false, [0x274, 0x200], [0x254, 0x200]),
    (7, 584, false, [0x368, 0x31c], [0x120, 0x210]),
    (8, 564, true, [0x3c4, 0x3b0], [0x2d0, 0x210]),
    (9, 42, false, [0x274, 0x200], [0x2a8, 0x200]),
    (10, 1125, true, [0x2d8, 0x2ac], [0x194, 0x220]),
    (11, 1121, false, [0x274, 0x200], [0x184, 0x220]),
    (0, 1125, true, [0x3c4, 0x3b0], [0x194, 0x220]),
];

pub fn rows() -> [Row; 12] {
    ENTRIES.map(row)
}

/// "Code 0 stands for 7, our local cameras, and is printed as 7."
fn printed(code: u32) -> u32 {
    if code == 0 {
        7
    } else {
        code
    }
}

fn row((code, line, v, [eav, sav], line_words): Entry) -> Row {
    let raster = ROWS[printed(code) as usize - 1].map(|number| number as usize);
    let [_, _, active, _, _, hanc] = raster;
    let words = [0, 1].map(|channel| {
        let eav = [0x3ff, 0x000, 0x000, eav];
        let crc = crc(CARRY[channel], &[&eav[..], &line_words].concat());
        let blanking = vec![BLANKING[channel]; hanc - PACKETS[channel].len()];
        let last = if v { PACKETS[channel] } else { &[] };
        let picture = vec![PICTURE[channel]; active - last.len()];
        let sav = [0x3ff, 0x000, 0x000, sav];
        let start = [&eav, &line_words[..], &crc, PACKETS[channel], &blanking].concat();
        [&start, &sav[..], &picture, last].concat()
    });
    let sav = 8 + hanc;
    Row {
        code,
        line,
        v,
        sav,
        words,
    }
}

fn crc(register: u32, covered: &[u16]) -> [u16; 2] {
    encode(after_words(register, covered)).into()
}

impl Row {
    /// The raster as it is printed.
    pub fn raster(&self) -> u32 {
        printed(self.code)
    }

    /// The CRC words that the carry asks for are made anew.
    pub fn with_crc(mut self) -> Self {
        for (register, words) in CARRY.into_iter().zip(&mut self.words) {
            let crc = crc(register, &words[..6]);
            words[6..8].copy_from_slice(&crc);
        }
        self
    }

    pub fn next_carry(&self) -> [u32; 3] {
        let channels = self.words.each_ref();
        let [y, c] = channels.map(|words| after_words(0, &words[self.sav + 4..]));
        [1, y, c]
    }

    pub fn runs(&self) -> Vec<u32> {
        self.words.iter().flat_map(|words| runs(words)).collect()
    }

    /// Checked, it has these flags.
    pub fn checked(&self, carry: bool, flags: u32) -> Vector {
        let start = [CHECK_ROW, self.code, self.line];
        let request = [&start, &carry_numbers(carry)[..], &self.runs()].concat();
        vector(&request, &[&[0, flags], &self.next_carry()[..]].concat())
    }

    /// Corrected, it is this row.
    pub fn corrected(&self, carry: bool, wipe: u32, row: &Row) -> Vector {
        let start = [CORRECT_ROW, self.code, self.line];
        let request = [&start, &carry_numbers(carry)[..], &[wipe], &self.runs()].concat();
        vector(&request, &made(row))
    }

    /// It is what is built of its active words, and of its blanking up to the packet's end.
    fn built(&self, carry: bool) -> Vector {
        let start = [BUILD_ROW, self.code, self.line];
        let channels = self.words.each_ref();
        let active = channels.map(|words| runs(&words[self.sav + 4..]));
        let buffers = channels.map(|words| runs(&vec![0xffff; words.len()]));
        let parts = [active, PACKETS.map(runs), buffers].concat().concat();
        let request = [&start, &carry_numbers(carry)[..], &parts].concat();
        vector(&request, &made(self))
    }
}

pub fn carry_numbers(carry: bool) -> [u32; 3] {
    if carry {
        [1, CARRY[0], CARRY[1]]
    } else {
        [0; 3]
    }
}

fn made(row: &Row) -> Vec<u32> {
    [&[0], &row.next_carry()[..], &row.runs()].concat()
}

/// "the built row checked with the same carry has no flag"; "Without a carry its CRC words are 200 200."
pub fn all() -> Vec<Vector> {
    rows()
        .into_iter()
        .flat_map(|row| {
            let mut without = row.clone();
            for words in &mut without.words {
                words[6..8].fill(0x200);
            }
            [
                row.built(true),
                row.checked(true, 0),
                row.corrected(true, 0, &row),
                without.built(false),
                without.checked(false, 0),
                without.checked(true, 1 << 3 | 1 << 4),
                without.corrected(false, 0, &without),
                without.corrected(true, 0, &row),
            ]
        })
        .collect()
}

#[cfg(test)]
mod tests {
    use super::*;

    /// CRC words and next carry of the first entry, worked by polynomial division.
    #[test]
    fn the_first_rows_crc() {
        let [row, ..] = rows();
        assert_eq!(row.words[0][6..8], [0x12d, 0x10e]);
        assert_eq!(row.words[1][6..8], [0x26d, 0x16a]);
        assert_eq!(row.next_carry(), [1, 0x16c61, 0xda0e]);
    }
}
