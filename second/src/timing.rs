//! Timing codes and line numbers.

use crate::raster::{raster_of, raster_with_line, Raster};
use crate::refusal::{refuse, Refusal};
use crate::words::{is_word, word_of};
use std::array::from_fn;

/// The three words of each channel that a sync is made of: "20 ones then 40 zeros".
pub const SYNC_WORDS: [u16; 3] = [0x3ff, 0x000, 0x000];

/// "bit 9 is 1; bits 8, 7, 6 are F, V, H; bits 5 to 2 are V^H, F^H, F^V, F^V^H; bits 1, 0 are 0."
pub fn xyz(f: bool, v: bool, h: bool) -> u16 {
    word_of(&[false, false, f ^ v ^ h, f ^ v, f ^ h, v ^ h, h, v, f, true])
}

/// F, V and H of each of the eight codes.
pub fn codes() -> impl Iterator<Item = (bool, bool, bool)> {
    (0..8).map(|fvh| (fvh & 4 != 0, fvh & 2 != 0, fvh & 1 != 0))
}

/// "Reading answers F, V and H, or not exact."
pub fn read_xyz(word: u16) -> Result<Option<(bool, bool, bool)>, Refusal> {
    refuse(&[(Refusal::Word, !is_word(word))])?;
    Ok(codes().find(|&(f, v, h)| xyz(f, v, h) == word))
}

/// "LN0: bits 8..2 are line bits 6..0. LN1: bits 5..2 are line bits 10..7.
/// All other low bits are 0; bit 9 is the inverse of bit 8."
pub fn encode_line(line: u32) -> (u16, u16) {
    let line: [bool; 11] = from_fn(|place| line >> place & 1 == 1);
    let ln0 = [&[false; 2], &line[..7], &[!line[6]]].concat();
    let ln1 = [&[false; 2], &line[7..], &[false, false, false, true]].concat();
    (word_of(&ln0), word_of(&ln1))
}

/// "Line numbers are built and read under a raster."
pub fn line_words(code: u32, line: u32) -> Result<(u16, u16), Refusal> {
    raster_with_line(code, line)?;
    Ok(encode_line(line))
}

/// "reading answers the line, or 0 if not exact or not in 1..N"
pub fn read_line(code: u32, ln0: u16, ln1: u16) -> Result<u32, Refusal> {
    // 4 comes before 3 in the order.
    let raster = raster_of(code)?;
    refuse(&[
        (Refusal::Word, !is_word(ln0)),
        (Refusal::Word, !is_word(ln1)),
    ])?;
    Ok(line_of(raster, [ln0, ln1]).unwrap_or(0))
}

/// The line that line words are exact for; words above 3FF are for none.
pub fn line_of(raster: Raster, [ln0, ln1]: [u16; 2]) -> Option<u32> {
    (1..=raster.rows).find(|&line| encode_line(line) == (ln0, ln1))
}
