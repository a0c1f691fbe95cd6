//! Timing codes and line words, right and damaged.

use super::{lists, rasters};
use crate::random::Random;
use crate::timing;

/// One of the eight codes, the same with one or two bits changed, or any word.
pub fn xyz(random: &mut Random) -> u16 {
    let code = timing::xyz(random.bit(), random.bit(), random.bit());
    match random.below(6) {
        0 | 1 => code,
        2 => code ^ ten_bit_change(random),
        3 => code ^ ten_bit_change(random) ^ ten_bit_change(random),
        4 => code ^ any_change(random),
        _ => lists::any_word(random),
    }
}

/// The words of a line, the same damaged, or any two words.
pub fn line_words(random: &mut Random) -> (u16, u16) {
    let (ln0, ln1) = timing::encode_line(rasters::line(random));
    match random.below(10) {
        0 => (ln0 ^ ten_bit_change(random), ln1),
        1 => (ln0, ln1 ^ ten_bit_change(random)),
        2 => (ln0 ^ any_change(random), ln1),
        3 => (ln0, ln1 ^ any_change(random)),
        4 => (lists::above(random), ln1),
        5 => (ln0, lists::above(random)),
        6 => (lists::any_word(random), lists::any_word(random)),
        7 => (ln1, ln0),
        _ => (ln0, ln1),
    }
}

fn ten_bit_change(random: &mut Random) -> u16 {
    1 << random.below(10)
}

/// Also of the six bits that a word leaves zero.
fn any_change(random: &mut Random) -> u16 {
    1 << random.below(16)
}
