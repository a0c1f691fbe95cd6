//! What is refused, one or more at once: bad raster, line, length, word, carry, and buffers too short.

use super::regions::change_a_word;
use super::rows::{Head, Row};
use super::{lists, rasters};
use crate::random::Random;

/// What building a row takes.
pub struct Parts {
    pub head: Head,
    pub active: [Vec<u16>; 2],
    pub blanking: [Vec<u16>; 2],
    pub buffers: [Vec<u16>; 2],
}

/// One time in four.
pub fn spoil_row(random: &mut Random, row: &mut Row) {
    for _ in 0..faults(random) {
        let words = &mut row.words[random.place(2)];
        match random.below(6) {
            0 => change_length(random, words),
            1 | 2 => put_above(random, words),
            _ => spoil_head(random, &mut row.head),
        }
    }
}

/// One time in four.
pub fn spoil_parts(random: &mut Random, parts: &mut Parts) {
    let layout = parts.head.layout();
    for _ in 0..faults(random) {
        let channel = random.place(2);
        match random.below(8) {
            0 => change_length(random, &mut parts.active[channel]),
            1 => parts.blanking[channel].resize(layout.blanking().len() + 1, 0x040),
            2 => put_above(random, &mut parts.active[channel]),
            3 => put_above(random, &mut parts.blanking[channel]),
            4 | 5 => parts.buffers[channel].truncate(layout.total() - 1),
            _ => spoil_head(random, &mut parts.head),
        }
    }
}

fn faults(random: &mut Random) -> u32 {
    match random.below(4) {
        0 => random.pick(&[1, 1, 2, 2, 2, 3]),
        _ => 0,
    }
}

fn spoil_head(random: &mut Random, head: &mut Head) {
    match random.below(4) {
        0 => head.code = rasters::bad_code(random),
        1 | 2 => head.line = rasters::bad_line(random, head.code),
        _ => {
            let mut carry = head.carry.unwrap_or_default();
            carry[random.place(2)] = random.pick(&[0x40000, 0x40000, 0x7ffff, 0xffff_ffff]);
            head.carry = Some(carry);
        }
    }
}

/// One word less or more, or another length altogether.
fn change_length(random: &mut Random, words: &mut Vec<u16>) {
    let length = words.len();
    let other = match random.below(8) {
        0..=2 => length.saturating_sub(1),
        3..=5 => length + 1,
        6 => 0,
        _ => random.place(5000),
    };
    words.resize(other, 0x040);
}

fn put_above(random: &mut Random, words: &mut [u16]) {
    let above = lists::above(random);
    match random.below(3) {
        0 => lists::damage(random, words),
        1 => change_a_word(random, words, |_| above),
        _ => change_a_word(random, words, |word| word | 0x400),
    }
}
