//! Words sections about as long as the parts in which they may be taken, with an EAV across the end of each part.

use super::signals::{code_bits, overlay, pair_bits, scrambled_words, PAIR_BITS};
use crate::layout::BLANKING;
use crate::random::Random;
use crate::timing::xyz;
use crate::words::{words_of, WORD_BITS};

/// So many words of a section may be taken at once.
pub const RUN: usize = 1024;
/// Where no more than so few may be, they may be taken by a way of their own.
pub const FEW: usize = 256;
/// The lengths about which something may change.
pub const LENGTHS: [usize; 2] = [FEW, RUN];

/// One of them, mostly the longer, and a number below a few.
pub fn length(random: &mut Random, few: usize) -> (usize, usize) {
    let place = random.place(4 * few);
    (LENGTHS[usize::from(place >= few)], place % few)
}
/// So many bytes of a file may be read at once.
pub const READ: usize = 65_536;

/// The bits of a code.
pub const CODE: usize = 4 * PAIR_BITS;

/// So many cable words of blanking, with EAVs from these bits on, as far as there are bits.
pub fn marked(count: usize, starts: &[usize]) -> Vec<u16> {
    let blanking = pair_bits(BLANKING).into_iter().cycle();
    let mut bits: Vec<bool> = blanking.take(count * WORD_BITS).collect();
    for &start in starts {
        overlay(&mut bits, start, &code_bits([xyz(false, true, true); 2]));
    }
    scrambled_words(0, &words_of(&bits))
}

/// Where an EAV starts that so many of the bits stand before the end of a part.
pub fn across(part_end: usize, before: usize) -> usize {
    (part_end * WORD_BITS).saturating_sub(1 + before % (CODE - 1))
}
