//! All the bits of a job's words at once, and the places of the syncs among them.

use crate::cable::{cable_bits, unscrambled, SYNC_BITS, SYNC_ONES, SYNC_ZEROS};
use crate::timing::read_xyz;
use crate::words::{words_of, WORD_BITS};

/// The bits of a sample pair.
pub const PAIR: usize = 2 * WORD_BITS;
/// The bits of a sync and of its XYZ pair: "the next 20 bits".
pub const CODE: usize = SYNC_BITS + PAIR;

/// A sync, by the place of its first bit.
#[derive(Clone, Copy)]
pub struct Sync {
    pub place: usize,
    /// Whether its "Y XYZ is an exact EAV code".
    pub is_eav: bool,
}

/// The unscrambled bits of all words.
pub struct Bits(Vec<bool>);

impl Bits {
    /// A history is "all zero unless one is given".
    pub fn of(words: &[u16]) -> Self {
        Self(unscrambled(&cable_bits(0, words)))
    }

    pub fn count(&self) -> usize {
        self.0.len()
    }

    /// "A sync is 20 ones then 40 zeros, found at any bit of the unscrambled stream."
    pub fn syncs(&self) -> Vec<Sync> {
        let bits = &self.0;
        // The places of first zeros.
        let middles = SYNC_ONES..(bits.len() + 1).saturating_sub(SYNC_ZEROS);
        let is_sync = |&middle: &usize| {
            // These two bits rule out most places.
            bits[middle - 1]
                && !bits[middle]
                && bits[middle - SYNC_ONES..middle].iter().all(|&bit| bit)
                && bits[middle..middle + SYNC_ZEROS].iter().all(|&bit| !bit)
        };
        let syncs = middles.filter(is_sync);
        syncs.map(|middle| self.sync(middle - SYNC_ONES)).collect()
    }

    fn sync(&self, place: usize) -> Sync {
        let is_eav = place + CODE <= self.count() && {
            let [y, _] = self.pairs(place + SYNC_BITS, 1);
            // "H is 1 in EAV".
            matches!(read_xyz(y[0]), Ok(Some((_, _, true))))
        };
        Sync { place, is_eav }
    }

    /// The words of Y and C of so many pairs from a place on: "C word first, then Y, each lowest bit first".
    pub fn pairs(&self, place: usize, count: usize) -> [Vec<u16>; 2] {
        let words = words_of(&self.0[place..place + count * PAIR]);
        let channel = |first| words.iter().skip(first).step_by(2).copied().collect();
        [channel(1), channel(0)]
    }
}
