//! Faults of rows whose words are laid already: CRC words, and EAVs at another distance.

use super::Fault;
use crate::generate::rows::Row;
use crate::generate::signals;
use crate::layout::{C, CRC, Y};
use crate::random::Random;
use std::ops::Range;

pub const FAULTS: [Fault<Row>; 10] = [
    ("wrong CRC in Y", wrong_crc::<Y>),
    ("wrong CRC in C", wrong_crc::<C>),
    ("EAV one pair late", late::<1>),
    ("EAV two pairs late", late::<2>),
    ("EAV three pairs late", late::<3>),
    ("EAV four pairs late", late::<4>),
    ("EAV five pairs late", late::<5>),
    ("EAV a few pairs early", |random, row| {
        let few = random.pick(&[1, 1, 2, 3, 4, 8]);
        let kept = row.words[Y].len().saturating_sub(few);
        lose_pairs(row, kept..usize::MAX);
    }),
    ("EAV early by any distance", |random, row| {
        let kept = random.place(row.words[Y].len());
        lose_pairs(row, kept..usize::MAX);
    }),
    ("pairs lost amid a row", |random, row| {
        let first = random.place(row.words[Y].len());
        let count = random.between(1, 9) as usize;
        lose_pairs(row, first..first + count);
    }),
];

fn wrong_crc<const CHANNEL: usize>(random: &mut Random, row: &mut Row) {
    let place = CRC.start + random.place(CRC.len());
    let bit = random.below(10);
    // The row may have lost these words.
    if let Some(word) = row.words[CHANNEL].get_mut(place) {
        *word ^= 1 << random.pick(&[bit, 9]);
    }
}

/// So many pairs follow the row, all of them the same.
fn late<const PAIRS: usize>(random: &mut Random, row: &mut Row) {
    let more = signals::pair(random);
    for (words, more) in row.words.iter_mut().zip(more) {
        words.extend(vec![more; PAIRS]);
    }
}

/// Of a row that has at least these pairs' first; at least the first pair stays.
fn lose_pairs(row: &mut Row, places: Range<usize>) {
    for words in &mut row.words {
        let end = words.len().min(places.end);
        words.drain(places.start.clamp(1, end)..end);
    }
}
