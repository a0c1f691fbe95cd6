//! Regions with packets laid in them: whole, cut, touching the end, reaching over it, at the border.

use super::pieces::{bait, other_pair, packet, piece, Pair};
use crate::packet::MARKER;
use crate::random::Random;
use crate::words::lay;
use std::ops::Range;

/// Lays a few pieces in and around a region of the words; of the wanted pair never, sometimes or always.
/// Half of the time they are right packets, end to end.
pub fn lay_pieces(random: &mut Random, words: &mut [u16], region: &Range<usize>, wanted: Pair) {
    let share = random.below(3);
    let tidy = random.bit();
    let mut free = region.start;
    for _ in 0..random.pick(&[0, 1, 1, 2, 2, 3]) {
        let pair = if random.below(2) < share {
            wanted
        } else {
            other_pair(random, wanted)
        };
        let (place, piece) = if tidy {
            (free, packet(random, pair))
        } else {
            untidy(random, region, pair, free)
        };
        lay(words, place, &piece);
        free = place + piece.len();
    }
}

/// Where words are laid, and the words.
type Laid = (usize, Vec<u16>);

fn untidy(random: &mut Random, region: &Range<usize>, pair: Pair, free: usize) -> Laid {
    if random.one_in(5) {
        let place = before(region.end, random.between(8, 270));
        (place, bait(random, pair))
    } else {
        let piece = piece(random, pair);
        (place(random, region, piece.len() as u32, free), piece)
    }
}

/// Where a piece is laid: at the start, after the last piece, touching the end, over the end, on a border, or anywhere.
fn place(random: &mut Random, region: &Range<usize>, length: u32, free: usize) -> usize {
    match random.below(10) {
        0 => region.start,
        1..=3 => free,
        4 => before(region.end, length),
        5 => before(region.end, random.between(1, length.max(1))),
        6 => before(region.end, random.between(1, 4)),
        7 => before(region.start, random.between(1, 3)),
        8 => before(region.end, random.between(7, 270)),
        _ => region.start + random.place(region.len() + 1),
    }
}

fn before(place: usize, distance: u32) -> usize {
    place.saturating_sub(distance as usize)
}

/// Lays many markers one upon the other, or packets far apart, at the start of a region or at its end.
pub fn lay_crowd(random: &mut Random, words: &mut [u16], region: &Range<usize>, wanted: Pair) {
    let mut crowd = if random.bit() {
        crowded(random)
    } else {
        spaced(random, wanted)
    };
    crowd.truncate(region.len());
    let place = random.pick(&[region.start, region.end - crowd.len()]);
    lay(words, place, &crowd);
}

/// Words of which most belong to a marker.
fn crowded(random: &mut Random) -> Vec<u16> {
    let count = random.below(50);
    (0..count)
        .map(|_| match random.below(8) {
            0..=2 => 0x000,
            3..=6 => 0x3ff,
            _ => random.short(0, 0x3ff) & 0x30f,
        })
        .collect()
}

/// Packets, markers and single 000s, each after some tens of words that are none.
fn spaced(random: &mut Random, wanted: Pair) -> Vec<u16> {
    let mut words = Vec::new();
    for _ in 0..random.between(1, 4) {
        stretch(random, &mut words);
        match random.below(4) {
            0 => words.push(MARKER[0]),
            1 => words.extend(MARKER),
            _ => words.extend(packet(random, wanted)),
        }
    }
    stretch(random, &mut words);
    words
}

/// Up to some tens of words, all the same.
fn stretch(random: &mut Random, words: &mut Vec<u16>) {
    let length = words.len() + random.place(52);
    let any = random.short(0x001, 0x3ff);
    words.resize(length, random.pick(&[0x040, 0x200, any]));
}

/// Changes one word, mostly one that begins a run, for such words are seldom blanking.
pub fn change_a_word(random: &mut Random, words: &mut [u16], change: impl FnOnce(u16) -> u16) {
    if words.is_empty() {
        return;
    }
    let place = if random.one_in(4) {
        random.place(words.len())
    } else {
        let starts: Vec<usize> = run_starts(words).collect();
        random.pick(&starts)
    };
    words[place] = change(words[place]);
}

fn run_starts(words: &[u16]) -> impl Iterator<Item = usize> + '_ {
    (0..words.len()).filter(|&place| place == 0 || words[place - 1] != words[place])
}
