//! Unscrambled words that hold syncs, nearly hold them, or hold none.

use super::lists;
use super::signals::overlay;
use crate::random::Random;
use crate::words::words_of;

/// Words with none, one or two syncs, right or nearly so, one time in five with a number above 3FF.
pub fn words(random: &mut Random) -> Vec<u16> {
    let count = match random.below(20) {
        0 => random.between(200, 700),
        1 | 2 => random.below(5),
        3..=6 => random.between(5, 8),
        _ => random.between(9, 40),
    };
    let mut bits = background(random, 10 * count as usize);
    let syncs = random.pick(&[0, 1, 1, 1, 1, 1, 2, 2]);
    for _ in 0..syncs {
        let sync = sync(random);
        let place = place(random, bits.len(), sync.len());
        overlay(&mut bits, place, &sync);
    }
    let mut words = words_of(&bits);
    if random.one_in(5) {
        lists::damage(random, &mut words);
    }
    words
}

fn background(random: &mut Random, length: usize) -> Vec<bool> {
    match random.below(5) {
        0 => vec![false; length],
        1 => vec![true; length],
        2 => runs(random, length),
        _ => (0..length).map(|_| random.bit()).collect(),
    }
}

/// Runs of ones and zeros about as long as those of a sync.
fn runs(random: &mut Random, length: usize) -> Vec<bool> {
    let mut bits = run(random.bit(), random.place(70));
    while bits.len() < length {
        bits.extend(run(true, ones(random)));
        bits.extend(run(false, zeros(random)));
    }
    bits.truncate(length);
    bits
}

fn run(bit: bool, length: usize) -> Vec<bool> {
    vec![bit; length]
}

fn ones(random: &mut Random) -> usize {
    random.pick(&[10, 19, 19, 20, 20, 20, 21])
}

fn zeros(random: &mut Random) -> usize {
    random.pick(&[20, 39, 39, 40, 40, 40, 41])
}

/// A sync or nearly one, half of the time with a bit on each side that ends its runs.
fn sync(random: &mut Random) -> Vec<bool> {
    let (ones, zeros) = if random.bit() {
        (20, 40)
    } else {
        (ones(random), zeros(random))
    };
    let mut bits = [run(true, ones), run(false, zeros)].concat();
    if random.one_in(8) {
        let place = random.place(bits.len());
        bits[place] ^= true;
    }
    if random.bit() {
        bits.insert(0, false);
        bits.push(true);
    }
    bits
}

/// The start, the end, cut at the end, or anywhere.
fn place(random: &mut Random, length: usize, sync: usize) -> usize {
    match random.below(8) {
        0 => 0,
        1 => length.saturating_sub(sync),
        2 => length.saturating_sub(random.place(sync)),
        _ => random.place(length.saturating_sub(sync) + 1),
    }
}
