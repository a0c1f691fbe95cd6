//! Words, lists, registers and buffers.

use crate::random::Random;

const EDGES: [u16; 16] = [
    0x000, 0x001, 0x002, 0x003, 0x004, 0x040, 0x0ff, 0x100, 0x1ff, 0x200, 0x3fb, 0x3fc, 0x3fd,
    0x3fe, 0x3ff, 0x3ff,
];
const ABOVE: [u16; 9] = [
    0x400, 0x400, 0x401, 0x7ff, 0x800, 0x8000, 0xfc00, 0xfffe, 0xffff,
];

/// A word of at most 3FF.
pub fn word(random: &mut Random) -> u16 {
    match random.below(8) {
        0 => random.pick(&EDGES),
        1 => 1 << random.below(10),
        _ => random.short(0, 0x3ff),
    }
}

/// A number above 3FF.
pub fn above(random: &mut Random) -> u16 {
    if random.bit() {
        random.pick(&ABOVE)
    } else {
        random.short(0x400, 0xffff)
    }
}

pub fn any_word(random: &mut Random) -> u16 {
    if random.one_in(3) {
        above(random)
    } else {
        word(random)
    }
}

pub fn history(random: &mut Random) -> u16 {
    match random.below(6) {
        0 => 0,
        1 => random.pick(&[0x3fe, 0x3ff]),
        2 => above(random),
        _ => word(random),
    }
}

pub fn register(random: &mut Random) -> u32 {
    match random.below(6) {
        0 => 0,
        1 => random.pick(&[0x3fffe, 0x3ffff, 0x20000, 0x23000]),
        2 => random.pick(&[0x40000, 0x40001, 0x7ffff, 1 << 31, u32::MAX - 1, u32::MAX]),
        3 => random.number(),
        _ => random.below(0x40000),
    }
}

/// A length, mostly short.
pub fn length(random: &mut Random) -> usize {
    let length = match random.below(60) {
        0 => random.between(200, 700),
        1..=8 => 0,
        9..=16 => 1,
        _ => random.between(2, 40),
    };
    length as usize
}

/// Words, one time in three with some of them above 3FF.
pub fn words(random: &mut Random) -> Vec<u16> {
    let count = length(random);
    let mut words: Vec<u16> = match random.below(8) {
        0 => vec![random.pick(&EDGES); count],
        _ => (0..count).map(|_| word(random)).collect(),
    };
    if random.one_in(3) {
        damage(random, &mut words);
    }
    words
}

/// Puts one or two numbers above 3FF, often at the first, the last or the last but one place.
pub fn damage(random: &mut Random, words: &mut [u16]) {
    if words.is_empty() {
        return;
    }
    for _ in 0..random.between(1, 2) {
        let place = match random.below(5) {
            0 => 0,
            1 => words.len() - 1,
            2 => words.len().saturating_sub(2),
            _ => random.place(words.len()),
        };
        words[place] = above(random);
    }
}

/// What a lent buffer may hold: anything below 2^16.
fn content(random: &mut Random, count: usize) -> Vec<u16> {
    (0..count).map(|_| random.short(0, 0xffff)).collect()
}

/// An output for so many words: empty, shorter, equal or longer.
pub fn output(random: &mut Random, words: usize) -> Vec<u16> {
    let count = output_length(random, words);
    content(random, count)
}

/// The same, of few runs.
pub fn output_of_runs(random: &mut Random, words: usize) -> Vec<u16> {
    let count = output_length(random, words);
    buffer_of_runs(random, count)
}

/// What a lent buffer may hold, in at most three runs.
pub fn buffer_of_runs(random: &mut Random, count: usize) -> Vec<u16> {
    let mut buffer = vec![any_word(random); count];
    for _ in 0..2 {
        let rest = random.place(count + 1);
        buffer[rest..].fill(any_word(random));
    }
    buffer
}

fn output_length(random: &mut Random, words: usize) -> usize {
    match random.below(8) {
        0 => 0,
        1 | 2 => words.saturating_sub(1),
        3 => random.place(words + 1),
        4 | 5 => words,
        6 => words + 1,
        _ => words + random.place(20),
    }
}
