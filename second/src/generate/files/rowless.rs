//! Modules without rows: dead, noisy, or of a few timing codes.

use super::modules::Module;
use super::Kind;
use crate::generate::camera::Recording;
use crate::generate::long_sections::{across, length, marked, CODE};
use crate::generate::{lists, signals};
use crate::random::Random;

type Maker = (Kind, fn(&mut Random) -> Vec<u16>);

pub const MAKERS: [Maker; 10] = [
    ("no words", |_| Vec::new()),
    ("few words", |random| noise(random, 40)),
    ("noise", |random| noise(random, 5000)),
    ("zeros", |random| vec![0x000; 1 + random.place(9000)]),
    ("ones", |random| vec![0x3ff; 1 + random.place(9000)]),
    ("the same word", |random| {
        vec![random.short(0x001, 0x3fe); 1 + random.place(9000)]
    }),
    ("codes", |random| codes(random, 6)),
    ("many codes", |random| codes(random, 60)),
    ("codes about a run's end", about_a_run),
    ("damaged codes", |random| {
        let mut bits = signals::codes_and_gaps(random, 6);
        signals::damage(random, &mut bits, 2);
        recorded(&bits)
    }),
];

pub fn any(random: &mut Random) -> (Kind, Module) {
    let (kind, words) = random.pick(&MAKERS);
    let code = random.below(12);
    let words = words(random);
    (kind, Module { code, words })
}

fn noise(random: &mut Random, most: usize) -> Vec<u16> {
    let count = 1 + random.place(most);
    (0..count).map(|_| lists::word(random)).collect()
}

/// Codes and gaps between them.
fn codes(random: &mut Random, most: u32) -> Vec<u16> {
    recorded(&signals::codes_and_gaps(random, most))
}

/// A section of about as many words as may be taken at once, with codes across that end and its own.
fn about_a_run(random: &mut Random) -> Vec<u16> {
    let (run, more) = length(random, 6);
    let count = run - 2 + more;
    let codes = [
        random.place(20),
        across(run, random.place(CODE)),
        across(count, random.place(CODE)),
    ];
    let last = random.between(1, 2) as usize;
    marked(count, &codes[..=last])
}

fn recorded(bits: &[bool]) -> Vec<u16> {
    let mut recording = Recording::default();
    recording.send(bits);
    recording.words()
}
