//! Faults on the cable: bits and words that are changed, lost or doubled, and stretches that are dead.

use super::signal::{double, lose};
use super::Fault;
use crate::generate::signals::{noise, overlay};
use crate::random::Random;
use crate::words::WORD_BITS;

/// No burst is longer.
const BURST: usize = 18;

pub const FAULTS: [Fault<Vec<bool>>; 11] = [
    ("flipped cable bit", |random, cable| {
        let place = somewhere(random, cable);
        cable.iter_mut().skip(place).take(1).for_each(flip);
    }),
    ("lost cable bit", lost::<1>),
    ("doubled cable bit", doubled::<1>),
    ("lost cable word", lost::<WORD_BITS>),
    ("doubled cable word", doubled::<WORD_BITS>),
    ("lost cable words", |random, cable| {
        let words = random.between(2, 4000) as usize;
        let place = somewhere(random, cable);
        lose(cable, place, words * WORD_BITS);
    }),
    ("burst on the cable", |random, cable| {
        let burst = 1 + random.place(BURST);
        let noise = noise(random, burst);
        overlay_some(random, cable, &noise);
    }),
    ("noise on the cable", |random, cable| {
        let stretch = stretch(random);
        let noise = noise(random, stretch);
        overlay_some(random, cable, &noise);
    }),
    ("zeros on the cable", |random, cable| {
        let zeros = vec![false; stretch(random)];
        overlay_some(random, cable, &zeros);
    }),
    ("ones on the cable", |random, cable| {
        let ones = vec![true; stretch(random)];
        overlay_some(random, cable, &ones);
    }),
    ("cable the other way round", |_, cable| {
        cable.iter_mut().for_each(flip);
    }),
];

fn lost<const COUNT: usize>(random: &mut Random, cable: &mut Vec<bool>) {
    let place = somewhere(random, cable);
    lose(cable, place, COUNT);
}

fn doubled<const COUNT: usize>(random: &mut Random, cable: &mut Vec<bool>) {
    let place = somewhere(random, cable);
    double(cable, place, COUNT);
}

fn flip(bit: &mut bool) {
    *bit ^= true;
}

/// The place of a bit, if there is any left.
fn somewhere(random: &mut Random, cable: &[bool]) -> usize {
    random.place(cable.len().max(1))
}

fn overlay_some(random: &mut Random, cable: &mut [bool], laid: &[bool]) {
    let place = somewhere(random, cable);
    overlay(cable, place, laid);
}

fn stretch(random: &mut Random) -> usize {
    1 + random.place(3000)
}
