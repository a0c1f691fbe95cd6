//! Faults among a signal's unscrambled bits: bits lost and doubled, and syncs where none should be.

use super::signal::{double, lose, Signal};
use super::Fault;
use crate::cable::SYNC_BITS;
use crate::generate::code_feeds::{ONES, ZEROS};
use crate::generate::signals::{self, overlay, PAIR_BITS};
use crate::layout::EAV;
use crate::random::Random;
use crate::words::WORD_BITS;

const EAV_BITS: usize = EAV.end * PAIR_BITS;

pub const FAULTS: [Fault<Signal>; 18] = [
    ("lost bit", lost::<1>),
    ("doubled bit", doubled::<1>),
    ("lost half a pair", lost::<WORD_BITS>),
    ("doubled half a pair", doubled::<WORD_BITS>),
    ("sync at another alignment", |random, signal| {
        let off = random.between(1, 19) as usize;
        code_amid(random, signal, off);
    }),
    ("sync half a pair off", |random, signal| {
        code_amid(random, signal, WORD_BITS);
    }),
    ("sync about the T-th pair's end", |random, signal| {
        code_about_the_end(random, signal);
    }),
    ("nearly a sync", |random, signal| {
        let stretch = signals::stretch(random.pick(&ONES), random.pick(&ZEROS));
        overlay_some(random, signal, &stretch);
    }),
    ("sync that begins in an XYZ pair", code_in_xyz),
    ("sync that begins with an XYZ pair", code_with_xyz),
    ("ones before an EAV", ones_before),
    ("end with a sync amid a row", |random, signal| {
        let off = random.place(PAIR_BITS);
        let place = code_amid(random, signal, off);
        stop_about(random, signal, place + SYNC_BITS);
    }),
    (
        "end with a sync about the T-th pair's end",
        stop_with_a_code,
    ),
    ("end with an EAV", |random, signal| {
        let end = signal.start(random) + EAV_BITS;
        stop_about(random, signal, end);
    }),
    ("end with four pairs that are no EAV", |random, signal| {
        let end = signal.end(random);
        let noise = signals::noise(random, EAV_BITS);
        overlay(&mut signal.bits, end, &noise);
        stop_about(random, signal, end + EAV_BITS);
    }),
    ("noise among the bits", |random, signal| {
        let length = stretch(random);
        let noise = signals::noise(random, length);
        overlay_some(random, signal, &noise);
    }),
    ("zeros among the bits", |random, signal| {
        let zeros = vec![false; stretch(random)];
        overlay_some(random, signal, &zeros);
    }),
    ("ones among the bits", |random, signal| {
        let ones = vec![true; stretch(random)];
        overlay_some(random, signal, &ones);
    }),
];

fn lost<const COUNT: usize>(random: &mut Random, signal: &mut Signal) {
    let place = signal.place(random);
    lose(&mut signal.bits, place, COUNT);
}

fn doubled<const COUNT: usize>(random: &mut Random, signal: &mut Signal) {
    let place = signal.place(random);
    double(&mut signal.bits, place, COUNT);
}

fn stop_with_a_code(random: &mut Random, signal: &mut Signal) {
    let place = code_about_the_end(random, signal);
    stop_about(random, signal, place + SYNC_BITS);
}

/// A sync with an EAV's code or another.
fn lay_code(random: &mut Random, signal: &mut Signal, place: usize) {
    let code = signals::code(random);
    overlay(&mut signal.bits, place, &code);
}

/// So many bits after some pair's start; answers where.
fn code_amid(random: &mut Random, signal: &mut Signal, off: usize) -> usize {
    let pair = random.place(signal.row_bits / PAIR_BITS);
    let place = signal.start(random) + pair * PAIR_BITS + off;
    lay_code(random, signal, place);
    place
}

/// Its sync ends in the last pairs of a row, in the four pairs that follow it, or after them; answers where it starts.
fn code_about_the_end(random: &mut Random, signal: &mut Signal) -> usize {
    let place = signal.end(random) - EAV_BITS + random.place(2 * EAV_BITS);
    lay_code(random, signal, place);
    place
}

/// The last bit that is sent is the one before this, or one near it.
fn stop_about(random: &mut Random, signal: &mut Signal, end: usize) {
    let near = end - PAIR_BITS + random.place(2 * PAIR_BITS);
    signal.stop(random.pick(&[end, end, end - 1, near]));
}

/// Its first ones are the last ones of an XYZ pair.
fn code_in_xyz(random: &mut Random, signal: &mut Signal) {
    let end = signal.start(random) + random.pick(&signal.code_ends);
    let end = end.min(signal.bits.len());
    let ones = signal.bits[..end].iter().rev().take_while(|&&bit| bit);
    let place = end - ones.count();
    lay_code(random, signal, place);
}

/// Its ones are in place of an EAV's XYZ pair.
fn code_with_xyz(random: &mut Random, signal: &mut Signal) {
    let place = signal.start(random) + SYNC_BITS;
    lay_code(random, signal, place);
}

/// A sync has more than 20 ones, of which the last belong to it.
fn ones_before(random: &mut Random, signal: &mut Signal) {
    let start = signal.start(random);
    let count = start.min(random.between(1, 40) as usize);
    overlay(&mut signal.bits, start - count, &vec![true; count]);
}

fn overlay_some(random: &mut Random, signal: &mut Signal, laid: &[bool]) {
    let place = signal.place(random);
    overlay(&mut signal.bits, place, laid);
}

/// How many bits are spoilt.
fn stretch(random: &mut Random) -> usize {
    let most = random.pick(&[20, 100, 1000, 5000]);
    1 + random.place(most)
}
