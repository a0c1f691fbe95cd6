//! Faults in what a row carries: words, packets, reserved codes.

use super::Fault;
use crate::generate::pieces;
use crate::generate::rows::Row;
use crate::layout::{C, Y};
use crate::packet::{MARKER, USER};
use crate::random::Random;
use std::ops::Range;

pub const FAULTS: [Fault<Row>; 8] = [
    ("flipped bit of a word", flip),
    ("flipped bit of an active word", flip_active),
    ("reserved code in the active words", reserve),
    ("wrong checksum in Y", wrong_checksum::<Y>),
    ("wrong checksum in C", wrong_checksum::<C>),
    ("packet whose DC does not fit", |random, row| {
        end_in_a_packet(random, row, MARKER.len()..USER);
    }),
    ("packet whose words do not fit", |random, row| {
        end_in_a_packet(random, row, USER..usize::MAX);
    }),
    // No cut packet: "the marker's three words must all lie in it".
    ("start of a marker that does not fit", |random, row| {
        end_in_a_packet(random, row, 1..MARKER.len());
    }),
];

const RESERVED: [u16; 6] = [0x000, 0x001, 0x003, 0x3fc, 0x3fe, 0x3ff];

fn flip(random: &mut Random, row: &mut Row) {
    let words = any_channel(random, row);
    words[random.place(words.len())] ^= 1 << random.below(10);
}

fn flip_active(random: &mut Random, row: &mut Row) {
    let place = in_active(random, row);
    any_channel(random, row)[place] ^= 1 << random.below(10);
}

fn reserve(random: &mut Random, row: &mut Row) {
    let place = in_active(random, row);
    any_channel(random, row)[place] = random.pick(&RESERVED);
}

/// A packet with one bit of its checksum wrong, often bit 9.
fn wrong_checksum<const CHANNEL: usize>(random: &mut Random, row: &mut Row) {
    let region = region(random, row);
    let pair = pieces::pair(random);
    let mut packet = pieces::packet(random, pair);
    let bit = random.below(10);
    let last = packet.len() - 1;
    packet[last] ^= 1 << random.pick(&[bit, 9]);
    let place = region.start + random.place(region.len() - packet.len() + 1);
    row.words[CHANNEL][place..place + packet.len()].copy_from_slice(&packet);
}

/// A region ends in so many of the first words of a packet: often in as many as may be, but never in all.
fn end_in_a_packet(random: &mut Random, row: &mut Row, lengths: Range<usize>) {
    let pair = pieces::pair(random);
    let packet = pieces::packet(random, pair);
    let most = lengths.end.min(packet.len()) - 1;
    let any = random.between(lengths.start as u32, most as u32) as usize;
    let length = random.pick(&[any, most]);
    let end = region(random, row).end;
    any_channel(random, row)[end - length..end].copy_from_slice(&packet[..length]);
}

fn any_channel<'a>(random: &mut Random, row: &'a mut Row) -> &'a mut [u16] {
    &mut row.words[random.place(2)]
}

/// The first active place, the last, or any.
fn in_active(random: &mut Random, row: &Row) -> usize {
    let active = row.head.layout().active();
    let any = active.start + random.place(active.len());
    random.pick(&[active.start, active.end - 1, any, any])
}

/// A region that packets lie in.
fn region(random: &mut Random, row: &Row) -> Range<usize> {
    let regions = row.head.layout().packet_regions();
    regions[random.place(regions.len())].clone()
}
