//! Packets, right and damaged, and what looks like one.

use super::lists;
use crate::packet::{self, checksum, MARKER};
use crate::random::Random;

pub type Pair = (u8, u8);

const DIDS: [u8; 5] = [0x41, 0x61, 0xff, 0x80, 0x00];
const SDIDS: [u8; 5] = [0x01, 0x01, 0x00, 0xff, 0x41];

pub fn pair(random: &mut Random) -> Pair {
    if random.one_in(4) {
        (byte(random), byte(random))
    } else {
        let known = random.place(DIDS.len());
        (DIDS[known], SDIDS[known])
    }
}

/// A pair that is another, but often by one of its bytes or their order only.
pub fn other_pair(random: &mut Random, (did, sdid): Pair) -> Pair {
    match random.below(4) {
        0 => (did, sdid ^ 1 << random.below(8)),
        1 => (did ^ 1 << random.below(8), sdid),
        2 => (sdid, did),
        _ => pair(random),
    }
}

fn byte(random: &mut Random) -> u8 {
    random.below(0x100) as u8
}

/// A packet, or a part or a likeness of one.
pub fn piece(random: &mut Random, pair: Pair) -> Vec<u16> {
    let mut piece = packet(random, pair);
    match random.below(12) {
        0 => piece.truncate(MARKER.len()),
        1 => piece.truncate(random.place(piece.len())),
        2 => piece[random.place(MARKER.len())] ^= 1 << random.below(10),
        3 | 4 => spoil_checksum(random, &mut piece),
        5 => spoil_header(random, &mut piece),
        6 => piece = [piece, packet(random, pair)].concat(),
        _ => {}
    }
    piece
}

/// A marker whose DC lies in the packet that follows: cut while 262 words do not fit, and of another length once wiped.
pub fn bait(random: &mut Random, pair: Pair) -> Vec<u16> {
    let mut words = MARKER.to_vec();
    words.extend(random.bit().then(|| lists::word(random)));
    words.extend(packet(random, pair));
    words
}

/// A right packet.
pub fn packet(random: &mut Random, pair: Pair) -> Vec<u16> {
    let user = user_words(random, pair);
    packet::packet(pair, &user)
}

/// At most 255 user words, few, or many that are the same; sometimes with a marker or a packet among them.
fn user_words(random: &mut Random, pair: Pair) -> Vec<u16> {
    let few = random.place(5);
    let mut words: Vec<u16> = (0..few).map(|_| lists::word(random)).collect();
    match random.below(12) {
        0 => words.extend(MARKER),
        1 => words.extend(packet::packet(pair, &words.clone())),
        2 => words = vec![lists::word(random); random.between(5, 255) as usize],
        3 => words = vec![lists::word(random); random.pick(&[57, 64, 249, 254, 255])],
        _ => {}
    }
    words
}

/// One bit of the checksum wrong, often bit 9 alone.
fn spoil_checksum(random: &mut Random, packet: &mut [u16]) {
    let last = packet.len() - 1;
    packet[last] ^= if random.bit() {
        0x200
    } else {
        1 << random.below(10)
    };
}

/// One bit of DID, SDID or DC wrong, often a high one, with the checksum made anew or left.
fn spoil_header(random: &mut Random, packet: &mut [u16]) {
    let place = random.pick(&[3, 4, 5, 5]);
    let low = 1 << random.below(8);
    packet[place] ^= random.pick(&[0x100, 0x200, 0x300, low]);
    if random.bit() {
        let last = packet.len() - 1;
        packet[last] = checksum(&packet[MARKER.len()..last]);
    }
}
