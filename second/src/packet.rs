//! Ancillary packets: "000 3FF 3FF, DID, SDID, DC, then DC's low eight bits' worth of user words, then a checksum".

use crate::refusal::{refuse, Refusal};
use crate::words::{all_words, any_reserved, fill, with_bit_nine, word_of};
use std::ops::Range;

pub const MARKER: [u16; 3] = [0x000, 0x3ff, 0x3ff];
const DID: usize = 3;
const SDID: usize = 4;
const DC: usize = 5;
pub const USER: usize = 6;
/// Marker, DID, SDID, DC and checksum.
const BESIDE_USER: usize = 7;

/// What stands at a place of a region.
#[derive(Clone, Copy, Debug, PartialEq, Eq)]
pub enum Found {
    Nothing,
    Cut,
    /// A whole packet of so many words.
    Whole(usize),
}

/// "A packet whose DC, or whose 7 + DC words, do not fit in the region is cut."
pub fn at(region: &[u16], place: usize) -> Found {
    let rest = region.get(place..).unwrap_or_default();
    if !rest.starts_with(&MARKER) {
        return Found::Nothing;
    }
    match rest.get(DC).map(|&dc| packet_length(dc)) {
        Some(length) if length <= rest.len() => Found::Whole(length),
        _ => Found::Cut,
    }
}

/// "DC's low eight bits' worth of user words"
fn packet_length(dc: u16) -> usize {
    BESIDE_USER + usize::from(low_byte(dc))
}

fn low_byte(word: u16) -> u8 {
    word as u8
}

pub struct Scan {
    /// Where the whole packets stand.
    pub whole: Vec<Range<usize>>,
    pub cut: bool,
}

/// "Each region of each channel is scanned alone, left to right."
pub fn scan(region: &[u16]) -> Scan {
    let mut whole = Vec::new();
    let mut cut = false;
    let mut place = 0;
    while place < region.len() {
        place += match at(region, place) {
            Found::Nothing => 1,
            Found::Cut => {
                cut = true;
                // "scanning goes on after its first three words"
                MARKER.len()
            }
            Found::Whole(length) => {
                whole.push(place..place + length);
                // "After a whole packet it goes on after the checksum."
                length
            }
        };
    }
    Scan { whole, cut }
}

/// The whole packets that one scan finds, "in order".
pub fn whole_packets(region: &[u16]) -> Vec<&[u16]> {
    let places = scan(region).whole;
    places.into_iter().map(|place| &region[place]).collect()
}

/// "A packet is found by its DID and SDID bytes."
pub fn identity(packet: &[u16]) -> (u8, u8) {
    (low_byte(packet[DID]), low_byte(packet[SDID]))
}

/// "the sum of the low nine bits from DID to the last user word, modulo 512, bit 9 the inverse of bit 8"
pub fn checksum(words: &[u16]) -> u16 {
    let sum = words
        .iter()
        .fold(0, |sum, &word| (sum + (word & 0x1ff)) % 512);
    with_bit_nine(sum)
}

/// The checksum that a whole packet should have.
pub fn right_checksum(packet: &[u16]) -> u16 {
    checksum(&packet[DID..packet.len() - 1])
}

/// "Every comparison, of CRC and checksum words too, is of all ten bits."
pub fn has_wrong_checksum(packet: &[u16]) -> bool {
    packet[packet.len() - 1] != right_checksum(packet)
}

/// "the whole packets that one scan finds are first overwritten with blanking"
pub fn wipe(region: &mut [u16], blanking: u16) {
    for place in scan(region).whole {
        region[place].fill(blanking);
    }
}

/// "Correction writes": the checksums.
pub fn make_checksums_right(region: &mut [u16]) {
    for place in scan(region).whole {
        let checksum = right_checksum(&region[place.clone()]);
        region[place.end - 1] = checksum;
    }
}

/// "DID, SDID and DC carry a byte, bit 8 making the ones in bits 8..0 even, bit 9 its inverse."
fn header_word(byte: u8) -> u16 {
    let odd = byte.count_ones() % 2 == 1;
    let mut bits: Vec<bool> = (0..8).map(|place| byte >> place & 1 == 1).collect();
    bits.extend([odd, !odd]);
    word_of(&bits)
}

/// Builds a packet at the start of the output and answers its length.
pub fn build(did: u8, sdid: u8, user: &[u16], output: &mut [u16]) -> Result<usize, Refusal> {
    refuse(&[
        (Refusal::Word, !all_words(user)),
        (Refusal::Packet, did == 0x00),
        (Refusal::Packet, user.len() > 255),
        (Refusal::Packet, any_reserved(user)),
    ])?;
    let packet = packet((did, sdid), user);
    refuse(&[(Refusal::Short, output.len() < packet.len())])?;
    fill(output, &packet);
    Ok(packet.len())
}

/// The packet of at most 255 user words.
pub fn packet((did, sdid): (u8, u8), user: &[u16]) -> Vec<u16> {
    let header = [did, sdid, user.len() as u8].map(header_word);
    let summed = [&header, user].concat();
    [&MARKER[..], &summed, &[checksum(&summed)]].concat()
}

#[cfg(test)]
mod tests {
    use super::*;

    const NINTH: [u16; 10] = [
        0x000, 0x3ff, 0x3ff, 0x241, 0x101, 0x104, 0x185, 0x206, 0x101, 0x200,
    ];

    /// "scanning goes on after its first three words"
    #[test]
    fn a_packet_inside_a_cut_one_is_found() {
        let region = [&MARKER, &NINTH[..], &[0x2d2], &NINTH, &[0x2d2]].concat();
        let found = scan(&region);
        assert!(found.cut);
        assert_eq!(found.whole, [3..14, 14..25]);
    }

    /// "After a whole packet it goes on after the checksum."
    #[test]
    fn a_packet_inside_a_whole_one_is_not_found() {
        let inner = [0x000, 0x3ff, 0x3ff, 0x101, 0x200, 0x200, 0x101];
        let region = [packet((0x41, 0x01), &inner), inner.to_vec()].concat();
        let found = scan(&region);
        assert!(!found.cut);
        assert_eq!(found.whole, [0..14, 14..21]);
    }
}
