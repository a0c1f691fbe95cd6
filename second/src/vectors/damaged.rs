//! Built rows damaged in each of the nine ways, one at a time: checked and corrected. A row that correction mends is the
//! built row, which is checked with the others; one that it leaves is checked before.

use super::built::{rows, Row, PACKETS};
use super::packets::NINTH;
use super::Vector;
use crate::words::lay;

const EAV: u32 = 1 << 0;
const SAV: u32 = 1 << 1;
const LINE: u32 = 1 << 2;
const CRC: [u32; 2] = [1 << 3, 1 << 4];
const CHECKSUM: [u32; 2] = [1 << 5, 1 << 6];
const CUT: u32 = 1 << 7;
const RESERVED: u32 = 1 << 8;

/// For several rasters, in lines of each V and F; each damage once in Y and once in C.
pub fn all() -> Vec<Vector> {
    let rows = rows().into_iter();
    rows.filter(|row| [1, 2, 7, 8, 9, 10].contains(&row.code))
        .flat_map(|row| [0, 1].map(|channel| damages(&row, channel)))
        .flatten()
        .collect()
}

fn damages(row: &Row, channel: usize) -> Vec<Vector> {
    let of_a_pair = (row.line as usize + channel) % 2;
    let of_a_code = (row.line as usize + 2 * channel) % 4;
    let groups = [
        covered(row, channel, of_a_code, EAV),
        covered(row, channel, 4 + of_a_pair, LINE),
        mended(&changed(row, channel, row.sav + of_a_code), row, SAV),
        crc_word(row, channel, 6 + of_a_pair),
        checksums(row, channel),
        cut(row, channel),
        reserved(row, channel),
    ];
    groups.into_iter().flatten().collect()
}

/// The row with one bit of one word changed.
fn changed(row: &Row, channel: usize, place: usize) -> Row {
    let mut changed = row.clone();
    changed.words[channel][place] ^= 1 << ((row.line as usize + place) % 10);
    changed
}

/// The row with words laid from a place on.
fn laid(row: &Row, channel: usize, place: usize, words: &[u16]) -> Row {
    let mut changed = row.clone();
    lay(&mut changed.words[channel], place, words);
    changed
}

/// Damage that shows the flag, with a carry and without, and that correction mends, with a carry and without.
fn mended(damaged: &Row, row: &Row, flag: u32) -> Vec<Vector> {
    vec![
        damaged.checked(true, flag),
        damaged.checked(false, flag),
        damaged.corrected(true, 0, row),
        damaged.corrected(false, 0, row),
    ]
}

/// The same for a word that the CRC covers: the old CRC words show it too, where there is a carry; new ones do not.
fn covered(row: &Row, channel: usize, place: usize, flag: u32) -> Vec<Vector> {
    let damaged = changed(row, channel, place);
    let with_crc = damaged.clone().with_crc();
    vec![
        damaged.checked(true, flag | CRC[channel]),
        damaged.checked(false, flag),
        with_crc.checked(true, flag),
        damaged.corrected(true, 0, row),
        damaged.corrected(false, 0, row),
        with_crc.corrected(true, 0, row),
    ]
}

/// "With no row before, CRC is neither judged nor corrected."
fn crc_word(row: &Row, channel: usize, place: usize) -> Vec<Vector> {
    let damaged = changed(row, channel, place);
    vec![
        damaged.checked(true, CRC[channel]),
        damaged.checked(false, 0),
        damaged.corrected(true, 0, row),
        damaged.corrected(false, 0, &damaged),
    ]
}

/// In the blanking, and where V is 1 in the active words too.
fn checksums(row: &Row, channel: usize) -> Vec<Vector> {
    let in_blanking = 8 + PACKETS[channel].len() - 1;
    let right = row.words[channel][in_blanking];
    let mut damaged = vec![
        changed(row, channel, in_blanking),
        // Bit 9 alone is wrong, or all bits are 0.
        laid(row, channel, in_blanking, &[right ^ 0x200]),
        laid(row, channel, in_blanking, &[0x000]),
    ];
    if row.v {
        damaged.push(changed(row, channel, row.words[channel].len() - 1));
    }
    let mended = damaged
        .iter()
        .flat_map(|damaged| mended(damaged, row, CHECKSUM[channel]));
    mended.collect()
}

/// Damage that correction leaves as it is.
fn left(damaged: &Row, flag: u32) -> [Vector; 2] {
    [
        damaged.checked(true, flag),
        damaged.corrected(true, 0, damaged),
    ]
}

/// At the end of the blanking: a marker alone, a packet that lacks its last word, one that lacks nothing, and a marker
/// whose last word is the SAV's first.
fn cut(row: &Row, channel: usize) -> Vec<Vector> {
    [(3, CUT), (10, CUT), (11, 0), (2, 0)]
        .into_iter()
        .flat_map(|(count, flag)| {
            let packet = &NINTH[..count];
            left(&laid(row, channel, row.sav - count, packet), flag)
        })
        .collect()
}

/// The reserved codes' limits, as the first active word of Y and, where V is 0, the last of C.
fn reserved(row: &Row, channel: usize) -> Vec<Vector> {
    let place = if row.v || channel == 0 {
        row.sav + 4
    } else {
        row.words[channel].len() - 1
    };
    let flag = if row.v { 0 } else { RESERVED };
    [(0x003, flag), (0x004, 0), (0x3fb, 0), (0x3fc, flag)]
        .into_iter()
        .flat_map(|(word, flag)| left(&laid(row, channel, place, &[word]), flag))
        .collect()
}
