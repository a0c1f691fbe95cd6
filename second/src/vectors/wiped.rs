//! Rows whose packets are sought, copied and wiped.

use super::built::{rows, Row, BLANKING, PACKETS};
use super::packets::NINTH;
use super::{vector, Vector};
use crate::functions::*;
use crate::runs::runs;
use crate::words::lay;

/// One row with packets in the blanking only, and one with packets in the active words too.
pub fn all() -> Vec<Vector> {
    let rows = rows().into_iter();
    rows.filter(|row| [6, 8].contains(&row.code))
        .flat_map(|row| {
            let mut vectors = sought(&row);
            vectors.extend([0, 1].map(|channel| extracted(&row, channel)));
            vectors.push(row.corrected(true, 1, &wiped(&row)));
            vectors.push(wiped(&row).checked(true, 0));
            vectors.extend(sought_in_order(&row));
            vectors
        })
        .collect()
}

/// Y's packet is DID 41, SDID 01, C's is DID 61, SDID 02; the halves of the two together are no packet's pair.
fn sought(row: &Row) -> Vec<Vector> {
    let [y, c] = PACKETS;
    [(0x41, 0x01, y), (0x61, 0x02, c), (0x41, 0x02, &[])]
        .into_iter()
        .map(|(did, sdid, part)| found(row, did, sdid, part))
        .collect()
}

fn found(row: &Row, did: u32, sdid: u32, part: &[u16]) -> Vector {
    let start = [FIND_PACKET, row.code, row.line, did, sdid];
    let request = [&start, &row.runs()[..]].concat();
    vector(&request, &[&[0], &runs(part)[..]].concat())
}

/// "Y before C"; "blanking before active words": Y's packet three times, told by its DC, of which the first found is blanked.
fn sought_in_order(row: &Row) -> Vec<Vector> {
    let active = row.sav + 4;
    let places = [(0, 8, 0x104), (0, active, 0x204), (1, 8, 0x304)];
    let packet = |dc| {
        let mut packet = NINTH;
        packet[5] = dc;
        packet
    };
    let mut row = wiped(row);
    for (channel, place, dc) in places {
        lay(&mut row.words[channel], place, &packet(dc));
    }
    let mut vectors = Vec::new();
    for (channel, place, dc) in places
        .into_iter()
        .filter(|place| row.v || place.1 != active)
    {
        vectors.push(found(&row, 0x41, 0x01, &packet(dc)));
        lay(
            &mut row.words[channel],
            place,
            &[BLANKING[channel]; NINTH.len()],
        );
    }
    vectors
}

/// "Extraction copies all whole packets of a channel, in order, end to end."
fn extracted(row: &Row, channel: usize) -> Vector {
    let copied = PACKETS[channel].repeat(if row.v { 2 } else { 1 });
    let output = runs(&[&copied, &[0x155][..]].concat());
    let room = runs(&vec![0x155; copied.len() + 1]);
    let start = [EXTRACT, row.code, row.line, channel as u32];
    let request = [&start, &row.runs()[..], &room].concat();
    vector(&request, &[&[0, copied.len() as u32], &output[..]].concat())
}

/// "the whole packets that one scan finds are first overwritten with blanking"
fn wiped(row: &Row) -> Row {
    let mut wiped = row.clone();
    for (channel, words) in wiped.words.iter_mut().enumerate() {
        let count = PACKETS[channel].len();
        words[8..8 + count].fill(BLANKING[channel]);
        if row.v {
            let start = words.len() - count;
            words[start..].fill(BLANKING[channel]);
        }
    }
    wiped
}
