//! What the XYZ pair after a row, or within it, does to the row and its session.

use super::built::{rows, Row, CARRY};
use super::sessions::{of, CEILING};
use super::{vector, Vector, ROWS};
use crate::cable::scramble;
use crate::functions::FEED;
use crate::session::Numbers;
use crate::words::lay;

/// The sixty bits of a sync, the oldest lowest: twenty ones.
const SYNC: [u32; 2] = [0xf_ffff, 0];

pub fn all() -> Vec<Vector> {
    let groups = [completed(), lines_taken(), dropped()];
    groups.into_iter().flatten().collect()
}

/// A session in a row after a sync at its alignment, when so many of the row's pairs have come.
fn after_sync(row: &Row, pairs: usize) -> Numbers {
    Numbers {
        last: SYNC,
        ahead: 20,
        pairs: pairs as u32,
        line: row.line,
        carry: Some(CARRY),
        rows: 5,
        faults: 6,
        ..seen(row)
    }
}

fn seen(row: &Row) -> Numbers {
    let (seen, begun) = (true, of(row.raster()));
    Numbers { seen, ..begun }
}

/// What the session answers that is fed the XYZ pair of C and Y, "C word first, then Y", scrambled from history 0.
fn fed(row: &Row, before: Numbers, xyz: [u16; 2], answer: Numbers, buffers: &Row) -> Vector {
    let history = scramble(0, &xyz, &mut [0; 2]);
    let [c, y] = xyz.map(u32::from);
    let answer = Numbers {
        history: history.expect("the words are at most 3FF"),
        // Forty zeros, then the pair.
        last: [0, c << 8 | y << 18],
        ..answer
    };
    let signal = [1, 1, 1, c, y, 0];
    let request = [&[FEED], &before.list()[..], &signal, &row.runs()].concat();
    let answer = [&[0], &answer.list()[..], &buffers.runs()].concat();
    vector(&request, &answer)
}

/// The row once the first four pairs of the next are laid.
fn opened(row: &Row, [c, y]: [u16; 2]) -> Row {
    let mut row = row.clone();
    lay(&mut row.words[0], 0, &[0x3ff, 0x000, 0x000, y]);
    lay(&mut row.words[1], 0, &[0x3ff, 0x000, 0x000, c]);
    row
}

/// The session after a row that was judged: the next line is expected, with the row's carry.
fn judged(row: &Row, rows: u32, faults: u32) -> Numbers {
    let [_, _, _, last_line, ..] = ROWS[row.raster() as usize - 1];
    let [_, y, c] = row.next_carry();
    Numbers {
        pairs: 4,
        line: row.line % last_line + 1,
        carry: Some([y, c]),
        rows,
        faults,
        ..seen(row)
    }
}

/// "It is complete when the next EAV comes T pairs later, and is then judged"; "Both counts stay at 4,294,967,295".
fn completed() -> Vec<Vector> {
    let mut vectors = Vec::new();
    for row in rows() {
        for (row, fault) in [(&row, 0), (&flagged(&row), 1)] {
            for count in [0, CEILING - 1, CEILING] {
                let before = Numbers {
                    rows: count,
                    faults: count,
                    ..after_sync(row, row.words[0].len() + 3)
                };
                let [rows, faults] = [1, fault].map(|more| count.saturating_add(more));
                let (xyz, answer) = ([0x155, 0x274], judged(row, rows, faults));
                vectors.push(fed(row, before, xyz, answer, &opened(row, xyz)));
            }
        }
    }
    vectors
}

/// A bit of Y's second CRC word is wrong.
fn flagged(row: &Row) -> Row {
    let mut row = row.clone();
    row.words[0][7] ^= 1;
    row
}

/// "The expected line is taken from the Y line words of the first complete row while none is known": it is judged without
/// CRC and not counted. "else one fault; that row is not judged, leaves no carry, and the next is tried".
fn lines_taken() -> Vec<Vector> {
    let first_complete = |row: &Row, answer| {
        let before = Numbers {
            line: 0,
            carry: None,
            ..after_sync(row, row.words[0].len() + 3)
        };
        fed(row, before, [0x2d8; 2], answer, &opened(row, [0x2d8; 2]))
    };
    let mut vectors = Vec::new();
    for row in rows() {
        for row in [&row, &flagged(&row)] {
            vectors.push(first_complete(row, judged(row, 5, 6)));
        }
        for (place, bits) in [(4, 0x001), (4, 0x200), (5, 0x001), (5, 0x040), (5, 0x400)] {
            let mut row = row.clone();
            row.words[0][place] ^= bits;
            vectors.push(first_complete(&row, one_fault(&row, 4)));
        }
    }
    vectors
}

/// The session after one fault, which has no line and no carry, with so many pairs of an open row.
fn one_fault(row: &Row, pairs: u32) -> Numbers {
    let mut numbers = seen(row);
    (numbers.pairs, numbers.rows, numbers.faults) = (pairs, 5, 7);
    numbers
}

/// "an EAV at another distance; the four pairs after the T-th not an EAV": they "drop the row, carry and expected line".
fn dropped() -> Vec<Vector> {
    let mut vectors = Vec::new();
    for row in rows() {
        let total = row.words[0].len();
        for pairs in [7, total - 1, total, total + 2] {
            let (c, y) = (0x274, 0x368);
            let mut opened = opened(&row, [c, y]);
            // The pair has ended in the row that it drops, which has T places.
            lay(&mut opened.words[0], pairs, &[y]);
            lay(&mut opened.words[1], pairs, &[c]);
            let before = after_sync(&row, pairs);
            vectors.push(fed(&row, before, [c, y], one_fault(&row, 4), &opened));
        }
        // An SAV; a Y word that is not exact; an EAV in C alone.
        for xyz in [[0x200, 0x200], [0x275, 0x275], [0x274, 0x200]] {
            let before = after_sync(&row, total + 3);
            vectors.push(fed(&row, before, xyz, one_fault(&row, 0), &row));
        }
    }
    vectors
}
