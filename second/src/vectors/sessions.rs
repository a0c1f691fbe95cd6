//! Sessions: what begin and end answer, and what is refused.

use super::{vector, Vector, ROWS};
use crate::functions::*;
use crate::session::Numbers;

pub const NO_SIGNAL: u32 = 1;
pub const FAIL: u32 = 2;
pub const SHORT: u32 = 3;
pub const PASS: u32 = 4;

pub const CEILING: u32 = 4_294_967_295;
pub const FRESH: [u32; 15] = [0; 15];

pub fn all() -> Vec<Vector> {
    let groups = [begun(), ended(), out_of_range(), refused_feeds()];
    groups.into_iter().flatten().collect()
}

/// What begin answers.
pub fn of(raster: u32) -> Numbers {
    Numbers {
        open: true,
        raster,
        ..Numbers::default()
    }
}

fn begin(numbers: Numbers, raster: u32, refusal: u32, answer: Numbers) -> Vector {
    let request = [&[BEGIN], &numbers.list()[..], &[raster]].concat();
    vector(&request, &[&[refusal], &answer.list()[..]].concat())
}

/// "Code 0 stands for 7"; "begin when open" is 7, and comes before 4.
fn begun() -> Vec<Vector> {
    let closed = Numbers::default();
    let left = Numbers {
        line: 1125,
        carry: Some([0x3ffff; 2]),
        rows: CEILING,
        faults: CEILING,
        ..closed
    };
    let mut vectors: Vec<Vector> = (1..=11)
        .map(|raster| begin(closed, raster, 0, of(raster)))
        .collect();
    vectors.extend([
        begin(closed, 0, 0, of(7)),
        begin(left, 0, 0, of(7)),
        begin(closed, 12, 4, closed),
        begin(left, 12, 4, left),
        begin(of(1), 1, 7, of(1)),
        begin(of(1), 12, 7, of(1)),
    ]);
    vectors
}

/// "Verdict, first that holds: NO SIGNAL, no sync; FAIL, faults not 0; SHORT, rows below N; PASS."
fn ended() -> Vec<Vector> {
    let mut vectors = Vec::new();
    for [raster, _, _, rows, ..] in ROWS {
        vectors.extend([
            end(raster, false, 0, 0, NO_SIGNAL),
            end(raster, false, CEILING, CEILING, NO_SIGNAL),
            end(raster, true, rows, 1, FAIL),
            end(raster, true, CEILING, CEILING, FAIL),
            end(raster, true, 0, 0, SHORT),
            end(raster, true, rows - 1, 0, SHORT),
            end(raster, true, rows, 0, PASS),
            end(raster, true, CEILING, 0, PASS),
        ]);
    }
    let refused = [&[7, 0, 0, 0, 0], &FRESH[..]].concat();
    vectors.push(vector(&[&[END], &FRESH[..]].concat(), &refused));
    vectors
}

fn end(raster: u32, seen: bool, rows: u32, faults: u32, verdict: u32) -> Vector {
    // Three pairs of blanking have come, and before them a sync that is no EAV's, or none.
    let numbers = Numbers {
        last: [0x2001_0200, 0x0102_0010],
        seen,
        rows,
        faults,
        ..of(raster)
    };
    let request = [&[END], &numbers.list()[..]].concat();
    let answer = [&[0, raster, rows, faults, verdict], &FRESH[..]].concat();
    vector(&request, &answer)
}

/// A session, and what becomes one of its fifteen numbers: the raster has place 1, the carry 10 to 12.
type Change = (Numbers, usize, u32);

/// "a session number outside the range docs/ gives for it": each number by one; a carry "none where line is 0".
fn changes() -> [Change; 18] {
    let (closed, open) = (Numbers::default(), of(1));
    let (pairs, bit) = (9, 7);
    let row = Numbers { pairs, bit, ..open };
    let mut judged = open;
    (judged.line, judged.carry) = (1, Some([0; 2]));
    [
        (open, 1, 0),
        (open, 1, 12),
        (closed, 1, 1),
        (open, 2, 0x400),
        (open, 4, 1 << 28),
        (open, 5, 21),
        (row, 5, 12),
        (row, 5, 14),
        (row, 7, 3),
        (row, 7, 1650 + 4),
        (row, 8, 20),
        (open, 8, 1),
        (open, 9, 751),
        (closed, 9, 1126),
        (judged, 11, 0x40000),
        (judged, 12, 0x40000),
        (judged, 9, 0),
        (closed, 10, 1),
    ]
}

fn out_of_range() -> Vec<Vector> {
    let refused = changes().into_iter().flat_map(|(numbers, place, number)| {
        let mut list = numbers.list();
        list[place] = number;
        let refused = |function, arguments: &[u32], values: &[u32], buffers: &[u32]| {
            let request = [&[function], &list[..], arguments].concat();
            vector(&request, &[&[7], values, &list, buffers].concat())
        };
        [
            refused(BEGIN, &[1], &[], &[]),
            refused(FEED, &[0; 5], &[], &[0, 0]),
            refused(END, &[], &[0; 4], &[]),
        ]
    });
    refused.collect()
}

/// A feed of the words as they are on the cable, with buffers of so many words 155.
fn refused_feed(numbers: Numbers, word: u32, lengths: [u32; 2], refusal: u32) -> Vector {
    let [y, c] = lengths;
    let list = numbers.list();
    let buffers = [1, y, 0x155, 1, c, 0x155];
    let request = [&[FEED], &list[..], &[0, 0, 1, word], &buffers].concat();
    vector(&request, &[&[refusal], &list[..], &buffers].concat())
}

/// "Order where several apply: 7, [..] 3, [..] 1."
fn refused_feeds() -> Vec<Vector> {
    let closed = Numbers::default();
    vec![
        refused_feed(of(1), 0x400, [1650, 1650], 3),
        refused_feed(of(1), 0x400, [1649, 1649], 3),
        refused_feed(of(1), 0x3ff, [1649, 1650], 1),
        refused_feed(of(1), 0x3ff, [1650, 1649], 1),
        refused_feed(closed, 0x3ff, [1650, 1650], 7),
        refused_feed(closed, 0x400, [1649, 1649], 7),
    ]
}
