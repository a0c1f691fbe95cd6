//! Whole modules of raster 1: T is 1650, A 1280 and N 750.

use super::sessions::{FRESH, NO_SIGNAL, SHORT};
use super::{vector, Vector, ROWS};
use crate::cable::scramble;
use crate::crc::{after_words, encode};
use crate::functions::*;
use crate::runs::{runs, signal};
use crate::words::lay;

const TOTAL: usize = 1650;
const HANC: usize = 358;
const ACTIVE: usize = 1280;

/// What the buffers hold before.
const HELD: u16 = 0xfade;

/// Cable words before they are scrambled, in cable order.
const EAV: [u16; 8] = [0x3ff, 0x3ff, 0x000, 0x000, 0x000, 0x000, 0x2d8, 0x2d8];
const BLANK: [u16; 2] = [0x200, 0x040];

pub fn all() -> Vec<Vector> {
    let groups = [without_rows(), rows(), refused()];
    groups.into_iter().flatten().collect()
}

fn held() -> [Vec<u16>; 2] {
    [(); 2].map(|()| vec![HELD; TOTAL])
}

/// A module of raster 1 without a fault whose words come in one feed, and in three, of which the second has none: how many
/// rows it has, its verdict, and what Y and C hold.
fn module(words: &[u16], rows: u32, verdict: u32, buffers: &[Vec<u16>; 2]) -> [Vector; 2] {
    let third = words.len() as u32 / 3;
    [&[0][..], &[2, third, 0]].map(|lengths| {
        let feeds = if lengths.len() > 1 { 3 } else { 1 };
        let mut request = [&[MODULE, 1], lengths, &signal(true, words)].concat();
        request.extend(held().iter().flat_map(|words| runs(words)));
        let mut answered = vec![0, feeds];
        answered.resize(2 + feeds as usize, 0);
        answered.extend([0, 1, rows, 0, verdict]);
        answered.extend(FRESH);
        answered.extend(buffers.iter().flat_map(|words| runs(words)));
        vector(&request, &answered)
    })
}

/// "NO SIGNAL, no sync", with no words, of every raster; and with ones alone, zeros alone, and a sync's first 59 bits.
fn without_rows() -> Vec<Vector> {
    let mut vectors: Vec<Vector> = ROWS
        .iter()
        .map(|&[raster, total, ..]| (raster, raster, total))
        .chain([(0, 7, 2640)])
        .map(|(asked, raster, total)| {
            let buffers = [1, total, 0x155, 1, total, 0x2aa];
            let request = [&[MODULE, asked, 0, 1, 0, 0], &buffers[..]].concat();
            let answer = [0, 1, 0, 0, raster, 0, 0, NO_SIGNAL];
            vector(&request, &[&answer, &FRESH[..], &buffers].concat())
        })
        .collect();
    let nearly = [0x3ff, 0x3ff, 0x000, 0x000, 0x000, 0x200];
    for words in [[0x3ff; 6], [0x000; 6], nearly] {
        vectors.extend(module(&words, 0, NO_SIGNAL, &held()));
    }
    vectors
}

/// A line of raster 1 where V is 1: its line number words, and the active words of Y and C.
type Line = ([u16; 2], [u16; 2]);

/// Y's and C's words, with the CRC words that the row before asks for.
fn row(before: Option<&Line>, (numbers, picture): &Line) -> [Vec<u16>; 2] {
    [0, 1].map(|channel| {
        let start = [&[0x3ff, 0x000, 0x000, 0x2d8], &numbers[..]].concat();
        let crc = before.map_or([0x200; 2], |(_, picture)| {
            let picture = after_words(0, &[picture[channel]; ACTIVE]);
            encode(after_words(picture, &start)).into()
        });
        let blanking = [BLANK[1 - channel]; HANC];
        let sav = [0x3ff, 0x000, 0x000, 0x2ac];
        let picture = [picture[channel]; ACTIVE];
        [&start, &crc[..], &blanking, &sav, &picture].concat()
    })
}

/// 748, 749, 750, and 1 after them.
const LINES: [Line; 4] = [
    ([0x1b0, 0x214], [0x3ac, 0x1e6]),
    ([0x1b4, 0x214], [0x040, 0x200]),
    ([0x1b8, 0x214], [0x3fb, 0x004]),
    ([0x204, 0x200], [0x155, 0x2aa]),
];

fn cable_order(rows: &[[Vec<u16>; 2]]) -> Vec<u16> {
    let pairs = rows
        .iter()
        .flat_map(|[y, c]| y.iter().zip(c).flat_map(|(&y, &c)| [c, y]));
    pairs.collect()
}

/// "A row counts once its CRC could be judged": of rows that follow one another the first gives the line, and the last is
/// dropped without a fault.
fn rows() -> Vec<Vector> {
    let before = [None, Some(&LINES[0]), Some(&LINES[1]), Some(&LINES[2])];
    let rows: Vec<[Vec<u16>; 2]> = before
        .into_iter()
        .zip(&LINES)
        .map(|(before, line)| row(before, line))
        .collect();
    let mut vectors = Vec::new();
    for (first, count) in [(0, 3), (1, 3), (0, 4), (2, 2)] {
        let rows = &rows[first..first + count];
        let counted = count as u32 - 2;
        vectors.extend(module(&cable_order(rows), counted, SHORT, &rows[count - 1]));
    }
    vectors
}

/// Begin is refused, and so is all that follows; one feed is refused, and the others go on.
fn refused() -> Vec<Vector> {
    let buffers = [1, 1650, 0x155, 1, 1649, 0x155];
    let unbegun = [&[MODULE, 12, 1, 1, 0, 0, 2, 0, 0], &buffers[..]].concat();
    let nothing = [&[4, 2, 7, 7, 7, 0, 0, 0, 0], &FRESH[..], &buffers].concat();
    let short = [&[MODULE, 1, 1, 1, 0, 0, 2, 0x400, 0], &buffers[..]].concat();
    let no_signal = [&[0, 2, 3, 1, 0, 1, 0, 0, NO_SIGNAL], &FRESH[..], &buffers].concat();
    // The EAV's words on the cable, and a feed of one bad word amid them.
    let mut cable = [0; 8];
    scramble(0, &EAV, &mut cable).expect("the words are at most 3FF");
    let mut words = cable.map(u32::from).to_vec();
    words.insert(5, 0x400);
    let [y, c] = held().map(|words| runs(&words));
    let asked = [MODULE, 1, 2, 5, 1, 0, 0, 9];
    let request = [&asked, &words[..], &y, &c].concat();
    let mut held = held();
    for words in &mut held {
        lay(words, 0, &[0x3ff, 0x000, 0x000, 0x2d8]);
    }
    let [y, c] = held.map(|words| runs(&words));
    let answer = [&[0, 3, 0, 3, 0, 0, 1, 0, 0, SHORT], &FRESH[..], &y, &c].concat();
    vec![
        vector(&unbegun, &nothing),
        vector(&short, &no_signal),
        vector(&request, &answer),
    ]
}
