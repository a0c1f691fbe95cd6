//! Faults in the order of rows and in their line numbers.

use super::OrderFault;
use crate::generate::rasters;
use crate::generate::rows::{Head, Row};
use crate::generate::streams::rows_of;
use crate::layout::{C, EAV, LINE, Y};
use crate::random::Random;
use crate::timing::encode_line;

pub const FAULTS: [OrderFault; 9] = [
    ("missing row", |_, rows, at| {
        // A signal has at least one row.
        if rows.len() > 1 {
            rows.remove(at);
        }
    }),
    ("doubled row", |_, rows, at| {
        rows.insert(at, rows[at].clone())
    }),
    ("jump of lines", jump),
    ("wrong line number", other_number::<Y, C>),
    ("wrong line number in Y", other_number::<Y, Y>),
    ("wrong line number in C", other_number::<C, C>),
    ("line number of no line", |random, rows, at| {
        number_of_no_line(random, &mut rows[at]);
    }),
    ("line numbers of no line from the first row on", no_lines),
    ("line number not exact", break_number),
];

fn no_lines(random: &mut Random, rows: &mut Vec<Row>, at: usize) {
    for row in &mut rows[..=at] {
        number_of_no_line(random, row);
    }
}

/// The rows from this on are those of other lines.
fn jump(random: &mut Random, rows: &mut Vec<Row>, at: usize) {
    let Head { code, line, .. } = rows[at].head;
    let next = line % rows_of(code) + 1;
    let any = rasters::any_line_of(random, code);
    let mut line = random.pick(&[next, any, any]);
    for row in &mut rows[at..] {
        row.head.line = line;
        let layout = row.head.layout();
        for words in &mut row.words {
            words[EAV].copy_from_slice(&layout.eav_words());
            words[LINE].copy_from_slice(&layout.line_words());
            words[layout.sav()].copy_from_slice(&layout.sav_words());
        }
        line = line % rows_of(code) + 1;
    }
}

/// The number of the row before or after, or any.
fn other_number<const FIRST: usize, const LAST: usize>(
    random: &mut Random,
    rows: &mut Vec<Row>,
    at: usize,
) {
    let head = rows[at].head;
    let any = rasters::any_line_of(random, head.code);
    let before = (head.line - 1).max(1);
    let number = random.pick(&[any, before, head.line % rows_of(head.code) + 1]);
    set_number(&mut rows[at].words[FIRST..=LAST], number);
}

/// Exact, but "not in 1..N".
fn number_of_no_line(random: &mut Random, row: &mut Row) {
    let above = rows_of(row.head.code) + 1;
    let any = random.between(above, 2047);
    set_number(&mut row.words, random.pick(&[0, above, any]));
}

fn set_number(channels: &mut [Vec<u16>], number: u32) {
    let words: [u16; 2] = encode_line(number).into();
    for channel in channels {
        channel[LINE].copy_from_slice(&words);
    }
}

/// One bit, in Y, in C or in both.
fn break_number(random: &mut Random, rows: &mut Vec<Row>, at: usize) {
    let place = LINE.start + random.place(LINE.len());
    let bit = 1 << random.below(10);
    for &channel in random.pick(&[&[Y][..], &[C], &[Y, C]]) {
        rows[at].words[channel][place] ^= bit;
    }
}
