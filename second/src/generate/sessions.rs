//! Sessions that are handed in: those that a run can reach, with any line, carry and counts, and those out of range.

use super::rows::{carried, Head, Row};
use super::signals::{self, PAIR_BITS};
use super::{lists, rasters};
use crate::random::Random;
use crate::raster::{raster_of, Raster, TABLE};
use crate::session::{last_of_bits, Numbers, Session};

/// The session's raster; that of raster 7 where there is none.
pub fn raster(numbers: &Numbers) -> Raster {
    raster_of(numbers.raster).expect("the raster is in range")
}

/// T of the session's raster, or this where there is no such raster.
pub fn total_or(numbers: &Numbers, other: usize) -> usize {
    raster_of(numbers.raster).map_or(other, |raster| raster.total as usize)
}

/// The session after these bits, which are those of whole words.
pub fn run(numbers: Numbers, bits: &[bool]) -> Numbers {
    let words = signals::scrambled_words(numbers.history, &signals::whole_words(bits));
    let mut session = numbers.session().expect("the session is in range");
    let total = raster(&numbers).total as usize;
    let [mut y, mut c] = [vec![0; total], vec![0; total]];
    let fed = session.feed(&words, &mut [&mut y, &mut c]);
    fed.expect("the session is open, words and buffers are right");
    session.numbers()
}

pub fn begun(code: u32) -> Numbers {
    let mut session = Session::default();
    session.begin(code).expect("the session is closed");
    session.numbers()
}

/// A session in the middle of a row that has been the same pair for long, and the bits of it that come next: the rest of
/// the row's pairs up to where it ends. A run reaches it with any history, for before the row any bits may come.
pub fn in_a_row(random: &mut Random, row: &Row, place: usize, end: usize) -> (Numbers, Vec<bool>) {
    let bit = random.place(PAIR_BITS);
    let numbers = in_a_row_from(random, row, place, bit);
    let mut bits = signals::row_bits(&row.words, place..end.max(place + 1));
    bits.drain(..bit);
    (numbers, bits)
}

/// Such a session of which so many bits of the next pair have come.
pub fn in_a_row_from(random: &mut Random, row: &Row, place: usize, bit: usize) -> Numbers {
    let [y, c] = &row.words;
    let before = signals::pair_bits([y[place], c[place]]).repeat(4);
    Numbers {
        history: random.short(0, 0x3ff),
        last: last_of_bits(&before[bit..bit + 3 * PAIR_BITS]),
        seen: true,
        pairs: place as u32,
        bit: bit as u8,
        line: row.head.line,
        carry: row.head.carry,
        ..begun(row.head.code)
    }
}

/// Line, carry and counts are made any others in range, or left; where no line is known there is no carry.
pub fn alter(random: &mut Random, numbers: &mut Numbers) {
    let rows = raster(numbers).rows;
    let line = random.between(1, rows);
    if random.bit() {
        numbers.line = random.pick(&[0, 0, 0, 0, 1, rows, rows - 1, line]);
    }
    if random.one_in(6) {
        numbers.carry = random.bit().then(|| [(); 2].map(|()| carried(random)));
    }
    if numbers.line == 0 {
        numbers.carry = None;
    }
    if random.one_in(2) {
        numbers.rows = count(random, rows);
    }
    if random.one_in(2) {
        numbers.faults = count(random, 1);
    }
}

/// A count, often near a limit or at the ceiling.
pub fn count(random: &mut Random, limit: u32) -> u32 {
    match random.below(4) {
        0 => random.pick(&[u32::MAX, u32::MAX, u32::MAX - 1, u32::MAX - 2]),
        1 => random.number(),
        2 => 0,
        _ => random.pick(&[limit - 1, limit, limit.saturating_add(1)]),
    }
}

/// A closed session that is in range.
pub fn closed(random: &mut Random) -> Numbers {
    let mut numbers = Numbers::default();
    if random.bit() {
        alter(random, &mut numbers);
    }
    numbers
}

/// An open session of any raster: just begun, after some bits, or in the middle of a row.
pub fn open(random: &mut Random) -> Numbers {
    let code = random.below(12);
    let mut numbers = match random.below(6) {
        0 => begun(code),
        1 | 2 => {
            let bits = signals::codes_and_gaps(random, 3);
            run(begun(code), &bits)
        }
        _ => {
            let row = flat_row(random, code);
            let total = row.words[0].len();
            let place = place(random, total);
            let (numbers, mut bits) = in_a_row(random, &row, place, total.min(place + 9));
            bits.extend(signals::codes_and_gaps(random, 2));
            let cut = random.place(bits.len() + 1);
            run(numbers, &bits[..cut])
        }
    };
    alter(random, &mut numbers);
    numbers
}

/// A place of a row from which on it can be gone on with: mostly near its end.
pub fn place(random: &mut Random, total: usize) -> usize {
    match random.below(8) {
        0 => 7 + random.place(total - 7),
        1 => 7 + random.place(10),
        2 => total - 1 - random.place(40),
        _ => total - 1 - random.place(7),
    }
}

/// A row of one pair from end to end.
pub fn flat_row(random: &mut Random, code: u32) -> Row {
    let line = rasters::line_of(random, code);
    let head = Head {
        code,
        line,
        carry: None,
    };
    let total = head.layout().total();
    let words = signals::pair(random).map(|word| vec![word; total]);
    Row { head, words }
}

/// A session of which one number or more are out of range.
pub fn out_of_range(random: &mut Random) -> Numbers {
    let in_range = if random.one_in(3) {
        closed(random)
    } else {
        open(random)
    };
    loop {
        let mut numbers = in_range;
        for _ in 0..random.pick(&[1, 1, 1, 1, 2]) {
            spoil(random, &mut numbers);
        }
        if !numbers.in_range() {
            return numbers;
        }
    }
}

fn spoil(random: &mut Random, numbers: &mut Numbers) {
    let Raster { total, rows, .. } = raster_of(numbers.raster).unwrap_or(TABLE[6]);
    let far = random.pick(&[0xffff, 0x1_0000, 0x1_0007, 0x8000_0000, 0xffff_ffff]);
    match random.below(9) {
        0 => numbers.raster = random.pick(&[0, 1, 7, 11, 12, 13, 16, far]),
        1 => numbers.history = lists::above(random),
        2 => numbers.last[1] |= random.pick(&[1 << 28, 1 << 31, 0xf000_0000]),
        3 => {
            let bit = numbers.bit;
            numbers.ahead = random.pick(&[1, 19, 20, 21, 22, 255, bit, 21 - bit.min(21)]);
        }
        4 => numbers.pairs = random.pick(&[1, 2, 3, total + 4, total + 5, far]),
        5 => numbers.bit = random.pick(&[1, 10, 19, 20, 21, 32, 255]),
        6 => numbers.line = random.pick(&[rows + 1, rows + 2, 2047, far]),
        7 => {
            numbers.line = 0;
            numbers.carry = Some([(); 2].map(|()| carried(random)));
        }
        _ => {
            numbers.line = numbers.line.max(1);
            let mut carry = numbers.carry.unwrap_or_default();
            carry[random.place(2)] = random.pick(&[0x40000, 0x40001, 0x7ffff, 0xffff_ffff]);
            numbers.carry = Some(carry);
        }
    }
}
