//! Rows that are read: right, and damaged in every way that a flag tells of.

use super::pieces::Pair;
use super::regions::{change_a_word, lay_crowd, lay_pieces};
use super::{lists, rasters};
use crate::check::right_crc;
use crate::correct::correct;
use crate::crc::{carry_numbers, Carry};
use crate::layout::{Layout, BLANKING, CRC, EAV, LINE};
use crate::random::Random;
use crate::runs::runs;
use std::ops::Range;

/// What the functions of rows take first.
#[derive(Clone, Copy)]
pub struct Head {
    pub code: u32,
    pub line: u32,
    pub carry: Option<Carry>,
}

impl Head {
    pub fn carry_numbers(&self) -> [u32; 3] {
        carry_numbers(self.carry)
    }

    /// The layout of a head that no fault was put in.
    pub fn layout(&self) -> Layout {
        Layout::of(self.code, self.line).expect("code and line are of the table")
    }
}

#[derive(Clone)]
pub struct Row {
    pub head: Head,
    pub words: [Vec<u16>; 2],
}

/// More than this, and the request would be too long.
const LONGEST: usize = 340;

/// A row short enough for a request, with packets of the wanted pair or others.
pub fn row(random: &mut Random, wanted: Pair) -> Row {
    loop {
        let row = any_row(random, wanted);
        if row.words.iter().flat_map(|words| runs(words)).count() < LONGEST {
            return row;
        }
    }
}

/// A row with packets of the wanted pair or others, and the CRC words that its carry asks for.
pub fn row_with_packets(random: &mut Random, head: Head, wanted: Pair) -> Row {
    let layout = head.layout();
    let words = BLANKING.map(|blanking| channel(random, &layout, blanking, wanted));
    let mut row = Row { head, words };
    make_crc_right(&mut row);
    row
}

fn any_row(random: &mut Random, wanted: Pair) -> Row {
    let head = head(random);
    let layout = head.layout();
    let mut row = row_with_packets(random, head, wanted);
    for _ in 0..random.pick(&[0, 0, 1, 1, 1, 2, 3]) {
        damage(random, &layout, &mut row);
    }
    if random.one_in(3) {
        make_crc_right(&mut row);
    }
    if random.one_in(5) {
        let words = &mut row.words[random.place(2)];
        lay_in_a_region(random, &layout, words, wanted);
    }
    if random.one_in(6) {
        correct_row(random, &mut row);
    }
    row
}

pub fn head(random: &mut Random) -> Head {
    let code = random.below(12);
    let line = rasters::line_of(random, code);
    let carry = (!random.one_in(4)).then(|| [(); 2].map(|()| carried(random)));
    Head { code, line, carry }
}

pub fn carried(random: &mut Random) -> u32 {
    let any = random.below(0x40000);
    random.pick(&[0, 0x3ffff, any, any])
}

/// A channel with packets, and right timing words over them.
fn channel(random: &mut Random, layout: &Layout, blanking: u16, wanted: Pair) -> Vec<u16> {
    let mut words = vec![blanking; layout.total()];
    for _ in 0..random.below(4) {
        let rest = layout.active().start + random.place(layout.active().len());
        let any = random.short(0x004, 0x3fb);
        words[rest..].fill(random.pick(&[0x004, 0x3fb, any]));
    }
    for _ in 0..random.between(1, 2) {
        lay_in_a_region(random, layout, &mut words, wanted);
    }
    words[EAV].copy_from_slice(&layout.eav_words());
    words[LINE].copy_from_slice(&layout.line_words());
    words[layout.sav()].copy_from_slice(&layout.sav_words());
    words
}

/// In the blanking, or in the active words: where V = 0 a packet's codes are reserved there, so it comes seldom.
fn lay_in_a_region(random: &mut Random, layout: &Layout, words: &mut [u16], wanted: Pair) {
    let in_active = random.one_in(if layout.v { 2 } else { 12 });
    let region = if in_active {
        layout.active()
    } else {
        layout.blanking()
    };
    if random.one_in(3) {
        lay_crowd(random, words, &region, wanted);
    } else {
        lay_pieces(random, words, &region, wanted);
    }
}

/// The CRC words that the carry asks for; 200 200 where there is none.
pub fn make_crc_right(row: &mut Row) {
    for (channel, words) in row.words.iter_mut().enumerate() {
        let carry = row.head.carry;
        let crc = carry.map_or([0x200; 2], |carry| right_crc(carry[channel], words));
        words[CRC].copy_from_slice(&crc);
    }
}

pub fn damage(random: &mut Random, layout: &Layout, row: &mut Row) {
    let words = &mut row.words[random.place(2)];
    let bit = 1 << random.below(10);
    match random.below(10) {
        0 => damage_part(random, &mut words[EAV]),
        1 => damage_part(random, &mut words[layout.sav()]),
        2 => damage_part(random, &mut words[LINE]),
        3 | 4 => damage_part(random, &mut words[CRC]),
        5 => words[random_place(random, &layout.active())] = random.pick(&RESERVED_OR_NEAR),
        6 => words[random_place(random, &(0..layout.total()))] ^= bit,
        7 => other_line(random, row),
        _ => change_a_word(random, words, |word| word ^ bit),
    }
}

const RESERVED_OR_NEAR: [u16; 10] = [
    0x000, 0x001, 0x002, 0x003, 0x004, 0x3fb, 0x3fc, 0x3fd, 0x3fe, 0x3ff,
];

/// One of a few words changed, in a bit or wholly.
fn damage_part(random: &mut Random, part: &mut [u16]) {
    let place = random.place(part.len());
    part[place] = match random.below(4) {
        0 => lists::word(random),
        _ => part[place] ^ 1 << random.below(10),
    };
}

/// The first place, the last, or any.
fn random_place(random: &mut Random, part: &Range<usize>) -> usize {
    match random.below(4) {
        0 => part.start,
        1 => part.end - 1,
        _ => part.start + random.place(part.len()),
    }
}

/// Another line is expected than the row was made for.
fn other_line(random: &mut Random, row: &mut Row) {
    row.head.line = rasters::line_of(random, row.head.code);
}

fn correct_row(random: &mut Random, row: &mut Row) {
    let Head { code, line, carry } = row.head;
    let words = row.words.each_mut().map(Vec::as_mut_slice);
    correct(code, line, carry, random.bit(), words).expect("the row can be corrected");
}
