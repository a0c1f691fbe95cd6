//! The unscrambled bits of a whole module: rows that follow one another, right or damaged, or none.

use super::camera::Camera;
use super::code_feeds::{ONES, ZEROS};
use super::pieces;
use super::rows::{damage, row_with_packets, Head, Row};
use super::signals::{self, PAIR_BITS};
use super::{lists, rasters};
use crate::check::next_carry;
use crate::random::Random;
use crate::raster::raster_of;

/// Rows, a few codes, or bits that hold no sync.
pub fn any(random: &mut Random, code: u32) -> Vec<bool> {
    match random.below(20) {
        0..=9 => rows(random, code),
        10 => vec![random.bit(); random.place(3000)],
        11..=14 => stretches(random),
        _ => {
            let mut bits = signals::codes_and_gaps(random, 6);
            let damages = random.pick(&[0, 0, 1]);
            signals::damage(random, &mut bits, damages);
            bits
        }
    }
}

/// Open rows with what is nearly a sync.
fn stretches(random: &mut Random) -> Vec<bool> {
    let before = random.place(50);
    let mut bits = signals::noise(random, before);
    for _ in 0..random.between(1, 4) {
        bits.extend(signals::eav(random));
        for _ in 0..random.between(2, 5) {
            let pairs = random.between(1, 4) as usize;
            let pair = signals::pair_bits([lists::word(random), lists::word(random)]);
            let off = random.place(PAIR_BITS);
            bits.extend(pair.repeat(pairs).split_off(off));
            bits.extend(signals::stretch(random.pick(&ONES), random.pick(&ZEROS)));
        }
    }
    end(random, &mut bits);
    bits
}

/// What the rows of a module are.
#[derive(Clone, Copy, PartialEq, Eq)]
enum Kind {
    /// As they are built, without packets.
    Plain,
    /// With packets, which are not all right.
    Packets,
    /// With packets, and damaged.
    Damaged,
    /// With active words that are all different.
    Busy,
}

/// A few rows of the raster; where it is refused, those of another are fed.
pub fn rows(random: &mut Random, code: u32) -> Vec<bool> {
    let code = raster_of(code).map_or(1, |_| code);
    let kind = random.pick(&[Kind::Plain, Kind::Plain, Kind::Packets, Kind::Damaged]);
    let count = random.pick(&[1, 2, 2, 2, 3, 3, 3, 4]);
    let mut bits = following(random, code, kind, count);
    let damages = random.pick(&[0, 0, 0, 1, 2]);
    signals::damage(random, &mut bits, damages);
    bits
}

/// Two rows of a short raster, with active words that are all different.
pub fn busy_rows(random: &mut Random) -> Vec<bool> {
    let code = random.pick(&[1, 2, 9]);
    let mut bits = following(random, code, Kind::Busy, 2);
    let damages = random.pick(&[0, 0, 1]);
    signals::damage(random, &mut bits, damages);
    bits
}

/// Rows that follow one another, mostly of lines that do, from any bit on, to an end anywhere.
fn following(random: &mut Random, code: u32, kind: Kind, count: u32) -> Vec<bool> {
    let before = random.place(50);
    let mut bits = signals::noise(random, before);
    let line = rasters::line_of(random, code);
    let last = rows_of(code);
    let mut head = Head {
        code,
        line: random.pick(&[last - 1, last, line, line]),
        carry: None,
    };
    for _ in 0..count {
        let row = row(random, head, kind);
        bits.extend(signals::row_bits(&row.words, 0..row.words[0].len()));
        if random.one_in(8) {
            spoil_distance(random, &mut bits);
        }
        let layout = head.layout();
        head.carry = Some(next_carry(&layout, row.words.each_ref().map(Vec::as_slice)));
        head.line = next_line(random, head);
    }
    end(random, &mut bits);
    bits
}

/// N.
pub fn rows_of(code: u32) -> u32 {
    raster_of(code).expect("the code is of the table").rows
}

fn row(random: &mut Random, head: Head, kind: Kind) -> Row {
    let layout = head.layout();
    let mut row = match kind {
        Kind::Plain | Kind::Busy => built_row(random, head, kind == Kind::Busy),
        Kind::Packets | Kind::Damaged => {
            let wanted = pieces::pair(random);
            row_with_packets(random, head, wanted)
        }
    };
    if kind == Kind::Damaged && random.bit() || random.one_in(12) {
        damage(random, &layout, &mut row);
    }
    row
}

/// A row as it is built, with flat active words or, if busy, any.
pub fn built_row(random: &mut Random, head: Head, busy: bool) -> Row {
    let layout = head.layout();
    let active = [(); 2].map(|()| {
        let word = random.short(0x004, 0x3fb);
        let mut words = vec![word; layout.active().len()];
        if busy {
            words.fill_with(|| random.short(0x004, 0x3fb));
        }
        words
    });
    let mut camera = Camera::new(head.code, head.line);
    camera.carry = head.carry;
    let words = camera.next_words(active.each_ref().map(Vec::as_slice), [&[]; 2]);
    Row { head, words }
}

/// The line after, or now and then another: a row is missing, comes twice, or is any.
fn next_line(random: &mut Random, head: Head) -> u32 {
    let rows = rows_of(head.code);
    let next = head.line % rows + 1;
    if random.one_in(12) {
        let any = rasters::line_of(random, head.code);
        random.pick(&[head.line, next % rows + 1, any])
    } else {
        next
    }
}

/// The row before is some bits or pairs too short or too long, or a code stands in it.
fn spoil_distance(random: &mut Random, bits: &mut Vec<bool>) {
    let few = random.pick(&[0, 0, 0, 1, 2, 3, 4]);
    match random.below(4) {
        0 => bits.truncate(bits.len() - (few + 1) * PAIR_BITS),
        1 => bits.extend(vec![random.bit(); (few + 1) * PAIR_BITS]),
        2 => bits.truncate(bits.len() - 1 - random.place(40)),
        _ => {
            let code = signals::code(random);
            let start = bits.len() - code.len() - few * PAIR_BITS;
            signals::overlay(bits, start, &code);
        }
    }
}

/// The EAV that completes the last row, another code, or a cut anywhere; then mostly a few bits more, for a last word
/// that is not whole is not fed.
fn end(random: &mut Random, bits: &mut Vec<bool>) {
    match random.below(8) {
        0 => bits.truncate(random.place(bits.len() + 1)),
        1 | 2 => bits.extend(signals::after_row(random)),
        _ => bits.extend(signals::eav(random)),
    }
    let more = random.pick(&[0, 9, 9, 20, 40, 100]);
    let word = lists::word(random);
    let rest = signals::pair_bits([word; 2]).into_iter().cycle().take(more);
    bits.extend(rest);
}
