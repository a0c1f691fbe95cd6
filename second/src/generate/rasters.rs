//! Raster codes, lines and measured counts.

use crate::random::Random;
use crate::raster::{raster_of, TABLE};

const NO_CODES: [u32; 9] = [12, 12, 13, 16, 255, 0x100, 0x10001, 0x10000007, u32::MAX];
/// The first and last lines, and where V or F changes.
const LINE_EDGES: [u32; 32] = [
    0, 1, 2, 20, 21, 25, 26, 41, 42, 63, 64, 127, 128, 560, 561, 563, 564, 583, 584, 745, 746, 749,
    750, 751, 1121, 1122, 1123, 1124, 1125, 1126, 1127, 2047,
];
/// Among them lines whose low eleven or sixteen bits are a line of every raster.
const LONG_LINES: [u32; 8] = [
    2048, 2049, 0xffff, 0x10000, 0x10001, 0x1000001a, 0x80000001, 0xffffffff,
];

pub fn bad_code(random: &mut Random) -> u32 {
    random.pick(&NO_CODES)
}

pub fn code(random: &mut Random) -> u32 {
    if random.one_in(5) {
        bad_code(random)
    } else {
        random.below(12)
    }
}

pub fn line(random: &mut Random) -> u32 {
    match random.below(8) {
        0 => random.pick(&LONG_LINES),
        1 => random.pick(&[0, 750, 751, 1125, 1126]),
        2 => random.between(1, 1125),
        3 => random.below(2048),
        _ => random.pick(&LINE_EDGES),
    }
}

/// N, or that of most rasters where there is no such raster.
fn rows(code: u32) -> u32 {
    raster_of(code).map_or(1125, |raster| raster.rows)
}

/// A line of the raster.
pub fn line_of(random: &mut Random, code: u32) -> u32 {
    loop {
        let line = line(random);
        if (1..=rows(code)).contains(&line) {
            return line;
        }
    }
}

/// Any line of the raster, half of the time one at an edge.
pub fn any_line_of(random: &mut Random, code: u32) -> u32 {
    let edge = line_of(random, code);
    let any = random.between(1, rows(code));
    random.pick(&[edge, any])
}

/// A number that is no line of the raster.
pub fn bad_line(random: &mut Random, code: u32) -> u32 {
    match random.below(3) {
        0 => 0,
        1 => rows(code) + 1,
        _ => random.pick(&LONG_LINES),
    }
}

/// T, A, N and kind of a row of the table, exactly, with one of the four changed, or swapped.
pub fn naming(random: &mut Random) -> [u32; 4] {
    let mut counts = row(random);
    match random.below(6) {
        0 | 1 => {}
        2 => counts[3] ^= 1,
        3 => {
            let place = random.place(3);
            counts[place] = changed(random, counts[place]);
        }
        4 => {
            let (one, other) = random.pick(&[(0, 1), (0, 2), (1, 2)]);
            counts.swap(one, other);
        }
        _ => {
            let place = random.place(4);
            counts[place] = row(random)[place];
        }
    }
    counts
}

fn row(random: &mut Random) -> [u32; 4] {
    let raster = random.pick(&TABLE);
    [raster.total, raster.active, raster.rows, raster.kind as u32]
}

fn changed(random: &mut Random, count: u32) -> u32 {
    match random.below(6) {
        0 => 0,
        1 => count + 1,
        2 => count - 1,
        3 => count + 0x1_0000,
        4 => 1 << random.below(32),
        _ => random.number(),
    }
}
