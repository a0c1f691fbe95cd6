//! The modules of jobs: good captures, captures with one fault or several, splices of two, and modules without rows.

use super::sender::Sender;
use super::{faults, rowless, Kind, Notes};
use crate::generate::rows::Row;
use crate::random::Random;
use crate::raster::raster_of;

/// A job's raster and words.
pub struct Module {
    pub code: u32,
    pub words: Vec<u16>,
}

const GOOD: Kind = "good rows";
const SEVERAL: Kind = "several faults in a module";
const FRAME: Kind = "about as many rows as a frame";
const OTHER_RASTER: Kind = "rows of another raster";
const OTHER_HISTORY: Kind = "scrambled from another history";
const CUT: Kind = "cut anywhere";
const CUT_AT_LAST_EAV: Kind = "cut about the last EAV";
const SPLICE: Kind = "splice of two captures";
const SPLICE_OF_RASTERS: Kind = "splice of two rasters";

/// Those of short rows come oftener.
const CODES: [u32; 24] = [
    0, 1, 1, 1, 1, 1, 1, 1, 1, 1, 1, 2, 2, 3, 4, 5, 6, 6, 7, 8, 9, 9, 10, 11,
];
/// A few rows have about so many pairs at most.
const FEW_ROWS: u32 = 12_000;

pub fn kinds() -> Vec<Kind> {
    let shapes = [
        GOOD,
        SEVERAL,
        FRAME,
        OTHER_RASTER,
        OTHER_HISTORY,
        CUT,
        CUT_AT_LAST_EAV,
        SPLICE,
        SPLICE_OF_RASTERS,
    ];
    let faults = faults::all().into_iter().map(|(kind, _)| kind);
    let rowless = rowless::MAKERS.map(|(kind, _)| kind);
    shapes.into_iter().chain(faults).chain(rowless).collect()
}

pub fn any(random: &mut Random, notes: &mut Notes) -> Module {
    match random.below(16) {
        0 => splice(random, notes),
        1 | 2 => {
            let (kind, module) = rowless::any(random);
            notes.note(kind);
            module
        }
        _ => {
            let code = random.pick(&CODES);
            let mut module = few_rows(random, code, notes);
            cut(random, &mut module.words, notes);
            if random.one_in(15) {
                module.code = other_code(random, code);
                notes.note(OTHER_RASTER);
            }
            module
        }
    }
}

fn few_rows(random: &mut Random, code: u32, notes: &mut Notes) -> Module {
    let raster = raster_of(code).expect("the code is of the table");
    let most = FEW_ROWS / raster.total;
    let count = random.pick(&[1, 2, 2, 2, 3, 3, 3, 3, 4, 6]).min(most);
    let faults = random.pick(&[0, 0, 1, 1, 1, 1, 1, 2, 2, 3]);
    captured(random, code, count, faults, notes)
}

/// N + 1 rows of which N count, one less, or more; seldom with a fault.
pub fn frame(random: &mut Random, notes: &mut Notes) -> Module {
    let code = random.pick(&[1, 1, 1, 1, 2, 9]);
    let raster = raster_of(code).expect("the code is of the table");
    let count = raster.rows + random.pick(&[0, 1, 1, 1, 2, 5]);
    let faults = random.pick(&[0, 0, 1]);
    notes.note(FRAME);
    captured(random, code, count, faults, notes)
}

/// So many rows and the start of one more.
fn captured(
    random: &mut Random,
    code: u32,
    count: u32,
    fault_count: u32,
    notes: &mut Notes,
) -> Module {
    let mut sender = Sender::new(random, code);
    let rows: Vec<Row> = (0..=count).map(|_| sender.row(random)).collect();
    let faults = faults::choose(random, fault_count, notes);
    match fault_count {
        0 => notes.note(GOOD),
        1 => {}
        _ => notes.note(SEVERAL),
    }
    let mut history = 0;
    if random.one_in(6) {
        history = random.short(0, 0x3ff);
        notes.note(OTHER_HISTORY);
    }
    let words = faults::capture(random, rows, &faults, history);
    Module { code, words }
}

/// Seldom the capture ends anywhere, or about where its last EAV does.
fn cut(random: &mut Random, words: &mut Vec<u16>, notes: &mut Notes) {
    let (most, kind) = match random.below(8) {
        0 => (words.len(), CUT),
        1 => (30, CUT_AT_LAST_EAV),
        _ => return,
    };
    let lost = random.place(most + 1);
    words.truncate(words.len().saturating_sub(lost));
    notes.note(kind);
}

/// One with as many pairs in a row, of another kind, or any.
fn other_code(random: &mut Random, code: u32) -> u32 {
    let any = random.below(12);
    match code {
        0 => random.pick(&[10, any]),
        6..=8 => random.pick(&[code + 3, any]),
        9..=11 => random.pick(&[code - 3, any]),
        _ => any,
    }
}

/// The start of one capture, then the end of another.
fn splice(random: &mut Random, notes: &mut Notes) -> Module {
    let codes = [random.pick(&CODES), random.pick(&CODES)];
    let codes = random.pick(&[[codes[0]; 2], codes]);
    let [mut first, second] = codes.map(|code| {
        let count = random.between(1, 2);
        let faults = random.pick(&[0, 0, 0, 1]);
        captured(random, code, count, faults, notes)
    });
    first.words.truncate(random.place(first.words.len() + 1));
    let start = random.place(second.words.len() + 1);
    first.words.extend(&second.words[start..]);
    first.code = random.pick(&codes);
    notes.note(if codes[0] == codes[1] {
        SPLICE
    } else {
        SPLICE_OF_RASTERS
    });
    first
}
