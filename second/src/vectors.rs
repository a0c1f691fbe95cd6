//! Requests for the published numbers, each with the answer published for it.

mod built;
mod damaged;
mod desks;
mod modules;
mod packets;
mod row_ends;
mod sessions;
mod wiped;

use crate::functions::*;

pub struct Vector {
    pub request: Vec<u32>,
    /// What the paper or the data sheets print; held by the tests.
    #[cfg_attr(not(test), allow(dead_code))]
    pub answer: Vec<u32>,
}

fn vector(request: &[u32], answer: &[u32]) -> Vector {
    Vector {
        request: request.to_vec(),
        answer: answer.to_vec(),
    }
}

pub fn requests() -> impl Iterator<Item = Vec<u32>> {
    all().into_iter().map(|vector| vector.request)
}

fn all() -> Vec<Vector> {
    let groups = [
        timing_codes(),
        line_numbers(),
        cable(),
        crc(),
        word_limits(),
        row_limits(),
        rasters(),
        named_rasters(),
        unnamed_rasters(),
        picture_lines(),
        packets::all(),
        built::all(),
        damaged::all(),
        wiped::all(),
        sessions::all(),
        desks::all(),
        row_ends::all(),
        modules::all(),
    ];
    groups.into_iter().flatten().collect()
}

/// "(1) FVH 000..111 give 200 274 2AC 2D8 31C 368 3B0 3C4", built and read; bits 8, 7, 6 are F, V, H (003:939-945).
fn timing_codes() -> Vec<Vector> {
    let words = [0x200, 0x274, 0x2ac, 0x2d8, 0x31c, 0x368, 0x3b0, 0x3c4];
    (0..8)
        .zip(words)
        .flat_map(|(fvh, word)| {
            let (f, v, h) = (fvh >> 2 & 1, fvh >> 1 & 1, fvh & 1);
            [
                vector(&[XYZ, f, v, h], &[word]),
                vector(&[READ_XYZ, word], &[0, 1, f, v, h]),
            ]
        })
        .collect()
}

/// "(2) line 1: 204 200; (3) line 1125: 194 220; (4) line 64: 100 200", built and read.
fn line_numbers() -> Vec<Vector> {
    [(1, 0x204, 0x200), (1125, 0x194, 0x220), (64, 0x100, 0x200)]
        .into_iter()
        .flat_map(|(line, ln0, ln1)| {
            [
                vector(&[LINE_WORDS, 7, line], &[0, ln0, ln1]),
                vector(&[READ_LINE, 7, ln0, ln1], &[0, line]),
            ]
        })
        .collect()
}

/// "(5) scramble 001 from zero: 21F; (6) unscramble 001, 000 from zero: 263, 001".
fn cable() -> Vec<Vector> {
    vec![
        vector(&[SCRAMBLE, 0, 1, 0x001, 1, 0], &[0, 0x21f, 1, 0x21f]),
        vector(
            &[UNSCRAMBLE, 0, 2, 0x001, 0x000, 2, 0, 0],
            &[0, 0x000, 2, 0x263, 0x001],
        ),
        vector(&[UNSCRAMBLE, 0x001, 1, 0x000, 1, 0], &[0, 0x000, 1, 0x001]),
    ]
}

/// "(7) CRC of no words: 200 200; (8) CRC of the one word 200: register 23000, words 200 118".
fn crc() -> Vec<Vector> {
    vec![
        vector(&[CRC_AFTER_WORDS, 0, 0], &[0, 0]),
        vector(&[CRC_WORDS, 0], &[0, 0x200, 0x200]),
        vector(&[CRC_AFTER_WORDS, 0, 1, 0x200], &[0, 0x23000]),
        vector(&[CRC_WORDS, 0x23000], &[0, 0x200, 0x118]),
        // Words of zeros leave a register of zeros.
        vector(&[CRC_AFTER_WORDS, 0, 3, 0, 0, 0x200], &[0, 0x23000]),
        vector(&[CRC_AFTER_WORDS, 0, 5, 0, 0, 0, 0, 0x3ff], &[0, 0x3df08]),
    ]
}

/// "word 3FF passes, 400 gives 3", wherever a word or a history is taken; a carry's limit is 3FFFF.
/// What 3FF gives where it passes is worked by hand.
fn word_limits() -> Vec<Vector> {
    vec![
        vector(&[CRC_AFTER_WORDS, 0, 1, 0x3ff], &[0, 0x3df08]),
        vector(&[CRC_AFTER_WORDS, 0, 1, 0x400], &[3, 0]),
        vector(&[CRC_AFTER_WORDS, 0x3ffff, 0], &[0, 0x3ffff]),
        vector(&[CRC_AFTER_WORDS, 0x40000, 0], &[3, 0]),
        vector(&[CRC_WORDS, 0x3ffff], &[0, 0x1ff, 0x1ff]),
        vector(&[CRC_WORDS, 0x40000], &[3, 0, 0]),
        vector(&[SCRAMBLE, 0x3ff, 0, 0], &[0, 0x3ff, 0]),
        vector(&[SCRAMBLE, 0x400, 0, 0], &[3, 0, 0]),
        vector(&[SCRAMBLE, 0, 1, 0x3ff, 1, 0x155], &[0, 0x1f5, 1, 0x1f5]),
        vector(&[SCRAMBLE, 0, 1, 0x400, 1, 0x155], &[3, 0, 1, 0x155]),
        vector(&[UNSCRAMBLE, 0x3ff, 0, 0], &[0, 0x3ff, 0]),
        vector(&[UNSCRAMBLE, 0x400, 0, 0], &[3, 0, 0]),
        vector(&[UNSCRAMBLE, 0x3ff, 1, 0x3ff, 1, 0x155], &[0, 0x3ff, 1, 0]),
        vector(&[UNSCRAMBLE, 0, 1, 0x400, 1, 0x155], &[3, 0, 1, 0x155]),
        vector(&[FIND_SYNC, 1, 0x3ff], &[0, 0, 0]),
        vector(&[FIND_SYNC, 1, 0x400], &[3, 0, 0]),
        vector(&[FIND_SYNC, 6, 0x3ff, 0x3ff, 0, 0, 0, 0], &[0, 1, 0]),
        vector(&[READ_XYZ, 0x3ff], &[0, 0, 0, 0, 0]),
        vector(&[READ_XYZ, 0x400], &[3, 0, 0, 0, 0]),
        vector(&[READ_LINE, 1, 0x3ff, 0x3ff], &[0, 0]),
        vector(&[READ_LINE, 1, 0x400, 0x200], &[3, 0]),
        vector(&[READ_LINE, 1, 0x204, 0x400], &[3, 0]),
    ]
}

/// "row 750 of raster 1 passes, 751 and 0 give 5".
fn row_limits() -> Vec<Vector> {
    vec![
        vector(&[V_AND_F, 1, 750], &[0, 1, 0]),
        vector(&[V_AND_F, 1, 751], &[5, 0, 0]),
        vector(&[V_AND_F, 1, 0], &[5, 0, 0]),
        vector(&[LINE_WORDS, 1, 750], &[0, 0x1b8, 0x214]),
        vector(&[LINE_WORDS, 1, 751], &[5, 0, 0]),
        vector(&[LINE_WORDS, 1, 0], &[5, 0, 0]),
    ]
}

/// Code, T, A, N, kind and the HANC length that document 004 prints for it, on the line beside it; it is T-A-12.
const ROWS: [[u32; 6]; 11] = [
    [1, 1650, 1280, 750, 0, 358],   // 004:1108
    [2, 1980, 1280, 750, 0, 688],   // 004:1112
    [3, 3300, 1280, 750, 0, 2008],  // 004:1110
    [4, 3960, 1280, 750, 0, 2668],  // 004:1114
    [5, 4125, 1280, 750, 0, 2833],  // 004:1121
    [6, 2200, 1920, 1125, 1, 268],  // 004:1123
    [7, 2640, 1920, 1125, 1, 708],  // 004:1125
    [8, 2750, 1920, 1125, 1, 818],  // 004:1130
    [9, 2200, 1920, 1125, 0, 268],  // 004:1124
    [10, 2640, 1920, 1125, 0, 708], // 004:1126
    [11, 2750, 1920, 1125, 0, 818], // 004:1129
];

/// A row's T is asked to be A, the HANC length and the twelve pairs of EAV, LN, CRC and SAV.
fn rasters() -> Vec<Vector> {
    let mut vectors: Vec<Vector> = ROWS
        .iter()
        .map(|&[code, _, active, rows, kind, hanc]| {
            vector(
                &[RASTER_ROW, code],
                &[0, code, active + hanc + 12, active, rows, kind],
            )
        })
        .collect();
    vectors.push(vector(&[RASTER_ROW, 0], &[0, 7, 2640, 1920, 1125, 1]));
    vectors.push(vector(&[RASTER_ROW, 12], &[4, 0, 0, 0, 0, 0]));
    vectors
}

fn named_rasters() -> Vec<Vector> {
    ROWS.iter()
        .map(|&[code, total, active, rows, kind, _]| {
            vector(&[NAME_RASTER, total, active, rows, kind], &[code])
        })
        .collect()
}

/// T, A and N of rasters that the data sheets print and no row of the table fits, each as progressive and as two fields.
fn unnamed_rasters() -> Vec<Vector> {
    let counts = [
        // 1250 rows, also misprinted for rasters of 2640 and 5280 words.
        [2376, 1920, 1250], // 000:1227
        [2640, 1920, 1250], // 003:1529
        [5280, 3840, 1250], // 003:1518
        // 2048 active words.
        [2200, 2048, 1125], // 000:1197
        [2640, 2048, 1125], // 000:1198
        [2750, 2048, 1125], // 000:1199
        // Extended (EM) rasters: T and N of a row of the table, more active words.
        [1650, 1440, 750],  // 000:1251
        [1980, 1728, 750],  // 000:1245
        [3300, 2880, 750],  // 000:1243
        [3960, 3456, 750],  // 000:1247
        [4125, 3600, 750],  // 000:1249
        [2640, 2304, 1125], // 000:1234
        [2750, 2400, 1125], // 000:1236
        // 525 rows; and 625, a count that the data sheet's line does not print.
        [1716, 1440, 525], // 000:1252
        [1728, 1440, 625], // 000:1256
        // Misprints of 1650 and 2200.
        [1660, 1280, 750],  // 002:67
        [2220, 1920, 1125], // 002:73
    ];
    counts
        .into_iter()
        .flat_map(|[total, active, rows]| {
            [0, 1].map(|kind| vector(&[NAME_RASTER, total, active, rows, kind], &[0]))
        })
        .collect()
}

/// The timing figures' first and last picture lines (002:67 and 002:69 for 750 rows, 002:68 and 002:70 for two fields,
/// 002:71-73 for 1125 progressive), and F's change at 564, which no data sheet prints, each with its neighbour.
fn picture_lines() -> Vec<Vector> {
    let fields = [
        (1..=5, [1, 25, 26, 745, 746, 750], 0),
        (9..=11, [1, 41, 42, 1121, 1122, 1125], 0),
        (6..=8, [1, 20, 21, 560, 561, 563], 0),
        (6..=8, [564, 583, 584, 1123, 1124, 1125], 1),
    ];
    let mut vectors = Vec::new();
    for (codes, lines, f) in fields {
        for code in codes {
            let lines = lines.into_iter().zip([1, 1, 0, 0, 1, 1]);
            vectors.extend(lines.map(|(line, v)| vector(&[V_AND_F, code, line], &[0, v, f])));
        }
    }
    vectors
}

#[cfg(test)]
mod tests {
    use super::*;
    use crate::requests::{answer, format_line};

    #[test]
    fn every_answer_is_the_published_one() {
        for vector in all() {
            let request = format_line(&vector.request);
            let published = format_line(&vector.answer);
            assert_eq!(answer(&request), Ok(published), "{request}");
        }
    }
}
