//! The table of rasters, naming, and V and F of a line.

use crate::refusal::{refuse, Refusal};

#[derive(Clone, Copy, Debug, PartialEq, Eq)]
pub enum Kind {
    Progressive = 0,
    TwoFields = 1,
}

use Kind::{Progressive, TwoFields};

#[derive(Clone, Copy, Debug, PartialEq, Eq)]
pub struct Raster {
    pub code: u32,
    /// T, the pairs of a row.
    pub total: u32,
    /// A, the active pairs of a row.
    pub active: u32,
    /// N, the rows.
    pub rows: u32,
    pub kind: Kind,
}

const fn raster(code: u32, total: u32, active: u32, rows: u32, kind: Kind) -> Raster {
    Raster {
        code,
        total,
        active,
        rows,
        kind,
    }
}

pub const TABLE: [Raster; 11] = [
    raster(1, 1650, 1280, 750, Progressive),
    raster(2, 1980, 1280, 750, Progressive),
    raster(3, 3300, 1280, 750, Progressive),
    raster(4, 3960, 1280, 750, Progressive),
    raster(5, 4125, 1280, 750, Progressive),
    raster(6, 2200, 1920, 1125, TwoFields),
    raster(7, 2640, 1920, 1125, TwoFields),
    raster(8, 2750, 1920, 1125, TwoFields),
    raster(9, 2200, 1920, 1125, Progressive),
    raster(10, 2640, 1920, 1125, Progressive),
    raster(11, 2750, 1920, 1125, Progressive),
];

fn row(code: u32) -> Option<Raster> {
    // "Code 0 stands for 7, our local cameras, and is printed as 7."
    let code = if code == 0 { 7 } else { code };
    TABLE.into_iter().find(|raster| raster.code == code)
}

/// The row of the table, or refusal 4: "raster not 0..11".
pub fn raster_of(code: u32) -> Result<Raster, Refusal> {
    row(code).ok_or(Refusal::Raster)
}

/// The row of the table for a line of it, or refusal 4 or 5: "line not 1..N".
pub fn raster_with_line(code: u32, line: u32) -> Result<Raster, Refusal> {
    // 4 comes before 5 in the order; without a row there is no N.
    let raster = raster_of(code)?;
    refuse(&[(Refusal::Line, !(1..=raster.rows).contains(&line))])?;
    Ok(raster)
}

/// "Naming a raster takes T, A, N and kind, and answers the code, or 0 when no row of the table fits."
pub fn name(total: u32, active: u32, rows: u32, kind: Kind) -> u32 {
    TABLE
        .into_iter()
        .find(|&row| row == raster(row.code, total, active, rows, kind))
        .map_or(0, |row| row.code)
}

/// "V is 0 on lines 26 to 745 (750 rows); 42 to 1121 (1125 progressive);
/// 21 to 560 and 584 to 1123 (two fields); else 1."
fn v(raster: Raster, line: u32) -> bool {
    let zero = match (raster.rows, raster.kind) {
        (750, _) => (26..=745).contains(&line),
        (_, Progressive) => (42..=1121).contains(&line),
        (_, TwoFields) => (21..=560).contains(&line) || (584..=1123).contains(&line),
    };
    !zero
}

/// "F is 1 only in two-field rasters, lines 564 to 1125."
fn f(raster: Raster, line: u32) -> bool {
    raster.kind == TwoFields && (564..=1125).contains(&line)
}

pub fn v_and_f(code: u32, line: u32) -> Result<(bool, bool), Refusal> {
    let raster = raster_with_line(code, line)?;
    Ok((v(raster, line), f(raster, line)))
}
