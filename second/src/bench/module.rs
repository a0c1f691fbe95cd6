//! A module from all its words at once: what comes of each of its rows, and the counts and the verdict that follow.

use super::open_rows::{open_rows, End, OpenRow};
use super::places::{Bits, PAIR};
use crate::check::judge;
use crate::layout::{Layout, LINE};
use crate::raster::Raster;
use crate::session::{Report, Verdict};
use crate::timing::line_of;

/// What comes of a row.
#[derive(Clone, Copy)]
pub enum Outcome {
    Judged {
        flags: u32,
        crc_judged: bool,
    },
    /// Complete, but its line words are not exact while no line is known.
    Unnumbered,
    NotComplete(End),
}

impl Outcome {
    /// "A row counts once its CRC could be judged."
    fn counts(&self) -> bool {
        matches!(
            self,
            Self::Judged {
                crc_judged: true,
                ..
            }
        )
    }

    /// "One fault each: a judged row with any flag; an EAV at another distance; the four pairs after the T-th not an EAV; a
    /// sync at another alignment."
    fn is_fault(&self) -> bool {
        match *self {
            Self::Judged { flags, .. } => flags != 0,
            // "else one fault"
            Self::Unnumbered => true,
            Self::NotComplete(end) => end != End::Unfinished,
        }
    }
}

/// "End answers raster, both counts and verdict".
pub fn report(raster: Raster, words: &[u16]) -> Report {
    let bits = Bits::of(words);
    let syncs = bits.syncs();
    let rows = open_rows(&syncs, raster.total as usize, bits.count());
    let outcomes = outcomes(raster, &bits, &rows);
    let rows = count(&outcomes, Outcome::counts);
    let faults = count(&outcomes, Outcome::is_fault);
    Report {
        raster: raster.code,
        rows,
        faults,
        // "Verdict, first that holds: NO SIGNAL, no sync; FAIL, faults not 0; SHORT, rows below N; PASS."
        verdict: match faults {
            _ if syncs.is_empty() => Verdict::NoSignal,
            1.. => Verdict::Fail,
            0 if rows < raster.rows => Verdict::Short,
            0 => Verdict::Pass,
        },
    }
}

/// "Both counts stay at 4,294,967,295 once there."
fn count(outcomes: &[Outcome], counts: fn(&Outcome) -> bool) -> u32 {
    let count = outcomes.iter().filter(|outcome| counts(outcome)).count();
    count.try_into().unwrap_or(u32::MAX)
}

/// The rows fall into runs, each of complete rows and of one that is not, the last of all too: what ends that one drops
/// "the row, carry and expected line".
pub fn outcomes(raster: Raster, bits: &Bits, rows: &[OpenRow]) -> Vec<Outcome> {
    let mut outcomes = Vec::new();
    for run in rows.split_inclusive(|row| row.end != End::Complete) {
        let complete = run.iter().filter(|row| row.end == End::Complete);
        let places: Vec<usize> = complete.map(|row| row.place).collect();
        outcomes.extend(outcomes_of_run(raster, bits, &places));
        outcomes.extend(run.last().map(|row| Outcome::NotComplete(row.end)));
    }
    outcomes
}

/// "The expected line is taken from the Y line words of the first complete row while none is known, if these are exact and in
/// 1..N (else one fault; that row is not judged, leaves no carry, and the next is tried)".
fn outcomes_of_run(raster: Raster, bits: &Bits, places: &[usize]) -> Vec<Outcome> {
    let lines = places.iter().map(|&place| line_at(raster, bits, place));
    let first_exact = lines.enumerate().find_map(|(row, line)| Some((row, line?)));
    let Some((row, line)) = first_exact else {
        return vec![Outcome::Unnumbered; places.len()];
    };
    let mut outcomes = vec![Outcome::Unnumbered; row];
    outcomes.extend(judged(raster, bits, &places[row..], line));
    outcomes
}

fn line_at(raster: Raster, bits: &Bits, place: usize) -> Option<u32> {
    let [y, _] = bits.pairs(place + LINE.start * PAIR, LINE.len());
    line_of(raster, [y[0], y[1]])
}

/// Rows that follow one another, the first of this line; then it "goes up by one and from N to 1".
fn judged(raster: Raster, bits: &Bits, places: &[usize], first: u32) -> Vec<Outcome> {
    let lines = (1..=raster.rows).cycle().skip(first as usize - 1);
    // "With no row before, CRC is neither judged nor corrected."
    let mut carry = None;
    let rows = places.iter().zip(lines).map(|(&place, line)| {
        let [y, c] = bits.pairs(place, raster.total as usize);
        let layout = Layout::of(raster.code, line).expect("the line is of the raster");
        let (flags, next) = judge(&layout, carry, [&y, &c]);
        let crc_judged = carry.replace(next).is_some();
        Outcome::Judged { flags, crc_judged }
    });
    rows.collect()
}
