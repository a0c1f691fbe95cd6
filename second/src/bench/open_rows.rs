//! Where rows open, and how each of them ends, by places and distances.

use super::places::{Sync, CODE, PAIR};
use crate::cable::SYNC_BITS;

#[derive(Clone, Copy, Debug, PartialEq, Eq)]
pub enum End {
    /// "It is complete when the next EAV comes T pairs later".
    Complete,
    /// "an EAV at another distance"
    OtherDistance,
    /// "the four pairs after the T-th not an EAV"
    NoEav,
    /// "a sync at another alignment"
    OtherAlignment,
    /// "An unfinished row at the end is dropped without a fault."
    Unfinished,
}

pub struct OpenRow {
    /// The place of the first bit of its EAV.
    pub place: usize,
    pub end: End,
}

/// "A row opens at a sync whose Y XYZ is an exact EAV code, also where that EAV has just ended or dropped another row":
/// so at every EAV, and by the next one it has ended.
pub fn open_rows(syncs: &[Sync], total: usize, bits: usize) -> Vec<OpenRow> {
    let eavs = (0..syncs.len()).filter(|&eav| syncs[eav].is_eav);
    let opened = eavs.map(|eav| {
        let place = syncs[eav].place;
        let later = &syncs[eav + 1..];
        let next = later.iter().position(|sync| sync.is_eav);
        let to_next = next.map_or(later, |next| &later[..=next]);
        let end = row_end(place, to_next, total, bits);
        OpenRow { place, end }
    });
    opened.collect()
}

/// What comes first of that which can end a row, each "at the last bit of that XYZ pair, of those four pairs or of that
/// sync", if it comes in these bits. The syncs are those after the row's own up to the next EAV.
fn row_end(start: usize, syncs: &[Sync], total: usize, bits: usize) -> End {
    let four_pairs = start + total * PAIR + CODE;
    let eav = syncs.last().filter(|sync| sync.is_eav);
    let eav = eav.map(|sync| sync.place + CODE);
    // Another place modulo a pair: "half a pair off swaps C and Y".
    let astray = |sync: &&Sync| !(sync.place - start).is_multiple_of(PAIR);
    let astray = syncs.iter().find(astray);
    let astray = astray.map(|sync| sync.place + SYNC_BITS);
    let first = eav.into_iter().chain(astray).fold(four_pairs, usize::min);
    if first > bits {
        End::Unfinished
    } else if astray == Some(first) {
        End::OtherAlignment
    } else if eav != Some(first) {
        End::NoEav
    } else if first != four_pairs {
        End::OtherDistance
    } else {
        End::Complete
    }
}
