//! Faults in timing codes: missing, broken, another code, in one channel or in both.

use super::Fault;
use crate::generate::rows::Row;
use crate::layout::{BLANKING, C, EAV, Y};
use crate::random::Random;
use crate::timing::{read_xyz, xyz, SYNC_WORDS};
use std::ops::{Range, RangeInclusive};

pub const FAULTS: [Fault<Row>; 16] = [
    ("EAV missing", |_, row| blank(row, EAV)),
    ("EAV's sync damaged", damage_eav_sync),
    ("EAV's XYZ broken in both channels", break_eav_xyz::<Y, C>),
    ("EAV's XYZ broken in Y", break_eav_xyz::<Y, Y>),
    ("EAV's XYZ broken in C", break_eav_xyz::<C, C>),
    ("another EAV code in Y", other_f_or_v::<Y>),
    ("another EAV code in C", other_f_or_v::<C>),
    ("SAV code in place of EAV's", |_, row| {
        change_xyz(row, Y..=C, H)
    }),
    ("SAV code in place of EAV's in Y", |_, row| {
        change_xyz(row, Y..=Y, H)
    }),
    ("SAV code in place of EAV's in C", |_, row| {
        change_xyz(row, C..=C, H)
    }),
    ("F wrong", |_, row| change_xyz(row, Y..=C, F)),
    ("V wrong", |_, row| change_xyz(row, Y..=C, V)),
    ("SAV damaged", damage_sav),
    ("SAV missing", |_, row| blank(row, row.head.layout().sav())),
    ("EAV code in place of SAV's", |_, row| {
        let layout = row.head.layout();
        lay_code(row, layout.sav().start, layout.eav_words()[XYZ]);
    }),
    ("code amid a row", code_amid),
];

/// The place of the XYZ word.
const XYZ: usize = EAV.end - 1;

/// Which of F, V and H become others.
type Changed = [bool; 3];
const F: Changed = [true, false, false];
const V: Changed = [false, true, false];
const H: Changed = [false, false, true];

fn blank(row: &mut Row, part: Range<usize>) {
    for (words, blanking) in row.words.iter_mut().zip(BLANKING) {
        words[part.clone()].fill(blanking);
    }
}

fn damage_eav_sync(random: &mut Random, row: &mut Row) {
    let words = &mut row.words[random.place(2)];
    words[random.place(XYZ)] ^= 1 << random.below(10);
}

fn damage_sav(random: &mut Random, row: &mut Row) {
    let sav = row.head.layout().sav();
    let words = &mut row.words[random.place(2)];
    words[sav.start + random.place(sav.len())] ^= 1 << random.below(10);
}

/// One bit: such a word is no code at all.
fn break_eav_xyz<const FIRST: usize, const LAST: usize>(random: &mut Random, row: &mut Row) {
    let bit = 1 << random.below(10);
    for words in &mut row.words[FIRST..=LAST] {
        words[XYZ] ^= bit;
    }
}

fn other_f_or_v<const CHANNEL: usize>(random: &mut Random, row: &mut Row) {
    let changed = random.pick(&[F, V, [true, true, false]]);
    change_xyz(row, CHANNEL..=CHANNEL, changed);
}

fn change_xyz(row: &mut Row, channels: RangeInclusive<usize>, [in_f, in_v, in_h]: Changed) {
    for words in &mut row.words[channels] {
        // One that was broken before stays so.
        if let Ok(Some((f, v, h))) = read_xyz(words[XYZ]) {
            words[XYZ] = xyz(f ^ in_f, v ^ in_v, h ^ in_h);
        }
    }
}

/// A sync of the row's alignment and any code after it, at any pair of the row.
fn code_amid(random: &mut Random, row: &mut Row) {
    let total = row.words[Y].len();
    let any = EAV.end + random.place(total - 2 * EAV.len());
    let place = random.pick(&[any, any, EAV.end, total - EAV.len()]);
    lay_code(row, place, xyz(random.bit(), random.bit(), random.bit()));
}

fn lay_code(row: &mut Row, place: usize, xyz: u16) {
    let [first, second, third] = SYNC_WORDS;
    for words in &mut row.words {
        words[place..place + EAV.len()].copy_from_slice(&[first, second, third, xyz]);
    }
}
