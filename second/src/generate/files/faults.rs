//! The faults that are chosen for a capture, and the capture of rows that they spoil on their way.

use super::signal::Signal;
use super::{aim, Kind, Notes};
use super::{bit_faults, cable_faults, code_faults, content_faults, distance_faults, order_faults};
use crate::cable::scrambled;
use crate::check::next_carry;
use crate::generate::rows::{make_crc_right, Row};
use crate::generate::signals::{noise, whole_words};
use crate::random::Random;
use crate::words::WORD_BITS;

/// How a capture is spoilt, by the stage of its way.
#[derive(Clone, Copy)]
pub enum Damage {
    Order(fn(&mut Random, &mut Vec<Row>, usize)),
    /// In a row of which all is sent.
    Row(fn(&mut Random, &mut Row)),
    /// In any row, also the last, which is only begun.
    Code(fn(&mut Random, &mut Row)),
    /// Once the CRC words are made.
    Distance(fn(&mut Random, &mut Row)),
    Bits(fn(&mut Random, &mut Signal)),
    Cable(fn(&mut Random, &mut Vec<bool>)),
}

/// All of them, with their names.
pub fn all() -> Vec<(Kind, Damage)> {
    [
        named(&order_faults::FAULTS, Damage::Order),
        named(&content_faults::FAULTS, Damage::Row),
        named(&code_faults::FAULTS, Damage::Code),
        named(&distance_faults::FAULTS, Damage::Distance),
        named(&bit_faults::FAULTS, Damage::Bits),
        named(&cable_faults::FAULTS, Damage::Cable),
    ]
    .concat()
}

fn named<Spoil: Copy>(
    faults: &[(Kind, Spoil)],
    damage: fn(Spoil) -> Damage,
) -> Vec<(Kind, Damage)> {
    let faults = faults.iter().map(|&(kind, spoil)| (kind, damage(spoil)));
    faults.collect()
}

/// So many: the first in turn, the others any.
pub fn choose(random: &mut Random, count: u32, notes: &mut Notes) -> Vec<Damage> {
    let all = all();
    let choose = |number| match number {
        0 => notes.in_turn(&all),
        _ => notes.any(random, &all),
    };
    (0..count).map(choose).collect()
}

/// The cable words of rows, of the last of which mostly only the first pairs are sent.
pub fn capture(
    random: &mut Random,
    mut rows: Vec<Row>,
    damages: &[Damage],
    history: u16,
) -> Vec<u16> {
    let layout = rows[0].head.layout();
    spoil_rows(random, &mut rows, damages);
    shorten_last(random, &mut rows);
    let before = bits_before(random);
    let mut signal = Signal::of(before, &rows, &layout);
    for damage in damages {
        if let Damage::Bits(spoil) = damage {
            spoil(random, &mut signal);
        }
    }
    let mut cable = scrambled(history, &whole_words(&signal.bits));
    cable.drain(..WORD_BITS);
    for damage in damages {
        if let Damage::Cable(spoil) = damage {
            spoil(random, &mut cable);
        }
    }
    whole_words(&cable)
}

/// Half of the time the CRC words are made of rows that are spoilt already.
fn spoil_rows(random: &mut Random, rows: &mut Vec<Row>, damages: &[Damage]) {
    for damage in damages {
        let last = rows.len() - 1;
        let sent = aim(random, last.max(1));
        let any = random.pick(&[sent, sent, sent, last]);
        match damage {
            Damage::Order(spoil) => spoil(random, rows, sent),
            Damage::Row(spoil) => spoil(random, &mut rows[sent]),
            Damage::Code(spoil) => spoil(random, &mut rows[any]),
            _ => {}
        }
    }
    if !damages.is_empty() && random.bit() {
        make_crcs_right(rows);
    }
    for damage in damages {
        if let Damage::Distance(spoil) = damage {
            let sent = aim(random, (rows.len() - 1).max(1));
            spoil(random, &mut rows[sent]);
        }
    }
}

/// The CRC words that the rows, as they are now, ask for.
fn make_crcs_right(rows: &mut [Row]) {
    let mut carry = rows[0].head.carry;
    for row in rows {
        row.head.carry = carry;
        make_crc_right(row);
        let words = row.words.each_ref().map(Vec::as_slice);
        carry = Some(next_carry(&row.head.layout(), words));
    }
}

/// Mostly the last row is only begun, which completes the one before.
fn shorten_last(random: &mut Random, rows: &mut [Row]) {
    let any = random.place(60);
    let pairs = random.pick(&[0, 4, 5, 5, 6, 8, 12, any, usize::MAX]);
    if let Some(row) = rows.last_mut() {
        row.words.iter_mut().for_each(|words| words.truncate(pairs));
    }
}

/// So that the first row starts at any bit.
fn bits_before(random: &mut Random) -> Vec<bool> {
    let more = random.pick(&[20, 50, 400]);
    let count = random.pick(&[0, 0, 0, more]) + random.place(20);
    noise(random, count)
}
