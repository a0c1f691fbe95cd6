//! What the requests of rows and packets hold.

use super::{answered, asked, Asked};
use crate::check::check;
use crate::correct::correct;
use crate::functions::*;
use crate::generate::pieces::pair;
use crate::generate::rows::{row, Row};
use crate::layout::Layout;
use crate::packet::{at, wipe, Found};
use crate::random::Random;
use crate::words::is_reserved;
use std::collections::BTreeSet;

#[test]
fn every_flag_comes_alone_and_rows_without_a_flag_come() {
    let checked = answered(&[CHECK_ROW]);
    let come: BTreeSet<u32> = checked.map(|asked| asked.answer[1]).collect();
    for flags in (0..9).map(|bit| 1 << bit).chain([0]) {
        assert!(come.contains(&flags), "{flags:x}");
    }
}

/// A row that is not refused: its layout, and its channels, which stand after so many arguments.
fn read_row(asked: &Asked, passed: usize) -> Option<(Layout, [Vec<u16>; 2])> {
    let layout = Layout::of(asked.request[1], asked.request[2]).ok()?;
    let mut arguments = asked.arguments(passed);
    let words = [(); 2].map(|()| arguments.runs().expect("runs"));
    (asked.answer[0] == 0).then_some((layout, words))
}

/// Words may be passed by sixteen.
const SIXTEEN: usize = 16;

/// That each place of sixteen comes so many times.
fn assert_at_every_place(places: impl Iterator<Item = usize>, times: u32) {
    let mut come = [0; SIXTEEN];
    places.for_each(|place| come[place % SIXTEEN] += 1);
    assert!(come.iter().all(|&count| count >= times), "{come:?}");
}

/// From a region's start, or from the last 000.
#[test]
fn a_000_comes_at_every_place_after_a_stretch_without_one() {
    let rows = asked(&[EXTRACT]).filter_map(|asked| read_row(asked, 3));
    let stretches = rows.flat_map(|(layout, channels)| {
        let mut lengths = Vec::new();
        for words in &channels {
            for region in layout.packet_regions() {
                let ended = words[region].split_inclusive(|&word| word == 0);
                let ended = ended.filter(|words| words.ends_with(&[0]));
                lengths.extend(ended.map(|words| words.len() - 1));
            }
        }
        lengths
    });
    assert_at_every_place(stretches.filter(|&length| length >= SIXTEEN), 3);
}

#[test]
fn every_reserved_code_comes_in_a_picture_and_at_every_place() {
    let rows = asked(&[CHECK_ROW]).filter_map(|asked| read_row(asked, 5));
    let mut found = Vec::new();
    for (layout, channels) in rows.filter(|(layout, _)| !layout.v) {
        for words in channels {
            let active = words[layout.active()].iter().copied().enumerate();
            found.extend(active.filter(|(_, word)| is_reserved(*word)));
        }
    }
    for code in (0..4).chain(0x3fc..0x400) {
        let come = found.iter().filter(|(_, word)| *word == code);
        assert!(come.count() >= 3, "{code:x}");
    }
    assert_at_every_place(found.iter().map(|&(place, _)| place), 3);
}

/// For each cut packet of a row that is corrected with wiping, what stands there once it is wiped.
fn wiped_cuts(asked: &Asked) -> Vec<Found> {
    let wiping = asked.request[6] == 1;
    let Some((layout, channels)) = read_row(asked, 6).filter(|_| wiping) else {
        return Vec::new();
    };
    let mut found = Vec::new();
    for words in channels {
        for region in layout.packet_regions() {
            let region = &words[region];
            let mut wiped = region.to_vec();
            wipe(&mut wiped, 0x040);
            let cuts = (0..region.len()).filter(|&place| at(region, place) == Found::Cut);
            found.extend(cuts.map(|place| at(&wiped, place)));
        }
    }
    found
}

#[test]
fn wiping_makes_some_cut_packets_whole() {
    let cuts: Vec<Found> = asked(&[CORRECT_ROW]).flat_map(wiped_cuts).collect();
    assert!(cuts.contains(&Found::Cut));
    assert!(cuts.iter().any(|found| matches!(found, Found::Whole(_))));
}

fn flags(row: &Row) -> u32 {
    let words = row.words.each_ref().map(Vec::as_slice);
    let checked = check(row.head.code, row.head.line, row.head.carry, words);
    checked.expect("the row can be read").0
}

/// "Rechecked with the same carried CRC, flags 0 to 6 are clear; 7 and 8 remain as they were."
#[test]
fn corrected_rows_keep_flags_7_and_8_only() {
    let mut random = Random::new(3);
    for wipe in [false, true].repeat(1000) {
        let wanted = pair(&mut random);
        let mut row = row(&mut random, wanted);
        let before = flags(&row);
        let words = row.words.each_mut().map(Vec::as_mut_slice);
        let head = row.head;
        correct(head.code, head.line, head.carry, wipe, words).expect("it can be corrected");
        let after = flags(&row);
        assert_eq!(after & 0x7f, 0);
        assert!(wipe || after == before & 0x180);
    }
}
