//! What comes in the requests of the gate's seeds, and in its bench files, by its place from the start of what is fed at once.

use super::section_ends::{read_file, Reading, Seen};
use super::walk::{Places, Walk};
use super::{answered, feed};
use crate::arguments::Arguments;
use crate::desk::Desk;
use crate::functions::*;
use crate::gate::FILE_SEEDS;
use crate::generate::code_feeds::ZEROS;
use crate::generate::files::file;
use crate::generate::fixed;
use crate::generate::long_sections::{FEW, RUN};
use crate::generate::sessions::begun;
use crate::requests::desks::desk_after;
use crate::requests::format_line;

fn of_feeds() -> Places {
    let mut places = Places::default();
    for asked in answered(&[FEED]) {
        let feed = feed(asked);
        let mut walk = Walk::of(&feed.numbers);
        walk.feed(&feed.words, &mut places);
        let after = Arguments::parse(&format_line(&asked.answer[1..]));
        let after = after.and_then(|mut numbers| numbers.session());
        assert!(walk.is_at(&after.expect("a session")));
    }
    places
}

fn of_modules() -> Places {
    let mut places = Places::default();
    for asked in answered(&[MODULE]) {
        let mut arguments = asked.arguments(1);
        let lengths = arguments.list().expect("lengths");
        let words = arguments.signal(0).expect("a signal");
        let mut walk = Walk::of(&begun(asked.request[1]));
        let mut refusals = asked.answer[2..].iter();
        let mut left = &words[..];
        for length in lengths.into_iter().map(usize::from).chain([usize::MAX]) {
            let (part, rest) = left.split_at(length.min(left.len()));
            if refusals.next() == Some(&0) {
                walk.feed(part, &mut places);
            }
            left = rest;
        }
    }
    places
}

/// Of desks and of single takes.
fn of_desks() -> Seen {
    let mut seen = Seen::default();
    // The buffers are the same for all takes, so all are refused or none.
    for asked in answered(&[DESK]) {
        let mut arguments = asked.arguments(0);
        let lengths = arguments.list().expect("lengths");
        let bytes = arguments.bytes().expect("bytes");
        let mut reading = Reading::of(&Desk::default());
        let mut left = &bytes[..];
        for length in lengths.into_iter().map(usize::from).chain([usize::MAX]) {
            let lent = &left[..length.min(left.len())];
            left = &left[reading.take(lent, &mut seen)..];
        }
        reading.note_cut(&mut seen);
    }
    for asked in answered(&[TAKE]) {
        let mut arguments = asked.arguments(0);
        let lengths = arguments.list().expect("lengths");
        let bytes = arguments.bytes().expect("bytes");
        let (desk, left) = desk_after(&lengths, &bytes);
        let numbers = arguments.session().expect("a session");
        Reading::of(&desk.with_session(numbers)).take(left, &mut seen);
    }
    seen
}

/// Each at every place, at least so many times.
fn assert_at_every_place(places: &Places, signs: &[&str], times: u32) {
    for sign in signs {
        assert!(places.least(sign) >= times, "{sign}: {places:?}");
    }
}

const SYNCS: [&str; 3] = ["sync outside", "sync with a pair", "sync astray"];
const EVENTS: [&str; 4] = ["opens", "whole", "early", "late"];
const ABOUT_T: [&str; 2] = ["early at T-1", "opens at T+1"];
const NEARLY: [&str; 5] = [
    "39 zeros after 19 ones",
    "39 zeros after 20 ones",
    "40 zeros after 19 ones",
    "41 zeros after 19 ones",
    "sync but for a bit",
];

fn assert_zeros(places: &Places, times: u32) {
    for zeros in ZEROS {
        assert_at_every_place(places, &[&format!("{zeros} zeros")], times);
    }
}

/// Feeds of odd and even numbers of words end amid codes, and with each pair about the T-th.
fn assert_ends(places: &Places, times: u32) {
    let pairs = (-1..=3).map(|pairs| format!("end with T{pairs:+} pairs"));
    let codes = ["in a sync's zeros", "in an XYZ pair", "with an EAV"];
    for sign in pairs.chain(codes.map(|code| format!("end {code}"))) {
        for odd in [0, 1] {
            let lengths = (1..10).filter(|words| words % 2 == odd);
            let come: u32 = lengths.map(|words| places.at(&sign, words)).sum();
            assert!(come >= times, "{sign}, odd {odd}: {places:?}");
        }
    }
}

#[test]
fn in_feeds_codes_rows_and_zeros_end_at_every_place() {
    let places = of_feeds();
    assert_at_every_place(&places, &SYNCS, 15);
    assert_at_every_place(&places, &EVENTS, 20);
    assert_at_every_place(&places, &ABOUT_T, 1);
    assert_at_every_place(&places, &NEARLY, 1);
    assert_zeros(&places, 5);
    assert_ends(&places, 2);
}

#[test]
fn in_modules_codes_rows_and_zeros_end_at_every_place() {
    let places = of_modules();
    assert_at_every_place(&places, &SYNCS, 30);
    assert_at_every_place(&places, &EVENTS, 1);
    assert_zeros(&places, 1);
    assert_ends(&places, 2);
    // Of feeds of each number of words from one to five, and of more, odd and even.
    for sign in [
        "in a sync's zeros",
        "in an XYZ pair",
        "with a sync",
        "with an EAV",
    ] {
        for words in [1, 2, 3, 4, 5, 8, 9] {
            let come = places.at(&format!("end {sign}"), words);
            assert!(come >= 1, "{sign}, {words}");
        }
    }
}

/// About runs of 256 and 1,024 words: so many, one or two more, and one or two less.
fn about_runs() -> impl Iterator<Item = usize> {
    (FEW - 2..=FEW + 2).chain(RUN - 2..=RUN + 2)
}

#[test]
fn at_desks_syncs_end_at_every_place_and_sections_about_a_run() {
    let Seen { places, ends } = of_desks();
    assert_at_every_place(&places, &SYNCS, 2);
    assert_at_every_place(&places, &["opens"], 1);
    ends.assert_come("section ", (0..=2).chain(about_runs()), 1);
    ends.assert_come("lent ", (0..=2).chain(about_runs()), 1);
    ends.assert_come("bad ", (0..=2).chain(RUN - 2..=RUN + 1), 1);
    ends.assert_come("cut ", ["0", "0 and a half", "1", "1 and a half"], 1);
}

#[test]
fn in_fixed_files_all_ends_at_every_place() {
    let mut seen = Seen::default();
    // The last is a frame.
    for number in 0..fixed::count() - 1 {
        read_file(&fixed::file(number).expect("there is one"), &mut seen);
    }
    for signs in [&SYNCS[..], &EVENTS, &ABOUT_T, &NEARLY] {
        assert_at_every_place(&seen.places, signs, 1);
    }
    assert_zeros(&seen.places, 20);
    seen.ends.assert_come("section ", about_runs(), 1);
    for number in RUN - 2..=RUN + 1 {
        seen.ends.assert_come("bad ", [number], 1);
        let cut = format!("cut {number}");
        seen.ends.assert_come(&cut, ["", " and a half"], 1);
    }
    for left in [1, 2] {
        let read = format!("read to {left} left, amid a word ");
        seen.ends.assert_come(&read, [false, true], 1);
    }
}

#[test]
fn in_files_of_seeds_syncs_and_rows_end_at_every_place() {
    let mut seen = Seen::default();
    let files = (1..=FILE_SEEDS).map(|seed| file(seed).bytes);
    for file in files.filter(|file| file.len() < 300_000) {
        read_file(&file, &mut seen);
    }
    assert_at_every_place(&seen.places, &SYNCS, 10);
    assert_at_every_place(&seen.places, &EVENTS[..3], 1);
    seen.ends.assert_come("section ", 0..=3, 1);
}
