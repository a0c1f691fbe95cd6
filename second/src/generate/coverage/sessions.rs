//! What the requests of sessions hold.

use super::{answered, asked, feed, Asked, Tally};
use crate::arguments::Arguments;
use crate::functions::*;
use crate::layout::{Layout, CRC, EAV, LINE};
use crate::raster::raster_of;
use crate::requests::format_line;
use crate::session::Numbers;
use crate::words::is_word;
use std::ops::Range;

/// Where rows and faults stand in a request of a feed.
const COUNTS: Range<usize> = 14..16;

/// The session before a call and after it, which stands at this place of the answer.
fn sessions(asked: &Asked, place: usize) -> [Numbers; 2] {
    let given = asked.arguments(0).session();
    let after = Arguments::parse(&format_line(&asked.answer[place..]));
    let after = after.and_then(|mut numbers| numbers.session());
    [given, after].map(|numbers| numbers.expect("a session"))
}

/// How many rows and faults a feed counts: from counts of 0, for at the ceiling they stay.
fn counted(asked: &Asked) -> [u32; 2] {
    let mut request = asked.request.clone();
    request[COUNTS].fill(0);
    let [_, after] = sessions(&Asked::of(request), 1);
    [after.rows, after.faults]
}

/// What a feed did to a session, as its numbers tell.
fn signs(asked: &Asked) -> Vec<String> {
    let [before, after] = sessions(asked, 1);
    let ceiling = |count| match count {
        u32::MAX => " at the ceiling",
        _ => "",
    };
    let [rows, faults] = counted(asked);
    let mut signs = vec![
        format!("rows +{rows}{}", ceiling(before.rows)),
        format!("faults +{faults}{}", ceiling(before.faults)),
        format!("rows +{rows}, faults +{faults}"),
    ];
    if before.line == 0 && after.line != 0 {
        signs.push("line taken".to_string());
    }
    let last = raster_of(before.raster).is_ok_and(|raster| raster.rows == before.line);
    if rows == 1 && last && after.line == 1 {
        signs.push("line 1 after the last".to_string());
    }
    if rows == 1 {
        signs.extend(parts_above(asked).map(|part| format!("word above 3FF in the {part}")));
    }
    signs
}

/// The parts of the open row that had words above 3FF in the buffers before, whatever is laid over them.
fn parts_above(asked: &Asked) -> impl Iterator<Item = &'static str> {
    let feed = feed(asked);
    let come = feed.numbers.pairs as usize;
    let layout = Layout::of(feed.numbers.raster, feed.numbers.line);
    let layout = layout.expect("a line is expected");
    let parts = [
        ("EAV", EAV),
        ("line words", LINE),
        ("CRC words", CRC),
        ("blanking", layout.blanking()),
        ("SAV", layout.sav()),
        ("active words", layout.active()),
    ];
    let above = move |part: &Range<usize>| {
        let part = part.start..part.end.min(come);
        let mut buffers = feed.buffers.iter();
        buffers.any(|words| words[part.clone()].iter().any(|&word| !is_word(word)))
    };
    let parts = parts
        .into_iter()
        .filter(move |(_, part)| part.start < come && above(part));
    parts.map(|(name, _)| name)
}

#[test]
fn everything_happens_to_rows_of_feeds() {
    let tally = Tally::of(answered(&[FEED]).flat_map(signs));
    tally.assert_come("rows +", ["0", "1", "1 at the ceiling"], 10);
    tally.assert_come("faults +", ["0", "1", "2", "1 at the ceiling"], 10);
    tally.assert_come(
        "rows +",
        ["1, faults +0", "1, faults +1", "0, faults +1"],
        10,
    );
    tally.assert_come("line ", ["taken", "1 after the last"], 10);
    let parts = ["EAV", "line words", "CRC words", "blanking", "SAV"];
    tally.assert_come("word above 3FF in the ", parts, 3);
    tally.assert_come("word above 3FF in the ", ["active words"], 3);
}

#[test]
fn every_verdict_comes() {
    let ends = Tally::of(asked(&[END]).map(|asked| asked.answer[4].to_string()));
    ends.assert_come("", 0..=4, 20);
    // No request has the words of N rows.
    let modules = asked(&[MODULE]).flat_map(|asked| {
        let feeds = asked.answer[1] as usize;
        let [_, raster, rows, faults, verdict, ..] = asked.answer[2 + feeds..] else {
            unreachable!("an end answers more")
        };
        let refusals = &asked.answer[2..2 + feeds];
        let goes_on = refusals.windows(2).any(|two| two == [3, 0]);
        let feeds = refusals.iter().map(|refusal| format!("feed {refusal}"));
        let counts = [
            format!("raster {raster}"),
            format!("rows {rows}"),
            format!("faults {faults}"),
            format!("verdict {verdict}"),
            format!("goes on {goes_on}"),
        ];
        feeds.chain(counts).collect::<Vec<String>>()
    });
    let modules = Tally::of(modules);
    modules.assert_come("raster ", 1..=11, 5);
    modules.assert_come("rows ", 0..=3, 3);
    modules.assert_come("faults ", 0..=4, 1);
    modules.assert_come("verdict ", 0..=3, 5);
    modules.assert_come("feed ", [0, 1, 3, 7], 10);
    modules.assert_come("goes on ", [true], 10);
}

type Change = fn(&mut Numbers);

/// Each number that is out of range, where the others are those of a session in range.
fn out_of_range(numbers: &Numbers) -> &'static str {
    let changes: [(&str, Change); 9] = [
        ("history", |numbers| numbers.history = 0),
        ("last", |numbers| numbers.last = [0; 2]),
        ("ahead", |numbers| numbers.ahead = 0),
        ("pairs", |numbers| numbers.pairs = 4),
        ("bit", |numbers| numbers.bit = 0),
        ("carry without a line", |numbers| {
            numbers.line = numbers.line.max(1)
        }),
        ("line", |numbers| numbers.line = numbers.line.min(1)),
        ("carry", |numbers| numbers.carry = None),
        ("raster", |numbers| numbers.raster = numbers.open.into()),
    ];
    let right = changes.into_iter().find(|(_, change)| {
        let mut numbers = *numbers;
        change(&mut numbers);
        numbers.in_range()
    });
    right.map_or("several", |(name, _)| name)
}

#[test]
fn every_number_is_out_of_range() {
    for functions in [&[BEGIN], &[FEED], &[END]] {
        let sessions = asked(functions).map(|asked| asked.arguments(0).session());
        let sessions = sessions.map(|numbers| numbers.expect("a session"));
        let bad = sessions.filter(|numbers| !numbers.in_range());
        let tally = Tally::of(bad.map(|numbers| out_of_range(&numbers).to_string()));
        tally.assert_come("", ["raster", "history", "last", "ahead", "pairs"], 1);
        tally.assert_come("", ["bit", "line", "several"], 1);
        tally.assert_come("carry", ["", " without a line"], 1);
    }
}

/// "every call answers a session in range when it is given one", and leaves one that it refuses.
#[test]
fn every_answered_session_is_in_range() {
    for asked in asked(&[BEGIN, FEED, END]) {
        let place = if asked.request[0] == END { 5 } else { 1 };
        let [given, after] = sessions(asked, place);
        assert!(after.in_range() || !given.in_range());
        assert!(asked.answer[0] == 0 || after == given);
    }
}
