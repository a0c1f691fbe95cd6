//! Every refusal of every function comes, and every two that may apply at once; the first in the order is given.

use super::{asked, Asked};
use crate::arguments::Arguments;
use crate::functions::*;
use crate::raster::{raster_of, TABLE};
use crate::requests::desks::desk_after;
use crate::session::Numbers;
use crate::words::{all_words, any_reserved};
use std::collections::BTreeSet;

/// Each function's refusals, in the order: "7, 9, 4, 5, 2, 3, 6, 8, 1", of which "8 is given no more".
const REFUSALS: [(&[u32], &[u32]); 14] = [
    (&[RASTER_ROW], &[4]),
    (&[V_AND_F], &[4, 5]),
    (&[LINE_WORDS], &[4, 5]),
    (&[READ_LINE], &[4, 3]),
    (&[CRC_AFTER_WORDS], &[3]),
    (&[SCRAMBLE], &[3, 1]),
    (&[UNSCRAMBLE], &[3, 1]),
    (&[BUILD_PACKET], &[3, 6, 1]),
    (&[FIND_PACKET], &[4, 5, 2, 3]),
    (&[CHECK_ROW], &[4, 5, 2, 3]),
    (&[CORRECT_ROW], &[4, 5, 2, 3]),
    (&[BUILD_ROW], &[4, 5, 2, 3, 1]),
    (&[BEGIN], &[7, 4]),
    (&[FEED], &[7, 3, 1]),
];

type Reasons = Result<Vec<(u32, bool)>, String>;

/// Which refusals apply, each by itself.
fn reasons(asked: &Asked) -> Reasons {
    let mut given = asked.arguments(0);
    Ok(match asked.request[0] {
        RASTER_ROW => vec![(4, given.number()? > 11)],
        V_AND_F | LINE_WORDS => of_line(given.number()?, given.number()?),
        READ_LINE => vec![
            (4, given.number()? > 11),
            (3, !all_words(&[given.word()?, given.word()?])),
        ],
        CRC_AFTER_WORDS => vec![(3, given.number()? > 0x3ffff || !all_words(&given.list()?))],
        SCRAMBLE | UNSCRAMBLE => {
            let (history, words, output) = (given.word()?, given.list()?, given.list()?);
            let above = !all_words(&[history]) || !all_words(&words);
            vec![(3, above), (1, output.len() < words.len())]
        }
        BUILD_PACKET => {
            let (did, _, user) = (given.byte()?, given.byte()?, given.runs()?);
            let refused = did == 0 || user.len() > 255 || any_reserved(&user);
            let short = given.runs()?.len() < 7 + user.len();
            vec![(3, !all_words(&user)), (6, refused), (1, short)]
        }
        FIND_PACKET | CHECK_ROW | CORRECT_ROW => of_row(asked.request[0], &mut given)?,
        BUILD_ROW => of_built_row(&mut given)?,
        BEGIN => {
            let numbers = given.session()?;
            let open = numbers.open || !numbers.in_range();
            vec![(7, open), (4, given.number()? > 11)]
        }
        _ => of_feed(&super::feed(asked)),
    })
}

fn of_line(code: u32, line: u32) -> Vec<(u32, bool)> {
    let rows = raster_of(code).map_or(1125, |raster| raster.rows);
    vec![(4, code > 11), (5, !(1..=rows).contains(&line))]
}

/// Whether a row has not T words; without a raster, those of none.
fn is_not_total(code: u32, words: &[u16]) -> bool {
    let is_total = |total: u32| total as usize == words.len();
    match raster_of(code) {
        Ok(raster) => !is_total(raster.total),
        Err(_) => !TABLE.iter().any(|raster| is_total(raster.total)),
    }
}

fn of_row(function: u32, given: &mut Arguments) -> Reasons {
    let (code, line) = (given.number()?, given.number()?);
    let carry = match function {
        FIND_PACKET => [given.number()?, given.number()?],
        _ => given.carry()?.unwrap_or_default(),
    };
    if function == CORRECT_ROW {
        given.flag()?;
    }
    let row = [given.runs()?, given.runs()?];
    let mut reasons = of_line(code, line);
    reasons.push((2, row.iter().any(|words| is_not_total(code, words))));
    let above = carry.iter().any(|&register| register > 0x3ffff);
    reasons.push((3, above || !row.iter().all(|words| all_words(words))));
    Ok(reasons)
}

fn of_built_row(given: &mut Arguments) -> Reasons {
    let (code, line) = (given.number()?, given.number()?);
    let carry = given.carry()?.unwrap_or_default();
    let [active, blanking, buffers] =
        [(); 3].map(|()| [(); 2].map(|()| given.runs().expect("runs")));
    let raster = raster_of(code).unwrap_or(TABLE[0]);
    let [total, all] = [raster.total, raster.active].map(|count| count as usize);
    let lengths = active.iter().any(|words| words.len() != all)
        || blanking.iter().any(|words| words.len() > total - all - 12);
    let above = carry.iter().any(|&register| register > 0x3ffff)
        || !active.iter().chain(&blanking).all(|words| all_words(words));
    let short = buffers.iter().any(|words| words.len() < total);
    let mut reasons = of_line(code, line);
    reasons.extend([(2, lengths), (3, above), (1, short)]);
    Ok(reasons)
}

fn of_feed(feed: &super::Feed) -> Vec<(u32, bool)> {
    let total = raster_of(feed.numbers.raster).map_or(2640, |raster| raster.total as usize);
    vec![
        (7, is_refused(&feed.numbers)),
        (3, !all_words(&feed.words)),
        (1, feed.buffers.iter().any(|words| words.len() < total)),
    ]
}

fn is_refused(numbers: &Numbers) -> bool {
    !numbers.open || !numbers.in_range()
}

/// That the first reason is given, if any, and that each reason comes alone and each two together.
fn assert_all_come(
    requests: impl Iterator<Item = (&'static Asked, Vec<(u32, bool)>)>,
    refusals: &[u32],
) {
    let mut come = BTreeSet::new();
    for (asked, reasons) in requests {
        let applying = reasons.into_iter().filter(|(_, applies)| *applies);
        let applying: Vec<u32> = applying.map(|(refusal, _)| refusal).collect();
        let first = applying.first().copied().unwrap_or(0);
        assert_eq!(asked.answer[0], first, "{:x?}", asked.request);
        come.insert(applying);
    }
    assert!(come.contains(&vec![]));
    for (place, &first) in refusals.iter().enumerate() {
        assert!(come.contains(&vec![first]), "{first}: {come:?}");
        for second in &refusals[place + 1..] {
            let both = |reasons: &Vec<u32>| reasons.contains(&first) && reasons.contains(second);
            assert!(come.iter().any(both), "{first} and {second}: {come:?}");
        }
    }
}

#[test]
fn every_refusal_and_every_two_come() {
    for (function, refusals) in REFUSALS {
        let with_reasons = |asked: &'static Asked| (asked, reasons(asked).expect("arguments"));
        assert_all_come(asked(function).map(with_reasons), refusals);
    }
}

/// "7 where the desk reads words and its session is not running or not in range, else 1 where a
/// buffer has fewer than 4,125 words"
#[test]
fn takes_are_refused_with_7_before_1() {
    let with_reasons = |asked: &'static Asked| {
        let mut given = asked.arguments(0);
        let lengths = given.list().expect("lengths");
        let bytes = given.bytes().expect("bytes");
        let numbers = given.session().expect("a session");
        let (desk, _) = desk_after(&lengths, &bytes);
        let mut short = || given.runs().expect("runs").len() < 4125;
        let shorts = [short(), short()];
        let in_words = desk.reader.is_in_words() && is_refused(&numbers);
        (asked, vec![(7, in_words), (1, shorts.contains(&true))])
    };
    assert_all_come(asked(&[TAKE]).map(with_reasons), &[7, 1]);
}

/// What an extraction needs of its output follows from the row, so 1 is only seen to come.
#[test]
fn other_refusals_come() {
    let others: [(&[u32], &[u32]); 7] = [
        (&[EXTRACT], &[0, 4, 5, 2, 3, 1]),
        (&[CRC_WORDS], &[0, 3]),
        (&[FIND_SYNC], &[0, 3]),
        (&[READ_XYZ], &[0, 3]),
        (&[END], &[0, 7]),
        (&[MODULE], &[0, 4]),
        (&[DESK], &[0, 1]),
    ];
    for (function, refusals) in others {
        let come: BTreeSet<u32> = asked(function).map(|asked| asked.answer[0]).collect();
        assert_eq!(come, refusals.iter().copied().collect(), "{function:x?}");
    }
}
