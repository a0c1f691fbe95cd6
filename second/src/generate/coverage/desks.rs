//! What the requests of bench files hold.

use super::{asked, Asked, Tally};
use crate::functions::*;
use crate::requests::desks::desk_after;

/// The place in an answer after an OUTCOME.
fn after_outcome(answer: &[u32], place: usize) -> usize {
    place + 8 + answer[place + 2] as usize
}

fn signs_of_desk(Asked { request, answer }: &Asked) -> Vec<String> {
    let mut signs = Vec::new();
    let mut place = 0;
    for _ in 0..=request[1] {
        let [refusal, _, outcome, refused, ..] = answer[place..] else {
            unreachable!("a take answers more")
        };
        signs.push(format!("refusal {refusal}, outcome {outcome} {refused}"));
        place = after_outcome(answer, place + 2);
        if outcome == 1 {
            signs.push(format!("rows {}", answer[place - 3]));
            signs.push(format!("verdict {}", answer[place - 1]));
        }
    }
    signs.push(format!("finish {} {}", answer[place], answer[place + 1]));
    signs
}

#[test]
fn every_outcome_comes_at_a_desk() {
    let tally = Tally::of(asked(&[DESK]).flat_map(signs_of_desk));
    tally.assert_come(
        "refusal 0, outcome ",
        ["0 0", "1 0", "2 3", "2 4", "2 9"],
        5,
    );
    tally.assert_come("refusal 1, outcome ", ["0 0"], 5);
    tally.assert_come("finish ", ["0 0", "2 9"], 5);
    tally.assert_come("verdict ", 1..=3, 5);
    tally.assert_come("rows ", [1], 2);
}

/// By how far the desk has read; in a count also amid its bytes.
fn signs_of_take(asked: &Asked) -> Vec<String> {
    let mut arguments = asked.arguments(0);
    let lengths = arguments.list().expect("lengths");
    let bytes = arguments.bytes().expect("bytes");
    let (desk, _) = desk_after(&lengths, &bytes);
    let stage = desk.reader.stage;
    let [refusal, _, outcome, refused, ..] = asked.answer[..] else {
        unreachable!("a take answers more")
    };
    vec![
        format!("{stage:?}, refusal {refusal}"),
        format!("{stage:?}, outcome {outcome}"),
        format!("{stage:?}, {} bytes of a count", desk.reader.count.len()),
        format!("refused with {refused}"),
    ]
}

#[test]
fn every_stage_is_lent_bytes_with_every_outcome() {
    let tally = Tally::of(asked(&[TAKE]).flat_map(signs_of_take));
    let before_words = ["TagCount", "Tag", "OptionCount", "Raster", "Wipe"];
    let in_words = ["WordCount", "Low", "High"];
    for stage in before_words.into_iter().chain(in_words) {
        tally.assert_come(&format!("{stage}, refusal "), [0, 1], 2);
        tally.assert_come(&format!("{stage}, outcome "), 0..=2, 2);
    }
    tally.assert_come("Stopped, ", ["refusal 0", "refusal 1", "outcome 0"], 2);
    for come in 0..4 {
        let sign = format!(", {come} bytes of a count");
        let counts = ["TagCount", "OptionCount", "WordCount"];
        tally.assert_come("", counts.map(|stage| format!("{stage}{sign}")), 2);
    }
    tally.assert_come("", in_words.map(|stage| format!("{stage}, refusal 7")), 10);
    tally.assert_come("refused with ", [3, 4, 9], 5);
}

#[test]
fn every_line_comes() {
    let signs = |Asked { request, answer }: &Asked| {
        [
            format!("kind {}", request[1]),
            format!("verdict {}", request[request.len() - 1]),
            format!("tag of {}", request[3]),
            format!("line of {}", answer[0]),
        ]
    };
    let tally = Tally::of(asked(&[OUTCOME_LINE]).flat_map(signs));
    tally.assert_come("kind ", 0..=2, 10);
    tally.assert_come("verdict ", 0..=4, 20);
    tally.assert_come("tag of ", [0, 1, 31, 32], 5);
    tally.assert_come("line of ", [0, 11], 10);
}
