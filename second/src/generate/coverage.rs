//! What the requests of the gate's seeds must hold, for a comparison by them to say something.

mod desks;
mod places;
mod refusals;
mod rows;
mod section_ends;
mod sessions;
mod walk;

use super::requests;
use super::session_requests::Feed;
use crate::arguments::Arguments;
use crate::functions::*;
use crate::gate::{REQUESTS_OF_A_SEED, REQUEST_SEEDS};
use crate::requests::{answer, format_line};
use std::collections::BTreeMap;
use std::fmt::Display;
use std::sync::OnceLock;

/// So many the request format's table has.
const FUNCTIONS: usize = 25;

pub struct Asked {
    pub request: Vec<u32>,
    pub answer: Vec<u32>,
}

impl Asked {
    fn of(request: Vec<u32>) -> Self {
        let answer = answer(&format_line(&request)).expect("requests are well formed");
        let numbers = answer.split(' ').map(|text| u32::from_str_radix(text, 16));
        let answer = numbers.collect::<Result<_, _>>();
        Self {
            request,
            answer: answer.expect("answers are hexadecimal"),
        }
    }

    /// The arguments, after so many numbers of them.
    pub fn arguments(&self, passed: usize) -> Arguments {
        let line = format_line(&self.request[1 + passed..]);
        Arguments::parse(&line).expect("requests are well formed")
    }
}

fn all() -> &'static [Asked] {
    static ALL: OnceLock<Vec<Asked>> = OnceLock::new();
    ALL.get_or_init(|| {
        let requests = (1..=REQUEST_SEEDS).flat_map(|seed| requests(seed, REQUESTS_OF_A_SEED));
        requests.map(Asked::of).collect()
    })
}

/// Those that ask for one of these functions.
pub fn asked(functions: &'static [u32]) -> impl Iterator<Item = &'static Asked> {
    let all = all().iter();
    all.filter(|asked| functions.contains(&asked.request[0]))
}

/// Those of them that are not refused.
pub fn answered(functions: &'static [u32]) -> impl Iterator<Item = &'static Asked> {
    asked(functions).filter(|asked| asked.answer[0] == 0)
}

/// What a feed takes, with the words as they are on the cable.
pub fn feed(asked: &Asked) -> Feed {
    let mut arguments = asked.arguments(0);
    let numbers = arguments.session().expect("a session");
    let words = arguments.signal(numbers.history).expect("a signal");
    let buffers = [(); 2].map(|()| arguments.runs().expect("runs"));
    Feed {
        numbers,
        words,
        buffers,
    }
}

/// How often each sign comes.
#[derive(Debug, Default)]
pub struct Tally(BTreeMap<String, u32>);

impl Tally {
    pub fn of(signs: impl Iterator<Item = String>) -> Self {
        let mut tally = Self::default();
        signs.for_each(|sign| tally.note(sign));
        tally
    }

    pub fn note(&mut self, sign: String) {
        *self.0.entry(sign).or_default() += 1;
    }

    /// Each sign, which starts with what all of them start with, comes so many times.
    pub fn assert_come(
        &self,
        start: &str,
        signs: impl IntoIterator<Item = impl Display>,
        times: u32,
    ) {
        for sign in signs {
            let sign = format!("{start}{sign}");
            let come = self.0.get(&sign).copied().unwrap_or(0);
            assert!(come >= times, "{sign} comes {come} times: {self:?}");
        }
    }
}

#[test]
fn every_function_comes() {
    let tally = Tally::of(all().iter().map(|asked| format!("{:x}", asked.request[0])));
    assert_eq!(tally.0.len(), FUNCTIONS);
    assert!(tally.0.values().all(|&times| times >= 80), "{tally:?}");
}

/// A third of the requests or more are of sessions, and another of packets and rows.
#[test]
fn most_requests_are_of_sessions_rows_and_packets() {
    let third = all().len() / 3;
    assert!(asked(&[BEGIN, FEED, END, MODULE]).count() > third);
    let of_rows = asked(&[FIND_PACKET, EXTRACT, CHECK_ROW, CORRECT_ROW, BUILD_ROW]);
    assert!(of_rows.count() > third);
}

/// "A request has at most 20,000 numbers"; requests of rows are short.
#[test]
fn requests_keep_to_their_lengths() {
    for Asked { request, .. } in all() {
        let most = match request[0] {
            DESK | TAKE => 20_000,
            FEED | MODULE => 18_000,
            SCRAMBLE | UNSCRAMBLE => 1500,
            _ => 800,
        };
        assert!(request.len() < most, "{:x}", request[0]);
    }
    let long = asked(&[DESK]).filter(|asked| asked.request.len() > 10_000);
    assert!(long.count() >= 5);
}
