//! Random requests over every function, valid and damaged.

mod alignments;
pub mod camera;
pub mod captures;
mod code_feeds;
mod codes;
#[cfg(test)]
mod coverage;
pub mod cuts;
mod desk_requests;
mod desks;
pub mod files;
pub mod fixed;
pub mod frames;
mod lists;
pub mod loads;
pub mod long_sections;
mod modules;
mod packet_requests;
mod picture;
mod pieces;
mod rasters;
mod refused_rows;
mod regions;
mod row_requests;
mod rows;
mod session_requests;
mod sessions;
pub mod signals;
mod streams;
mod syncs;

use crate::functions::*;
use crate::random::Random;
use crate::runs::list;
use crate::timing;

type Request = Vec<u32>;
type Maker = fn(&mut Generator) -> Request;

/// How often each function is asked for; the more there is to get wrong, the oftener.
const MAKERS: [(u32, Maker); 27] = [
    (1, |generator| {
        vec![RASTER_ROW, rasters::code(&mut generator.random)]
    }),
    (3, |generator| {
        request(&[&[NAME_RASTER], &rasters::naming(&mut generator.random)])
    }),
    (4, Generator::v_and_f),
    (6, Generator::crc_after_words),
    (3, |generator| {
        vec![CRC_WORDS, lists::register(&mut generator.random)]
    }),
    (6, |generator| generator.scrambler(SCRAMBLE)),
    (6, |generator| generator.scrambler(UNSCRAMBLE)),
    (3, Generator::unscramble_two),
    (9, |generator| {
        request(&[&[FIND_SYNC], &list(&syncs::words(&mut generator.random))])
    }),
    (1, |generator| {
        request(&[&[XYZ], &[(); 3].map(|()| generator.random.below(2))])
    }),
    (3, |generator| {
        vec![READ_XYZ, codes::xyz(&mut generator.random).into()]
    }),
    (4, Generator::line_words),
    (8, Generator::read_line),
    (8, Generator::build_packet),
    (18, Generator::find_packet),
    (20, Generator::extract),
    (30, Generator::check_row),
    (30, Generator::correct_row),
    (18, Generator::build_row),
    (8, Generator::begin),
    (62, Generator::feed),
    (24, Generator::feed_with_a_code),
    (10, Generator::end),
    (22, |generator| modules::module(&mut generator.random)),
    (10, Generator::desk),
    (14, Generator::take),
    (4, Generator::outcome_line),
];

struct Generator {
    random: Random,
    /// The next of the lines that eleven bits can hold, taken in turn so that all of them come.
    line: u32,
    /// Whose turn it is among the places of codes in feeds, so that all of them come.
    turn: usize,
}

/// The same seed, the same requests.
pub fn requests(seed: u64, count: u64) -> impl Iterator<Item = Request> {
    let mut generator = Generator::new(seed);
    (0..count).map(move |_| generator.request())
}

impl Generator {
    fn new(seed: u64) -> Self {
        Self {
            random: Random::new(seed),
            line: 0,
            turn: 0,
        }
    }

    fn request(&mut self) -> Request {
        let weights: u32 = MAKERS.iter().map(|(weight, _)| weight).sum();
        let mut chosen = self.random.below(weights);
        for (weight, maker) in MAKERS {
            if chosen < weight {
                return maker(self);
            }
            chosen -= weight;
        }
        unreachable!("the choice is below the sum of the weights")
    }

    fn next_line(&mut self) -> u32 {
        let line = self.line;
        self.line = (line + 1) % 2048;
        line
    }

    fn next_turn(&mut self) -> usize {
        self.turn += 1;
        self.turn
    }

    fn crc_after_words(&mut self) -> Request {
        let register = lists::register(&mut self.random);
        let words = lists::words(&mut self.random);
        request(&[&[CRC_AFTER_WORDS, register], &list(&words)])
    }

    fn scrambler(&mut self, function: u32) -> Request {
        let history = lists::history(&mut self.random);
        let words = lists::words(&mut self.random);
        let output = lists::output(&mut self.random, words.len());
        request(&[&[function, history.into()], &list(&words), &list(&output)])
    }

    /// Two words, which are often taken together.
    fn unscramble_two(&mut self) -> Request {
        let [history, first, second] = [(); 3].map(|()| lists::any_word(&mut self.random).into());
        vec![UNSCRAMBLE, history, 2, first, second, 2, 0, 0]
    }

    fn v_and_f(&mut self) -> Request {
        let code = rasters::code(&mut self.random);
        vec![V_AND_F, code, rasters::line(&mut self.random)]
    }

    fn line_words(&mut self) -> Request {
        let line = rasters::line(&mut self.random);
        vec![LINE_WORDS, rasters::code(&mut self.random), line]
    }

    fn read_line(&mut self) -> Request {
        let (ln0, ln1) = if self.random.bit() {
            timing::encode_line(self.next_line())
        } else {
            codes::line_words(&mut self.random)
        };
        let code = rasters::code(&mut self.random);
        vec![READ_LINE, code, ln0.into(), ln1.into()]
    }
}

fn request(parts: &[&[u32]]) -> Request {
    parts.concat()
}
