//! Requests for the calls of a session.

use super::rows::{head, row, Row};
use super::sessions::{self, alter, begun, in_a_row, out_of_range, run};
use super::{code_feeds, codes, lists, pieces, rasters, regions, request};
use super::{signals, streams};
use super::{Generator, Request};
use crate::functions::*;
use crate::layout::{LINE, Y};
use crate::random::Random;
use crate::runs::{self, runs};
use crate::session::Numbers;
use crate::words::{all_words, is_word, WORD_BITS};

impl Generator {
    pub(super) fn begin(&mut self) -> Request {
        let random = &mut self.random;
        let numbers = match random.below(6) {
            0 => sessions::open(random),
            1 | 2 => out_of_range(random),
            _ => sessions::closed(random),
        };
        request(&[&[BEGIN], &numbers.list(), &[rasters::code(random)]])
    }

    pub(super) fn end(&mut self) -> Request {
        let random = &mut self.random;
        let numbers = match random.below(6) {
            0 => sessions::closed(random),
            1 | 2 => out_of_range(random),
            _ => sessions::open(random),
        };
        request(&[&[END], &numbers.list()])
    }

    pub(super) fn feed(&mut self) -> Request {
        any_feed(&mut self.random).request(&mut self.random)
    }

    pub(super) fn feed_with_a_code(&mut self) -> Request {
        let turn = self.next_turn();
        code_feeds::feed(&mut self.random, turn).unspoilt(&mut self.random)
    }
}

/// Cable words do not repeat, so no more of them are given as they are on the cable.
const MOST_LISTED: usize = 200;

/// What feeding takes, with the words as they are before they are scrambled.
pub struct Feed {
    pub numbers: Numbers,
    pub words: Vec<u16>,
    pub buffers: [Vec<u16>; 2],
}

impl Feed {
    fn request(mut self, random: &mut Random) -> Request {
        if random.one_in(8) {
            self.spoil(random);
        }
        self.unspoilt(random)
    }

    /// One that is not refused.
    fn unspoilt(mut self, random: &mut Random) -> Request {
        let to_scramble = self.scramble(random);
        let [y, c] = self.buffers.map(|buffer| runs(&buffer));
        let signal = runs::signal(to_scramble, &self.words);
        request(&[&[FEED], &self.numbers.list(), &signal, &y, &c])
    }

    /// Scrambles the words if they are few and can be; answers whether that is still to be done.
    fn scramble(&mut self, random: &mut Random) -> bool {
        let history = self.numbers.history;
        let can_be = is_word(history) && all_words(&self.words);
        let to_scramble = can_be && (random.bit() || self.words.len() > MOST_LISTED);
        // Now and then other words are fed than those that were meant.
        if can_be && !to_scramble && !random.one_in(20) {
            self.words = signals::scrambled_words(history, &self.words);
        }
        to_scramble
    }

    /// What is refused, one or more at once.
    fn spoil(&mut self, random: &mut Random) {
        for _ in 0..random.pick(&[1, 1, 2, 3]) {
            match random.below(4) {
                0 => self.numbers = out_of_range(random),
                1 => self.numbers = sessions::closed(random),
                2 => {
                    self.words.truncate(MOST_LISTED);
                    lists::damage(random, &mut self.words);
                }
                _ => {
                    let buffer = &mut self.buffers[random.place(2)];
                    let total = sessions::total_or(&self.numbers, 2640);
                    let any = random.place(total);
                    let short = random.pick(&[total - 1, total - 1, total - 1, 0, any]);
                    buffer.resize(short, 0x040);
                }
            }
        }
    }
}

pub fn any_feed(random: &mut Random) -> Feed {
    match random.below(10) {
        0 | 1 => short_feed(random),
        2 => code_feeds::any_feed(random),
        _ => feed_in_a_row(random),
    }
}

/// The end of a row and what follows it, cut in two anywhere: the session after the first part is fed the second.
fn feed_in_a_row(random: &mut Random) -> Feed {
    let row = any_row(random);
    let total = row.words[0].len();
    let place = sessions::place(random, total);
    let early = random.place(10);
    let other_end = random.pick(&[total.saturating_sub(early), place + early]);
    let other_end = random.pick(&[total - 1, other_end.min(total)]);
    let end = random.pick(&[total, total, total, total, other_end]);
    let (numbers, mut bits) = in_a_row(random, &row, place, end);
    let cut = cut(random, bits.len());
    bits.extend(signals::after_row(random));
    bits.extend(match random.below(3) {
        0 => signals::codes_and_gaps(random, 2),
        _ => signals::calm(random),
    });
    let damages = random.pick(&[0, 0, 0, 0, 1]);
    signals::damage(random, &mut bits, damages);
    let cut = cut.min(bits.len()) / WORD_BITS * WORD_BITS;
    let mut numbers = run(numbers, &bits[..cut]);
    alter(random, &mut numbers);
    let mut buffers = row.words;
    fill_buffers(random, &mut buffers, numbers.pairs as usize);
    if numbers.line == 0 && random.bit() {
        spoil_line_words(random, &mut buffers[Y]);
    }
    Feed {
        numbers,
        words: signals::whole_words(&bits[cut..]),
        buffers,
    }
}

/// A row that has no flag, often of the last line, or one that may have any.
fn any_row(random: &mut Random) -> Row {
    if random.bit() {
        let mut head = head(random);
        if random.one_in(6) {
            head.line = streams::rows_of(head.code);
        }
        streams::built_row(random, head, false)
    } else {
        let wanted = pieces::pair(random);
        row(random, wanted)
    }
}

/// Where the bits are cut in two: before all of them, in the row's, in those of the EAV after it, or anywhere.
fn cut(random: &mut Random, in_row: usize) -> usize {
    let anywhere = random.place(in_row + 200);
    let before_end = in_row.saturating_sub(random.place(40));
    let in_eav = in_row + random.place(90);
    random.pick(&[0, 0, before_end, in_eav, anywhere])
}

/// Buffers hold anything: often other words where pairs are still to be laid, sometimes words above 3FF that look like
/// those they stand for, sometimes more words.
pub fn fill_buffers(random: &mut Random, buffers: &mut [Vec<u16>; 2], place: usize) {
    for buffer in buffers {
        if random.bit() {
            let word = lists::any_word(random);
            buffer.iter_mut().skip(place).for_each(|held| *held = word);
        }
        // Only here words above 3FF come to be judged.
        if random.one_in(4) {
            for _ in 0..random.between(1, 3) {
                let high = random.short(1, 0x3f) << 10;
                regions::change_a_word(random, buffer, |word| word | high);
            }
        }
        if random.one_in(6) {
            let more = buffer.len() + random.pick(&[1, 2, 7, 1000]);
            buffer.resize(more, lists::any_word(random));
        }
    }
}

/// Line words that are not exact, or are those of another line.
fn spoil_line_words(random: &mut Random, y: &mut [u16]) {
    let place = random.pick(&[LINE.start, LINE.end - 1]);
    let bit = 1 << random.below(10);
    match random.below(4) {
        0 => y[LINE].copy_from_slice(&<[u16; 2]>::from(codes::line_words(random))),
        1 => y[place] |= 0x400,
        _ => y[place] ^= bit,
    }
}

/// A session that was just begun, or that some codes were fed to, is fed some more.
fn short_feed(random: &mut Random) -> Feed {
    let code = random.below(12);
    let bits = signals::codes_and_gaps(random, 5);
    let cut = random.place(bits.len() + 1) / WORD_BITS * WORD_BITS;
    let mut numbers = run(begun(code), &bits[..cut]);
    alter(random, &mut numbers);
    let total = sessions::raster(&numbers).total as usize;
    let buffers = [(); 2].map(|()| {
        let more = random.pick(&[0, 0, 0, 1, 9]);
        lists::buffer_of_runs(random, total + more)
    });
    Feed {
        numbers,
        words: signals::whole_words(&bits[cut..]),
        buffers,
    }
}
