//! Requests for the functions of a bench file.

use super::desks::{buffers, lent, shorten};
use super::files::{short_file, tag};
use super::long_sections::{across, marked, CODE, FEW, RUN};
use super::row_requests::both;
use super::{list, lists, request, signals, streams, Generator, Request};
use crate::cable::SYNC_BITS;
use crate::functions::*;
use crate::job::Job;
use crate::random::Random;
use crate::words::WORD_BITS;

/// A file in a request has at most so many bytes.
const MOST_BYTES: usize = 14_000;
/// The words of two rows of the shortest raster and of the EAV after them fit in it.
const MOST_WORDS: usize = 6900;

impl Generator {
    pub(super) fn desk(&mut self) -> Request {
        let random = &mut self.random;
        let (file, lengths) = match random.below(25) {
            0 => cut_anywhere(random, file_with_rows),
            1 => cut_anywhere(random, |random| any_file(random, 2000)),
            2..=5 => about_a_run(random),
            _ => cut_anywhere(random, |random| any_file(random, 60)),
        };
        let mut buffers = buffers(random);
        if random.one_in(10) {
            shorten(random, &mut buffers);
        }
        request(&[&[DESK], &list(&lengths), &byte_list(&file), &both(&buffers)])
    }

    pub(super) fn take(&mut self) -> Request {
        let lent = lent(&mut self.random);
        let taken = [list(&lent.lengths), byte_list(&lent.bytes)].concat();
        request(&[&[TAKE], &taken, &lent.numbers.list(), &both(&lent.buffers)])
    }

    pub(super) fn outcome_line(&mut self) -> Request {
        request(&[&[OUTCOME_LINE], &outcome(&mut self.random)])
    }
}

fn byte_list(bytes: &[u8]) -> Vec<u32> {
    let words: Vec<u16> = bytes.iter().map(|&byte| byte.into()).collect();
    list(&words)
}

/// A file of jobs of at most so many words, one time in four cut anywhere.
fn any_file(random: &mut Random, most: usize) -> Vec<u8> {
    let mut file = short_file(random, most);
    if random.one_in(4) {
        file.truncate(random.place(file.len() + 1));
    }
    file.truncate(MOST_BYTES);
    file
}

/// A job of a few rows, and perhaps a short one after it.
fn file_with_rows(random: &mut Random) -> Vec<u8> {
    let code = random.pick(&[1, 1, 1, 2, 9]);
    let bits = streams::rows(random, code);
    let mut words = signals::whole_words(&bits);
    words.truncate(MOST_WORDS);
    let words = signals::scrambled_words(0, &words);
    let mut file = Job::new(&tag(random), code as u8, random.bit(), words).bytes();
    if random.bit() {
        file.extend(short_file(random, 5));
    }
    file.truncate(MOST_BYTES);
    file
}

/// A file, and how many bytes each take but the last is lent.
fn cut_anywhere(random: &mut Random, file: fn(&mut Random) -> Vec<u8>) -> (Vec<u8>, Vec<u16>) {
    let file = file(random);
    let lengths = lengths(random, file.len());
    (file, lengths)
}

/// How many bytes each take but the last is lent: none, one, a few, more than there are.
fn lengths(random: &mut Random, bytes: usize) -> Vec<u16> {
    let count = 1 + random.place(8);
    match random.below(6) {
        0 => Vec::new(),
        1 => vec![1; random.place(bytes.min(80) + 1)],
        2 => vec![0xffff; count],
        3 => {
            let first = random.place(bytes + 1);
            few_from(random, first)
        }
        _ => {
            let length = |random: &mut Random| {
                let any = random.place(bytes + 1) as u16;
                random.pick(&[0, 1, 4, 11, any, any, any, 0xffff])
            };
            (0..count).map(|_| length(random)).collect()
        }
    }
}

/// Takes up to a place, then of a few bytes each, also halves of words.
fn few_from(random: &mut Random, first: usize) -> Vec<u16> {
    let few = (0..random.below(12)).map(|_| random.short(1, 11));
    [first as u16].into_iter().chain(few).collect()
}

/// A section of about a run of words or two, a take that ends about where they do, and perhaps a bad word or a cut there.
fn about_a_run(random: &mut Random) -> (Vec<u8>, Vec<u16>) {
    let end = random.pick(&[FEW, FEW, RUN, RUN, 2 * RUN]);
    let count = end + random.place(6) - 2;
    let last = count * WORD_BITS - random.pick(&[SYNC_BITS, CODE, 300]);
    let before = random.place(CODE);
    let mut words = marked(count, &[random.place(60), across(end, before), last]);
    let places = [0, end - 2, end - 1, end, count - 2, count - 1];
    if random.one_in(3) {
        let place = random.pick(&places).min(count - 1);
        words[place] = lists::above(random);
    }
    let mut file = Job::new(&tag(random), 5, random.bit(), words).bytes();
    let start = file.len() - 2 * count;
    let near = start + 2 * random.pick(&places) + random.place(4);
    if random.one_in(4) {
        file.truncate(near);
    } else if random.bit() {
        file.extend(short_file(random, 5));
    }
    let some = few_from(random, near);
    (file, random.pick(&[&[][..], &some]).to_vec())
}

/// Nothing, a refusal, or a job: any tag, and counts of any number of digits.
fn outcome(random: &mut Random) -> Vec<u32> {
    match random.below(12) {
        0 => vec![0; 8],
        1 | 2 => {
            let any = random.below(10);
            let number = random.pick(&[3, 4, 9, any]);
            vec![2, number, 0, 0, 0, 0, 0, 0]
        }
        _ => done(random),
    }
}

fn done(random: &mut Random) -> Vec<u32> {
    let tag = any_tag(random);
    let (of_table, any) = (random.between(1, 11), decimal(random));
    let raster = random.pick(&[7, 10, of_table, of_table, any]);
    let [rows, faults] = [(); 2].map(|()| decimal(random));
    let (wipe, verdict) = (random.below(2), random.below(5));
    let rest = [raster, wipe, rows, faults, verdict];
    [&[1, 0], &byte_list(&tag)[..], &rest].concat()
}

/// A tag as it may be read, or any bytes.
fn any_tag(random: &mut Random) -> Vec<u8> {
    if random.bit() {
        return tag(random).into_bytes();
    }
    let any = random.below(33);
    let length = random.pick(&[0, 1, 31, 32, any, any]);
    (0..length).map(|_| random.below(0x100) as u8).collect()
}

/// A number of which any count of digits is as likely: about a power of ten, or the ceiling.
fn decimal(random: &mut Random) -> u32 {
    let power = 10_u32.pow(random.below(10));
    let any = random.number() / power;
    random.pick(&[power - 1, power, power + 1, u32::MAX, any, any])
}
