//! Requests for whole modules.

use super::streams;
use super::{list, lists, rasters, request, signals, Request};
use crate::arguments::MOST_FED;
use crate::cable::{is_sync, SYNC_BITS};
use crate::functions::MODULE;
use crate::random::Random;
use crate::raster::raster_of;
use crate::runs::{self, runs};
use crate::words::WORD_BITS;

/// How many numbers a request has at most: few, or now and then so many as a row of any words takes.
const FEW: usize = 1500;
const MANY: usize = 12_000;
/// Cable words do not repeat, so only a short stream is given as it is on the cable, or one that may take many numbers.
const SHORT_STREAM: usize = 300;

pub fn module(random: &mut Random) -> Request {
    let most = if random.one_in(40) { MANY } else { FEW };
    loop {
        let request = any_module(random, most);
        if request.len() < most {
            return request;
        }
    }
}

fn any_module(random: &mut Random, most: usize) -> Request {
    let code = if random.one_in(16) {
        rasters::bad_code(random)
    } else {
        random.below(12)
    };
    let bits = if most == MANY {
        streams::busy_rows(random)
    } else {
        streams::any(random, code)
    };
    let mut words = signals::whole_words(&bits);
    words.truncate(MOST_FED);
    let as_on_cable = words.len() < SHORT_STREAM || words.len() < most / 2 && random.one_in(3);
    let signal = signal(random, &mut words, as_on_cable);
    let lengths = lengths(random, &bits, words.len());
    let [y, c] = buffers(random, code).map(|buffer| runs(&buffer));
    request(&[&[MODULE, code], &list(&lengths), &signal, &y, &c])
}

/// The words before they are scrambled, or those on the cable, with some above 3FF now and then: a feed is refused, and
/// the others go on.
fn signal(random: &mut Random, words: &mut [u16], as_on_cable: bool) -> Vec<u32> {
    if !as_on_cable || random.bit() {
        return runs::signal(true, words);
    }
    // Now and then other words are fed than those that were meant.
    if !random.one_in(20) {
        let cable = signals::scrambled_words(0, words);
        words.copy_from_slice(&cable);
    }
    if random.one_in(3) {
        lists::damage(random, words);
    }
    runs::signal(false, words)
}

/// The words of each feed but the last, none for some.
fn lengths(random: &mut Random, bits: &[bool], count: usize) -> Vec<u16> {
    if random.one_in(20) {
        return vec![1; count.min(random.place(60))];
    }
    if random.one_in(3) {
        return few_about_a_sync(random, bits, count);
    }
    let mut places: Vec<usize> = (0..random.below(6))
        .map(|_| random.place(count + 1))
        .collect();
    if random.one_in(4) {
        places.extend(places.clone());
    }
    places.sort_unstable();
    let starts = std::iter::once(0).chain(places.iter().copied());
    let lengths = starts.zip(&places).map(|(start, &end)| end - start);
    lengths.map(|length| length as u16).collect()
}

/// A feed up to a few words before a sync ends, or amid what comes after it, then some of one to five words.
fn few_about_a_sync(random: &mut Random, bits: &[bool], count: usize) -> Vec<u16> {
    let windows = bits.windows(SYNC_BITS).enumerate();
    let syncs = windows.filter(|(_, window)| is_sync(window));
    let ends: Vec<usize> = syncs.map(|(place, _)| place + SYNC_BITS).collect();
    let any = random.place(bits.len() + 1);
    let end = match &ends[..] {
        [] => any,
        ends if random.one_in(4) => random.pick(&[any, ends[0]]),
        ends => random.pick(ends),
    };
    let first = (end / WORD_BITS + 4).saturating_sub(random.place(18));
    let mut left = count;
    let mut lengths = vec![first];
    let one = random.between(1, 5) as usize;
    for _ in 0..random.between(1, 12) {
        let any = random.between(1, 5) as usize;
        lengths.push(random.pick(&[one, any]));
    }
    for length in &mut lengths {
        *length = left.min(*length);
        left -= *length;
    }
    lengths.into_iter().map(|length| length as u16).collect()
}

/// Buffers of T words or more, seldom of less.
fn buffers(random: &mut Random, code: u32) -> [Vec<u16>; 2] {
    let total = raster_of(code).map_or(2640, |raster| raster.total) as usize;
    [(); 2].map(|()| {
        let any = random.place(total);
        let length = match random.below(24) {
            0 => random.pick(&[total - 1, total - 1, 0, any]),
            1..=4 => total + random.pick(&[1, 2, 100, 1000, 20_000 - total]),
            _ => total,
        };
        lists::buffer_of_runs(random, length)
    })
}
