//! Takes of desks that have read so far and get another session.

use super::files::{short_file, tag};
use super::long_sections::length;
use super::session_requests::{any_feed, Feed};
use super::{code_feeds, lists, sessions, signals};
use crate::desk::{longest_row, Desk};
use crate::job::Job;
use crate::random::Random;
use crate::requests::desks::desk_after;
use crate::session::Numbers;

/// What a take gets, and the bytes that were taken before.
pub struct Lent {
    /// How many bytes each take before is lent.
    pub lengths: Vec<u16>,
    pub bytes: Vec<u8>,
    pub numbers: Numbers,
    pub buffers: [Vec<u16>; 2],
}

pub fn lent(random: &mut Random) -> Lent {
    let mut lent = if random.bit() {
        in_a_job(random)
    } else {
        in_a_file(random)
    };
    if random.one_in(10) {
        shorten(random, &mut lent.buffers);
    }
    lent
}

/// A file that was read to any byte, often to one of its first sections or amid its first options, and its other bytes.
fn in_a_file(random: &mut Random) -> Lent {
    let bytes = short_file(random, 30);
    let options = 8 + bytes.first().copied().map_or(0, usize::from);
    let places = [
        random.place(bytes.len() + 1),
        random.place(26),
        options + random.place(3),
    ];
    let place = random.pick(&places).min(bytes.len());
    let lengths = takes_to(random, &bytes, place);
    let (desk, _) = desk_after(&lengths, &bytes);
    Lent {
        numbers: session(random, &desk, desk.numbers()),
        lengths,
        bytes,
        buffers: buffers(random),
    }
}

/// This session where words are read, or one that is refused; else any at all.
fn session(random: &mut Random, desk: &Desk, numbers: Numbers) -> Numbers {
    let in_words = desk.reader.is_in_words();
    match random.below(16) {
        0..=13 if in_words => numbers,
        0..=3 => Numbers::default(),
        4..=7 => sessions::open(random),
        8..=11 | 14 => sessions::closed(random),
        _ => sessions::out_of_range(random),
    }
}

/// Takes of all bytes up to a place, cut anywhere; a take ends with a job.
fn takes_to(random: &mut Random, file: &[u8], place: usize) -> Vec<u16> {
    let mut lengths = Vec::new();
    loop {
        let (_, left) = desk_after(&lengths, &file[..place]);
        if left.is_empty() {
            return lengths;
        }
        let any = random.place(left.len() + 1);
        lengths.push(random.pick(&[left.len(), left.len(), any]) as u16);
    }
}

/// A session in the middle of a row, its words as a job's, which ends with them, before them or later.
fn in_a_job(random: &mut Random) -> Lent {
    let Feed {
        numbers,
        mut words,
        mut buffers,
    } = feed_of_a_job(random);
    words.truncate(2000);
    if random.one_in(20) {
        lengthen(random, &mut words);
    }
    let mut words = signals::scrambled_words(numbers.history, &words);
    if random.one_in(6) {
        lists::damage(random, &mut words);
    }
    let (bytes, place) = job_of(random, numbers.raster, &words);
    for buffer in &mut buffers {
        let length = longest_row().max(buffer.len());
        buffer.resize(length, lists::any_word(random));
    }
    let lengths = takes_to(random, &bytes, place);
    let (desk, _) = desk_after(&lengths, &bytes);
    Lent {
        numbers: session(random, &desk, numbers),
        lengths,
        bytes,
        buffers,
    }
}

/// The bytes of a job that ends with these words, before them or later, and the place from which on they are read with the
/// session that they were made for.
fn job_of(random: &mut Random, raster: u32, words: &[u16]) -> (Vec<u8>, usize) {
    // "Code 0 stands for 7".
    let asked = if raster == 7 { 0 } else { raster };
    let options = [random.pick(&[raster, asked]) as u8, random.bit().into()];
    let before = vec![0x155; random.pick(&[0, 0, 0, 1, 2])];
    let job = Job {
        tag: tag(random).into_bytes(),
        options: options.to_vec(),
        words: [&before[..], words].concat(),
    };
    let all = job.words.len() as u32;
    let any = random.between(before.len() as u32, all);
    let count = random.pick(&[all, all, all, all + 1, any, u32::MAX]);
    let [tag, options, _] = job.counts();
    let mut bytes = job.bytes_with([tag, options, count]);
    let start = bytes.len() - 2 * job.words.len();
    // From the options' end, amid the count, after it, or after a word's low byte.
    let amid = random.place(4);
    let from = start + random.pick(&[0, amid, 4, 4, 5, 5]) - 4;
    let place = if before.is_empty() {
        from
    } else {
        start + 2 * before.len() + random.place(2)
    };
    if random.one_in(3) {
        bytes.extend(short_file(random, 10));
    }
    let place = place.min(bytes.len());
    (bytes, place)
}

fn feed_of_a_job(random: &mut Random) -> Feed {
    if random.one_in(3) {
        code_feeds::any_feed(random)
    } else {
        any_feed(random)
    }
}

/// About as many as a run takes, by pairs before them that are all the same.
fn lengthen(random: &mut Random, words: &mut Vec<u16>) {
    let (run, more) = length(random, 5);
    let count = run - 1 + more;
    let missing = count.saturating_sub(words.len());
    let pair = signals::pair(random);
    let pairs = pair.into_iter().rev().cycle().take(missing);
    words.splice(0..0, pairs);
}

/// Buffers that are long enough.
pub fn buffers(random: &mut Random) -> [Vec<u16>; 2] {
    [(); 2].map(|()| {
        let more = random.pick(&[0, 0, 0, 1, 100, 20_000 - longest_row()]);
        lists::buffer_of_runs(random, longest_row() + more)
    })
}

/// One of them or both become too short, though most are long enough for a row.
pub fn shorten(random: &mut Random, buffers: &mut [Vec<u16>; 2]) {
    let channels = random.pick(&[&[0][..], &[1], &[0, 1]]);
    for &channel in channels {
        let any = random.place(longest_row());
        let length = random.pick(&[longest_row() - 1, longest_row() - 1, 2750, 0, any]);
        buffers[channel].truncate(length);
    }
}
