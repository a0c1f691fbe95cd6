//! Jobs that are refused: each section wrong in each way, two faults in one section or word in each order, and cuts.

use super::bad_job::*;
use super::{Kind, Notes};
use crate::job::Job;
use crate::random::Random;

type Step = fn(&mut Random, &mut BadJob);
/// A name, and what is done to a job, one after the other.
pub type Fault = (Kind, &'static [Step]);

pub const ALL: [Fault; 39] = [
    ("bad tag count", &[tag_count]),
    ("bad tag byte", &[tag_byte]),
    ("bad options count", &[option_count]),
    ("bad raster", &[raster]),
    ("bad wipe", &[wipe]),
    ("bad word", &[word]),
    ("words count a little too high", &[more_words]),
    ("words count far too high", &[many_words]),
    ("words count too low", &[fewer_words]),
    ("cut in the tag's count", &[cut_in_count::<TAG>]),
    ("cut in the tag", &[cut_in::<TAG>]),
    ("cut in the options' count", &[cut_in_count::<OPTIONS>]),
    ("cut in the options", &[cut_in::<OPTIONS>]),
    ("cut in the words' count", &[cut_in_count::<WORDS>]),
    ("cut in the words", &[cut_in::<WORDS>]),
    ("bad tag count and byte", &[tag_count, tag_byte]),
    ("bad tag count, then a cut", &[tag_count, cut_in::<TAG>]),
    ("two bad tag bytes", &[tag_byte, tag_byte]),
    ("bad tag byte, then a cut", &[tag_byte, cut_after::<TAG>]),
    ("cut before a bad tag byte", &[tag_byte, cut_before::<TAG>]),
    ("bad options count and raster", &[option_count, raster]),
    ("bad options count and wipe", &[option_count, wipe]),
    (
        "bad options count, then a cut",
        &[option_count, cut_in::<OPTIONS>],
    ),
    ("bad raster and wipe", &[raster, wipe]),
    ("bad raster, then a cut", &[raster, cut_after::<OPTIONS>]),
    ("cut before a bad raster", &[raster, cut_before::<OPTIONS>]),
    ("two bad words", &[word, word]),
    ("bad word, then a cut", &[word, cut_after::<WORDS>]),
    ("cut in a bad word", &[word, cut_in_bad_word]),
    ("cut before a bad word", &[word, cut_before::<WORDS>]),
    ("words count too high, and a bad word", &[more_words, word]),
    (
        "words count far too high, and a bad word",
        &[many_words, word],
    ),
    ("words count too low, and a bad word", &[fewer_words, word]),
    ("bad tag and options", &[tag_byte, raster]),
    ("bad tag and word", &[tag_byte, word]),
    ("bad raster and word", &[raster, word]),
    (
        "bad raster, then a cut in the words",
        &[raster, cut_in::<WORDS>],
    ),
    ("bad word about a run's end", &[word_about_a_run]),
    (
        "cut about a run's end, and a bad word",
        &[word_about_a_run, cut_about_bad_word],
    ),
];

/// Those that do not make a job longer.
pub const OF_FEW_WORDS: &[Fault] = ALL.split_at(ALL.len() - 2).0;

/// The job once it is spoilt in one of these ways.
pub fn bad_job(random: &mut Random, job: Job, faults: &[Fault], notes: &mut Notes) -> BadJob {
    let mut bad = BadJob::of(job);
    for step in notes.in_turn(faults) {
        step(random, &mut bad);
    }
    bad
}
