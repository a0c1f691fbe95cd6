//! Bench files that hold no rows, to time a program on.

use super::files::{rowless_job, tag};
use crate::job::Job;
use crate::random::Random;

/// No job of many has more words.
const SHORT: usize = 500;

/// One job of so many words, each any: that twenty ones and forty zeros come in a row is not to be expected.
pub fn noise(count: u64, seed: u64) -> Vec<u8> {
    let random = &mut Random::new(seed);
    let words = (0..count).map(|_| random.short(0, 0x3ff)).collect();
    Job::new(&tag(random), 7, false, words).bytes()
}

/// One job of so many words of a cable on which nothing is sent.
pub fn dead(count: u64) -> Vec<u8> {
    Job::new("DEAD", 7, false, vec![0; count as usize]).bytes()
}

/// So many jobs, dead, noisy, or of a few timing codes.
pub fn jobs(count: u64, seed: u64) -> Vec<u8> {
    let random = &mut Random::new(seed);
    let job = |_| rowless_job(random, SHORT).bytes();
    (0..count).flat_map(job).collect()
}
