//! A fixed small bench file, to be cut at each of its bytes.

use super::camera::Recording;
use super::signals::{code_bits, pair_bits};
use crate::job::Job;
use crate::layout::BLANKING;
use crate::timing::xyz;

/// Two jobs: one EAV and the pair after it; two EAVs too near to one another, read as the local cameras' raster.
pub fn file() -> Vec<u8> {
    let jobs = [
        Job::new("CUT-1", 1, false, recorded(5, 1)),
        Job::new("CUT-2", 0, true, recorded(13, 2)),
    ];
    jobs.iter().flat_map(Job::bytes).collect()
}

/// So many EAVs after so many zeros, each followed by one pair of blanking.
fn recorded(zeros: usize, eavs: usize) -> Vec<u16> {
    let pairs = [code_bits([xyz(false, true, true); 2]), pair_bits(BLANKING)];
    let mut recording = Recording::default();
    recording.send(&vec![false; zeros]);
    recording.send(&pairs.concat().repeat(eavs));
    recording.words()
}
