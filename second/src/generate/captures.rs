//! Sample bench files for a newcomer to run.

use super::camera::{Camera, Recording};
use super::picture;
use super::signals::PAIR_BITS;
use crate::job::Job;
use crate::words::WORD_BITS;

type Maker = fn() -> Vec<Job>;

const CAPTURES: [(&str, Maker); 4] = [
    ("dead-after-good", dead_after_good),
    ("damaged", damaged),
    ("bad-file", bad_file),
    ("full-frame", full_frame),
];

pub fn names() -> [&'static str; 4] {
    CAPTURES.map(|(name, _)| name)
}

/// The bytes of the capture, if there is one of this name.
pub fn capture(name: &str) -> Option<Vec<u8>> {
    let (_, jobs) = CAPTURES.into_iter().find(|&(known, _)| known == name)?;
    Some(jobs().iter().flat_map(Job::bytes).collect())
}

/// So many rows from the line on, after the last few bits of the row before them.
/// A row counts once its CRC could be judged and the next one has begun, so two rows less count.
fn good_rows(code: u32, bits: usize, line: u32, count: u32) -> Vec<u16> {
    let mut camera = Camera::new(code, line - 1);
    let mut recording = Recording::default();
    let before = next_row(&mut camera, code);
    recording.send(&before[before.len() - bits..]);
    for _ in 0..count {
        recording.send(&next_row(&mut camera, code));
    }
    recording.words()
}

fn next_row(camera: &mut Camera, code: u32) -> Vec<bool> {
    let active = picture::active(code, camera.line);
    let packets = picture::packets(camera.line);
    let [active, packets] = [&active, &packets].map(|words| words.each_ref().map(Vec::as_slice));
    camera.next_row(active, packets)
}

/// A good module, of which only a few rows were captured, so that the file is small: SHORT. Then one whose cable is dead.
fn dead_after_good() -> Vec<Job> {
    let good = good_rows(1, 7, 23, 8);
    let dead = vec![0x000; 8000];
    vec![
        Job::new("CAM-0412", 1, false, good),
        Job::new("CAM-0413", 1, true, dead),
    ]
}

/// Five rows of raster 1, three times: untouched, with one bit of the cable flipped, and with one word of it lost.
fn damaged() -> Vec<Job> {
    let bits = 13;
    let good = good_rows(1, bits, 298, 5);
    // A pair in the middle of the second row's picture.
    let bit = bits + (1650 + 1000) * PAIR_BITS;
    let mut flipped = good.clone();
    flipped[bit / WORD_BITS] ^= 1 << (bit % WORD_BITS);
    let mut lost = good.clone();
    lost.remove(bit / WORD_BITS);
    vec![
        Job::new("CAM-0420", 1, false, good),
        Job::new("CAM-0421", 1, true, flipped),
        Job::new("CAM-0422", 1, false, lost),
    ]
}

/// A good job, one that asks for a raster that there is not, and one that is therefore never read.
fn bad_file() -> Vec<Job> {
    let good = good_rows(1, 3, 99, 3);
    vec![
        Job::new("CAM-0430", 1, false, good.clone()),
        Job::new("CAM-0431", 12, false, good.clone()),
        Job::new("CAM-0432", 1, false, good),
    ]
}

/// All 1125 rows of the local cameras' raster, from line 1100 on, and one before and one after to count them by: PASS.
/// Right after it a dead module, its cable at the other level.
fn full_frame() -> Vec<Job> {
    let frame = good_rows(7, 11, 1100, 1125 + 2);
    let dead = vec![0x3ff; 8000];
    vec![
        Job::new("CAM-0440", 0, false, frame),
        Job::new("CAM-0441", 0, true, dead),
    ]
}
