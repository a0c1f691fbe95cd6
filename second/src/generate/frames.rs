//! Bench files with full frames, good or with a fault in every row.

use super::camera::Recording;
use super::files::{sender::Sender, tag};
use super::signals::{noise, row_bits, PAIR_BITS};
use crate::job::Job;
use crate::random::Random;
use crate::raster::raster_of;
use crate::refusal::Refusal;

/// What is done to the bits of each row, of which one of the picture is at the place.
type Spoil = fn(&mut Vec<bool>, usize);

/// The bytes of a job of so many frames and two rows more, all good, from any line and any bit on: of these the first gives
/// the line and the last is not complete, so the frames' rows count, PASS. Refusal 4 where there is no such raster.
pub fn frames(code: u32, count: u64, seed: u64) -> Result<Vec<u8>, Refusal> {
    sent(code, count, seed, |_, _| {})
}

/// The same with a bit flipped in the picture of each row: the CRC of every row that counts is wrong.
pub fn flipped(code: u32, count: u64, seed: u64) -> Result<Vec<u8>, Refusal> {
    sent(code, count, seed, |bits, place| bits[place] ^= true)
}

/// The same with a bit lost in the picture of each row: the next one stands at another alignment, so no row is judged.
pub fn slipped(code: u32, count: u64, seed: u64) -> Result<Vec<u8>, Refusal> {
    sent(code, count, seed, |bits, place| {
        bits.remove(place);
    })
}

fn sent(code: u32, count: u64, seed: u64, spoil: Spoil) -> Result<Vec<u8>, Refusal> {
    let raster = raster_of(code)?;
    let random = &mut Random::new(seed);
    // The rows are the same, whatever is done to them.
    let places = &mut Random::new(seed);
    let mut recording = Recording::default();
    let before = random.place(60);
    recording.send(&noise(random, before));
    let mut sender = Sender::new(random, code);
    for _ in 0..count * u64::from(raster.rows) + 2 {
        let row = sender.row(random);
        let active = row.head.layout().active();
        let mut bits = row_bits(&row.words, 0..active.end);
        let place = active.start * PAIR_BITS + places.place(active.len() * PAIR_BITS);
        spoil(&mut bits, place);
        recording.send(&bits);
    }
    let job = Job::new(&tag(random), code as u8, random.bit(), recording.words());
    Ok(job.bytes())
}
