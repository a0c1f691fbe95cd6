//! Bench files of rows whose pairs stand at each place of a pair of cable words: codes and what is nearly one at every place in
//! them, and EAVs about their end.

use super::camera::{Camera, Recording};
use super::code_feeds::{next_at, ONES, ZEROS};
use super::signals::{code_bits, overlay, pair_bits, stretch, PAIR_BITS};
use crate::cable::SYNC_BITS;
use crate::job::Job;
use crate::layout::BLANKING;
use crate::random::Random;
use crate::timing::xyz;
use crate::words::WORD_BITS;

/// Three files for each alignment, each shorter than what may be read at once.
pub const COUNT: usize = 3 * PAIR_BITS;

/// A file in which each row's EAV ends with the same bit of a pair of cable words.
pub fn file(number: usize) -> Option<Vec<u8>> {
    let alignment = number % PAIR_BITS;
    let captures = match number / PAIR_BITS {
        0 => {
            let nearly = [stretches(alignment), broken(alignment)].concat();
            [outside(alignment), nearly, codes(alignment)].concat()
        }
        1 => row_ends(alignment, true),
        2 => row_ends(alignment, false),
        _ => return None,
    };
    let jobs = captures.into_iter().zip(1..);
    let jobs = jobs.map(|((raster, bits), job)| {
        let mut recording = Recording::default();
        recording.send(&bits);
        let tag = format!("A{alignment}-{job}");
        Job::new(&tag, raster, false, recording.words())
    });
    Some(jobs.flat_map(|job| job.bytes()).collect())
}

/// A raster and the bits of a capture.
type Capture = (u8, Vec<bool>);

fn blanking(bits: usize) -> Vec<bool> {
    pair_bits(BLANKING).into_iter().cycle().take(bits).collect()
}

fn code(h: bool) -> Vec<bool> {
    code_bits([xyz(false, true, h); 2])
}

/// Bits before an EAV that ends at the alignment, and the EAV.
fn opened(alignment: usize) -> Vec<bool> {
    [blanking((alignment + 1) % PAIR_BITS), code(true)].concat()
}

/// An open row in which these bits are laid, of which the one with this number stands at the place, and so many words more.
fn laid_at(alignment: usize, place: usize, laid: &[bool], last: usize, more: usize) -> Vec<bool> {
    let mut bits = opened(alignment);
    let end = next_at(bits.len() + PAIR_BITS + last, place);
    let start = end - last;
    let words = (start + laid.len()).div_ceil(WORD_BITS) + more;
    bits.extend(blanking(words * WORD_BITS - bits.len()));
    overlay(&mut bits, start, laid);
    bits
}

/// A raster, all of them in turn.
fn raster(number: usize) -> u8 {
    1 + (number % 11) as u8
}

/// Runs of zeros, alone and after ones, the last zero at every place.
fn stretches(alignment: usize) -> Vec<Capture> {
    let mut captures = Vec::new();
    for place in 0..PAIR_BITS {
        for (ones, zeros) in ONES
            .iter()
            .flat_map(|&ones| ZEROS.map(|zeros| (ones, zeros)))
        {
            let (laid, more) = (stretch(ones, zeros), 1 + place % 3);
            let bits = laid_at(alignment, place, &laid, ones + zeros, more);
            captures.push((raster(captures.len()), bits));
        }
    }
    captures
}

/// EAVs but for one bit of their sync, each of its bits in some file, the last of them at every place.
fn broken(alignment: usize) -> Vec<Capture> {
    let captures = (0..PAIR_BITS).map(|place| {
        let mut laid = code(true);
        laid[(7 * place + 3 * alignment) % SYNC_BITS] ^= true;
        let bits = laid_at(alignment, place, &laid, SYNC_BITS - 1, place % 3);
        (raster(place), bits)
    });
    captures.collect()
}

/// EAVs and SAVs in a row, the last bit of their sync at every place; the last word is among them, or the last but one, or none.
fn codes(alignment: usize) -> Vec<Capture> {
    let mut captures = Vec::new();
    for place in 0..PAIR_BITS {
        for (h, more) in [false, true]
            .into_iter()
            .flat_map(|h| [0, 1, 2].map(|more| (h, more)))
        {
            let bits = laid_at(alignment, place, &code(h), SYNC_BITS - 1, more);
            captures.push((raster(captures.len()), bits));
        }
    }
    captures
}

/// Codes while no row is open: an SAV whose pairs end at the alignment, then an EAV a few bits later.
fn outside(alignment: usize) -> Vec<Capture> {
    let gaps = [0, 1, 10, 19, 20].into_iter();
    let captures = gaps.map(|gap| {
        let before = blanking((alignment + 1) % PAIR_BITS);
        let bits = [before, code(false), blanking(gap), code(true), blanking(30)];
        (raster(gap), bits.concat())
    });
    captures.collect()
}

/// Two rows of raster 1, and after them EAVs that end with a pair of theirs, or a few bits off, and none.
fn row_ends(alignment: usize, with_a_pair: bool) -> Vec<Capture> {
    let rows = two_rows(alignment);
    // An EAV so many bits early, or late.
    let with_eav = |less: usize, more: usize| {
        let sent = &rows[..rows.len() - less];
        [sent, &blanking(more), &code(true), &blanking(30)].concat()
    };
    let few = 1 + alignment * 7 % (PAIR_BITS - 1);
    let captures = if with_a_pair {
        [(0, 0), (PAIR_BITS, 0), (0, PAIR_BITS)].map(|(less, more)| with_eav(less, more))
    } else {
        let without = [&rows[..], &blanking(6 * PAIR_BITS)].concat();
        [with_eav(few, 0), with_eav(0, few), without]
    };
    captures.map(|bits| (1, bits)).into()
}

/// Their words are all different, so that one at another place is a fault.
fn two_rows(alignment: usize) -> Vec<bool> {
    let random = &mut Random::new(alignment as u64);
    let mut camera = Camera::new(1, 748);
    let mut rows = blanking((alignment + 1) % PAIR_BITS);
    for _ in 0..2 {
        let active = [(); 2].map(|()| [(); 1280].map(|()| random.short(0x004, 0x3fb)));
        let [y, c] = &active;
        rows.extend(camera.next_row([y, c], [&[]; 2]));
    }
    rows
}
