//! Smaller numbers for one part of what is put. Places and ranges are of its numbers.

use super::parts::{Kind, Parts, Piece};
use std::ops::Range;

pub type Numbers = Vec<u32>;

/// The places of a session's line and of its carry.
const LINE: usize = 9;
const CARRY: Range<usize> = 10..13;

/// The number, its half, its quarter .. and 1: sizes of parts, coarse before fine.
pub fn halvings(number: usize) -> impl Iterator<Item = usize> {
    (0..usize::BITS)
        .map(move |times| number >> times)
        .take_while(|&part| part > 0)
}

pub fn without(piece: &Piece, range: Range<usize>) -> Numbers {
    let mut numbers = piece.numbers.clone();
    numbers.drain(within(piece, range));
    numbers
}

/// Runs become one that is as long as they are together, with the words of the first or the last: a row must keep its length.
pub fn melted(piece: &Piece, range: Range<usize>) -> Vec<Numbers> {
    let Some(width) = piece.kind.width().filter(|&width| width > 1) else {
        return Vec::new();
    };
    let range = within(piece, range);
    let runs: Vec<&[u32]> = piece.numbers[range.clone()].chunks(width).collect();
    let times = runs.iter().map(|run| run[0]).fold(0, u32::saturating_add);
    let ends = runs.first().into_iter().chain(runs.last());
    let changed = ends.map(|run| {
        let mut numbers = piece.numbers.clone();
        numbers.splice(range.clone(), [&[times], &run[1..]].concat());
        numbers
    });
    changed.collect()
}

/// The words become 0; how often a run has them stays.
pub fn cleared(piece: &Piece, range: Range<usize>) -> Numbers {
    let width = piece.kind.width().unwrap_or(1);
    let mut numbers = piece.numbers.clone();
    for run in numbers[within(piece, range)].chunks_mut(width) {
        let times = usize::from(width > 1);
        run[times..].fill(0);
    }
    numbers
}

/// No carry; a session that is closed, or just begun, or has no carry; the tag `A`; the shortest raster; a smaller file.
pub fn simpler(piece: &Piece) -> Vec<Numbers> {
    match piece.kind {
        Kind::Carry => vec![vec![0; piece.numbers.len()]],
        Kind::Session => simpler_sessions(piece),
        Kind::Tag => vec![vec![b'A'.into()]],
        Kind::Options => vec![vec![1, 0]],
        Kind::Bytes => simpler_files(&piece.numbers),
        _ => Vec::new(),
    }
}

/// Whether a tag or options are as plain as can be: with fewer bytes, or zeros, the file would only be bad.
pub fn is_plain(piece: &Piece) -> bool {
    matches!(piece.kind, Kind::Tag | Kind::Options) && simpler(piece).contains(&piece.numbers)
}

fn simpler_sessions(piece: &Piece) -> Vec<Numbers> {
    let none = vec![0; piece.numbers.len()];
    let mut begun = none.clone();
    begun[..2].copy_from_slice(&piece.numbers[..2]);
    let mut without_carry = piece.numbers.clone();
    without_carry[CARRY].fill(0);
    vec![none, begun, without_carry]
}

/// The file without one of its jobs, or with fewer words, a short tag or plain options in one; their counts stay right.
fn simpler_files(numbers: &[u32]) -> Vec<Numbers> {
    let bytes: Vec<u8> = numbers.iter().map(|&number| number as u8).collect();
    let file = Parts::of_file(&bytes);
    let jobs = 0..file.jobs();
    let mut files: Vec<Parts> = jobs.map(|job| file.without_jobs(job..job + 1)).collect();
    for (place, piece) in file.pieces.iter().enumerate() {
        let smaller = match piece.kind {
            Kind::Words => without_ends(piece),
            _ => simpler(piece),
        };
        files.extend(smaller.into_iter().map(|numbers| file.with(place, numbers)));
    }
    let numbers = |file: Parts| file.put().into_iter().map(u32::from).collect();
    files.into_iter().map(numbers).collect()
}

/// Less at the front or at the back: all, halves, quarters .. single ones.
fn without_ends(piece: &Piece) -> Vec<Numbers> {
    let count = piece.numbers.len();
    let ends = halvings(count).flat_map(|size| [0..size, count - size..count]);
    ends.map(|end| without(piece, end)).collect()
}

/// One number becomes 0, or is less by a half, a quarter .. and one. "A session in range that is handed in is one that a run
/// can reach but for its line, carry and counts": so its other numbers stay.
pub fn lessened(piece: &Piece, place: usize) -> Vec<Numbers> {
    if piece.kind == Kind::Session && place < LINE {
        return Vec::new();
    }
    let number = piece.numbers[place];
    let parts = (1..u32::BITS).map(|halvings| number >> halvings);
    let less = parts.take_while(|&part| part > 0).map(|part| number - part);
    let changed = std::iter::once(0).chain(less).map(|number| {
        let mut numbers = piece.numbers.clone();
        numbers[place] = number;
        numbers
    });
    changed.collect()
}

/// The chunk at the end of a part may be shorter.
fn within(piece: &Piece, range: Range<usize>) -> Range<usize> {
    range.start..range.end.min(piece.numbers.len())
}

#[cfg(test)]
mod tests {
    use super::*;

    fn piece(kind: Kind, numbers: &[u32]) -> Piece {
        let numbers = numbers.to_vec();
        Piece { kind, numbers }
    }

    #[test]
    fn runs_keep_their_length_or_their_words() {
        let runs = piece(Kind::Runs, &[5, 0x40, 1, 0x3ff, 2, 0x200]);
        assert_eq!(without(&runs, 2..4), [5, 0x40, 2, 0x200]);
        let words = [0x3ff, 0x200];
        assert_eq!(melted(&runs, 2..9), words.map(|word| [5, 0x40, 3, word]));
        assert_eq!(cleared(&runs, 0..4), [5, 0, 1, 0, 2, 0x200]);
        let twos = piece(Kind::Twos, &[5, 1, 2, 6, 3, 4]);
        assert_eq!(melted(&twos, 0..6), [[11, 1, 2], [11, 3, 4]]);
        assert!(melted(&piece(Kind::List, &[1, 2]), 0..2).is_empty());
        assert_eq!(cleared(&piece(Kind::List, &[1, 2]), 0..1), [0, 2]);
    }
}
