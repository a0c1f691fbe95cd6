//! Bench files at a desk, cut in several ways: the lines are those that `bench` prints.

use super::{Desk, Outcome};
use crate::bench::printed;
use crate::generate::files::file;

/// A file of more bytes would take long.
const MOST_BYTES: usize = 120_000;

/// The lines of a file that is lent in parts, up to a refusal.
fn lines(file: &[u8], part: usize) -> Vec<u8> {
    let [mut y, mut c] = [(); 2].map(|()| vec![0xfade; 4125]);
    let mut desk = Desk::default();
    let mut lines = Vec::new();
    let mut left = file;
    while !left.is_empty() {
        let lent = &left[..part.min(left.len())];
        let taken = desk.take(lent, &mut [&mut y, &mut c]);
        let (count, outcome) = taken.expect("nothing is refused");
        lines.extend(outcome.line());
        if let Outcome::Refused(_) = outcome {
            return lines;
        }
        left = &left[count..];
    }
    lines.extend(desk.finish().line());
    lines
}

#[test]
fn a_desk_tells_what_bench_prints() {
    let mut compared = 0;
    for seed in 1..=150 {
        let file = file(seed).bytes;
        if file.len() > MOST_BYTES {
            continue;
        }
        let printed = printed(&file[..]).into_bytes();
        for part in [usize::MAX, 1 + seed as usize * 37 % 5000] {
            assert!(lines(&file, part) == printed, "file {seed} by {part}");
        }
        compared += 1;
    }
    assert!(compared > 120);
}
