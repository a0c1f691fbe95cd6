//! The rules of a bench file, each with what is printed.

use super::sections::PART;
use super::{bench, printed};
use crate::generate::captures::capture;
use crate::generate::cuts;
use crate::job::Job;
use std::io::{repeat, Error, ErrorKind, Read, Result};

const HUGE: u32 = 0xffff_ffff;
const A17: &str = "A17 raster 1 rows 0 faults 0 NO SIGNAL\n";

/// The job of the example with these words.
fn job(words: &[u16]) -> Job {
    Job::new("A17", 1, false, words.to_vec())
}

/// That the bytes are refused, alone and after a good job, whatever follows them.
fn assert_refused(bytes: &[u8], number: u32) {
    let good = job(&[]).bytes();
    let refused = format!("bad file {number}\n");
    assert_eq!(printed(bytes), refused, "{bytes:x?}");
    let after_good = printed(&*[&good, bytes].concat());
    assert_eq!(after_good, A17.to_string() + &refused);
}

/// The same for bytes that are refused before their end.
fn assert_refused_early(bytes: &[u8], number: u32) {
    assert_refused(bytes, number);
    assert_refused(&[bytes, &job(&[]).bytes()].concat(), number);
}

#[test]
fn the_example_prints_exactly_its_two_lines() {
    let input = [
        &[3, 0, 0, 0, 0x41, 0x31, 0x37, 2, 0, 0, 0, 1, 0, 0, 0, 0, 0][..],
        &[3, 0, 0, 0, 0x42, 0x30, 0x32, 2, 0, 0, 0, 7, 0, 0, 0, 0, 0],
    ];
    let second = "B02 raster 7 rows 0 faults 0 NO SIGNAL\n";
    assert_eq!(printed(&*input.concat()), A17.to_string() + second);
}

/// "Empty input prints nothing."
#[test]
fn empty_input_prints_nothing() {
    assert_eq!(printed(&[][..]), "");
}

#[test]
fn wiping_changes_no_line() {
    let mut file = capture("damaged").expect("there is such a capture");
    let lines = printed(&*file);
    let wipe = 4 + "CAM-0420".len() + 4 + 1;
    assert_eq!(file[wipe], 0);
    file[wipe] = 1;
    assert_eq!(printed(&*file), lines);
}

/// "tag not of 1 to 32 bytes"
#[test]
fn tags_have_1_to_32_bytes() {
    for count in [1, 2, 31, 32] {
        let tag = "T".repeat(count);
        let bytes = Job::new(&tag, 1, false, Vec::new()).bytes();
        assert_eq!(printed(&*bytes), A17.replace("A17", &tag));
    }
    for count in [0, 33, 34, 256, 256 + 3] {
        let bytes = Job::new(&"T".repeat(count), 1, false, Vec::new()).bytes();
        assert_refused_early(&bytes, 9);
    }
    for count in [0, 33, 0x0300_0000, HUGE] {
        assert_refused_early(&job(&[]).bytes_with([count, 2, 0]), 9);
    }
}

/// "not printable ASCII without spaces"
#[test]
fn tag_bytes_are_21_to_7e() {
    for byte in 0..=0xff {
        for place in 0..3 {
            let mut job = job(&[]);
            job.tag[place] = byte;
            if (0x21..=0x7e).contains(&byte) {
                let tag = String::from_utf8(job.tag.clone()).expect("it is ASCII");
                assert_eq!(printed(&*job.bytes()), A17.replace("A17", &tag));
            } else {
                assert_refused_early(&job.bytes(), 9);
            }
        }
    }
}

/// "word 3FF passes, 400 gives 3", at every place, also beyond the words that are read at once.
#[test]
fn words_above_3ff_are_3() {
    assert_eq!(printed(&*job(&[0x3ff; 3]).bytes()), A17);
    for count in [1, 3, PART, PART + 1, 2 * PART + 3] {
        for place in [0, count / 2, count - 1] {
            for word in [0x0400, 0x8000, 0xff03, 0xffff] {
                let mut job = job(&vec![0x155; count]);
                job.words[place] = word;
                assert_refused_early(&job.bytes(), 3);
            }
        }
    }
}

/// 9, or at a job's end nothing more.
#[test]
fn a_file_cut_at_any_byte() {
    let file = cuts::file();
    let lines = [
        "CUT-1 raster 1 rows 0 faults 0 SHORT\n",
        "CUT-2 raster 7 rows 0 faults 1 FAIL\n",
    ];
    let second = file.windows(5).position(|bytes| bytes == b"CUT-2");
    let jobs = [second.expect("its tag is there") - 4, file.len()];
    for end in 0..=file.len() {
        let whole = jobs.iter().filter(|&&job| job <= end).count();
        let mut expected = lines[..whole].concat();
        if end != 0 && !jobs.contains(&end) {
            expected += "bad file 9\n";
        }
        assert_eq!(printed(&file[..end]), expected, "cut at {end}");
    }
}

/// Nothing is sized by a count.
#[test]
fn huge_counts_before_few_bytes() {
    let good = job(&[0x155; 2]);
    for counts in [[HUGE, 2, 2], [3, HUGE, 2], [3, 2, HUGE]] {
        assert_refused(&good.bytes_with(counts), 9);
    }
    assert_refused(&job(&[0x155, 0x400]).bytes_with([3, 2, HUGE]), 3);
    let many = job(&[]).bytes_with([3, 2, HUGE]);
    let words = repeat(0).take(1_000_001);
    assert_eq!(printed(many.chain(words)), "bad file 9\n");
}

/// Gives one byte at a time, with an interruption before each, and an error after the last.
struct Halting<'a>(&'a [u8], bool);

impl Read for Halting<'_> {
    fn read(&mut self, buffer: &mut [u8]) -> Result<usize> {
        self.1 = !self.1;
        if self.1 {
            return Err(Error::from(ErrorKind::Interrupted));
        }
        let (&byte, rest) = self.0.split_first().ok_or(ErrorKind::Other)?;
        self.0 = rest;
        buffer[0] = byte;
        Ok(1)
    }
}

/// An error of reading is the end of the input.
#[test]
fn an_error_of_reading_is_the_end() {
    let bytes = job(&[0x155; 2]).bytes();
    for end in 0..=bytes.len() {
        let halted = Halting(&bytes[..end], false);
        assert_eq!(printed(halted), printed(&bytes[..end]));
    }
}

#[test]
fn a_closed_output_ends_it() {
    let mut full = [0; 10];
    let ended = bench(&*job(&[]).bytes(), &mut full[..]);
    assert!(ended.is_err());
    assert_eq!(full, A17.as_bytes()[..10]);
}
