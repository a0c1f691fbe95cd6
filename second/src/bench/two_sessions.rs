//! The session of requests, which takes bit after bit, and the reading of all words at once answer the same.

use super::coverage::small_jobs;
use super::module::report;
use super::places::{CODE, PAIR};
use crate::generate::camera::Camera;
use crate::generate::signals::{code_bits, overlay, scrambled_words, whole_words};
use crate::raster::{raster_of, Raster};
use crate::session::{Report, Session};
use crate::timing::xyz;
use crate::words::WORD_BITS;

/// The report of the session that is fed the words in parts.
fn fed_in_parts(raster: Raster, words: &[u16], part: usize) -> Report {
    let mut session = Session::default();
    let mut rows = [(); 2].map(|()| vec![0; raster.total as usize]);
    session.begin(raster.code).expect("it is closed");
    for words in words.chunks(part) {
        let [y, c] = &mut rows;
        session.feed(words, &mut [y, c]).expect("it is open");
    }
    session.end().expect("it is open")
}

fn assert_same(raster: Raster, words: &[u16], part: usize) {
    let numbers = |report: Report| {
        let verdict = report.verdict as u32;
        [report.raster, report.rows, report.faults, verdict]
    };
    let fed = fed_in_parts(raster, words, part);
    assert_eq!(numbers(report(raster, words)), numbers(fed));
}

#[test]
fn on_the_modules_of_all_seeds() {
    for (number, (raster, words)) in small_jobs().enumerate() {
        assert_same(raster, &words, 1 + number * 7 % 5000);
    }
}

const ROW: usize = 1650 * PAIR;

/// Two rows of raster 1 and the EAV after them, from bit 0 on.
fn two_rows() -> Vec<bool> {
    let mut camera = Camera::new(1, 745);
    let active = [0x155; 1280];
    let [first, second, third] = [(); 3].map(|()| camera.next_row([&active; 2], [&[]; 2]));
    [&first, &second, &third[..2 * CODE]].concat()
}

/// Lays a code over the bits from a place on: an EAV's, whose XYZ ends in four ones, or an SAV's.
fn lay_code(bits: &mut [bool], place: usize, h: bool) {
    overlay(bits, place, &code_bits([xyz(true, true, h); 2]));
}

fn assert_same_of_bits(bits: &[bool]) {
    let raster = raster_of(1).expect("it is of the table");
    let words = scrambled_words(0, &whole_words(bits));
    assert_same(raster, &words, 2000);
}

#[test]
fn with_a_code_at_every_place_about_a_rows_end() {
    let rows = two_rows();
    for place in ROW - 90..ROW + 180 {
        for h in [false, true] {
            let mut bits = rows.clone();
            lay_code(&mut bits, place, h);
            assert_same_of_bits(&bits);
        }
    }
}

/// Of an EAV that opens, completes or drops a row, also at another alignment.
#[test]
fn with_a_code_that_begins_in_an_xyz_pair() {
    let rows = two_rows();
    for place in [0, 100 * PAIR, ROW, ROW + PAIR, ROW + 7] {
        for (ones, h) in [(4, false), (4, true), (3, false), (1, true)] {
            let mut bits = rows.clone();
            lay_code(&mut bits, place, true);
            lay_code(&mut bits, place + CODE - ones, h);
            assert_same_of_bits(&bits);
        }
    }
}

#[test]
fn on_captures_that_end_anywhere() {
    let bits = two_rows();
    let ends = (0..200).chain(ROW - 20..ROW + 100);
    for end in ends.chain(2 * ROW - 20..2 * ROW + 100) {
        assert_same_of_first(&bits, end);
    }
}

/// The first bits, after as many zeros as make whole words of them.
fn assert_same_of_first(bits: &[bool], count: usize) {
    let zeros = count.next_multiple_of(WORD_BITS) - count;
    assert_same_of_bits(&[&vec![false; zeros], &bits[..count]].concat());
}

/// Where the four pairs after the T-th have not ended, only a sync that has ended is a fault.
#[test]
fn on_captures_that_end_with_a_sync_about_a_rows_end() {
    let rows = two_rows();
    for place in ROW - 90..ROW + 90 {
        let mut bits = rows.clone();
        lay_code(&mut bits, place, true);
        for end in [59, 60, 79, 80] {
            assert_same_of_first(&bits, place + end);
        }
    }
}
