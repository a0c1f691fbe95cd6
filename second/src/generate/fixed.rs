//! Fixed bench files: sections about as long as the parts in which they may be taken, every alignment of rows and codes, and a
//! frame that is one row short.

use super::alignments;
use super::camera::Recording;
use super::files::sender::Sender;
use super::long_sections::{across, marked, CODE, FEW, READ, RUN};
use super::signals::row_bits;
use super::streams::rows_of;
use crate::cable::SYNC_BITS;
use crate::job::Job;
use crate::random::Random;
use crate::words::WORD_BITS;

/// The longest row, so that no row ends between two EAVs, and each but the first of them is a fault.
const RASTER: u8 = 5;
/// The bytes before the words but for the tag: three counts and the options.
const HEAD: usize = 14;
/// Makes a word one above 3FF.
const ABOVE: u16 = 0x400;

/// A file of a long section and a short job after it.
#[derive(Clone, Copy)]
struct Plan {
    /// How many bytes the tag has, so that words stand at even places or odd ones.
    tag: usize,
    words: usize,
    /// Whether a code ends with the section, or one stands across the end of the last part.
    code_at_end: bool,
    /// The place of a word above 3FF.
    bad: Option<usize>,
    /// How many bytes of the section's words are left, if it is cut.
    end: Option<usize>,
}

impl Plan {
    fn of(words: usize) -> Self {
        Self {
            tag: 1 + words % 2,
            words,
            code_at_end: true,
            bad: None,
            end: None,
        }
    }

    /// One whose section ends with this byte of the file.
    fn to(byte: usize) -> Self {
        let tag = 1 + (byte + HEAD + 1) % 2;
        Self {
            tag,
            ..Self::of((byte - HEAD - tag) / 2)
        }
    }

    fn with_bad(self, place: usize) -> Self {
        let bad = Some(place);
        Self { bad, ..self }
    }

    /// Where the section's first word stands.
    fn start(&self) -> usize {
        HEAD + self.tag
    }

    /// Where the parts end in which the words may be taken, in words: runs, and the word that a read ends in.
    fn part_ends(&self) -> Vec<usize> {
        let mut ends = Vec::new();
        let mut word = 0;
        while word < self.words {
            let byte = self.start() + 2 * word;
            let to_read = READ - byte % READ;
            word += RUN.min(to_read / 2).max(1);
            ends.push(word);
        }
        ends.retain(|&end| end < self.words);
        ends
    }

    /// An EAV at the start, one across each part's end, and one that ends with the section, or its sync does; none that would
    /// lie over another.
    fn codes(&self, number: usize) -> Vec<usize> {
        let last = self.words * WORD_BITS;
        let ends = self.part_ends().into_iter().enumerate();
        let starts = ends.map(|(part, end)| across(end, 17 * number + 29 * part));
        let mut codes: Vec<usize> = starts.map(|start| start.min(last - CODE)).collect();
        if self.code_at_end {
            let at_end = last.saturating_sub([SYNC_BITS, CODE][number % 2]);
            codes.retain(|code| code + CODE <= at_end);
            codes.push(at_end);
        }
        codes.dedup_by(|code, before| *code < *before + CODE);
        if codes.first().is_some_and(|&first| first >= CODE) {
            codes.push(0);
        }
        codes
    }

    fn bytes(&self, number: usize) -> Vec<u8> {
        let mut words = marked(self.words, &self.codes(number));
        if let Some(place) = self.bad {
            words[place] |= ABOVE;
        }
        let mut bytes = Job::new(&"T".repeat(self.tag), RASTER, false, words).bytes();
        match self.end {
            Some(end) => bytes.truncate(self.start() + end),
            None => bytes.extend(Job::new("AFTER", 1, true, vec![0x155; 2]).bytes()),
        }
        bytes
    }
}

/// What is within a few of a number.
fn about(middle: usize, few: usize) -> impl Iterator<Item = usize> {
    middle - few..=middle + few
}

/// All plans: of none or few words, about a short run, a run and two, about one read and two.
fn plans() -> Vec<Plan> {
    let few = (0..10).map(Plan::of);
    let lengths = about(FEW, 3).chain(about(RUN, 3));
    let runs = lengths.chain(about(2 * RUN, 2)).map(Plan::of);
    let reads = about(READ, 5).chain(about(2 * READ, 1)).map(Plan::to);
    let jobs_across = [4, 8, 9, 13, 15, 17].map(|bytes| Plan::to(READ - bytes));
    let whole: Vec<Plan> = few.chain(runs).chain(reads).chain(jobs_across).collect();
    let mut across_parts = whole.clone();
    across_parts.retain(|plan| plan.words > RUN);
    across_parts
        .iter_mut()
        .for_each(|plan| plan.code_at_end = false);
    let bad = [bad_in_few(), bad_about_runs(), bad_about_reads()];
    let cut = [cut_about_runs(), cut_about_reads()];
    [whole, across_parts, bad.concat(), cut.concat()].concat()
}

/// With words above 3FF at these places, as far as there are such places.
fn bad_at(plan: Plan, places: &[usize]) -> Vec<Plan> {
    let mut places = places.to_vec();
    places.retain(|&place| place < plan.words);
    places.sort_unstable();
    places.dedup();
    let bad = places.into_iter().map(|place| plan.with_bad(place));
    bad.collect()
}

fn bad_in_few() -> Vec<Plan> {
    let all = (1..6).flat_map(|words| bad_at(Plan::of(words), &[0, 1, 2, 3, 4]));
    all.collect()
}

/// The first, the last and the last but one of a run and of the section.
fn bad_about_runs() -> Vec<Plan> {
    let lengths = about(FEW, 2).chain(about(RUN, 2));
    let all = lengths.chain(2 * RUN..=2 * RUN + 2).flat_map(|words| {
        let ends = [words - 2, words - 1, 2 * RUN - 1, 2 * RUN];
        let places = [&[0, 1, RUN - 2, RUN - 1, RUN, RUN + 1], &ends[..]].concat();
        bad_at(Plan::of(words), &places)
    });
    all.collect()
}

/// The words before and after a read's end, and the one that it ends in.
fn bad_about_reads() -> Vec<Plan> {
    let plans = [READ + 100, READ + 101, READ + 1, READ + 2, READ].map(Plan::to);
    let all = plans.into_iter().flat_map(|plan| {
        let across = (READ - plan.start()) / 2;
        let last = plan.words - 1;
        bad_at(plan, &[across - 2, across - 1, across, across + 1, last])
    });
    all.collect()
}

/// With so many bytes left of the words.
fn cut_at(plan: Plan, ends: impl Iterator<Item = usize>) -> Vec<Plan> {
    let ends = ends.filter(|&end| end < 2 * plan.words);
    let cut = ends.map(Some).map(|end| Plan { end, ..plan });
    cut.collect()
}

/// Also where a word above 3FF stands in what is cut: it was met before, or it was not.
fn cut_about_runs() -> Vec<Plan> {
    let plans = [FEW + 1, RUN, RUN + 1, RUN + 2, 2 * RUN + 1].map(Plan::of);
    let cut = plans.into_iter().flat_map(|plan| {
        let last = 2 * plan.words - 4..2 * plan.words;
        cut_at(plan, about(2 * RUN, 3).chain(last))
    });
    let bad = (RUN - 2..=RUN).map(|place| Plan::of(RUN + 9).with_bad(place));
    let cut_bad = bad.flat_map(|plan| cut_at(plan, about(2 * RUN, 3)));
    cut.chain(cut_bad).collect()
}

fn cut_about_reads() -> Vec<Plan> {
    let plans = [READ + 100, READ + 101].map(Plan::to);
    let cut = plans.into_iter().flat_map(|plan| {
        let read = READ - plan.start();
        cut_at(plan, about(read, 3))
    });
    cut.collect()
}

/// Good rows of raster 1, of which one less counts than a frame has.
fn short_frame() -> Vec<u8> {
    let random = &mut Random::new(1);
    let mut sender = Sender::new(random, 1);
    let mut recording = Recording::default();
    for _ in 0..rows_of(1) + 1 {
        let row = sender.row(random);
        recording.send(&row_bits(&row.words, 0..row.words[0].len()));
    }
    Job::new("SHORT", 1, false, recording.words()).bytes()
}

pub fn count() -> usize {
    plans().len() + alignments::COUNT + 1
}

/// The file of this number, if there is one.
pub fn file(number: usize) -> Option<Vec<u8>> {
    let plans = plans();
    match plans.get(number) {
        Some(plan) => Some(plan.bytes(number)),
        None if number == count() - 1 => Some(short_frame()),
        None => alignments::file(number - plans.len()),
    }
}

#[cfg(test)]
mod tests {
    use super::*;
    use crate::bench::printed;

    /// Each EAV but the first is a fault, so that none is missed unseen; but where one ends with the section it is none if only
    /// its sync stands there at the row's alignment.
    #[test]
    fn every_code_of_a_whole_section_counts() {
        for (number, plan) in plans().iter().enumerate() {
            if plan.bad.or(plan.end).is_some() || plan.words < RUN - 3 {
                continue;
            }
            let lines = printed(&*plan.bytes(number));
            let codes = plan.codes(number).len();
            let faults = |less| format!("rows 0 faults {} ", codes - less);
            let is_counted = lines.contains(&faults(1));
            assert!(is_counted || plan.code_at_end && lines.contains(&faults(2)));
            assert_eq!(lines.lines().count(), 2);
        }
    }

    /// A word above 3FF is met before the end of a file, if both its bytes are there.
    #[test]
    fn every_spoilt_section_is_refused() {
        for (number, plan) in plans().iter().enumerate() {
            let is_met = |bad: usize| plan.end.is_none_or(|end| 2 * bad + 2 <= end);
            let refused = match plan.bad {
                Some(bad) if is_met(bad) => "bad file 3\n",
                _ if plan.end.is_some() => "bad file 9\n",
                _ => continue,
            };
            assert_eq!(printed(&*plan.bytes(number)), refused);
        }
    }

    #[test]
    fn the_last_is_one_row_short_of_a_frame() {
        let file = file(count() - 1).expect("there is one");
        assert_eq!(printed(&*file), "SHORT raster 1 rows 749 faults 0 SHORT\n");
    }
}
