//! A job on its way to be refused: its sections, the counts before them, and where it is cut.

use crate::generate::lists;
use crate::generate::long_sections::length;
use crate::job::Job;
use crate::random::Random;
use std::ops::Range;

/// Also counts that are right in their lowest byte, or with their bytes the other way round.
const HUGE: [u32; 6] = [u32::MAX, u32::MAX, 1 << 31, 2 << 24, 0x10002, 0x102];
const NO_TAG_BYTES: [u8; 9] = [0x20, 0x20, 0x7f, 0x7f, 0x00, 0xff, 0x0a, 0x80, 0xa1];
const NO_RASTERS: [u8; 8] = [12, 12, 13, 16, 0x71, 0x80, 0x87, 0xff];
const NO_WIPES: [u8; 6] = [2, 2, 3, 0x10, 0x80, 0xff];
/// Also words that would be right with their bytes the other way round.
const NO_WORDS: [u16; 6] = [0x0400, 0x0400, 0x04ff, 0x8000, 0xff03, 0xffff];

pub const TAG: usize = 0;
pub const OPTIONS: usize = 1;
pub const WORDS: usize = 2;
/// The bytes of a count.
const COUNT: usize = 4;

pub struct BadJob {
    job: Job,
    counts: [u32; 3],
    /// The places of the bytes that were spoilt last.
    spoilt: Range<usize>,
    /// How many bytes are left of it, if it is cut.
    end: Option<usize>,
}

impl BadJob {
    /// A job that is not bad yet, of at least two words.
    pub fn of(mut job: Job) -> Self {
        let words = job.words.len().max(2);
        job.words.resize(words, 0x155);
        Self {
            counts: job.counts(),
            job,
            spoilt: 0..0,
            end: None,
        }
    }

    pub fn bytes(&self) -> Vec<u8> {
        let mut bytes = self.job.bytes_with(self.counts);
        bytes.truncate(self.end.unwrap_or(bytes.len()));
        bytes
    }

    pub fn is_cut(&self) -> bool {
        self.end.is_some()
    }

    /// The places of a section's count and of its bytes.
    fn section(&self, section: usize) -> [Range<usize>; 2] {
        let job = &self.job;
        let lengths = [job.tag.len(), job.options.len(), 2 * job.words.len()];
        let start = lengths[..section].iter().sum::<usize>() + section * COUNT;
        let bytes = start + COUNT;
        [start..bytes, bytes..bytes + lengths[section]]
    }

    /// Only so many bytes are left, of these numbers the first, the last or any.
    fn cut(&mut self, random: &mut Random, ends: Range<usize>) {
        let any = ends.start + random.place(ends.len().max(1));
        let last = ends.end.saturating_sub(1).max(ends.start);
        self.end = Some(random.pick(&[ends.start, last, any]));
    }

    fn spoil_word(&mut self, random: &mut Random, place: usize) {
        let word = &mut self.job.words[place];
        let (any, known) = (lists::above(random), random.pick(&NO_WORDS));
        let changed = *word | 0x400 << random.below(6);
        *word = random.pick(&[any, known, changed]);
        let [_, words] = self.section(WORDS);
        self.spoilt = words.start + 2 * place..words.start + 2 * place + 2;
    }
}

/// "tag not of 1 to 32 bytes": the count alone, or the bytes too.
pub fn tag_count(random: &mut Random, bad: &mut BadJob) {
    let huge = random.pick(&HUGE);
    let count = random.pick(&[0, 0, 33, 33, 34, huge]);
    if random.bit() {
        bad.job.tag.resize(count.min(40) as usize, b'T');
    }
    bad.counts[TAG] = count;
}

/// "not printable ASCII without spaces"
pub fn tag_byte(random: &mut Random, bad: &mut BadJob) {
    // The count may have taken all of them.
    if bad.job.tag.is_empty() {
        bad.job.tag.push(b'T');
    }
    let place = some_place(random, bad.job.tag.len());
    bad.job.tag[place] = random.pick(&NO_TAG_BYTES);
    bad.spoilt = COUNT + place..COUNT + place + 1;
}

/// "options not two bytes": the count alone, or the bytes too.
pub fn option_count(random: &mut Random, bad: &mut BadJob) {
    let huge = random.pick(&HUGE);
    let count = random.pick(&[0, 1, 1, 3, 3, 4, huge]);
    if random.bit() {
        bad.job.options.resize(count.min(6) as usize, 0);
    }
    bad.counts[OPTIONS] = count;
}

/// "raster not 0..11"
pub fn raster(random: &mut Random, bad: &mut BadJob) {
    if let Some(raster) = bad.job.options.get_mut(0) {
        *raster = random.pick(&NO_RASTERS);
    }
    let [_, options] = bad.section(OPTIONS);
    bad.spoilt = options.start..options.start + 1;
}

/// "wipe not 0 or 1"
pub fn wipe(random: &mut Random, bad: &mut BadJob) {
    if let Some(wipe) = bad.job.options.get_mut(1) {
        *wipe = random.pick(&NO_WIPES);
    }
}

/// "a word [..] above 3FF"
pub fn word(random: &mut Random, bad: &mut BadJob) {
    let place = some_place(random, bad.job.words.len());
    bad.spoil_word(random, place);
}

/// Of so many words as may be taken at once, and a few more, one about that end or the last.
pub fn word_about_a_run(random: &mut Random, bad: &mut BadJob) {
    let (run, more) = length(random, 4);
    let count = run + more;
    bad.job.words.resize(count, 0x155);
    bad.counts = bad.job.counts();
    let near = run - 3 + random.place(5);
    let place = random.pick(&[near.min(count - 1), count - 2, count - 1]);
    bad.spoil_word(random, place);
}

/// A count of a few words more than there are.
pub fn more_words(random: &mut Random, bad: &mut BadJob) {
    bad.counts[WORDS] += random.between(1, 3);
}

/// A count of many words more than there are.
pub fn many_words(random: &mut Random, bad: &mut BadJob) {
    let far = bad.counts[WORDS] + 1000;
    bad.counts[WORDS] = far.max(random.pick(&HUGE));
}

/// A count of a few words less than there are; what is left of them is read as the next job.
pub fn fewer_words(random: &mut Random, bad: &mut BadJob) {
    bad.counts[WORDS] -= random.between(1, bad.counts[WORDS].min(3));
}

/// After some bytes of a count; after none of the tag's there would be no job.
pub fn cut_in_count<const SECTION: usize>(random: &mut Random, bad: &mut BadJob) {
    let [count, _] = bad.section(SECTION);
    bad.cut(random, count.start + usize::from(SECTION == TAG)..count.end);
}

/// Before the last byte of a section.
pub fn cut_in<const SECTION: usize>(random: &mut Random, bad: &mut BadJob) {
    let [_, bytes] = bad.section(SECTION);
    bad.cut(random, bytes);
}

/// In a section, after what is bad in it.
pub fn cut_after<const SECTION: usize>(random: &mut Random, bad: &mut BadJob) {
    let [_, bytes] = bad.section(SECTION);
    bad.cut(random, bad.spoilt.end..bytes.end);
}

/// In a section, before what is bad in it.
pub fn cut_before<const SECTION: usize>(random: &mut Random, bad: &mut BadJob) {
    let [count, bytes] = bad.section(SECTION);
    let start = if SECTION == OPTIONS { count } else { bytes }.start;
    bad.cut(random, start..bad.spoilt.start + 1);
}

pub fn cut_in_bad_word(random: &mut Random, bad: &mut BadJob) {
    bad.cut(random, bad.spoilt.start + 1..bad.spoilt.end);
}

pub fn cut_about_bad_word(random: &mut Random, bad: &mut BadJob) {
    bad.cut(random, bad.spoilt.start - 3..bad.spoilt.start + 4);
}

/// The first, the last, or any.
fn some_place(random: &mut Random, length: usize) -> usize {
    let any = random.place(length);
    random.pick(&[0, length - 1, any])
}
