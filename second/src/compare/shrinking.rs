//! Shrinks a request or a bench file as long as a smaller one still differs.

use super::changes::*;
use super::parts::{Kind, Parts, Piece};
use std::collections::HashSet;
use std::hash::{DefaultHasher, Hash, Hasher};

/// So many candidates, or so many bytes of them, are put at once.
const MOST_CANDIDATES: usize = 64;
const MOST_BYTES: usize = 250_000;

/// What is shrunk, and how to find the first of some candidates, as they are put, that still differs.
pub struct Shrinking<Find> {
    parts: Parts,
    find: Find,
    /// The hashes of what was tried: all of it together may be large.
    tried: HashSet<u64>,
}

/// The place in the part where it is smaller, and all parts.
type Candidate = (usize, Parts);

impl<Error, Find> Shrinking<Find>
where
    Find: FnMut(&[Vec<u8>]) -> Result<Option<usize>, Error>,
{
    pub fn of(parts: Parts, find: Find) -> Self {
        let tried = HashSet::new();
        let mut shrinking = Self { parts, find, tried };
        // A change that changes nothing is none.
        let put = shrinking.parts.put();
        shrinking.is_new(&put);
        shrinking
    }

    /// Ends where nothing smaller differs, or early where finding fails.
    pub fn shrink(&mut self) -> Result<(), Error> {
        loop {
            let before = self.parts.clone();
            self.drop_jobs()?;
            for index in 0..self.parts.pieces.len() {
                self.shorten(index)?;
            }
            for index in 0..self.parts.pieces.len() {
                self.lessen(index)?;
            }
            if self.parts == before {
                return Ok(());
            }
        }
    }

    fn drop_jobs(&mut self) -> Result<(), Error> {
        for size in halvings(self.parts.jobs()) {
            let mut place = 0;
            while place + size <= self.parts.jobs() {
                let fewer = self.parts.without_jobs(place..place + size);
                if !self.keeps(fewer)? {
                    place += size;
                }
            }
        }
        Ok(())
    }

    /// Fewer elements: all, halves, quarters .. single ones.
    fn shorten(&mut self, index: usize) -> Result<(), Error> {
        self.pass(index, usize::MAX, |piece, _| simpler(piece))?;
        let piece = &self.parts.pieces[index];
        let Some(width) = piece.kind.width().filter(|_| !is_plain(piece)) else {
            return Ok(());
        };
        for elements in halvings(self.parts.pieces[index].numbers.len() / width) {
            let size = elements * width;
            self.pass(index, size, |piece, place| {
                vec![without(piece, place..place + size)]
            })?;
            // No two neighbours are parted by the steps, and two are the fewest that can melt.
            let (step, size) = (elements.div_ceil(2) * width, elements.max(2) * width);
            self.pass(index, step, |piece, place| {
                melted(piece, place..place + size)
            })?;
        }
        Ok(())
    }

    /// Smaller numbers, many at once and then one by one; of a file's words and bytes there are too many for that.
    fn lessen(&mut self, index: usize) -> Result<(), Error> {
        let piece = &self.parts.pieces[index];
        let kind = piece.kind;
        if let Some(width) = kind.width().filter(|_| !is_plain(piece)) {
            for elements in halvings(piece.numbers.len() / width) {
                let size = elements * width;
                self.pass(index, size, |piece, place| {
                    vec![cleared(piece, place..place + size)]
                })?;
            }
        }
        if [Kind::Tag, Kind::Options, Kind::Words, Kind::Rest].contains(&kind) {
            return Ok(());
        }
        self.pass(index, 1, lessened)
    }

    /// Goes through a part's places step by step and keeps each change that still differs.
    fn pass(
        &mut self,
        index: usize,
        step: usize,
        changes: impl Fn(&Piece, usize) -> Vec<Numbers>,
    ) -> Result<(), Error> {
        let mut place = 0;
        loop {
            let (mut candidates, puts, next) = self.batch(index, place, step, &changes);
            if candidates.is_empty() {
                return Ok(());
            }
            place = match (self.find)(&puts)? {
                Some(found) => {
                    (place, self.parts) = candidates.swap_remove(found);
                    place
                }
                None => next,
            };
        }
    }

    /// The next candidates, as they are put, and the place after them. None are left where there are no candidates.
    fn batch(
        &mut self,
        index: usize,
        mut place: usize,
        step: usize,
        changes: impl Fn(&Piece, usize) -> Vec<Numbers>,
    ) -> (Vec<Candidate>, Vec<Vec<u8>>, usize) {
        let (mut candidates, mut puts, mut bytes) = (Vec::new(), Vec::new(), 0);
        let length = self.parts.pieces[index].numbers.len();
        while place < length && puts.len() < MOST_CANDIDATES && bytes < MOST_BYTES {
            for numbers in changes(&self.parts.pieces[index], place) {
                let parts = self.parts.with(index, numbers);
                let put = parts.put();
                if self.is_new(&put) && parts.may_be_put() {
                    bytes += put.len();
                    candidates.push((place, parts));
                    puts.push(put);
                }
            }
            place = place.saturating_add(step);
        }
        (candidates, puts, place)
    }

    /// Keeps the candidate if it still differs.
    fn keeps(&mut self, candidate: Parts) -> Result<bool, Error> {
        let put = candidate.put();
        let is_put = self.is_new(&put) && candidate.may_be_put();
        let differs = is_put && (self.find)(&[put])?.is_some();
        if differs {
            self.parts = candidate;
        }
        Ok(differs)
    }

    /// Whether it was not tried before; from now on it was.
    fn is_new(&mut self, put: &[u8]) -> bool {
        let mut hasher = DefaultHasher::new();
        put.hash(&mut hasher);
        self.tried.insert(hasher.finish())
    }
}

#[cfg(test)]
mod tests {
    use super::*;
    use crate::functions::*;
    use crate::generate::requests;
    use crate::job::Job;
    use crate::requests::format_line;
    use std::convert::Infallible;

    /// The smallest found that fits, and how many were put.
    fn smallest(parts: Parts, fits: impl Fn(&[u8]) -> bool) -> (Parts, usize) {
        let mut tried = 0;
        let find = |puts: &[Vec<u8>]| {
            tried += puts.len();
            Ok::<_, Infallible>(puts.iter().position(|put| fits(put)))
        };
        let mut shrinking = Shrinking::of(parts, find);
        assert_eq!(shrinking.shrink(), Ok(()));
        (shrinking.parts, tried)
    }

    fn assert_smallest(request: &[u32], fits: impl Fn(&Parts) -> bool, expected: &[u32]) {
        let parts = Parts::of_request(request).expect("it is a request");
        let (found, _) = smallest(parts, |put| fits(&of_put(put)));
        assert_eq!(String::from_utf8_lossy(&found.put()), format_line(expected));
    }

    fn of_put(line: &[u8]) -> Parts {
        let parts = Parts::of_line(&String::from_utf8_lossy(line));
        parts.expect("it is a request")
    }

    /// Whether the argument has these numbers in this order, whatever is between them.
    fn has(parts: &Parts, index: usize, wanted: &[u32]) -> bool {
        let mut numbers = parts.pieces[index].numbers.iter();
        wanted
            .iter()
            .all(|number| numbers.any(|other| other == number))
    }

    #[test]
    fn of_a_list_the_elements_stay_that_matter() {
        let words: Vec<u32> = (0..1000).collect();
        let request = [&[FIND_SYNC, 1000], &words[..]].concat();
        let fits = |parts: &Parts| has(parts, 0, &[123, 456]);
        assert_smallest(&request, fits, &[FIND_SYNC, 2, 123, 456]);
    }

    /// A row must have T words to be judged at all, so its runs are melted.
    #[test]
    fn a_row_keeps_its_length() {
        let row: Vec<u32> = (0..1650).flat_map(|place| [1, place % 1000]).collect();
        let row = [&[1650], &row[..]].concat();
        let request = [&[CHECK_ROW, 1, 700, 1, 5, 5], &row[..], &row].concat();
        let total = |parts: &Parts, index: usize| -> u32 {
            let runs = parts.pieces[index].numbers.chunks(2);
            runs.map(|run| run[0]).sum()
        };
        let fits = |parts: &Parts| {
            has(parts, 3, &[555]) && [3, 4].iter().all(|&index| total(parts, index) == 1650)
        };
        let expected = [CHECK_ROW, 0, 0, 0, 0, 0, 1, 1650, 555, 1, 1650, 0];
        assert_smallest(&request, fits, &expected);
    }

    fn job(tag: &str, raster: u8, words: &[u16]) -> Vec<u8> {
        Job::new(tag, raster, false, words.to_vec()).bytes()
    }

    /// Whether a job of the file has these words in this order.
    fn has_job_with(bytes: &[u8], wanted: &[u32]) -> bool {
        let file = Parts::of_file(bytes);
        (0..file.jobs()).any(|job| has(&file, 3 * job + 2, wanted))
    }

    #[test]
    fn jobs_and_words_anywhere_are_dropped() {
        let words: Vec<u16> = (0..1000).collect();
        let jobs = [job("B02", 0, &[1, 2, 3]), job("B03", 4, &words)];
        let file = [jobs.concat(), job("B04", 7, &words)].concat();
        let (file, tried) = smallest(Parts::of_file(&file), |put| has_job_with(put, &[100, 900]));
        // Three counts, the tag `A`, the options and two words are left.
        assert_eq!((file.jobs(), file.put().len()), (1, 12 + 1 + 2 + 4));
        assert!(tried < 200, "{tried}");
    }

    /// Words are dropped with the counts before them in a request too.
    #[test]
    fn a_file_in_a_request_keeps_its_job() {
        let words: Vec<u16> = (0..600).collect();
        let file = [job("CAM-1", 7, &[1, 2, 3]), job("CAM-2", 5, &words)].concat();
        let bytes: Vec<u32> = file.iter().map(|&byte| byte.into()).collect();
        let request = [&[DESK, 2, 9, 9, bytes.len() as u32], &bytes[..], &[0, 0]].concat();
        let parts = Parts::of_request(&request).expect("it is a request");
        let (found, _) = smallest(parts, |put| {
            let numbers = &of_put(put).pieces[1].numbers;
            let bytes: Vec<u8> = numbers.iter().map(|&byte| byte as u8).collect();
            has_job_with(&bytes, &[300])
        });
        // Three counts and a word are left, and at most a tag of one byte and two of options.
        assert!(found.pieces[0].numbers.is_empty());
        let file = &found.pieces[1].numbers;
        assert!(file.len() <= 17 && file.ends_with(&[1, 0, 0, 0, 44, 1]));
    }

    /// Where all differ hardly anything is left.
    #[test]
    fn every_request_gets_small() {
        for request in requests(77, 400) {
            let parts = Parts::of_request(&request).expect("it is a request");
            let (found, _) = smallest(parts, |_| true);
            let numbers = || found.pieces.iter().flat_map(|piece| &piece.numbers);
            assert!(numbers().all(|&number| number == 0), "{found:x?}");
            assert!(numbers().count() <= 18, "{found:x?}");
        }
    }

    /// The finding fails at last, as it does where the runs are spent: what was found before is kept.
    #[test]
    fn a_failure_ends_it() {
        let file = job("B02", 7, &[0; 100]);
        let mut left = 5;
        let mut last = file.len();
        let find = |puts: &[Vec<u8>]| {
            left -= 1;
            last = puts[0].len();
            let found = puts.iter().position(|put| put.len() > 100);
            (left > 0).then_some(found).ok_or("enough")
        };
        let ended = Shrinking::of(Parts::of_file(&file), find).shrink();
        assert_eq!(ended, Err("enough"));
        assert!(last < file.len());
    }
}
