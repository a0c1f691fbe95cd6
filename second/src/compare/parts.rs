//! What is put to the command, a request or a bench file, by its parts.

use crate::functions::*;
use crate::requests::{answer, format_line};
use std::ops::Range;

#[derive(Clone, Copy, Debug, PartialEq)]
pub enum Kind {
    Number,
    List,
    /// The bytes of a bench file in a request.
    Bytes,
    Runs,
    /// The runs of a SIGNAL, each of how often and two words.
    Twos,
    Carry,
    Session,
    /// The sections of a bench file's jobs.
    Tag,
    Options,
    Words,
    /// What comes after the jobs: nothing, or a job that is cut short.
    Rest,
}

impl Kind {
    /// How many numbers an element has, where there may be any number of elements.
    pub fn width(self) -> Option<usize> {
        match self {
            Self::Number | Self::Carry | Self::Session => None,
            Self::Runs => Some(2),
            Self::Twos => Some(3),
            _ => Some(1),
        }
    }

    /// How many numbers there are where no count says it.
    fn length(self) -> usize {
        match self {
            Self::Carry => 3,
            Self::Session => 15,
            _ => 1,
        }
    }
}

/// A part: its numbers, without a count.
#[derive(Clone, Debug, PartialEq)]
pub struct Piece {
    pub kind: Kind,
    pub numbers: Vec<u32>,
}

const SECTIONS: [(Kind, usize); 3] = [(Kind::Tag, 1), (Kind::Options, 1), (Kind::Words, 2)];

#[derive(Clone, Debug, PartialEq)]
pub struct Parts {
    /// None of a bench file.
    function: Option<u32>,
    pub pieces: Vec<Piece>,
}

impl Parts {
    /// None where the function is not of the table or the numbers are not its arguments.
    pub fn of_request(request: &[u32]) -> Option<Self> {
        let (&function, mut left) = request.split_first()?;
        let mut pieces = Vec::new();
        for &kind in arguments(function)? {
            let mut length = kind.length();
            if let Some(width) = kind.width() {
                let (&count, after) = left.split_first()?;
                (length, left) = (width.checked_mul(count as usize)?, after);
            }
            let (numbers, after) = left.split_at_checked(length)?;
            let numbers = numbers.to_vec();
            pieces.push(Piece { kind, numbers });
            left = after;
        }
        let function = Some(function);
        left.is_empty().then_some(Self { function, pieces })
    }

    pub fn of_line(line: &str) -> Option<Self> {
        let numbers = line.split(' ').map(|text| u32::from_str_radix(text, 16));
        Self::of_request(&numbers.collect::<Result<Vec<u32>, _>>().ok()?)
    }

    /// A bench file by its jobs, as far as the counts lead.
    pub fn of_file(bytes: &[u8]) -> Self {
        let mut pieces = Vec::new();
        let mut left = bytes;
        while let Some((sections, after)) = first_job(left) {
            pieces.extend(sections);
            left = after;
        }
        pieces.extend(Self::of_bytes(left).pieces);
        let function = None;
        Self { function, pieces }
    }

    /// A bench file of no jobs, only bytes.
    pub fn of_bytes(bytes: &[u8]) -> Self {
        let rest = Piece {
            kind: Kind::Rest,
            numbers: bytes.iter().map(|&byte| byte.into()).collect(),
        };
        let (function, pieces) = (None, vec![rest]);
        Self { function, pieces }
    }

    /// The request's line, or the file's bytes.
    pub fn put(&self) -> Vec<u8> {
        match self.function {
            Some(function) => format_line(&self.request(function)).into_bytes(),
            None => self.pieces.iter().flat_map(section_bytes).collect(),
        }
    }

    fn request(&self, function: u32) -> Vec<u32> {
        let mut request = vec![function];
        for Piece { kind, numbers } in &self.pieces {
            request.extend(kind.width().map(|width| (numbers.len() / width) as u32));
            request.extend(numbers);
        }
        request
    }

    /// Whether it may be put: a request must be well formed.
    pub fn may_be_put(&self) -> bool {
        let answered = |function| answer(&format_line(&self.request(function))).is_ok();
        self.function.is_none_or(answered)
    }

    /// The same with other numbers in one part.
    pub fn with(&self, place: usize, numbers: Vec<u32>) -> Self {
        let mut parts = self.clone();
        parts.pieces[place].numbers = numbers;
        parts.mend_lengths();
        parts
    }

    pub fn jobs(&self) -> usize {
        let tags = self.pieces.iter().filter(|piece| piece.kind == Kind::Tag);
        tags.count()
    }

    pub fn without_jobs(&self, jobs: Range<usize>) -> Self {
        let mut parts = self.clone();
        let sections = SECTIONS.len();
        parts
            .pieces
            .drain(sections * jobs.start..sections * jobs.end);
        parts
    }

    /// The feeds of a module cannot take more words than there are.
    fn mend_lengths(&mut self) {
        let (Some(MODULE), [_, lengths, _, twos, list, ..]) = (self.function, &mut self.pieces[..])
        else {
            return;
        };
        let times = twos.numbers.chunks(3).map(|run| run[0] as usize);
        let mut left = 2 * times.sum::<usize>() + list.numbers.len();
        for length in &mut lengths.numbers {
            *length = left.min(*length as usize) as u32;
            left -= *length as usize;
        }
    }
}

/// The sections of the first job and what comes after it; none where it is cut short.
fn first_job(bytes: &[u8]) -> Option<(Vec<Piece>, &[u8])> {
    let mut left = bytes;
    let mut pieces = Vec::new();
    for (kind, width) in SECTIONS {
        let (count, after) = left.split_first_chunk()?;
        let count = u32::from_le_bytes(*count) as usize;
        let (section, after) = after.split_at_checked(count.checked_mul(width)?)?;
        let number = |bytes: &[u8]| {
            bytes
                .iter()
                .rfold(0, |high, &low| high << 8 | u32::from(low))
        };
        let numbers = section.chunks(width).map(number).collect();
        pieces.push(Piece { kind, numbers });
        left = after;
    }
    Some((pieces, left))
}

/// The bytes of a section of a bench file, after its count.
fn section_bytes(piece: &Piece) -> Vec<u8> {
    let section = SECTIONS.iter().find(|(kind, _)| *kind == piece.kind);
    let count = section.map(|_| (piece.numbers.len() as u32).to_le_bytes());
    let width = section.map_or(1, |&(_, width)| width);
    let numbers = piece.numbers.iter().map(|number| number.to_le_bytes());
    let numbers = numbers.flat_map(|bytes| bytes.into_iter().take(width));
    count.into_iter().flatten().chain(numbers).collect()
}

/// The arguments of a function. A SIGNAL is a flag, runs of two and a list; an OUTCOME has a list among its numbers.
fn arguments(function: u32) -> Option<&'static [Kind]> {
    use Kind::{Bytes, Carry, List, Number, Runs, Session, Twos};
    Some(match function {
        FIND_SYNC => &[List],
        RASTER_ROW | CRC_WORDS | READ_XYZ => &[Number],
        V_AND_F | LINE_WORDS => &[Number; 2],
        XYZ | READ_LINE => &[Number; 3],
        NAME_RASTER => &[Number; 4],
        CRC_AFTER_WORDS => &[Number, List],
        SCRAMBLE | UNSCRAMBLE => &[Number, List, List],
        BUILD_PACKET => &[Number, Number, Runs, Runs],
        FIND_PACKET => &[Number, Number, Number, Number, Runs, Runs],
        EXTRACT => &[Number, Number, Number, Runs, Runs, Runs],
        CHECK_ROW => &[Number, Number, Carry, Runs, Runs],
        CORRECT_ROW => &[Number, Number, Carry, Number, Runs, Runs],
        BUILD_ROW => &[Number, Number, Carry, Runs, Runs, Runs, Runs, Runs, Runs],
        BEGIN => &[Session, Number],
        FEED => &[Session, Number, Twos, List, Runs, Runs],
        END => &[Session],
        MODULE => &[Number, List, Number, Twos, List, Runs, Runs],
        DESK => &[List, Bytes, Runs, Runs],
        TAKE => &[List, Bytes, Session, Runs, Runs],
        OUTCOME_LINE => &[Number, Number, List, Number, Number, Number, Number, Number],
        _ => return None,
    })
}

#[cfg(test)]
mod tests {
    use super::*;
    use crate::generate::{files::file, requests};
    use crate::vectors;

    #[test]
    fn every_request_is_put_together_again() {
        for request in requests(9, 3000).chain(vectors::requests()) {
            let parts = Parts::of_request(&request).expect("it is a request");
            assert!(parts.put() == format_line(&request).into_bytes());
        }
    }

    #[test]
    fn feeds_take_no_more_words_than_there_are() {
        let request = [MODULE, 1, 3, 4, 4, 4, 0, 1, 5, 0, 0, 2, 0, 0, 0, 0];
        let parts = Parts::of_request(&request).expect("it is a module");
        let shorter = parts.with(3, vec![2, 0, 0]).request(MODULE);
        let expected = [MODULE, 1, 3, 4, 2, 0, 0, 1, 2, 0, 0, 2, 0, 0, 0, 0];
        assert_eq!(shorter, expected);
    }

    #[test]
    fn every_file_is_put_together_again() {
        for seed in 0..60 {
            let bytes = file(seed).bytes;
            assert!(Parts::of_file(&bytes).put() == bytes, "{seed}");
        }
    }
}
