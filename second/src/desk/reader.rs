//! The sections of a bench file, byte by byte.

use crate::bench::sections::{is_tag_byte, LONGEST_TAG};
use crate::raster::raster_of;
use crate::refusal::{refuse, Refusal};
use crate::words::is_word;
use std::mem::take;

#[derive(Clone, Copy, Debug, Default, PartialEq, Eq)]
pub enum Stage {
    #[default]
    TagCount,
    Tag,
    OptionCount,
    Raster,
    Wipe,
    WordCount,
    Low,
    High,
    /// After a refused byte.
    Stopped,
}

#[derive(Clone, Debug, Default, PartialEq, Eq)]
pub struct Reader {
    pub stage: Stage,
    /// The bytes of a count that have come.
    pub count: Vec<u8>,
    /// How many bytes of the tag are left, or how many words, the one being read among them.
    pub left: u32,
    pub low: u8,
    pub raster: u8,
    pub wipe: bool,
    pub tag: Vec<u8>,
}

/// What a byte completes.
#[derive(Clone, Copy, Debug, PartialEq, Eq)]
pub enum Piece {
    Nothing,
    /// The options, with their raster byte.
    Options(u8),
    Word(u16),
    Refused(Refusal),
}

/// What was read of a job besides its raster and its words.
pub struct Ended {
    pub tag: Vec<u8>,
    pub wipe: bool,
}

impl Reader {
    /// Whether words are read: "the options of a job are read, and the job has not ended".
    pub fn is_in_words(&self) -> bool {
        matches!(self.stage, Stage::WordCount | Stage::Low | Stage::High)
    }

    /// Whether a file that ends here "is cut short": within a job.
    pub fn is_cut_short(&self) -> bool {
        let between_jobs = self.stage == Stage::TagCount && self.count.is_empty();
        !between_jobs && self.stage != Stage::Stopped
    }

    /// What the byte completes, and the job that it ends.
    pub fn take(&mut self, byte: u8) -> (Piece, Option<Ended>) {
        let in_words = self.is_in_words();
        match self.read(byte) {
            Ok(piece) if in_words && self.stage == Stage::TagCount => {
                let Self { tag, wipe, .. } = take(self);
                (piece, Some(Ended { tag, wipe }))
            }
            Ok(piece) => (piece, None),
            Err(refusal) => {
                let stage = Stage::Stopped;
                *self = Self {
                    stage,
                    ..Self::default()
                };
                (Piece::Refused(refusal), None)
            }
        }
    }

    fn read(&mut self, byte: u8) -> Result<Piece, Refusal> {
        match self.stage {
            Stage::TagCount | Stage::OptionCount | Stage::WordCount => self.read_count(byte)?,
            Stage::Tag => self.read_tag(byte)?,
            Stage::Raster => {
                self.raster = byte;
                self.stage = Stage::Wipe;
            }
            Stage::Wipe => return self.read_wipe(byte),
            Stage::Low => {
                self.low = byte;
                self.stage = Stage::High;
            }
            Stage::High => return self.read_high(byte),
            Stage::Stopped => {}
        }
        Ok(Piece::Nothing)
    }

    /// "every section after its count, 32 bits little-endian"
    fn read_count(&mut self, byte: u8) -> Result<(), Refusal> {
        self.count.push(byte);
        let Ok(count) = <[u8; 4]>::try_from(&self.count[..]) else {
            return Ok(());
        };
        let count = u32::from_le_bytes(count);
        self.count.clear();
        match self.stage {
            Stage::TagCount => {
                // "tag not of 1 to 32 bytes"
                refuse(&[(Refusal::File, !(1..=LONGEST_TAG).contains(&count))])?;
                self.left = count;
                self.stage = Stage::Tag;
            }
            Stage::OptionCount => {
                // "options not two bytes"
                refuse(&[(Refusal::File, count != 2)])?;
                self.stage = Stage::Raster;
            }
            _ => self.await_word(count),
        }
        Ok(())
    }

    /// So many words are left; after the last comes the next job.
    fn await_word(&mut self, left: u32) {
        self.left = left;
        self.stage = match left {
            0 => Stage::TagCount,
            _ => Stage::Low,
        };
    }

    /// "not printable ASCII without spaces"
    fn read_tag(&mut self, byte: u8) -> Result<(), Refusal> {
        refuse(&[(Refusal::File, !is_tag_byte(&byte))])?;
        self.tag.push(byte);
        self.left -= 1;
        if self.left == 0 {
            self.stage = Stage::OptionCount;
        }
        Ok(())
    }

    /// "Order where several apply: [..] 9, 4": "wipe not 0 or 1" before "raster not 0..11".
    fn read_wipe(&mut self, byte: u8) -> Result<Piece, Refusal> {
        refuse(&[
            (Refusal::File, byte > 1),
            (Refusal::Raster, raster_of(self.raster.into()).is_err()),
        ])?;
        self.wipe = byte == 1;
        self.stage = Stage::WordCount;
        Ok(Piece::Options(self.raster))
    }

    /// "words 16 bits little-endian"
    fn read_high(&mut self, byte: u8) -> Result<Piece, Refusal> {
        let word = u16::from_le_bytes([take(&mut self.low), byte]);
        refuse(&[(Refusal::Word, !is_word(word))])?;
        self.await_word(self.left - 1);
        Ok(Piece::Word(word))
    }
}
