//! The sections of a bench file, read as they come: "every section after its count, 32 bits little-endian".
//! "It reports the fault met first in reading; the order above decides only within one section or one word."

use crate::raster::{raster_of, Raster};
use crate::refusal::{refuse, Refusal};
use crate::words::all_words;
use std::io::{ErrorKind, Read};

pub const LONGEST_TAG: u32 = 32;
const WORD_BYTES: usize = 2;

/// So many words are read at once.
pub const PART: usize = 2048;

pub struct Sections<Input>(Input);

impl<Input: Read> Sections<Input> {
    pub fn of(input: Input) -> Self {
        Self(input)
    }

    /// The tag of the next job, or none where the input ends after the job before.
    pub fn tag(&mut self) -> Result<Option<Vec<u8>>, Refusal> {
        let Some(count) = self.count_or_end()? else {
            return Ok(None);
        };
        // "tag not of 1 to 32 bytes"
        refuse(&[(Refusal::File, !(1..=LONGEST_TAG).contains(&count))])?;
        let mut tag = vec![0; count as usize];
        self.exactly(&mut tag)?;
        refuse(&[(Refusal::File, !tag.iter().all(is_tag_byte))])?;
        Ok(Some(tag))
    }

    /// The raster that the options choose. Wiping belongs to correction, so a verdict does not depend on it.
    pub fn raster(&mut self) -> Result<Raster, Refusal> {
        // "options not two bytes"
        let count = self.count()?;
        refuse(&[(Refusal::File, count != 2)])?;
        let mut options = [0; 2];
        self.exactly(&mut options)?;
        let [raster, wipe] = options.map(u32::from);
        // "Order where several apply: [..] 9, 4": "wipe not 0 or 1" before "raster not 0..11".
        refuse(&[(Refusal::File, wipe > 1)])?;
        raster_of(raster)
    }

    /// "words 16 bits little-endian", in parts, whatever their count announces.
    pub fn words(&mut self) -> Result<Vec<u16>, Refusal> {
        let count = self.count()? as usize;
        let mut words = Vec::new();
        while words.len() < count {
            let asked = PART.min(count - words.len());
            let part = self.whole_words(asked);
            // The words that came whole were met before the end of the input was.
            refuse(&[(Refusal::Word, !all_words(&part))])?;
            // "or cut short", be it in the middle of a word
            refuse(&[(Refusal::File, part.len() < asked)])?;
            words.extend(part);
        }
        Ok(words)
    }

    /// So many words, or as many as come whole.
    fn whole_words(&mut self, count: usize) -> Vec<u16> {
        let mut bytes = vec![0; count * WORD_BYTES];
        let come = self.fill(&mut bytes);
        let (words, _) = bytes[..come].as_chunks();
        words.iter().copied().map(u16::from_le_bytes).collect()
    }

    /// The count of a section that must come.
    fn count(&mut self) -> Result<u32, Refusal> {
        self.count_or_end()?.ok_or(Refusal::File)
    }

    /// A count, or none where the input ends before its first byte.
    fn count_or_end(&mut self) -> Result<Option<u32>, Refusal> {
        let mut count = [0; 4];
        if self.fill(&mut count[..1]) == 0 {
            return Ok(None);
        }
        self.exactly(&mut count[1..])?;
        Ok(Some(u32::from_le_bytes(count)))
    }

    /// "or cut short"
    fn exactly(&mut self, bytes: &mut [u8]) -> Result<(), Refusal> {
        let come = self.fill(bytes);
        refuse(&[(Refusal::File, come < bytes.len())])
    }

    /// Reads until the bytes are full or the input ends, and answers how many came. An error is the end of the input.
    fn fill(&mut self, bytes: &mut [u8]) -> usize {
        let mut come = 0;
        while come < bytes.len() {
            match self.0.read(&mut bytes[come..]) {
                Ok(0) => break,
                Ok(count) => come += count,
                Err(error) if error.kind() == ErrorKind::Interrupted => {}
                Err(_) => break,
            }
        }
        come
    }
}

/// "printable ASCII without spaces"
pub fn is_tag_byte(byte: &u8) -> bool {
    matches!(byte, 0x21..=0x7e)
}
