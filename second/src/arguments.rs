//! A request's numbers, read one after another.

use crate::cable::scramble;
use crate::crc::Carry;
use crate::session::Numbers;
use std::vec::IntoIter;

/// "a list of words to be fed has at most 40,000 words"
pub const MOST_FED: usize = 40_000;

pub struct Arguments(IntoIter<u32>);

impl Arguments {
    /// "A request is a line of hexadecimal numbers (lower case, no leading zeros, one space between two)."
    pub fn parse(line: &str) -> Result<Self, String> {
        let numbers: Result<Vec<u32>, String> = line.split(' ').map(parse_number).collect();
        Ok(Self(numbers?.into_iter()))
    }

    pub fn number(&mut self) -> Result<u32, String> {
        self.0
            .next()
            .ok_or_else(|| "an argument is missing".to_string())
    }

    /// "an element of a list, a word and a history are below 2^16"
    pub fn word(&mut self) -> Result<u16, String> {
        let number = self.number()?;
        u16::try_from(number).map_err(|_| format!("{number:x} is not below 2^16"))
    }

    /// "a byte is below 2^8"
    pub fn byte(&mut self) -> Result<u8, String> {
        let number = self.number()?;
        u8::try_from(number).map_err(|_| format!("{number:x} is not below 2^8"))
    }

    /// "a flag is 0 or 1"
    pub fn flag(&mut self) -> Result<bool, String> {
        match self.number()? {
            0 => Ok(false),
            1 => Ok(true),
            number => Err(format!("{number:x} is not a flag")),
        }
    }

    /// "`LIST` stands for the count of its elements and then the elements."
    pub fn list(&mut self) -> Result<Vec<u16>, String> {
        let count = self.number()?;
        (0..count).map(|_| self.word()).collect()
    }

    /// "the count of runs, then for each run how many times (at least 1) and the word"
    pub fn runs(&mut self) -> Result<Vec<u16>, String> {
        let mut words = Vec::new();
        for _ in 0..self.number()? {
            let times = self.number()? as usize;
            if times == 0 {
                return Err("a run of no words".to_string());
            }
            words.resize(words.len() + times, self.word()?);
        }
        Ok(words)
    }

    /// "1 and the registers of Y and C, or `0 0 0` for none"
    pub fn carry(&mut self) -> Result<Option<Carry>, String> {
        match (self.flag()?, [self.number()?, self.number()?]) {
            (true, registers) => Ok(Some(registers)),
            (false, [0, 0]) => Ok(None),
            (false, _) => Err("registers of no carry".to_string()),
        }
    }

    /// "cable words by runs of two: a flag, the count of runs, then for each run how many times (at least 1), a word, a word;
    /// and at the end a LIST of words"; "where the flag is 1 they are scrambled first", from the history given.
    pub fn signal(&mut self, history: u16) -> Result<Vec<u16>, String> {
        let is_scrambled = !self.flag()?;
        let mut words = Vec::new();
        for _ in 0..self.number()? {
            let times = self.number()? as usize;
            if times == 0 || words.len() + 2 * times > MOST_FED {
                return Err(format!("a run of {times:x} times two words"));
            }
            words.extend([self.word()?, self.word()?].repeat(times));
        }
        words.extend(self.list()?);
        if words.len() > MOST_FED {
            return Err("more words than can be fed".to_string());
        }
        if is_scrambled {
            return Ok(words);
        }
        let mut scrambled = vec![0; words.len()];
        match scramble(history, &words, &mut scrambled) {
            Ok(_) => Ok(scrambled),
            Err(_) => Err("a word or a history to scramble with is above 3FF".to_string()),
        }
    }

    /// A LIST of bytes.
    pub fn bytes(&mut self) -> Result<Vec<u8>, String> {
        let count = self.number()?;
        (0..count).map(|_| self.byte()).collect()
    }

    /// "the fifteen numbers of a session [..], in this order"
    pub fn session(&mut self) -> Result<Numbers, String> {
        Ok(Numbers {
            open: self.flag()?,
            raster: self.number()?,
            history: self.word()?,
            last: [self.number()?, self.number()?],
            ahead: self.byte()?,
            seen: self.flag()?,
            pairs: self.number()?,
            bit: self.byte()?,
            line: self.number()?,
            carry: self.carry()?,
            rows: self.number()?,
            faults: self.number()?,
        })
    }

    pub fn end(&mut self) -> Result<(), String> {
        match self.0.next() {
            None => Ok(()),
            Some(number) => Err(format!("{number:x} is one argument too many")),
        }
    }
}

fn parse_number(text: &str) -> Result<u32, String> {
    let number = u32::from_str_radix(text, 16).ok();
    number
        .filter(|number| format!("{number:x}") == text)
        .ok_or_else(|| format!("'{text}' is not a number of the request format"))
}
