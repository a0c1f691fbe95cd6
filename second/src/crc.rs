//! CRC: X^18+X^5+X^4+1, "from zero, each channel alone, lowest bit first".

use crate::refusal::{refuse, Refusal};
use crate::words::{all_words, bits_of, word_of};

const REGISTER_BITS: usize = 18;

/// "Per bit: if register bit 0 differs from the data bit, shift right by one and xor 23000, else shift right."
fn after_bit(register: u32, bit: bool) -> u32 {
    let lowest = register & 1 == 1;
    if lowest != bit {
        (register >> 1) ^ 0x23000
    } else {
        register >> 1
    }
}

/// The register after a word; of the word the low ten bits count.
fn after_word(register: u32, word: u16) -> u32 {
    bits_of(word).into_iter().fold(register, after_bit)
}

/// The register after words, refusing nothing.
pub fn after_words(register: u32, words: &[u16]) -> u32 {
    words
        .iter()
        .fold(register, |register, &word| after_word(register, word))
}

/// "The carry is each channel's CRC register after a row's active words": that of Y, then that of C.
pub type Carry = [u32; 2];

/// "1 and the registers of Y and C, or `0 0 0` for none"
pub fn carry_numbers(carry: Option<Carry>) -> [u32; 3] {
    carry.map_or([0; 3], |[y, c]| [1, y, c])
}

/// "a carry above 3FFFF"
pub fn is_carry(register: u32) -> bool {
    register <= 0x3ffff
}

/// The register after words, or refusal 3.
pub fn checked_after_words(register: u32, words: &[u16]) -> Result<u32, Refusal> {
    refuse(&[
        (Refusal::Word, !is_carry(register)),
        (Refusal::Word, !all_words(words)),
    ])?;
    Ok(after_words(register, words))
}

/// The CRC words of a register, or refusal 3.
pub fn crc_words(register: u32) -> Result<(u16, u16), Refusal> {
    refuse(&[(Refusal::Word, !is_carry(register))])?;
    Ok(encode(register))
}

/// "CR0 holds register bits 8..0, CR1 bits 17..9; bit 9 is the inverse of bit 8."
pub fn encode(register: u32) -> (u16, u16) {
    let bits: Vec<bool> = (0..REGISTER_BITS)
        .map(|place| register >> place & 1 == 1)
        .collect();
    (crc_word(&bits[0..9]), crc_word(&bits[9..18]))
}

fn crc_word(nine: &[bool]) -> u16 {
    word_of(&[nine, &[!nine[8]]].concat())
}
