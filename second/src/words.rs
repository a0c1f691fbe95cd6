//! Words of ten bits, held in 16, and their bits, lowest first.

use std::array::from_fn;

pub const WORD_BITS: usize = 10;

/// "A word is held in 16 bits and must be at most 3FF."
pub fn is_word(number: u16) -> bool {
    number <= 0x3ff
}

pub fn all_words(numbers: &[u16]) -> bool {
    numbers.iter().all(|&number| is_word(number))
}

/// "reserved code (000-003, 3FC-3FF)"
pub fn is_reserved(word: u16) -> bool {
    matches!(word, 0x000..=0x003 | 0x3fc..=0x3ff)
}

pub fn any_reserved(words: &[u16]) -> bool {
    words.iter().any(|&word| is_reserved(word))
}

/// The low nine bits; "bit 9 is the inverse of bit 8".
pub fn with_bit_nine(number: u16) -> u16 {
    let mut bits = bits_of(number);
    bits[9] = !bits[8];
    word_of(&bits)
}

/// The low ten bits, "each lowest bit first".
pub fn bits_of(word: u16) -> [bool; WORD_BITS] {
    from_fn(|place| word >> place & 1 == 1)
}

pub fn bits_of_all(words: &[u16]) -> Vec<bool> {
    words.iter().flat_map(|&word| bits_of(word)).collect()
}

/// The word whose bits are given, lowest first.
pub fn word_of(bits: &[bool]) -> u16 {
    let mut word = 0;
    for (place, &bit) in bits.iter().enumerate() {
        word |= u16::from(bit) << place;
    }
    word
}

pub fn words_of(bits: &[bool]) -> Vec<u16> {
    bits.chunks(WORD_BITS).map(word_of).collect()
}

/// Lays words from a place of the buffer on; those that find no place are not laid.
pub fn lay(buffer: &mut [u16], place: usize, words: &[u16]) {
    for (held, &word) in buffer.iter_mut().skip(place).zip(words) {
        *held = word;
    }
}

/// "Beyond what a result fills, a buffer keeps what it held."
pub fn fill(output: &mut [u16], result: &[u16]) {
    output[..result.len()].copy_from_slice(result);
}
