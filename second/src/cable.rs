//! Cable bits: scrambling, unscrambling, and finding alignment.
//!
//! `w` holds cable bits, oldest first; its first ten are the history,
//! "the last ten cable bits as one word, oldest lowest".

use crate::refusal::{refuse, Refusal};
use crate::words::{all_words, bits_of, bits_of_all, fill, is_word, word_of, words_of, WORD_BITS};

const HISTORY_BITS: usize = WORD_BITS;
pub const SYNC_ONES: usize = 20;
pub const SYNC_ZEROS: usize = 40;
pub const SYNC_BITS: usize = SYNC_ONES + SYNC_ZEROS;

/// "s(n) = w(n) xor w(n-1)"
fn s(w: &[bool], n: usize) -> bool {
    w[n] ^ w[n - 1]
}

/// The history's cable bits, then those of the words.
pub fn scrambled(history: u16, words: &[u16]) -> Vec<bool> {
    let mut w = bits_of(history).to_vec();
    for d in bits_of_all(words) {
        let n = w.len();
        // "s(n) = d(n) xor s(n-5) xor s(n-9)"
        let scrambled = d ^ s(&w, n - 5) ^ s(&w, n - 9);
        // "w(n) = s(n) xor w(n-1)"
        w.push(scrambled ^ w[n - 1]);
    }
    w
}

/// "d(n) = s(n) xor s(n-5) xor s(n-9)", for each bit after the history.
pub fn unscrambled(w: &[bool]) -> Vec<bool> {
    (HISTORY_BITS..w.len())
        .map(|n| s(w, n) ^ s(w, n - 5) ^ s(w, n - 9))
        .collect()
}

pub fn cable_bits(history: u16, words: &[u16]) -> Vec<bool> {
    [&bits_of(history)[..], &bits_of_all(words)].concat()
}

/// "Scrambling and unscrambling answer the next history too; for no words, the one given."
pub fn next_history(w: &[bool]) -> u16 {
    word_of(&w[w.len() - HISTORY_BITS..])
}

fn check(history: u16, words: &[u16], output: &[u16]) -> Result<(), Refusal> {
    refuse(&[
        (Refusal::Word, !is_word(history)),
        (Refusal::Word, !all_words(words)),
        (Refusal::Short, output.len() < words.len()),
    ])
}

/// Scrambles words into the output and answers the next history.
pub fn scramble(history: u16, words: &[u16], output: &mut [u16]) -> Result<u16, Refusal> {
    check(history, words, output)?;
    let w = scrambled(history, words);
    fill(output, &words_of(&w[HISTORY_BITS..]));
    Ok(next_history(&w))
}

/// Unscrambles words into the output and answers the next history.
pub fn unscramble(history: u16, words: &[u16], output: &mut [u16]) -> Result<u16, Refusal> {
    check(history, words, output)?;
    let w = cable_bits(history, words);
    fill(output, &words_of(&unscrambled(&w)));
    Ok(next_history(&w))
}

/// "A sync is 20 ones then 40 zeros."
pub fn is_sync(bits: &[bool]) -> bool {
    let (ones, zeros) = bits.split_at(SYNC_ONES);
    ones.iter().all(|&bit| bit) && zeros.iter().all(|&bit| !bit)
}

/// "Finding alignment takes unscrambled words and answers the bit place of the first sync, from 0, or none."
pub fn find_sync(words: &[u16]) -> Result<Option<usize>, Refusal> {
    refuse(&[(Refusal::Word, !all_words(words))])?;
    // "found at any bit of the unscrambled stream"
    Ok(bits_of_all(words).windows(SYNC_BITS).position(is_sync))
}
