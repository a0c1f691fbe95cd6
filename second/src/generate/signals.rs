//! Unscrambled bits that hold rows, timing codes and what is nearly one, and the words that carry them.

use super::codes;
use crate::cable::{scramble, scrambled, unscrambled};
use crate::random::Random;
use crate::timing::{xyz, SYNC_WORDS};
use crate::words::{bits_of_all, words_of, WORD_BITS};
use std::ops::Range;

pub const PAIR_BITS: usize = 2 * WORD_BITS;

/// "Each sample pair is sent C word first, then Y, each lowest bit first."
pub fn pair_bits([y, c]: [u16; 2]) -> Vec<bool> {
    bits_of_all(&[c, y])
}

pub fn row_bits(row: &[Vec<u16>; 2], places: Range<usize>) -> Vec<bool> {
    let [y, c] = row;
    let words: Vec<u16> = places.flat_map(|place| [c[place], y[place]]).collect();
    bits_of_all(&words)
}

/// A sync and its XYZ pair.
pub fn code_bits(xyz: [u16; 2]) -> Vec<bool> {
    let [first, second, third] = SYNC_WORDS.map(|word| [word; 2]);
    [first, second, third, xyz].map(pair_bits).concat()
}

/// An EAV of any F and V.
pub fn eav(random: &mut Random) -> Vec<bool> {
    code_bits([eav_word(random); 2])
}

fn eav_word(random: &mut Random) -> u16 {
    xyz(random.bit(), random.bit(), true)
}

/// An EAV, or a code that is nearly one: broken in Y, broken in C, an SAV, any word.
pub fn code(random: &mut Random) -> Vec<bool> {
    let word = eav_word(random);
    let broken = word ^ 1 << random.below(10);
    let sav = xyz(random.bit(), random.bit(), false);
    let read = codes::xyz(random) & 0x3ff;
    let any = random.short(0, 0x3ff);
    let ys = [word, word, word, word, word, broken, broken, sav, sav, read];
    let cs = [word, word, broken, any, sav, word, broken, sav, word, read];
    let pair = random.place(ys.len());
    let mut bits = code_bits([ys[pair], cs[pair]]);
    if random.one_in(12) {
        let place = random.place(bits.len());
        bits[place] ^= true;
    }
    bits
}

/// So many ones and then so many zeros, between bits that are none of them.
pub fn stretch(ones: usize, zeros: usize) -> Vec<bool> {
    let before = vec![ones == 0];
    [before, vec![true; ones], vec![false; zeros], vec![true]].concat()
}

/// Lays bits over those that are there, as far as there are any.
pub fn overlay(bits: &mut [bool], place: usize, laid: &[bool]) {
    for (held, &bit) in bits.iter_mut().skip(place).zip(laid) {
        *held = bit;
    }
}

/// An EAV, and a sync that begins with the ones its XYZ pair ends in.
fn overlapped(random: &mut Random) -> Vec<bool> {
    let mut bits = eav(random);
    let ones = bits.iter().rev().take_while(|&&bit| bit).count();
    bits.extend(code(random).split_off(ones));
    bits
}

/// A pair of a picture, or any.
pub fn pair(random: &mut Random) -> [u16; 2] {
    let any = [random.short(0, 0x3ff), random.short(0, 0x3ff)];
    let blanking = [0x040, 0x200];
    random.pick(&[blanking, blanking, [0x000; 2], [0x3ff; 2], any, any])
}

fn pairs(random: &mut Random, count: u32) -> Vec<bool> {
    let pair = pair(random);
    pair_bits(pair).repeat(count as usize)
}

pub fn noise(random: &mut Random, length: usize) -> Vec<bool> {
    (0..length).map(|_| random.bit()).collect()
}

/// A few bits: so many pairs, or any number of bits.
fn gap(random: &mut Random) -> Vec<bool> {
    match random.below(6) {
        0 => Vec::new(),
        1..=3 => {
            let count = random.between(1, 5);
            pairs(random, count)
        }
        4 => vec![random.bit(); random.place(70)],
        _ => {
            let any = random.place(40);
            let length = random.pick(&[10, 10, 30, 1, 19, any, any, any]);
            noise(random, length)
        }
    }
}

/// A few codes with gaps between them.
pub fn codes_and_gaps(random: &mut Random, most: u32) -> Vec<bool> {
    let mut bits = Vec::new();
    for _ in 0..random.below(most + 1) {
        bits.extend(gap(random));
        bits.extend(match random.below(8) {
            0 => overlapped(random),
            1..=3 => eav(random),
            _ => code(random),
        });
    }
    bits.extend(gap(random));
    bits
}

/// A few pairs, some of them all ones or zeros.
pub fn calm(random: &mut Random) -> Vec<bool> {
    let count = random.below(8);
    pairs(random, count)
}

/// What follows the pairs of a row: an EAV at its place, one that is late or at another alignment, another code, or none.
pub fn after_row(random: &mut Random) -> Vec<bool> {
    let late = random.pick(&[1, 1, 1, 2, 3, 4, 5]);
    let off = random.place(PAIR_BITS);
    let mut bits = match random.below(12) {
        0 | 1 => pairs(random, late),
        2 => noise(random, off),
        3 => noise(random, WORD_BITS),
        _ => Vec::new(),
    };
    bits.extend(match random.below(12) {
        0..=7 => eav(random),
        8 | 9 => code(random),
        10 => overlapped(random),
        _ => pairs(random, 6),
    });
    bits
}

/// So many times, damage of the bits as they are on the cable, or of the words that they stand for.
pub fn damage(random: &mut Random, bits: &mut Vec<bool>, times: u32) {
    for _ in 0..times {
        damage_once(random, bits);
    }
}

fn damage_once(random: &mut Random, bits: &mut Vec<bool>) {
    if bits.len() < PAIR_BITS {
        return;
    }
    let place = random.place(bits.len());
    let word = place.min(bits.len() - WORD_BITS);
    match random.below(9) {
        0 => bits[place] ^= true,
        1 => drop(bits.remove(place)),
        2 => bits.insert(place, bits[place]),
        3 => drop(bits.drain(word..word + WORD_BITS)),
        4 => {
            let doubled = bits[word..word + WORD_BITS].to_vec();
            bits.splice(word..word, doubled);
        }
        5 => {
            let pair = place.min(bits.len() - PAIR_BITS);
            bits.drain(pair..pair + PAIR_BITS);
        }
        _ => damage_cable(random, bits),
    }
}

/// A bit of the cable is changed, lost or doubled.
fn damage_cable(random: &mut Random, bits: &mut Vec<bool>) {
    let words = words_of(bits);
    let mut cable = scrambled(0, &words);
    let place = WORD_BITS + random.place(words.len() * WORD_BITS);
    match random.below(4) {
        0 => drop(cable.remove(place)),
        1 => cable.insert(place, cable[place]),
        _ => cable[place] ^= true,
    }
    *bits = unscrambled(&cable);
}

/// The words of the bits; the bits of a last word that is not whole are left.
pub fn whole_words(bits: &[bool]) -> Vec<u16> {
    words_of(&bits[..bits.len() / WORD_BITS * WORD_BITS])
}

pub fn scrambled_words(history: u16, words: &[u16]) -> Vec<u16> {
    let mut output = vec![0; words.len()];
    scramble(history, words, &mut output).expect("history and words are at most 3FF");
    output
}
