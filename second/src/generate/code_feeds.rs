//! Feeds of a few words, amid a row or outside of one, in which a code or nearly one ends at each place of a pair of cable
//! words in turn.

use super::session_requests::{fill_buffers, Feed};
use super::sessions::{self, alter, begun, in_a_row_from, run};
use super::signals::{self, PAIR_BITS};
use crate::cable::SYNC_BITS;
use crate::random::Random;
use crate::session::Numbers;
use crate::words::WORD_BITS;

/// A sync has 20 ones and 40 zeros.
pub const ONES: [usize; 3] = [0, 19, 20];
pub const ZEROS: [usize; 6] = [19, 20, 21, 39, 40, 41];
/// As many stretches of ones and zeros, then a sync but for one bit, and codes with a pair of the row, at another alignment, and
/// outside of rows.
const STRETCHES: usize = ONES.len() * ZEROS.len();
const BROKEN: usize = STRETCHES;
const WITH_A_PAIR: usize = STRETCHES + 1;
const ASTRAY: usize = STRETCHES + 2;
const OUTSIDE: usize = STRETCHES + 3;
const KINDS: usize = STRETCHES + 4;

/// Bits that are laid over others, and the place of the last bit of their sync or their zeros.
fn laid(random: &mut Random, kind: usize) -> (Vec<bool>, usize) {
    if kind < STRETCHES {
        let (ones, zeros) = (ONES[kind % ONES.len()], ZEROS[kind / ONES.len()]);
        return (signals::stretch(ones, zeros), ones + zeros);
    }
    let mut bits = signals::code(random);
    if kind == BROKEN {
        bits = signals::eav(random);
        bits[random.place(SYNC_BITS)] ^= true;
    }
    (bits, SYNC_BITS - 1)
}

/// The feed whose turn it is.
pub fn feed(random: &mut Random, turn: usize) -> Feed {
    let more = random.place(13);
    feed_of(random, turn, |least| least + more)
}

/// Any, or one of which only a few words are fed, wherever they end.
pub fn any_feed(random: &mut Random) -> Feed {
    let turn = random.number() as usize;
    let few = random.between(1, 5) as usize;
    if random.bit() {
        feed_of(random, turn, |_| few)
    } else {
        feed(random, turn)
    }
}

/// A feed of so many words, given by how many there must be for all of its sync or its zeros.
fn feed_of(random: &mut Random, turn: usize, words: impl Fn(usize) -> usize) -> Feed {
    let (place, kind) = (turn % PAIR_BITS, turn / PAIR_BITS % KINDS);
    let (laid, last) = laid(random, kind);
    let least = last + random.place(60);
    // Words that are fed before, so that the feed may start amid what is laid.
    let any = random.place(least / WORD_BITS + 1);
    let cut = random.pick(&[0, 0, 0, any]) * WORD_BITS;
    let end = next_at(least, cut + place);
    let all = (end + 2 - cut).div_ceil(WORD_BITS);
    let length = cut + words(all) * WORD_BITS;
    let bit = row_bit(random, kind, end);
    let (numbers, mut bits) = calm(random, bit, length);
    signals::overlay(&mut bits, end - last, &laid);
    fed(random, numbers, &bits, cut)
}

/// The first place from this on that is the same in a pair as the other.
pub fn next_at(least: usize, other: usize) -> usize {
    let ahead = (other + PAIR_BITS - least % PAIR_BITS) % PAIR_BITS;
    least + ahead
}

/// How many bits of the open row's next pair have come at the start, where what is laid ends at this place; none where no row
/// is open.
fn row_bit(random: &mut Random, kind: usize, end: usize) -> Option<usize> {
    let with_a_pair = PAIR_BITS - 1 - end % PAIR_BITS;
    let other = random.between(1, PAIR_BITS as u32 - 1) as usize;
    match kind {
        WITH_A_PAIR => Some(with_a_pair),
        ASTRAY => Some((with_a_pair + other) % PAIR_BITS),
        OUTSIDE => None,
        _ => Some(random.place(PAIR_BITS)),
    }
}

/// A session of any raster, and so many bits of which all pairs are the same.
fn calm(random: &mut Random, bit: Option<usize>, length: usize) -> (Numbers, Vec<bool>) {
    let code = random.below(12);
    let row = sessions::flat_row(random, code);
    let total = row.words[0].len();
    let any = 7 + random.place(total - 7);
    let near_end = total - 1 - random.place(16);
    let place = random.pick(&[any, any, any, near_end]);
    let pair = row.words.each_ref().map(|words| words[place]);
    let pairs = signals::pair_bits(pair).into_iter().cycle();
    let pairs = pairs.skip(bit.unwrap_or(0)).take(length);
    let numbers = match bit {
        Some(bit) => in_a_row_from(random, &row, place, bit),
        None => begun(code),
    };
    (numbers, pairs.collect())
}

/// The bits before the cut are those of feeds before.
fn fed(random: &mut Random, numbers: Numbers, bits: &[bool], cut: usize) -> Feed {
    let mut numbers = run(numbers, &bits[..cut]);
    alter(random, &mut numbers);
    let total = sessions::raster(&numbers).total as usize;
    let mut buffers = [(); 2].map(|()| vec![random.short(0, 0xffff); total]);
    fill_buffers(random, &mut buffers, numbers.pairs as usize);
    Feed {
        numbers,
        words: signals::whole_words(&bits[cut..]),
        buffers,
    }
}
