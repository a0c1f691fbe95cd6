//! Building a row.

use crate::check::{next_carry, refuse_carry, right_crc};
use crate::crc::{encode, Carry};
use crate::layout::{Layout, Row, BLANKING, C, CRC, EAV, LINE, Y};
use crate::refusal::{refuse, Refusal};
use crate::words::{all_words, fill};

/// "Building takes raster, line, carry and, per channel, A active words and up to T-A-12 words laid from the start of the
/// blanking." Answers the next carry.
pub fn build(
    code: u32,
    line: u32,
    carry: Option<Carry>,
    active: Row,
    blanking: Row,
    buffers: [&mut [u16]; 2],
) -> Result<Carry, Refusal> {
    let layout = Layout::of(code, line)?;
    refuse_words(&layout, active, blanking)?;
    refuse_carry(carry)?;
    let built = [Y, C].map(|channel| {
        let register = carry.map(|carry| carry[channel]);
        let mut words = frame(&layout, register, BLANKING[channel]);
        fill(&mut words[layout.blanking()], blanking[channel]);
        fill(&mut words[layout.active()], active[channel]);
        words
    });
    let short = |buffer: &&mut [u16]| buffer.len() < layout.total();
    refuse(&[(Refusal::Short, buffers.iter().any(short))])?;
    for (buffer, words) in buffers.into_iter().zip(&built) {
        fill(buffer, words);
    }
    Ok(next_carry(&layout, built.each_ref().map(Vec::as_slice)))
}

/// "in building, not A active words or over T-A-12 blanking words"; "a word [..] above 3FF".
fn refuse_words(layout: &Layout, active: Row, blanking: Row) -> Result<(), Refusal> {
    let not_active = |words: &&[u16]| words.len() != layout.active().len();
    let over_blanking = |words: &&[u16]| words.len() > layout.blanking().len();
    let mut lent = active.iter().chain(&blanking);
    refuse(&[
        (Refusal::Length, active.iter().any(not_active)),
        (Refusal::Length, blanking.iter().any(over_blanking)),
        (Refusal::Word, !lent.all(|words| all_words(words))),
    ])
}

/// A channel's T words before its own are laid: "the rest is blanking".
fn frame(layout: &Layout, register: Option<u32>, blanking: u16) -> Vec<u16> {
    let mut words = vec![blanking; layout.total()];
    words[EAV].copy_from_slice(&layout.eav_words());
    words[LINE].copy_from_slice(&layout.line_words());
    // "Without a carry its CRC words are 200 200."
    let crc = register.map_or(encode(0).into(), |register| right_crc(register, &words));
    words[CRC].copy_from_slice(&crc);
    words[layout.sav()].copy_from_slice(&layout.sav_words());
    words
}
