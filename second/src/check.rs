//! Checking a row: its refusals and its flags.

use crate::crc::{after_words, encode, is_carry, Carry};
use crate::layout::{Layout, Row, C, CRC, EAV, LINE, Y};
use crate::packet::{has_wrong_checksum, scan};
use crate::refusal::{refuse, Refusal};
use crate::words::{all_words, any_reserved};

/// The layout of a row that can be read, or its refusal: 4, 5, 2 or 3.
pub fn readable(code: u32, line: u32, row: Row) -> Result<Layout, Refusal> {
    let layout = Layout::of(code, line)?;
    let is_not_total = |words: &&[u16]| words.len() != layout.total();
    refuse(&[
        (Refusal::Length, row.iter().any(is_not_total)),
        (Refusal::Word, !row.iter().all(|words| all_words(words))),
    ])?;
    Ok(layout)
}

/// "a carry above 3FFFF"
pub fn refuse_carry(carry: Option<Carry>) -> Result<(), Refusal> {
    let registers = carry.unwrap_or_default();
    refuse(&[(Refusal::Word, !registers.into_iter().all(is_carry))])
}

/// The layout of a row that can be checked or corrected with a carry, or the refusal.
pub fn checkable(code: u32, line: u32, carry: Option<Carry>, row: Row) -> Result<Layout, Refusal> {
    let layout = readable(code, line, row)?;
    refuse_carry(carry)?;
    Ok(layout)
}

/// The flags of a row and the next carry, or a refusal.
pub fn check(
    code: u32,
    line: u32,
    carry: Option<Carry>,
    row: Row,
) -> Result<(u32, Carry), Refusal> {
    let layout = checkable(code, line, carry, row)?;
    Ok(judge(&layout, carry, row))
}

/// The flags of a row of T words and the next carry, refusing nothing.
pub fn judge(layout: &Layout, carry: Option<Carry>, row: Row) -> (u32, Carry) {
    let mut flags = 0;
    for channel in [Y, C] {
        let register = carry.map(|carry| carry[channel]);
        flags |= channel_flags(layout, channel, register, row[channel]);
    }
    (flags, next_carry(layout, row))
}

/// The flags of one channel of a row.
fn channel_flags(layout: &Layout, channel: usize, register: Option<u32>, words: &[u16]) -> u32 {
    let mut flags = timing_flags(layout, words);
    // "With no row before, CRC is neither judged nor corrected."
    if let Some(register) = register {
        flags |= flag(3 + channel, words[CRC] != right_crc(register, words));
    }
    flags | packet_flags(layout, channel, words) | reserved_flag(layout, words)
}

/// "Flags, by bit".
fn flag(bit: usize, holds: bool) -> u32 {
    u32::from(holds) << bit
}

/// "0 EAV, 1 SAV, 2 line number": "compared in both channels, against raster and expected line, at their fixed places".
fn timing_flags(layout: &Layout, words: &[u16]) -> u32 {
    flag(0, words[EAV] != layout.eav_words())
        | flag(1, words[layout.sav()] != layout.sav_words())
        | flag(2, words[LINE] != layout.line_words())
}

/// "5 Y checksum, 6 C checksum, 7 cut packet".
fn packet_flags(layout: &Layout, channel: usize, words: &[u16]) -> u32 {
    let mut flags = 0;
    for region in layout.packet_regions() {
        let region = &words[region];
        let scan = scan(region);
        let mut packets = scan.whole.into_iter().map(|place| &region[place]);
        flags |= flag(5 + channel, packets.any(has_wrong_checksum));
        flags |= flag(7, scan.cut);
    }
    flags
}

/// "8 reserved code (000-003, 3FC-3FF) in active words where V = 0"
fn reserved_flag(layout: &Layout, words: &[u16]) -> u32 {
    let active = &words[layout.active()];
    flag(8, !layout.v && any_reserved(active))
}

/// "Covered words: the active words of the row before, then EAV, LN0, LN1 of this row." The carry holds the row before.
pub fn right_crc(register: u32, words: &[u16]) -> [u16; 2] {
    encode(after_words(register, &words[EAV.start..LINE.end])).into()
}

/// "each channel's CRC register after a row's active words".
pub fn next_carry(layout: &Layout, row: Row) -> Carry {
    // "from zero"
    row.map(|words| after_words(0, &words[layout.active()]))
}
