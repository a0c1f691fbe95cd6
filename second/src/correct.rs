//! Correcting a row.

use crate::check::{checkable, next_carry, right_crc};
use crate::crc::Carry;
use crate::layout::{Layout, BLANKING, C, CRC, EAV, LINE, Y};
use crate::packet::{make_checksums_right, wipe};
use crate::refusal::Refusal;
use crate::words::fill;

/// Corrects both channels and answers the next carry of the row as it then stands.
pub fn correct(
    code: u32,
    line: u32,
    carry: Option<Carry>,
    wiping: bool,
    row: [&mut [u16]; 2],
) -> Result<Carry, Refusal> {
    let layout = checkable(code, line, carry, row.each_ref().map(|words| &**words))?;
    let corrected = [Y, C].map(|channel| {
        let mut words = row[channel].to_vec();
        if wiping {
            wipe_packets(&layout, &mut words, BLANKING[channel]);
        }
        correct_channel(&layout, carry.map(|carry| carry[channel]), &mut words);
        words
    });
    for (words, corrected) in row.into_iter().zip(&corrected) {
        fill(words, corrected);
    }
    Ok(next_carry(&layout, corrected.each_ref().map(Vec::as_slice)))
}

fn wipe_packets(layout: &Layout, words: &mut [u16], blanking: u16) {
    for region in layout.packet_regions() {
        wipe(&mut words[region], blanking);
    }
}

/// "Correction writes, in this order: checksums, TRS and line numbers, CRC."
fn correct_channel(layout: &Layout, register: Option<u32>, words: &mut [u16]) {
    for region in layout.packet_regions() {
        make_checksums_right(&mut words[region]);
    }
    words[EAV].copy_from_slice(&layout.eav_words());
    words[layout.sav()].copy_from_slice(&layout.sav_words());
    words[LINE].copy_from_slice(&layout.line_words());
    // "With no row before, CRC is neither judged nor corrected."
    if let Some(register) = register {
        let crc = right_crc(register, words);
        words[CRC].copy_from_slice(&crc);
    }
}
