//! Finding and extraction: they "take raster, line and a row, blanking before active words".

use crate::check::readable;
use crate::layout::{Layout, Row, Y};
use crate::packet::{identity, whole_packets};
use crate::refusal::{refuse, Refusal};
use crate::words::fill;

fn packets<'a>(layout: &Layout, words: &'a [u16]) -> Vec<&'a [u16]> {
    let regions = layout.packet_regions().into_iter();
    regions
        .flat_map(|region| whole_packets(&words[region]))
        .collect()
}

/// "The first whole packet with a wanted pair, Y before C, from its 000 to its checksum [..]; if none, an empty part of Y."
pub fn find(code: u32, line: u32, wanted: (u8, u8), row: Row<'_>) -> Result<&[u16], Refusal> {
    let layout = readable(code, line, row)?;
    let mut packets = row.into_iter().flat_map(|words| packets(&layout, words));
    let found = packets.find(|packet| identity(packet) == wanted);
    Ok(found.unwrap_or(&row[Y][..0]))
}

/// "Extraction copies all whole packets of a channel, in order, end to end." Answers how many words they have.
pub fn extract(
    code: u32,
    line: u32,
    channel: usize,
    row: Row,
    output: &mut [u16],
) -> Result<usize, Refusal> {
    let layout = readable(code, line, row)?;
    let copied = packets(&layout, row[channel]).concat();
    refuse(&[(Refusal::Short, output.len() < copied.len())])?;
    fill(output, &copied);
    Ok(copied.len())
}
