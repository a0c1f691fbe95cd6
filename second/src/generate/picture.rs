//! A test picture: what a camera of the captures sends in each row.

use crate::layout::{Layout, BLANKING};
use crate::packet::packet;

/// From the darkest word of the ramp to the brightest.
const RAMP: [usize; 2] = [0x040, 0x3ac];

/// The two words of C that each bar is made of, which take turns.
const BARS: [[u16; 8]; 2] = [
    [0x200, 0x0b0, 0x24d, 0x0fd, 0x303, 0x1b3, 0x350, 0x200],
    [0x200, 0x21f, 0x0b0, 0x0cf, 0x331, 0x350, 0x1e1, 0x200],
];

/// The active words of Y and C: where V = 0, a ramp that moves on with each line, and bars.
pub fn active(code: u32, line: u32) -> [Vec<u16>; 2] {
    let layout = Layout::of(code, line).expect("code and line are of the table");
    let count = layout.active().len();
    if layout.v {
        return BLANKING.map(|word| vec![word; count]);
    }
    let [dark, bright] = RAMP;
    let ramp = |place| (place + 4 * line as usize) % count * (bright - dark) / count + dark;
    let bar = |place: usize| BARS[place % 2][place * BARS[0].len() / count];
    [
        (0..count).map(|place| ramp(place) as u16).collect(),
        (0..count).map(bar).collect(),
    ]
}

/// The packets of Y and C: a payload identifier in every 25th row, and in every tenth a packet that counts them.
pub fn packets(line: u32) -> [Vec<u16>; 2] {
    let mut packets = [Vec::new(), Vec::new()];
    if line.is_multiple_of(25) {
        packets[0] = packet((0x41, 0x01), &[0x185, 0x206, 0x101, 0x200]);
    }
    if line.is_multiple_of(10) {
        let tenth = (line / 10) as u8;
        packets[1] = packet((0x50, tenth), &[0x200 | u16::from(tenth); 12]);
    }
    packets
}
