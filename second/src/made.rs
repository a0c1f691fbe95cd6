//! "no made XYZ, line number, CRC, checksum or header word falls in the reserved ranges for any input": every one there is.

use crate::crc::encode;
use crate::packet::{checksum, packet, USER};
use crate::timing::{encode_line, xyz};
use crate::words::is_reserved;

fn none_reserved(mut made: impl Iterator<Item = u16>) {
    assert_eq!(made.find(|&word| is_reserved(word)), None);
}

#[test]
fn no_xyz_or_line_number_is_reserved() {
    let codes = 0..8;
    none_reserved(codes.map(|code| xyz(code & 4 != 0, code & 2 != 0, code & 1 != 0)));
    none_reserved((0..2048).flat_map(|line| <[u16; 2]>::from(encode_line(line))));
}

#[test]
fn no_crc_is_reserved() {
    none_reserved((0..1 << 18).flat_map(|register| <[u16; 2]>::from(encode(register))));
}

#[test]
fn no_checksum_or_header_is_reserved() {
    none_reserved((0..512).map(|sum| checksum(&[sum])));
    none_reserved((0..=255).flat_map(|byte| {
        let made = packet((byte, byte), &vec![0x200; usize::from(byte)]);
        made[3..USER].to_vec()
    }));
}
