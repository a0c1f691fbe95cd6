//! Packets: the ninth number, the limits of user words, and the data sheets' header words.

use super::{vector, Vector};
use crate::functions::BUILD_PACKET;
use crate::runs::runs;

/// "(9) packet 000 3FF 3FF 241 101 104 185 206 101 200 has checksum 2D2"
pub const NINTH: [u16; 11] = [
    0x000, 0x3ff, 0x3ff, 0x241, 0x101, 0x104, 0x185, 0x206, 0x101, 0x200, 0x2d2,
];

/// The audio DIDs as the data sheets print them (000:1911-1919, 002:100, 003:2137-2141).
const AUDIO_DIDS: [u16; 28] = [
    0x2ff, 0x1fd, 0x1fb, 0x2f9, 0x1fe, 0x2fc, 0x2fa, 0x1f8, 0x1ef, 0x2ee, 0x2ed, 0x1ec, 0x2e7,
    0x1e6, 0x1e5, 0x2e4, 0x1e3, 0x2e2, 0x2e1, 0x1e0, 0x1a7, 0x2a6, 0x2a5, 0x1a4, 0x2a3, 0x1a2,
    0x1a1, 0x2a0,
];

pub fn all() -> Vec<Vector> {
    let groups = [
        ninth_built(),
        user_words(),
        user_counts(),
        identities(),
        header_words(),
    ];
    groups.into_iter().flatten().collect()
}

/// Asked of an output that holds words, which has others afterwards.
fn asked(pair: [u32; 2], user: &[u16], held: &[u16], answer: [u32; 2], after: &[u16]) -> Vector {
    let request = [&[BUILD_PACKET], &pair[..], &runs(user), &runs(held)].concat();
    vector(&request, &[&answer, &runs(after)[..]].concat())
}

/// A packet built into an output of as many words, each FFFF before.
fn built(did: u32, sdid: u32, user: &[u16], packet: &[u16]) -> Vector {
    let held = vec![0xffff; packet.len()];
    asked([did, sdid], user, &held, [0, packet.len() as u32], packet)
}

fn not_built(refusal: u32, did: u32, user: &[u16], held: &[u16]) -> Vector {
    asked([did, 0x01], user, held, [refusal, 0], held)
}

fn ninth_built() -> Vec<Vector> {
    let user = &NINTH[6..10];
    let longer = [&NINTH[..], &[0x155]].concat();
    vec![
        built(0x41, 0x01, user, &NINTH),
        asked([0x41, 0x01], user, &[0x155; 12], [0, 11], &longer),
        not_built(1, 0x41, user, &[0x155; 10]),
    ]
}

/// "user words 004 and 3FB pass, 003 and 3FC give 6"; "word 3FF passes, 400 gives 3": 3FF is refused as a reserved code.
/// The checksums are worked by hand.
fn user_words() -> Vec<Vector> {
    let passing = [(0x004, 0x247), (0x3fb, 0x23e)];
    let refused = [(0x003, 6), (0x3fc, 6), (0x000, 6), (0x3ff, 6), (0x400, 3)];
    let passing = passing.map(|(user, checksum)| {
        let packet = [0x000, 0x3ff, 0x3ff, 0x241, 0x101, 0x101, user, checksum];
        built(0x41, 0x01, &[user], &packet)
    });
    let refused = refused.map(|(user, refusal)| not_built(refusal, 0x41, &[user], &[0x155; 8]));
    passing.into_iter().chain(refused).collect()
}

/// "255 user words pass, 256 give 6"; words of 200 add nothing to the sum.
fn user_counts() -> Vec<Vector> {
    let start = [0x000, 0x3ff, 0x3ff, 0x241, 0x101, 0x2ff];
    let packet = [&start, &[0x200; 255][..], &[0x241]].concat();
    vec![
        built(0x41, 0x01, &[0x200; 255], &packet),
        not_built(1, 0x41, &[0x200; 255], &[0x155; 261]),
        not_built(6, 0x41, &[0x200; 256], &[0x155; 263]),
        not_built(6, 0x41, &[0x200; 256], &[]),
        not_built(3, 0x41, &[0x400; 256], &[]),
    ]
}

/// "DID byte 00" is refused, an SDID of 00 and a DID of 01 are not.
fn identities() -> Vec<Vector> {
    let packet = [0x000, 0x3ff, 0x3ff, 0x101, 0x200, 0x200, 0x101];
    vec![
        built(0x01, 0x00, &[], &packet),
        not_built(6, 0x00, &[], &[0x155; 7]),
        not_built(3, 0x00, &[0x400], &[]),
        not_built(1, 0x01, &[], &[0x155; 6]),
    ]
}

/// Each as the fourth word; SDID and DC, 200 both, add nothing to the sum, so it is the checksum too.
fn header_words() -> Vec<Vector> {
    AUDIO_DIDS
        .map(|did| {
            let packet = [0x000, 0x3ff, 0x3ff, did, 0x200, 0x200, did];
            built(u32::from(did & 0xff), 0x00, &[], &packet)
        })
        .into()
}
