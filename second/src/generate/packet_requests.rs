//! Requests for packets to be built.

use super::pieces::pair;
use super::{lists, regions, request, Generator, Request};
use crate::functions::BUILD_PACKET;
use crate::random::Random;
use crate::runs::runs;

impl Generator {
    pub(super) fn build_packet(&mut self) -> Request {
        let random = &mut self.random;
        let (did, sdid) = pair(random);
        let user = user_words(random);
        let output = lists::output_of_runs(random, 7 + user.len());
        request(&[
            &[BUILD_PACKET, did.into(), sdid.into()],
            &runs(&user),
            &runs(&output),
        ])
    }
}

/// User words, right or refused by 3, by 6 or by both.
fn user_words(random: &mut Random) -> Vec<u16> {
    let few = random.below(12);
    let count = random.pick(&[few, few, few, few, 254, 255, 255, 256, 256, 257]);
    let mut words = if count < 12 {
        (0..count).map(|_| random.short(0x004, 0x3fb)).collect()
    } else {
        vec![random.short(0x004, 0x3fb); count as usize]
    };
    for _ in 0..random.pick(&[0, 0, 0, 1, 2]) {
        let word = random.pick(&[0x003, 0x004, 0x3fb, 0x3fc, 0x3ff, 0x400, 0xffff, 0x000]);
        regions::change_a_word(random, &mut words, |_| word);
    }
    words
}
