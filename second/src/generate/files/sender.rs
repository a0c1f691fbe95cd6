//! Good rows of a raster that follow one another: from any line on, of any lawful words, with packets where they may lie.

use crate::generate::camera::Camera;
use crate::generate::rows::{carried, Row};
use crate::generate::{pieces, rasters};
use crate::layout::Layout;
use crate::packet::packet;
use crate::random::Random;
use crate::words::lay;

pub struct Sender {
    camera: Camera,
    /// Whether the active words of a row are all different.
    is_busy: bool,
    has_packets: bool,
}

impl Sender {
    /// A sender of which nothing came before, or rows that were not recorded.
    pub fn new(random: &mut Random, code: u32) -> Self {
        let mut camera = Camera::new(code, rasters::any_line_of(random, code));
        camera.carry = random.bit().then(|| [(); 2].map(|()| carried(random)));
        Self {
            camera,
            is_busy: random.bit(),
            has_packets: random.bit(),
        }
    }

    pub fn row(&mut self, random: &mut Random) -> Row {
        let head = self.camera.head();
        let layout = head.layout();
        let active = [(); 2].map(|()| self.active(random, &layout));
        let packets = [(); 2].map(|()| self.packets(random, layout.blanking().len()));
        let [active, packets] = [&active, &packets].map(|row| row.each_ref().map(Vec::as_slice));
        let words = self.camera.next_words(active, packets);
        Row { head, words }
    }

    /// The active words of a channel; packets are among them only where V = 1.
    fn active(&self, random: &mut Random, layout: &Layout) -> Vec<u16> {
        let count = layout.active().len();
        let any = lawful(random);
        let mut words = vec![random.pick(&[0x004, 0x3fb, any, any, any]); count];
        if self.is_busy {
            words.fill_with(|| lawful(random));
        }
        if layout.v {
            let place = random.place(count);
            let packets = self.packets(random, count - place);
            lay(&mut words, place, &packets);
        }
        words
    }

    /// None, or a few that fit in the room, end to end.
    fn packets(&self, random: &mut Random, room: usize) -> Vec<u16> {
        let mut words = Vec::new();
        let count = random.pick(&[0, 0, 1, 1, 2, 3]);
        for _ in 0..if self.has_packets { count } else { 0 } {
            let pair = pieces::pair(random);
            let any = random.place(256);
            let length = random.pick(&[0, 1, 4, 12, 12, any, 255]);
            let user: Vec<u16> = (0..length).map(|_| lawful(random)).collect();
            let packet = packet(pair, &user);
            if words.len() + packet.len() <= room {
                words.extend(packet);
            }
        }
        words
    }
}

/// A word that is no reserved code.
fn lawful(random: &mut Random) -> u16 {
    random.short(0x004, 0x3fb)
}
