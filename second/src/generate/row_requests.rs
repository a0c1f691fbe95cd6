//! Requests for the functions that take a row or build one.

use super::pieces::pair;
use super::refused_rows::{spoil_parts, spoil_row, Parts};
use super::rows::{row, Row};
use super::{lists, request, Generator, Request};
use crate::functions::*;
use crate::runs::runs;
use crate::search;

impl Generator {
    /// A row, right, damaged or refused, with packets of any pair.
    pub(super) fn any_row(&mut self) -> Row {
        let wanted = pair(&mut self.random);
        let mut row = row(&mut self.random, wanted);
        spoil_row(&mut self.random, &mut row);
        row
    }

    pub(super) fn find_packet(&mut self) -> Request {
        let wanted @ (did, sdid) = pair(&mut self.random);
        let mut row = row(&mut self.random, wanted);
        spoil_row(&mut self.random, &mut row);
        let Row { head, words } = &row;
        let numbers = [FIND_PACKET, head.code, head.line, did.into(), sdid.into()];
        request(&[&numbers, &both(words)])
    }

    pub(super) fn extract(&mut self) -> Request {
        let Row { head, words } = self.any_row();
        let channel = self.random.place(2);
        let mut room = vec![0; words[channel].len()];
        let row = words.each_ref().map(Vec::as_slice);
        let count = search::extract(head.code, head.line, channel, row, &mut room);
        let output = lists::output_of_runs(&mut self.random, count.unwrap_or(7));
        let numbers = [EXTRACT, head.code, head.line, channel as u32];
        request(&[&numbers, &both(&words), &runs(&output)])
    }

    pub(super) fn check_row(&mut self) -> Request {
        let Row { head, words } = self.any_row();
        let numbers = [CHECK_ROW, head.code, head.line];
        request(&[&numbers, &head.carry_numbers(), &both(&words)])
    }

    pub(super) fn correct_row(&mut self) -> Request {
        let Row { head, words } = self.any_row();
        let wipe = self.random.below(2);
        let numbers = [CORRECT_ROW, head.code, head.line];
        request(&[&numbers, &head.carry_numbers(), &[wipe], &both(&words)])
    }

    /// The parts of a row, all of its blanking or the first words of it, and buffers of T words or more.
    pub(super) fn build_row(&mut self) -> Request {
        let random = &mut self.random;
        let wanted = pair(random);
        let Row { head, words } = row(random, wanted);
        let layout = head.layout();
        let active = words
            .each_ref()
            .map(|words| words[layout.active()].to_vec());
        let blanking = words.map(|words| {
            let first = random.place(layout.blanking().len() + 1);
            let laid = random.pick(&[0, first, first.min(40), layout.blanking().len()]);
            words[layout.blanking()][..laid].to_vec()
        });
        let buffers = [(); 2].map(|()| {
            let more = random.pick(&[0, 0, 1, 5]);
            lists::buffer_of_runs(random, layout.total() + more)
        });
        let mut parts = Parts {
            head,
            active,
            blanking,
            buffers,
        };
        spoil_parts(random, &mut parts);
        build_request(&parts)
    }
}

pub fn both(words: &[Vec<u16>; 2]) -> Request {
    words.iter().flat_map(|words| runs(words)).collect()
}

fn build_request(parts: &Parts) -> Request {
    let head = parts.head;
    let numbers = [BUILD_ROW, head.code, head.line];
    let words = [&parts.active, &parts.blanking, &parts.buffers].map(both);
    request(&[&numbers, &head.carry_numbers(), &words.concat()])
}
