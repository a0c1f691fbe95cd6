//! Where things end in what sessions are fed, by the twenty bits of a pair of cable words from the feed's start.

use crate::cable::{cable_bits, next_history, unscrambled};
use crate::raster::raster_of;
use crate::session::Numbers;
use crate::timing::read_xyz;
use std::collections::BTreeMap;

/// The bits of two cable words.
pub const PAIR: usize = 20;
const SYNC: u64 = 0xf_ffff;
const EAV_BITS: u32 = 80;

/// How often each sign comes at each place of a pair of cable words.
#[derive(Debug, Default)]
pub struct Places(BTreeMap<String, [u32; PAIR]>);

impl Places {
    fn note(&mut self, sign: &str, place: usize) {
        self.0.entry(sign.to_string()).or_default()[place % PAIR] += 1;
    }

    /// How often the sign comes at the place where it comes least.
    pub fn least(&self, sign: &str) -> u32 {
        let places = self.0.get(sign).copied().unwrap_or_default();
        places.into_iter().min().unwrap_or(0)
    }

    pub fn at(&self, sign: &str, place: usize) -> u32 {
        self.0.get(sign).map_or(0, |places| places[place])
    }
}

/// An open session, as far as it is told by its bits alone.
pub struct Walk {
    total: u32,
    history: u16,
    /// The last sixty bits, the oldest lowest.
    window: u64,
    ahead: u32,
    /// How many bits of the open row have come.
    row: Option<u32>,
    /// How many bits ago a row ended without an EAV.
    since_late: Option<u32>,
}

impl Walk {
    pub fn of(numbers: &Numbers) -> Self {
        let [below, above] = numbers.last.map(u64::from);
        let bits = numbers.pairs * PAIR as u32 + u32::from(numbers.bit);
        Self {
            total: raster_of(numbers.raster).expect("it is open").total,
            history: numbers.history,
            window: below | above << 32,
            ahead: numbers.ahead.into(),
            row: (numbers.pairs > 0).then_some(bits),
            since_late: None,
        }
    }

    /// Whether the session has come as far.
    pub fn is_at(&self, numbers: &Numbers) -> bool {
        let there = Self::of(numbers);
        let far = |walk: &Self| (walk.history, walk.window, walk.ahead, walk.row);
        far(self) == far(&there)
    }

    /// Walks through the words of a feed and notes what ends in it, and where it ends itself.
    pub fn feed(&mut self, words: &[u16], places: &mut Places) {
        let cable = cable_bits(self.history, words);
        self.history = next_history(&cable);
        for (place, bit) in unscrambled(&cable).into_iter().enumerate() {
            if bit {
                self.note_zeros(place + PAIR - 1, places);
            }
            self.step(bit, place, places);
        }
        self.note_end(words.len(), places);
    }

    fn step(&mut self, bit: bool, place: usize, places: &mut Places) {
        self.window = self.window >> 1 | u64::from(bit) << 59;
        self.since_late = self.since_late.map(|bits| bits + 1);
        self.row = self.row.map(|bits| bits + 1);
        let ends_eav = self.ahead == 1 && self.is_eav();
        self.ahead = self.ahead.saturating_sub(1);
        if self.row.is_some() && (self.window ^ SYNC).count_ones() == 1 {
            places.note("sync but for a bit", place);
        }
        if self.window == SYNC {
            self.ahead = PAIR as u32;
            self.take_sync(place, places);
        }
        let whole = self.total * PAIR as u32 + EAV_BITS;
        if ends_eav {
            self.take_eav(whole, place, places);
        } else if self.row == Some(whole) {
            places.note("late", place);
            self.row = None;
            self.since_late = Some(0);
        }
    }

    fn is_eav(&self) -> bool {
        matches!(read_xyz((self.window >> 50) as u16), Ok(Some((_, _, true))))
    }

    fn take_sync(&mut self, place: usize, places: &mut Places) {
        match self.row.map(|bits| bits % PAIR as u32) {
            None => places.note("sync outside", place),
            Some(0) => places.note("sync with a pair", place),
            Some(_) => {
                places.note("sync astray", place);
                self.row = None;
            }
        }
    }

    fn take_eav(&mut self, whole: u32, place: usize, places: &mut Places) {
        match self.row {
            None if self.since_late == Some(PAIR as u32) => places.note("opens at T+1", place),
            None => places.note("opens", place),
            Some(bits) if bits == whole => places.note("whole", place),
            Some(bits) if bits + PAIR as u32 == whole => places.note("early at T-1", place),
            Some(_) => places.note("early", place),
        }
        self.row = Some(EAV_BITS);
    }

    /// A one ends a run of zeros amid a row, the last of them at this place. Before 41 zeros no more than 19 ones are seen.
    fn note_zeros(&self, place: usize, places: &mut Places) {
        let zeros = (self.window << 4).leading_zeros();
        if self.row.is_none() || ![19, 20, 21, 39, 40, 41].contains(&zeros) {
            return;
        }
        let ones = (self.window << 4 << zeros).leading_ones();
        places.note(&format!("{zeros} zeros"), place);
        if (19..=20).contains(&ones) {
            places.note(&format!("{zeros} zeros after {ones} ones"), place);
        }
    }

    /// By how many words the feed has, up to so many that only odd and even matter.
    fn note_end(&self, words: usize, places: &mut Places) {
        let words = if words > 7 { 8 + words % 2 } else { words };
        let zeros = (self.window << 4).leading_zeros();
        let ones = (self.window << 4).leading_ones();
        let before = (self.window << 4).checked_shl(zeros).unwrap_or(0);
        places.note("end", words);
        if before.leading_ones() >= 20 && (1..40).contains(&zeros) {
            places.note("end in a sync's zeros", words);
        }
        if (1..=20).contains(&ones) {
            places.note("end after ones", words);
        }
        match self.ahead {
            0 => {}
            20 => places.note("end with a sync", words),
            _ => places.note("end in an XYZ pair", words),
        }
        let Some(bits) = self.row else { return };
        let pairs = i64::from(bits / PAIR as u32) - i64::from(self.total);
        if (-2..=3).contains(&pairs) {
            places.note(&format!("end with T{pairs:+} pairs"), words);
        }
        if bits == EAV_BITS {
            places.note("end with an EAV", words);
        }
    }
}
