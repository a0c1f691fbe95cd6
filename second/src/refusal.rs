//! Refusal numbers and their order.

#[derive(Clone, Copy, Debug, PartialEq, Eq)]
pub enum Refusal {
    /// "output or row buffer too short for the result or for T"
    Short = 1,
    /// "row slice not of T words; in building, not A active words or over T-A-12 blanking words"
    Length = 2,
    /// "a word or history above 3FF, a carry above 3FFFF"
    Word = 3,
    /// "raster not 0..11"
    Raster = 4,
    /// "line not 1..N"
    Line = 5,
    /// "in building a packet: DID byte 00, over 255 user words, or a reserved user word"
    Packet = 6,
    /// "begin when open; feed or end when not; a session number outside the range docs/ gives for it"
    Session = 7,
    /// "bench file: tag not of 1 to 32 bytes or not printable ASCII without spaces, options not two bytes or wipe not 0 or 1,
    /// or cut short"
    File = 9,
}

impl Refusal {
    pub fn number(self) -> u32 {
        self as u32
    }
}

/// "Order where several apply: 7, 9, 4, 5, 2, 3, 6, 8, 1."; "8 is given no more".
const ORDER: [u32; 8] = [7, 9, 4, 5, 2, 3, 6, 1];

/// The first refusal, in the paper's order, whose condition holds.
pub fn refuse(conditions: &[(Refusal, bool)]) -> Result<(), Refusal> {
    for number in ORDER {
        for &(refusal, holds) in conditions {
            if holds && refusal.number() == number {
                return Err(refusal);
            }
        }
    }
    Ok(())
}
