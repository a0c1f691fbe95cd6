//! The functions' numbers, with the digits the request format's table prints.

pub const RASTER_ROW: u32 = 0x10;
pub const NAME_RASTER: u32 = 0x11;
pub const V_AND_F: u32 = 0x12;

pub const CRC_AFTER_WORDS: u32 = 0x21;
pub const CRC_WORDS: u32 = 0x22;

pub const SCRAMBLE: u32 = 0x30;
pub const UNSCRAMBLE: u32 = 0x31;
pub const FIND_SYNC: u32 = 0x32;

pub const XYZ: u32 = 0x40;
pub const READ_XYZ: u32 = 0x41;
pub const LINE_WORDS: u32 = 0x42;
pub const READ_LINE: u32 = 0x43;

pub const BUILD_PACKET: u32 = 0x50;
pub const FIND_PACKET: u32 = 0x51;
pub const EXTRACT: u32 = 0x52;

pub const CHECK_ROW: u32 = 0x60;
pub const CORRECT_ROW: u32 = 0x61;
pub const BUILD_ROW: u32 = 0x62;

pub const BEGIN: u32 = 0x70;
pub const FEED: u32 = 0x71;
pub const END: u32 = 0x72;
pub const MODULE: u32 = 0x73;

pub const DESK: u32 = 0x81;
pub const TAKE: u32 = 0x82;
pub const OUTCOME_LINE: u32 = 0x83;
