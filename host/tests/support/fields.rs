//! Where the fields of a slot stand, and how they are written and read: document 01, "A slot".

use super::geometry::BITS;

pub const HIDDEN: u8 = 128;
pub const PROTECTED: u8 = 64;

pub const NAME: usize = 1;
pub const COUNT: usize = 11;
pub const FIRST: usize = 13;
pub const MAP: usize = 15;
pub const MAP_BYTES: usize = 195;
pub const INFO: usize = 221;
pub const PAGE: usize = 236;
pub const OFFSET: usize = 237;
pub const PAGES: usize = 239;
pub const REMAINDER: usize = 240;
pub const EXEC: usize = 242;

/// The bytes of slot 1 that are about the disk: its name, its random word, and the directory tracks beyond four. A save keeps
/// them: document 02, M-106.
pub const KEPT: [std::ops::RangeInclusive<usize>; 3] = [210..=219, 252..=253, 255..=255];

/// The nine bytes at the front of the first sector of a file that can be read.
pub const HEADER: usize = 9;
pub const HEADER_REMAINDER: usize = 1;
pub const HEADER_OFFSET: usize = 3;
pub const HEADER_UNUSED: usize = 5;
pub const HEADER_PAGES: usize = 7;
pub const HEADER_PAGE: usize = 8;

pub const KNOWN: [u8; 20] = [1, 2, 3, 4, 5, 6, 7, 8, 9, 10, 11, 12, 16, 17, 18, 19, 20, 21, 22, 23];

/// A directory of MasterDOS: document 02, M-108.
pub const DIRECTORY: u8 = 21;
/// Where a directory has its code, and every live slot that of the directory it is in.
pub const CODE: usize = 250;
pub const PARENT: usize = 254;

pub fn is_directory(kind: u8) -> bool {
    kind == DIRECTORY
}

pub fn is_known(kind: u8) -> bool {
    KNOWN.contains(&kind)
}

pub fn is_carried(kind: u8) -> bool {
    (16..=20).contains(&kind)
}

/// The kinds of the Spectrum with a header of the Plus D: document 02, M-107.
pub fn is_spectrum(kind: u8) -> bool {
    (1..=4).contains(&kind)
}

/// The kinds that have a body and a start.
pub fn is_readable(kind: u8) -> bool {
    is_carried(kind) || is_spectrum(kind)
}

/// Where length and start stand in the nine bytes of a Spectrum file, two bytes each, low byte first.
pub const PLUS_D_LENGTH: usize = 1;
pub const PLUS_D_START: usize = 3;

/// One of these numbers, from the first sector of such a file.
pub fn plus_d(sector: &[u8], at: usize) -> usize {
    usize::from(sector[at]) + 256 * usize::from(sector[at + 1])
}

pub fn kind(slot: &[u8]) -> u8 {
    slot[0] & 63
}

pub fn name(slot: &[u8]) -> [u8; 10] {
    slot[NAME..COUNT].try_into().expect("ten bytes")
}

pub fn count(slot: &[u8]) -> usize {
    usize::from(slot[COUNT]) * 256 + usize::from(slot[COUNT + 1])
}

pub fn set_count(slot: &mut [u8], count: usize) {
    slot[COUNT] = (count / 256) as u8;
    slot[COUNT + 1] = (count % 256) as u8;
}

pub fn has_bit(slot: &[u8], bit: usize) -> bool {
    slot[MAP + bit / 8] >> (bit % 8) & 1 == 1
}

pub fn set_bit(slot: &mut [u8], bit: usize, on: bool) {
    let byte = &mut slot[MAP + bit / 8];
    *byte = *byte & !(1 << (bit % 8)) | u8::from(on) << (bit % 8);
}

/// Sets these bits of a slot's map and clears all others.
pub fn set_map(slot: &mut [u8], bits: &[usize]) {
    slot[MAP..MAP + MAP_BYTES].fill(0);
    bits.iter().for_each(|&bit| set_bit(slot, bit, true));
}

/// The bits of a slot's map, rising.
pub fn bits(slot: &[u8]) -> Vec<usize> {
    (0..BITS).filter(|&bit| has_bit(slot, bit)).collect()
}

/// Pages and remainder of a slot as a length; bits 14 and 15 of the remainder are ignored.
pub fn length(slot: &[u8]) -> usize {
    let remainder = usize::from(slot[REMAINDER]) + 256 * usize::from(slot[REMAINDER + 1]);
    usize::from(slot[PAGES]) * 16_384 + remainder % 16_384
}

pub fn offset(slot: &[u8]) -> usize {
    usize::from(slot[OFFSET]) + 256 * usize::from(slot[OFFSET + 1])
}

/// The two bytes of a remainder, with whatever `junk` has in bits 14 and 15.
pub fn remainder(length: usize, junk: u8) -> [u8; 2] {
    let remainder = length % 16_384;
    [(remainder % 256) as u8, (remainder / 256) as u8 | junk & 192]
}

/// The start address that a slot gives; none where its offset is outside.
pub fn start(slot: &[u8]) -> Option<usize> {
    let page = usize::from(slot[PAGE] & 31);
    (32_768..=49_151)
        .contains(&offset(slot))
        .then(|| page * 16_384 + offset(slot) - 16_384)
}
