//! Drawn readers: three numbers and a room for the next piece. And a third opinion on what comes of them, byte by byte.

use super::calls::{Call, OUT};
use super::facts::Facts;
use super::geometry::{LONGEST, PAYLOAD, SECTOR, SECTORS, bit_of, bit_place, number};
use super::random::Random;
use super::requests::OwnedRequest;

/// Where a reader's next byte stands: its sector and its offset there.
pub type Position = (usize, usize);

/// The position of a reader that has no next byte.
pub const END: Position = (SECTORS, 0);

/// A request for the next piece: of a reader in a file mostly, else of rubbish.
pub fn draw(facts: &Facts, random: &mut Random) -> OwnedRequest {
    let sectors: Vec<usize> = facts.live.iter().flat_map(|live| live.sectors.iter().copied()).collect();
    let sector = match random.below(8) {
        0 => sector(random),
        1 => random.below(SECTORS) as u32,
        _ if sectors.is_empty() => random.below(SECTORS) as u32,
        _ => random.pick(&sectors) as u32,
    };
    let left = left(random);
    let mut asked = OwnedRequest::new(Call::Next).with(OUT, buffer(left as usize, random));
    asked.numbers = [sector, offset(random), left];
    asked
}

/// Any sector, its edges, and numbers that are one only if high bits are dropped.
pub fn sector(random: &mut Random) -> u32 {
    match random.below(4) {
        0 => random.pick(&[0, 39, 40, 79, 80, 1_598, 1_599, 1_600, 1_601, 65_535, 65_536, u32::MAX]),
        1 => random.pick(&[1 << 16, 1 << 24, 1 << 31]) | random.below(SECTORS) as u32,
        2 => random.number() as u32,
        _ => random.below(SECTORS) as u32,
    }
}

/// Any offset, mostly one that a reader can have.
pub fn offset(random: &mut Random) -> u32 {
    match random.below(12) {
        0 => random.pick(&[0, 1, 8, 9, 508, 509]),
        1 => random.pick(&[510, 511, 512, 513, 1_023, 65_535, 65_536, u32::MAX]),
        2 => random.pick(&[1 << 9, 1 << 16, 1 << 31]) | random.below(PAYLOAD) as u32,
        3 => random.number() as u32,
        _ => random.below(PAYLOAD) as u32,
    }
}

/// No more left than a disk holds: mostly few bytes, and each edge.
pub fn left(random: &mut Random) -> u32 {
    let left = match random.below(8) {
        0 => random.pick(&[0, 1, 509, 510, 511, 512]),
        1 => random.pick(&[LONGEST, LONGEST - 1, 65_535, 65_536]),
        2 => random.between(0, LONGEST),
        _ => random.between(0, 3_000),
    };
    left as u32
}

/// The room for a piece where so many bytes are left.
pub fn room(left: usize, random: &mut Random) -> usize {
    match random.below(8) {
        0 => left,
        1 => left + 1,
        2 => left.saturating_sub(1),
        3 => random.below(3_000),
        4 => random.below(left + 1),
        _ => random.pick(&[0, 1, 9, 509, 510, 511, 512]),
    }
}

/// Bytes to write a piece into. They hold rubbish, so that the rest can be seen to stay.
fn buffer(left: usize, random: &mut Random) -> Vec<u8> {
    let room = room(left, random);
    random.bytes(room)
}

/// One byte further than a byte's position: in the sector, or past its last byte at the first of the data sector that it leads to.
fn onward(image: &[u8], (sector, offset): Position) -> Position {
    if offset + 1 < PAYLOAD {
        return (sector, offset + 1);
    }
    let link = sector * SECTOR + PAYLOAD;
    bit_of([image[link], image[link + 1]]).map_or(END, |bit| (number(bit_place(bit)), 0))
}

/// The bytes that a piece has by the rule, and the position after them: one after the other, until as many have come as are wanted
/// or none stands there.
pub fn by_bytes(image: &[u8], numbers: [u32; 3], room: usize) -> (Vec<u8>, Position) {
    let [sector, offset, left] = numbers.map(|number| number as usize);
    let can_be = image.len() == SECTORS * SECTOR && sector < SECTORS && offset < PAYLOAD && left <= LONGEST;
    let mut position = if can_be { (sector, offset) } else { END };
    let mut bytes = Vec::new();
    while position != END && bytes.len() < left.min(room) {
        bytes.push(image[position.0 * SECTOR + position.1]);
        position = onward(image, position);
    }
    (bytes, position)
}
