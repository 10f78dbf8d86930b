//! Drawn saves. Each begins as one that the disk takes if it has room, and then none, one or more of its parts are spoilt, so
//! that the order of the refusals decides.

use super::calls::{BODY, Call, EXEC, INFO, NAME, OUT};
use super::facts::Facts;
use super::geometry::{BITS, fills};
use super::names;
use super::random::Random;
use super::requests::{self, OwnedRequest};

pub fn draw(facts: &Facts, random: &mut Random) -> OwnedRequest {
    let mut asked = accepted(facts, random);
    let spoilt = random.pick(&[0, 0, 0, 0, 1, 1, 1, 2, 3]);
    for _ in 0..spoilt {
        spoil(&mut asked, facts, random);
    }
    asked
}

/// A save that is accepted where there is a slot and a sector.
pub fn accepted(facts: &Facts, random: &mut Random) -> OwnedRequest {
    let name = unused_name(facts, random);
    let body = body(body_length(facts.free, random), random);
    // The list may be longer than is needed.
    let list = 2 * facts.save_sectors(body.len()) + random.pick(&[0, 0, 1, 2, 7]);
    let (exec, info) = (random.below(6), random.below(15));
    let mut asked = OwnedRequest::new(Call::Save)
        .with(NAME, name)
        .with(EXEC, random.bytes(exec))
        .with(INFO, random.bytes(info))
        .with(BODY, body)
        .with(OUT, random.bytes(list));
    asked.numbers = [random.between(16, 20) as u32, page(random), offset(random)];
    asked
}

/// A body: anything, or one byte again and again.
fn body(length: usize, random: &mut Random) -> Vec<u8> {
    if random.one_in(4) {
        vec![random.byte(); length]
    } else {
        random.bytes(length)
    }
}

/// A usable name that no live slot has.
pub fn unused_name(facts: &Facts, random: &mut Random) -> Vec<u8> {
    loop {
        let name = names::usable(random);
        if facts.find(&name).is_none() {
            return name;
        }
    }
}

fn page(random: &mut Random) -> u32 {
    if random.one_in(4) {
        random.pick(&[0, 31])
    } else {
        random.below(32) as u32
    }
}

fn offset(random: &mut Random) -> u32 {
    if random.one_in(4) {
        random.pick(&[32_768, 49_151])
    } else {
        random.between(32_768, 49_151) as u32
    }
}

/// The length of a body: at the edges of sectors and pages, at exactly the room, one above it, or anything.
fn body_length(free: usize, random: &mut Random) -> usize {
    let room = free.max(1);
    let some = random.between(1, room.min(40));
    match random.below(16) {
        0 => 0,
        1 => random.pick(&[1, 500, 501, 502]),
        2 => fills(some),
        3 => fills(some) + 1,
        4 => fills(room),
        5 => fills(room) + 1,
        6 => page_edge(room, random),
        7 => random.between(0, fills(room)),
        _ => random.between(0, fills(some)),
    }
}

/// Around a multiple of 16,384 that there is room for.
fn page_edge(room: usize, random: &mut Random) -> usize {
    let pages = random.between(0, fills(room) / 16_384);
    (pages * 16_384 + random.below(3)).saturating_sub(1)
}

/// One part made such that the save may be refused for it.
fn spoil(asked: &mut OwnedRequest, facts: &Facts, random: &mut Random) {
    match random.below(7) {
        0 => asked.numbers[0] = refused_kind(random),
        1 => asked.slices[NAME] = requests::new_name(facts, random),
        2 => asked.numbers[1] = random.pick(&[32, 33, 64, 255, 256, 1 << 16, 1 << 31, u32::MAX]),
        3 => asked.numbers[2] = random.pick(&[0, 1, 32_767, 49_152, 65_535, 65_536 + 32_768, 1 << 31, u32::MAX]),
        4 => asked.slices[OUT] = requests::list(facts.save_sectors(asked.slices[BODY].len()), random),
        5 => asked.slices[NAME] = requests::taken_name(facts, random).unwrap_or_default(),
        _ => {
            let length = random.pick(&[fills(facts.free.max(1)) + 1, fills(BITS), fills(BITS) + 1, 900_000]);
            asked.slices[BODY] = vec![random.byte(); length];
        }
    }
}

/// Known ones that are not carried, unknown ones, and those that are a carried kind only in their low bits.
pub fn refused_kind(random: &mut Random) -> u32 {
    if random.coin() {
        return random.pick(&[16 | 64, 16 | 128, 20 | 192, 256 | 16, 1 << 16 | 19, 1 << 31 | 17, u32::MAX]);
    }
    random.pick(&[0, 1, 12, 13, 14, 15, 21, 22, 23, 24, 63, 64])
}
