//! Damage to the links of a chain: number 10.

use super::{Damage, Expected};
use crate::support::disks::DrawnDisk;
use crate::support::geometry::{BITS, address};
use crate::support::random::Random;

#[rustfmt::skip]
pub const ALL: &[&Damage] = &[
    &Damage { title: "a link to the directory", own: true, apply: to_directory },
    &Damage { title: "a link to no track", own: true, apply: to_no_track },
    &Damage { title: "a link to no sector", own: true, apply: to_no_sector },
    &Damage { title: "a link to a foreign sector", own: true, apply: to_foreign },
    &Damage { title: "a link to its own sector", own: true, apply: to_itself },
    &Damage { title: "a link back", own: true, apply: back },
    &Damage { title: "a link too early 0, 0", own: true, apply: early_end },
    &Damage { title: "a link past the next sector", own: true, apply: skipping },
    &Damage { title: "a last link into the file", own: true, apply: last_into_file },
    &Damage { title: "a last link elsewhere", own: true, apply: last_elsewhere },
    &Damage { title: "a last link with one byte 0", own: true, apply: last_half },
    &Damage { title: "a whole chain in another order", own: true, apply: reordered },
];

/// Puts a link into a drawn sector before the last.
fn inside(disk: &mut DrawnDisk, index: usize, next: [u8; 2], random: &mut Random) -> Option<Expected> {
    let file = &disk.files[index];
    let (slot, count) = (file.slot, file.chain.len());
    if count < 2 {
        return None;
    }
    let from = file.chain[random.below(count - 1)];
    disk.link(from, next);
    Some(Expected::Refused(10, slot))
}

fn last(disk: &mut DrawnDisk, index: usize, next: [u8; 2]) -> Option<Expected> {
    let file = &disk.files[index];
    let (slot, from) = (file.slot, *file.chain.last()?);
    disk.link(from, next);
    Some(Expected::Refused(10, slot))
}

fn to_directory(disk: &mut DrawnDisk, index: usize, random: &mut Random) -> Option<Expected> {
    let next = [random.below(4) as u8, random.between(1, 10) as u8];
    inside(disk, index, next, random)
}

fn to_no_track(disk: &mut DrawnDisk, index: usize, random: &mut Random) -> Option<Expected> {
    let next = [random.pick(&[80, 81, 126, 127, 208, 209, 255]), random.between(1, 10) as u8];
    inside(disk, index, next, random)
}

fn to_no_sector(disk: &mut DrawnDisk, index: usize, random: &mut Random) -> Option<Expected> {
    let [track, _] = address(random.below(BITS));
    let next = [track, random.pick(&[0, 11, 12, 128, 255])];
    inside(disk, index, next, random)
}

/// A data sector, free or another file's, but not of this file's map.
fn to_foreign(disk: &mut DrawnDisk, index: usize, random: &mut Random) -> Option<Expected> {
    let next = foreign(disk, index, random)?;
    inside(disk, index, next, random)
}

fn to_itself(disk: &mut DrawnDisk, index: usize, random: &mut Random) -> Option<Expected> {
    let chain = &disk.files[index].chain;
    (chain.len() > 1).then_some(())?;
    let at = random.below(chain.len() - 1);
    link_within(disk, index, at, at)
}

/// To a sector passed before: to the first, or to any.
fn back(disk: &mut DrawnDisk, index: usize, random: &mut Random) -> Option<Expected> {
    let chain = &disk.files[index].chain;
    (chain.len() > 2).then_some(())?;
    let at = random.between(1, chain.len() - 2);
    let to = if random.coin() { 0 } else { random.below(at) };
    link_within(disk, index, at, to)
}

fn early_end(disk: &mut DrawnDisk, index: usize, random: &mut Random) -> Option<Expected> {
    inside(disk, index, [0, 0], random)
}

/// One sector of the map is left out: the last link comes one too early.
fn skipping(disk: &mut DrawnDisk, index: usize, random: &mut Random) -> Option<Expected> {
    let chain = &disk.files[index].chain;
    (chain.len() > 2).then_some(())?;
    let at = random.below(chain.len() - 2);
    link_within(disk, index, at, at + 2)
}

/// The link of the sector at one place of the chain made the address of that at another.
fn link_within(disk: &mut DrawnDisk, index: usize, at: usize, to: usize) -> Option<Expected> {
    let file = &disk.files[index];
    let (slot, from, next) = (file.slot, file.chain[at], address(file.chain[to]));
    disk.link(from, next);
    Some(Expected::Refused(10, slot))
}

fn last_into_file(disk: &mut DrawnDisk, index: usize, random: &mut Random) -> Option<Expected> {
    let next = address(random.pick(&disk.files[index].chain));
    last(disk, index, next)
}

fn last_elsewhere(disk: &mut DrawnDisk, index: usize, random: &mut Random) -> Option<Expected> {
    let next = foreign(disk, index, random)?;
    last(disk, index, next)
}

fn last_half(disk: &mut DrawnDisk, index: usize, random: &mut Random) -> Option<Expected> {
    let byte = random.between(1, 255) as u8;
    let next = if random.coin() { [0, byte] } else { [byte, 0] };
    last(disk, index, next)
}

fn foreign(disk: &DrawnDisk, index: usize, random: &mut Random) -> Option<[u8; 2]> {
    let chain = &disk.files[index].chain;
    (chain.len() < BITS).then_some(())?;
    loop {
        let bit = random.below(BITS);
        if !chain.contains(&bit) {
            return Some(address(bit));
        }
    }
}

/// The sectors behind the first in a new order, linked without a fault. The disk's own note of the chain follows.
fn reordered(disk: &mut DrawnDisk, index: usize, random: &mut Random) -> Option<Expected> {
    let mut chain = disk.files[index].chain.clone();
    (chain.len() > 2).then_some(())?;
    random.shuffle(&mut chain[1..]);
    for pair in chain.windows(2) {
        disk.link(pair[0], address(pair[1]));
    }
    disk.link(chain[chain.len() - 1], [0, 0]);
    disk.files[index].chain = chain;
    Some(Expected::Accepted)
}
