//! Damage to directories, which have no sectors: numbers 2, 4, 5 and 9. Their codes refuse no disk.

use super::{Damage, Expected, names, slots};
use crate::support::disks::DrawnDisk;
use crate::support::fields;
use crate::support::geometry::{BITS, EXTRA, address};
use crate::support::random::Random;

#[rustfmt::skip]
pub const ALL: &[&Damage] = &[
    &Damage { title: "directory: a count", own: true, apply: count },
    &Damage { title: "directory: map bits", own: true, apply: bits },
    &Damage { title: "directory: a sector of its own", own: true, apply: sector },
    &Damage { title: "directory: the first address", own: true, apply: first },
    &Damage { title: "directory: bytes behind the map", own: true, apply: behind_map },
    &Damage { title: "directory: its code", own: true, apply: code },
    &Damage { title: "directory: what it is in", own: true, apply: parent },
    &Damage { title: "directory: in itself", own: true, apply: in_itself },
    &Damage { title: "directory: made a file", own: true, apply: made_file },
    &Damage { title: "directory: unknown kind", own: true, apply: slots::unknown_kind },
    &Damage { title: "directory: hidden or protected turned", own: true, apply: slots::marks },
    &Damage { title: "directory: erased", own: true, apply: slots::erased },
    &Damage { title: "directory: first name byte 0", own: true, apply: names::nameless },
    &Damage { title: "directory: an earlier name", own: false, apply: names::name_of_earlier },
    &Damage { title: "directory: its own name in other letters", own: true, apply: names::name_turned },
];

fn bytes(disk: &mut DrawnDisk, index: usize) -> &mut [u8] {
    let slot = disk.files[index].slot;
    disk.slot_mut(slot)
}

fn refused(disk: &DrawnDisk, index: usize, number: u8) -> Option<Expected> {
    Some(Expected::Refused(number, disk.files[index].slot))
}

fn count(disk: &mut DrawnDisk, index: usize, random: &mut Random) -> Option<Expected> {
    let count = random.pick(&[1, 2, 255, 256, 1_211, BITS, BITS + 1, 65_535]);
    fields::set_count(bytes(disk, index), count);
    refused(disk, index, 4)
}

fn bits(disk: &mut DrawnDisk, index: usize, random: &mut Random) -> Option<Expected> {
    for _ in 0..random.pick(&[1, 1, 2, 30]) {
        let bit = match random.below(3) {
            0 => random.pick(&[0, 1, 7, 8, 759, 760, BITS - 1]),
            _ => random.below(BITS),
        };
        fields::set_bit(bytes(disk, index), bit, true);
    }
    refused(disk, index, 5)
}

/// What would be accepted of a file: a count of one, a bit and the first address to fit.
fn sector(disk: &mut DrawnDisk, index: usize, random: &mut Random) -> Option<Expected> {
    let bit = random.below(BITS);
    let slot = bytes(disk, index);
    fields::set_count(slot, 1);
    fields::set_bit(slot, bit, true);
    slot[fields::FIRST..fields::MAP].copy_from_slice(&address(bit));
    refused(disk, index, 4)
}

/// It is not looked at.
fn first(disk: &mut DrawnDisk, index: usize, random: &mut Random) -> Option<Expected> {
    random.fill(&mut bytes(disk, index)[fields::FIRST..fields::MAP]);
    Some(Expected::Accepted)
}

/// Nor is what stands behind the map, but by a tree.
fn behind_map(disk: &mut DrawnDisk, index: usize, random: &mut Random) -> Option<Expected> {
    let extra = disk.image[EXTRA];
    random.fill(&mut bytes(disk, index)[fields::MAP + fields::MAP_BYTES..]);
    disk.image[EXTRA] = extra;
    Some(Expected::Accepted)
}

/// None, another's, or any.
fn code(disk: &mut DrawnDisk, index: usize, random: &mut Random) -> Option<Expected> {
    let code = some_code(disk, random);
    bytes(disk, index)[fields::CODE] = code;
    Some(Expected::Accepted)
}

fn parent(disk: &mut DrawnDisk, index: usize, random: &mut Random) -> Option<Expected> {
    let code = some_code(disk, random);
    bytes(disk, index)[fields::PARENT] = code;
    Some(Expected::Accepted)
}

fn in_itself(disk: &mut DrawnDisk, index: usize, _: &mut Random) -> Option<Expected> {
    let slot = bytes(disk, index);
    slot[fields::PARENT] = slot[fields::CODE];
    Some(Expected::Accepted)
}

fn some_code(disk: &DrawnDisk, random: &mut Random) -> u8 {
    let slot = disk.files[random.below(disk.files.len())].slot;
    match random.below(3) {
        0 => 0,
        1 => disk.slot(slot)[fields::CODE],
        _ => random.byte(),
    }
}

/// A file has one sector at least.
fn made_file(disk: &mut DrawnDisk, index: usize, random: &mut Random) -> Option<Expected> {
    let kind = random.pick(&[1, 4, 5, 12, 16, 19, 20, 22, 23]);
    slots::set_kind(disk, index, kind);
    refused(disk, index, 4)
}
