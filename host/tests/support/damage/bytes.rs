//! Damage without a plan: bytes changed here and there. Only the comparison knows what follows.

use super::{Damage, Expected};
use crate::support::disks::DrawnDisk;
use crate::support::fields;
use crate::support::geometry::{IMAGE, PAYLOAD, SLOT, slot_place};
use crate::support::random::Random;

#[rustfmt::skip]
pub const ALL: &[&Damage] = &[
    &Damage { title: "bytes of the slot", own: false, apply: in_slot },
    &Damage { title: "bytes of the header", own: false, apply: in_header },
    &Damage { title: "bytes of the links", own: false, apply: in_links },
    &Damage { title: "an erased slot made live", own: false, apply: revived },
    &Damage { title: "a slot copied to another", own: false, apply: copied },
    &Damage { title: "bytes anywhere", own: false, apply: anywhere },
    &Damage { title: "nothing but rubbish", own: false, apply: rubbish },
];

fn in_slot(disk: &mut DrawnDisk, index: usize, random: &mut Random) -> Option<Expected> {
    let slot = disk.files[index].slot;
    for _ in 0..random.between(1, 3) {
        let at = if random.coin() {
            random.below(fields::MAP)
        } else {
            random.below(SLOT)
        };
        disk.slot_mut(slot)[at] ^= flip(random);
    }
    Some(Expected::Open)
}

fn in_header(disk: &mut DrawnDisk, index: usize, random: &mut Random) -> Option<Expected> {
    let first = disk.files[index].chain[0];
    disk.sector_mut(first)[random.below(fields::HEADER)] ^= flip(random);
    Some(Expected::Open)
}

fn in_links(disk: &mut DrawnDisk, index: usize, random: &mut Random) -> Option<Expected> {
    let bit = random.pick(&disk.files[index].chain);
    disk.sector_mut(bit)[PAYLOAD + random.below(2)] ^= flip(random);
    Some(Expected::Open)
}

/// Byte 0 of a slot without a file made a kind: what was left behind it is then looked at.
fn revived(disk: &mut DrawnDisk, _: usize, random: &mut Random) -> Option<Expected> {
    let erased = disk.erased();
    (!erased.is_empty()).then_some(())?;
    let slot = random.pick(&erased);
    disk.slot_mut(slot)[0] = random.pick(&fields::KNOWN);
    Some(Expected::Open)
}

fn copied(disk: &mut DrawnDisk, index: usize, random: &mut Random) -> Option<Expected> {
    let from = slot_place(disk.files[index].slot);
    let to = slot_place(random.between(1, disk.slots()));
    disk.image.copy_within(from..from + SLOT, to);
    Some(Expected::Open)
}

fn anywhere(disk: &mut DrawnDisk, _: usize, random: &mut Random) -> Option<Expected> {
    for _ in 0..random.between(1, 2_000) {
        disk.image[random.below(IMAGE)] ^= flip(random);
    }
    Some(Expected::Open)
}

/// The whole image, or the directory alone: any bytes, or one byte everywhere.
fn rubbish(disk: &mut DrawnDisk, _: usize, random: &mut Random) -> Option<Expected> {
    let length = random.pick(&[IMAGE, 40_960]);
    if random.coin() {
        random.fill(&mut disk.image[..length]);
    } else {
        disk.image[..length].fill(random.byte());
    }
    Some(Expected::Open)
}

/// One bit, or any.
fn flip(random: &mut Random) -> u8 {
    if random.coin() {
        1 << random.below(8)
    } else {
        random.between(1, 255) as u8
    }
}
