//! Damage to kind, count and length: numbers 2, 4, 5, 7.

use super::{Damage, Expected};
use crate::support::disks::DrawnDisk;
use crate::support::fields;
use crate::support::geometry::{BITS, EXTRA, fills};
use crate::support::random::Random;

#[rustfmt::skip]
pub const ALL: &[&Damage] = &[
    &Damage { title: "unknown kind", own: true, apply: unknown_kind },
    &Damage { title: "kind that cannot be read", own: true, apply: kind_not_read },
    &Damage { title: "kind of the Spectrum", own: true, apply: kind_of_spectrum },
    &Damage { title: "a file made a directory", own: true, apply: made_directory },
    &Damage { title: "hidden or protected turned", own: true, apply: marks },
    &Damage { title: "erased", own: true, apply: erased },
    &Damage { title: "count out of range", own: true, apply: count_outside },
    &Damage { title: "count one more", own: true, apply: |disk, index, _| count_by(disk, index, 1) },
    &Damage { title: "count one less", own: true, apply: |disk, index, _| count_by(disk, index, -1) },
    &Damage { title: "count low byte first", own: true, apply: count_swapped },
    &Damage { title: "length one too much", own: true, apply: too_long_by_one },
    &Damage { title: "length far too much", own: true, apply: far_too_long },
    &Damage { title: "bytes that no rule reads", own: true, apply: unread },
];

pub fn unknown_kind(disk: &mut DrawnDisk, index: usize, random: &mut Random) -> Option<Expected> {
    let slot = disk.files[index].slot;
    let kind = loop {
        let byte = random.byte();
        if byte != 0 && !fields::is_known(byte & 63) {
            break byte;
        }
    };
    disk.slot_mut(slot)[0] = kind;
    Some(Expected::Refused(2, slot))
}

/// A kind made one that is only known: its header is looked at no more.
fn kind_not_read(disk: &mut DrawnDisk, index: usize, random: &mut Random) -> Option<Expected> {
    set_kind(disk, index, random.pick(&[5, 6, 12, 22, 23]));
    Some(Expected::Accepted)
}

/// A kind made one of the Spectrum: what stands in its first sector is then its header, and must not say too long a length.
fn kind_of_spectrum(disk: &mut DrawnDisk, index: usize, random: &mut Random) -> Option<Expected> {
    set_kind(disk, index, random.between(1, 4) as u8);
    let file = &disk.files[index];
    let length = fields::plus_d(disk.first(file), fields::PLUS_D_LENGTH);
    Some(if length > fills(file.chain.len()) {
        Expected::Refused(25, file.slot)
    } else {
        Expected::Accepted
    })
}

/// A directory has no sectors.
fn made_directory(disk: &mut DrawnDisk, index: usize, _: &mut Random) -> Option<Expected> {
    set_kind(disk, index, fields::DIRECTORY);
    Some(Expected::Refused(4, disk.files[index].slot))
}

pub fn set_kind(disk: &mut DrawnDisk, index: usize, kind: u8) {
    let slot = disk.files[index].slot;
    let byte = &mut disk.slot_mut(slot)[0];
    *byte = *byte & 192 | kind;
}

pub fn marks(disk: &mut DrawnDisk, index: usize, random: &mut Random) -> Option<Expected> {
    let slot = disk.files[index].slot;
    disk.slot_mut(slot)[0] ^= random.pick(&[64, 128, 192]);
    Some(Expected::Accepted)
}

pub fn erased(disk: &mut DrawnDisk, index: usize, _: &mut Random) -> Option<Expected> {
    let slot = disk.files[index].slot;
    disk.slot_mut(slot)[0] = 0;
    Some(Expected::Accepted)
}

fn count_outside(disk: &mut DrawnDisk, index: usize, random: &mut Random) -> Option<Expected> {
    let slot = disk.files[index].slot;
    let count = random.pick(&[0, disk.data() + 1, disk.data() + 2, BITS + 1, 2_048, 32_768, 65_535]);
    fields::set_count(disk.slot_mut(slot), count);
    Some(Expected::Refused(4, slot))
}

fn count_by(disk: &mut DrawnDisk, index: usize, more: isize) -> Option<Expected> {
    let count = disk.files[index].chain.len().wrapping_add_signed(more);
    miscounted(disk, index, count)
}

fn count_swapped(disk: &mut DrawnDisk, index: usize, _: &mut Random) -> Option<Expected> {
    let count = disk.files[index].chain.len();
    let swapped = count % 256 * 256 + count / 256;
    if swapped == count {
        None
    } else {
        miscounted(disk, index, swapped)
    }
}

/// Another count than the map has bits.
fn miscounted(disk: &mut DrawnDisk, index: usize, count: usize) -> Option<Expected> {
    let slot = disk.files[index].slot;
    fields::set_count(disk.slot_mut(slot), count);
    let number = if (1..=disk.data()).contains(&count) { 5 } else { 4 };
    Some(Expected::Refused(number, slot))
}

fn too_long_by_one(disk: &mut DrawnDisk, index: usize, random: &mut Random) -> Option<Expected> {
    let length = fills(disk.files[index].chain.len()) + 1;
    too_long(disk, index, length, random)
}

fn far_too_long(disk: &mut DrawnDisk, index: usize, random: &mut Random) -> Option<Expected> {
    let least = fills(disk.files[index].chain.len()) + 1;
    let length = random.between(least, 256 * 16_384 - 1);
    too_long(disk, index, length, random)
}

fn too_long(disk: &mut DrawnDisk, index: usize, length: usize, random: &mut Random) -> Option<Expected> {
    let (slot, kind) = (disk.files[index].slot, disk.files[index].kind);
    let bytes = disk.slot_mut(slot);
    bytes[fields::PAGES] = (length / 16_384) as u8;
    bytes[fields::REMAINDER..fields::EXEC].copy_from_slice(&fields::remainder(length, random.byte()));
    Some(if fields::is_carried(kind) {
        Expected::Refused(7, slot)
    } else {
        Expected::Accepted
    })
}

/// Bytes 210 to 238 and 242 to 255: information, start, execution bytes, and those without a name; of slot 1 not that which says
/// the directory tracks.
fn unread(disk: &mut DrawnDisk, index: usize, random: &mut Random) -> Option<Expected> {
    let (slot, extra) = (disk.files[index].slot, disk.image[EXTRA]);
    random.fill(&mut disk.slot_mut(slot)[fields::MAP + fields::MAP_BYTES..fields::PAGES]);
    random.fill(&mut disk.slot_mut(slot)[fields::EXEC..]);
    disk.image[EXTRA] = extra;
    Some(Expected::Accepted)
}
