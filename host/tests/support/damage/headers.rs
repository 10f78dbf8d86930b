//! Damage to the nine bytes of a carried file and to what they must equal: number 11; and to those of a Spectrum file: 25.

use super::{Damage, Expected};
use crate::support::disks::DrawnDisk;
use crate::support::fields;
use crate::support::geometry::fills;
use crate::support::random::Random;

#[rustfmt::skip]
pub const ALL: &[&Damage] = &[
    &Damage { title: "header kind", own: true, apply: kind },
    &Damage { title: "header kind with the marks of the slot", own: true, apply: kind_with_marks },
    &Damage { title: "header remainder", own: true, apply: remainder },
    &Damage { title: "header pages", own: true, apply: pages },
    &Damage { title: "slot's kind to another carried one", own: true, apply: slot_kind },
    &Damage { title: "slot's length to another that fits", own: true, apply: slot_length },
    &Damage { title: "bits 14 and 15 of the slot's remainder", own: true, apply: slot_junk },
    &Damage { title: "bits 14 and 15 of the header's remainder", own: true, apply: header_junk },
    &Damage { title: "header offset, page and unused bytes", own: true, apply: unread },
    &Damage { title: "the longest length that fits", own: true, apply: longest },
    &Damage { title: "the longest length that fits a Spectrum file", own: true, apply: spectrum_longest },
    &Damage { title: "a Spectrum file's length one too much", own: true, apply: spectrum_too_long },
    &Damage { title: "a Spectrum file's length far too much", own: true, apply: spectrum_far_too_long },
    &Damage { title: "a Spectrum file's other header bytes", own: true, apply: spectrum_unread },
];

/// Changes one byte of the header of a carried file.
fn header(disk: &mut DrawnDisk, index: usize, at: usize, change: impl FnOnce(u8) -> u8) -> Option<Expected> {
    let file = &disk.files[index];
    let (slot, first) = (file.slot, file.chain[0]);
    fields::is_carried(file.kind).then_some(())?;
    let byte = &mut disk.sector_mut(first)[at];
    let old = *byte;
    *byte = change(old);
    assert!(*byte != old, "nothing damaged");
    Some(Expected::Refused(11, slot))
}

fn kind(disk: &mut DrawnDisk, index: usize, random: &mut Random) -> Option<Expected> {
    header(disk, index, 0, |old| old ^ random.between(1, 255) as u8)
}

/// The first byte is compared whole: bits 6 and 7 count too.
fn kind_with_marks(disk: &mut DrawnDisk, index: usize, random: &mut Random) -> Option<Expected> {
    header(disk, index, 0, |old| old ^ random.pick(&[64, 128, 192]))
}

fn remainder(disk: &mut DrawnDisk, index: usize, random: &mut Random) -> Option<Expected> {
    let bit = random.below(14);
    header(disk, index, fields::HEADER_REMAINDER + bit / 8, |old| old ^ 1 << (bit % 8))
}

fn pages(disk: &mut DrawnDisk, index: usize, random: &mut Random) -> Option<Expected> {
    header(disk, index, fields::HEADER_PAGES, |old| old ^ random.between(1, 255) as u8)
}

fn slot_kind(disk: &mut DrawnDisk, index: usize, random: &mut Random) -> Option<Expected> {
    let file = &disk.files[index];
    let (slot, old) = (file.slot, file.kind);
    fields::is_carried(old).then_some(())?;
    let kind = 16 + (old - 16 + random.between(1, 4) as u8) % 5;
    disk.slot_mut(slot)[0] ^= old ^ kind;
    Some(Expected::Refused(11, slot))
}

fn slot_length(disk: &mut DrawnDisk, index: usize, random: &mut Random) -> Option<Expected> {
    let file = &disk.files[index];
    fields::is_carried(file.kind).then_some(())?;
    let (slot, old) = (file.slot, file.body.len());
    let length = match random.below(3) {
        0 if old > 0 => old - 1,
        1 if old >= 16_384 => old - 16_384,
        _ => random.between(0, fills(file.chain.len())),
    };
    set_length(disk.slot_mut(slot), length, random);
    Some(if length == old {
        Expected::Accepted
    } else {
        Expected::Refused(11, slot)
    })
}

fn set_length(slot: &mut [u8], length: usize, random: &mut Random) {
    slot[fields::PAGES] = (length / 16_384) as u8;
    slot[fields::REMAINDER..fields::EXEC].copy_from_slice(&fields::remainder(length, random.byte()));
}

fn slot_junk(disk: &mut DrawnDisk, index: usize, random: &mut Random) -> Option<Expected> {
    let slot = disk.files[index].slot;
    disk.slot_mut(slot)[fields::REMAINDER + 1] ^= random.pick(&[64, 128, 192]);
    Some(Expected::Accepted)
}

fn header_junk(disk: &mut DrawnDisk, index: usize, random: &mut Random) -> Option<Expected> {
    header(disk, index, fields::HEADER_REMAINDER + 1, |old| {
        old ^ random.pick(&[64, 128, 192])
    })?;
    Some(Expected::Accepted)
}

fn unread(disk: &mut DrawnDisk, index: usize, random: &mut Random) -> Option<Expected> {
    let first = disk.files[index].chain[0];
    fields::is_carried(disk.files[index].kind).then_some(())?;
    let sector = disk.sector_mut(first);
    random.fill(&mut sector[fields::HEADER_OFFSET..fields::HEADER_PAGES]);
    sector[fields::HEADER_PAGE] = random.byte();
    Some(Expected::Accepted)
}

/// Slot and header both give the length that fills the sectors to the last byte.
fn longest(disk: &mut DrawnDisk, index: usize, random: &mut Random) -> Option<Expected> {
    let file = &disk.files[index];
    fields::is_carried(file.kind).then_some(())?;
    let (slot, first, length) = (file.slot, file.chain[0], fills(file.chain.len()));
    set_length(disk.slot_mut(slot), length, random);
    let sector = disk.sector_mut(first);
    sector[fields::HEADER_PAGES] = (length / 16_384) as u8;
    sector[fields::HEADER_REMAINDER..fields::HEADER_OFFSET].copy_from_slice(&fields::remainder(length, random.byte()));
    Some(Expected::Accepted)
}

/// Puts a length into the header of a Spectrum file; none where two bytes do not hold it.
fn spectrum(disk: &mut DrawnDisk, index: usize, length: usize) -> Option<Expected> {
    let file = &disk.files[index];
    fields::is_spectrum(file.kind).then_some(())?;
    let bytes = u16::try_from(length).ok()?.to_le_bytes();
    let (slot, first, most) = (file.slot, file.chain[0], fills(file.chain.len()));
    disk.sector_mut(first)[fields::PLUS_D_LENGTH..][..2].copy_from_slice(&bytes);
    Some(if length > most {
        Expected::Refused(25, slot)
    } else {
        Expected::Accepted
    })
}

fn spectrum_longest(disk: &mut DrawnDisk, index: usize, _: &mut Random) -> Option<Expected> {
    let length = fills(disk.files[index].chain.len()).min(65_535);
    spectrum(disk, index, length)
}

fn spectrum_too_long(disk: &mut DrawnDisk, index: usize, _: &mut Random) -> Option<Expected> {
    let length = fills(disk.files[index].chain.len()) + 1;
    spectrum(disk, index, length)
}

fn spectrum_far_too_long(disk: &mut DrawnDisk, index: usize, random: &mut Random) -> Option<Expected> {
    let least = fills(disk.files[index].chain.len()) + 1;
    let length = (least <= 65_535).then(|| random.between(least, 65_535))?;
    spectrum(disk, index, length)
}

/// Kind, start and the last four bytes are not compared with anything, and neither is what the slot says of a length.
fn spectrum_unread(disk: &mut DrawnDisk, index: usize, random: &mut Random) -> Option<Expected> {
    let file = &disk.files[index];
    fields::is_spectrum(file.kind).then_some(())?;
    let (slot, first) = (file.slot, file.chain[0]);
    let sector = disk.sector_mut(first);
    sector[0] = random.byte();
    random.fill(&mut sector[fields::PLUS_D_START..fields::HEADER]);
    random.fill(&mut disk.slot_mut(slot)[fields::PAGES..fields::EXEC]);
    Some(Expected::Accepted)
}
