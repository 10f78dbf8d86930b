//! Changes at the directory's end and behind it, where nothing is read.

use super::{Damage, Expected};
use crate::support::disks::DrawnDisk;
use crate::support::fields;
use crate::support::geometry::{SLOT, slot_place};
use crate::support::random::Random;

#[rustfmt::skip]
pub const ALL: &[&Damage] = &[
    &Damage { title: "anything behind the end", own: true, apply: rubbish_behind },
    &Damage { title: "a file's slot behind the end", own: true, apply: copied_behind },
    &Damage { title: "byte 0 of the end", own: true, apply: byte_0 },
    &Damage { title: "an erased slot without a name", own: true, apply: erased_nameless },
    &Damage { title: "the end given a name", own: false, apply: named },
];

/// The slots from the end on.
fn unread(disk: &DrawnDisk) -> Option<Vec<usize>> {
    Some((disk.end?..=disk.slots()).collect())
}

/// Drawn bytes in each of them; the end stays without a name.
fn rubbish_behind(disk: &mut DrawnDisk, _: usize, random: &mut Random) -> Option<Expected> {
    for slot in unread(disk)? {
        let from = if disk.end == Some(slot) { fields::NAME + 1 } else { 0 };
        random.fill(&mut disk.slot_mut(slot)[from..]);
    }
    Some(Expected::Accepted)
}

/// The same name and the same sectors once more, where no one looks.
fn copied_behind(disk: &mut DrawnDisk, index: usize, random: &mut Random) -> Option<Expected> {
    let to = random.pick(&unread(disk)?);
    let from = slot_place(disk.files[index].slot);
    disk.image.copy_within(from..from + SLOT, slot_place(to));
    let end = disk.end?;
    disk.slot_mut(end)[fields::NAME] = 0;
    Some(Expected::Accepted)
}

/// The end is the end whatever its byte 0.
fn byte_0(disk: &mut DrawnDisk, _: usize, random: &mut Random) -> Option<Expected> {
    let end = disk.end?;
    disk.slot_mut(end)[0] = random.byte();
    Some(Expected::Accepted)
}

fn erased_nameless(disk: &mut DrawnDisk, _: usize, random: &mut Random) -> Option<Expected> {
    let erased = disk.erased();
    (!erased.is_empty()).then_some(())?;
    let slot = random.pick(&erased);
    disk.slot_mut(slot)[fields::NAME] = 0;
    Some(Expected::Ends(slot))
}

/// What stands behind it is then read.
fn named(disk: &mut DrawnDisk, _: usize, random: &mut Random) -> Option<Expected> {
    let end = disk.end?;
    disk.slot_mut(end)[fields::NAME] = random.between(1, 255) as u8;
    Some(Expected::Open)
}
