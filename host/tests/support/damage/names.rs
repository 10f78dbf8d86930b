//! Damage to the name: number 9, and the directory's end.

use super::{Damage, Expected};
use crate::support::disks::DrawnDisk;
use crate::support::fields;
use crate::support::names;
use crate::support::random::Random;

#[rustfmt::skip]
pub const ALL: &[&Damage] = &[
    &Damage { title: "first name byte 0", own: true, apply: nameless },
    &Damage { title: "an earlier file's name", own: false, apply: name_of_earlier },
    &Damage { title: "a later file's name", own: false, apply: name_of_later },
    &Damage { title: "its own name in other letters", own: true, apply: name_turned },
    &Damage { title: "nearly another file's name", own: false, apply: name_nearly },
];

pub fn nameless(disk: &mut DrawnDisk, index: usize, _: &mut Random) -> Option<Expected> {
    let slot = disk.files[index].slot;
    disk.slot_mut(slot)[fields::NAME] = 0;
    Some(Expected::Ends(slot))
}

pub fn name_of_earlier(disk: &mut DrawnDisk, index: usize, random: &mut Random) -> Option<Expected> {
    let name = disk.files[random.below(index.max(1))].name;
    let slot = disk.files[index].slot;
    (index > 0).then(|| {
        rename(disk, slot, &names::turned(name, random));
        Expected::Refused(9, slot)
    })
}

fn name_of_later(disk: &mut DrawnDisk, index: usize, random: &mut Random) -> Option<Expected> {
    if index + 1 == disk.files.len() {
        return None;
    }
    let later = random.between(index + 1, disk.files.len() - 1);
    let (slot, name) = (disk.files[index].slot, disk.files[later].name);
    rename(disk, slot, &names::turned(name, random));
    Some(Expected::Refused(9, disk.files[later].slot))
}

/// The case of its letters makes no difference to the file itself.
pub fn name_turned(disk: &mut DrawnDisk, index: usize, random: &mut Random) -> Option<Expected> {
    let slot = disk.files[index].slot;
    let name = names::turned(disk.files[index].name, random);
    rename(disk, slot, &name);
    Some(Expected::Accepted)
}

/// One byte of another's name changed, but not in its case alone, is a name of its own.
fn name_nearly(disk: &mut DrawnDisk, index: usize, random: &mut Random) -> Option<Expected> {
    let slot = disk.files[index].slot;
    let name = names::changed(random.pick(&disk.names()), random);
    if name[0] == 0 || disk.names().iter().any(|other| names::same(other, &name)) {
        return None;
    }
    rename(disk, slot, &name);
    Some(Expected::Accepted)
}

fn rename(disk: &mut DrawnDisk, slot: usize, name: &[u8]) {
    disk.slot_mut(slot)[fields::NAME..fields::COUNT].copy_from_slice(name);
}
