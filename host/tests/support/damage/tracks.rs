//! Changes of the number of directory tracks: number 24, and what another number makes of the disk.

use super::{Damage, Expected};
use crate::support::disks::DrawnDisk;
use crate::support::geometry::{EXTRA, MOST_EXTRA};
use crate::support::random::Random;

#[rustfmt::skip]
pub const ALL: &[&Damage] = &[
    &Damage { title: "too many directory tracks", own: true, apply: too_many },
    &Damage { title: "no more directory tracks, as 0 or 255", own: true, apply: none },
    &Damage { title: "another number of directory tracks", own: false, apply: another },
];

fn too_many(disk: &mut DrawnDisk, _: usize, random: &mut Random) -> Option<Expected> {
    disk.image[EXTRA] = match random.coin() {
        true => random.pick(&[36, 37, 64, 127, 128, 253, 254]),
        false => random.between(MOST_EXTRA + 1, 254) as u8,
    };
    Some(Expected::Refused(24, 0))
}

/// Both are read as 0.
fn none(disk: &mut DrawnDisk, _: usize, random: &mut Random) -> Option<Expected> {
    (disk.extra == 0 && matches!(disk.image[EXTRA], 0 | 255)).then(|| {
        disk.image[EXTRA] = random.pick(&[0, 255]);
        Expected::Accepted
    })
}

/// Slots become data or data slots, or the directory goes on into what was free.
fn another(disk: &mut DrawnDisk, _: usize, random: &mut Random) -> Option<Expected> {
    disk.image[EXTRA] = match random.below(4) {
        0 => 255,
        1 => random.pick(&[0, 1, 2, 34, 35]),
        2 => random.between(0, MOST_EXTRA) as u8,
        _ => (disk.extra + 1).min(MOST_EXTRA) as u8,
    };
    Some(Expected::Open)
}
