//! Damage to the first address: number 6, and 10 where the chain is entered too late.

use super::{Damage, Expected};
use crate::support::disks::DrawnDisk;
use crate::support::fields;
use crate::support::geometry::{BITS, address, is_data};
use crate::support::random::Random;

#[rustfmt::skip]
pub const ALL: &[&Damage] = &[
    &Damage { title: "first address in the directory", own: true, apply: first_in_directory },
    &Damage { title: "first address on no track", own: true, apply: first_on_no_track },
    &Damage { title: "first address at no sector", own: true, apply: first_at_no_sector },
    &Damage { title: "first address foreign", own: true, apply: first_foreign },
    &Damage { title: "first address further on", own: true, apply: first_further },
];

fn first(disk: &mut DrawnDisk, index: usize, at: [u8; 2], number: u8) -> Option<Expected> {
    let slot = disk.files[index].slot;
    disk.slot_mut(slot)[fields::FIRST..fields::MAP].copy_from_slice(&at);
    Some(Expected::Refused(number, slot))
}

fn first_in_directory(disk: &mut DrawnDisk, index: usize, random: &mut Random) -> Option<Expected> {
    let inside: Vec<usize> = (0..BITS).filter(|&bit| !is_data(bit, disk.extra)).collect();
    let at = match inside.is_empty() || random.coin() {
        true => [random.below(4) as u8, random.between(1, 10) as u8],
        false => address(random.pick(&inside)),
    };
    first(disk, index, at, 6)
}

fn first_on_no_track(disk: &mut DrawnDisk, index: usize, random: &mut Random) -> Option<Expected> {
    let track = random.pick(&[80, 81, 100, 126, 127, 208, 209, 254, 255]);
    let at = [track, random.between(1, 10) as u8];
    first(disk, index, at, 6)
}

fn first_at_no_sector(disk: &mut DrawnDisk, index: usize, random: &mut Random) -> Option<Expected> {
    let [track, _] = address(disk.files[index].chain[0]);
    let at = [track, random.pick(&[0, 11, 12, 127, 128, 129, 255])];
    first(disk, index, at, 6)
}

/// A data sector whose bit is clear in this file's map.
fn first_foreign(disk: &mut DrawnDisk, index: usize, random: &mut Random) -> Option<Expected> {
    let chain = &disk.files[index].chain;
    let foreign: Vec<usize> = (0..BITS).filter(|bit| !chain.contains(bit)).collect();
    if foreign.is_empty() {
        return None;
    }
    let at = address(random.pick(&foreign));
    first(disk, index, at, 6)
}

/// Another sector of the file's own: the chain then ends too early.
fn first_further(disk: &mut DrawnDisk, index: usize, random: &mut Random) -> Option<Expected> {
    let chain = &disk.files[index].chain;
    if chain.len() < 2 {
        return None;
    }
    let at = address(random.pick(&chain[1..]));
    first(disk, index, at, 10)
}
