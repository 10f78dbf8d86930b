//! Damage to the map: numbers 5, 6, 8, and 10 where the chain leaves the map.

use super::{Damage, Expected};
use crate::support::disks::DrawnDisk;
use crate::support::fields;
use crate::support::geometry::{BITS, address, is_data};
use crate::support::random::Random;

#[rustfmt::skip]
pub const ALL: &[&Damage] = &[
    &Damage { title: "a map bit more", own: true, apply: bit_more },
    &Damage { title: "a map bit less", own: true, apply: bit_less },
    &Damage { title: "the first sector's bit moved", own: true, apply: first_moved },
    &Damage { title: "a later sector's bit moved", own: false, apply: later_moved },
    &Damage { title: "a bit and a count more", own: false, apply: counted_more },
    &Damage { title: "a waste sector behind the file", own: false, apply: waste },
    &Damage { title: "a bit of an earlier file more", own: false, apply: shared_with_earlier },
    &Damage { title: "a bit of a later file more", own: false, apply: shared_with_later },
    &Damage { title: "a bit moved to an earlier file's", own: false, apply: moved_to_earlier },
    &Damage { title: "a bit moved into the directory", own: true, apply: moved_inside },
    &Damage { title: "a bit inside the directory and a count more", own: true, apply: counted_inside },
    &Damage { title: "the first address and its bit inside the directory", own: true, apply: first_inside },
    &Damage { title: "the first address and its bit an earlier file's", own: false, apply: first_of_earlier },
];

fn bit_more(disk: &mut DrawnDisk, index: usize, random: &mut Random) -> Option<Expected> {
    let slot = disk.files[index].slot;
    let bit = random.pick(&others(disk, index)?);
    fields::set_bit(disk.slot_mut(slot), bit, true);
    Some(Expected::Refused(5, slot))
}

fn bit_less(disk: &mut DrawnDisk, index: usize, random: &mut Random) -> Option<Expected> {
    let slot = disk.files[index].slot;
    let bit = random.pick(&disk.files[index].chain);
    fields::set_bit(disk.slot_mut(slot), bit, false);
    Some(Expected::Refused(5, slot))
}

fn first_moved(disk: &mut DrawnDisk, index: usize, random: &mut Random) -> Option<Expected> {
    let to = random.pick(&free(disk)?);
    let from = disk.files[index].chain[0];
    Some(Expected::Refused(6, moved(disk, index, from, to)))
}

fn later_moved(disk: &mut DrawnDisk, index: usize, random: &mut Random) -> Option<Expected> {
    let to = random.pick(&free(disk)?);
    let from = later_bit(disk, index, random)?;
    Some(Expected::Refused(10, moved(disk, index, from, to)))
}

/// A free sector counted in that the chain never reaches: the last link is met too early.
fn counted_more(disk: &mut DrawnDisk, index: usize, random: &mut Random) -> Option<Expected> {
    let bit = random.pick(&free(disk)?);
    Some(Expected::Refused(10, counted(disk, index, bit)))
}

/// A free sector counted in and chained behind the last: no rule of the first check is against it.
fn waste(disk: &mut DrawnDisk, index: usize, random: &mut Random) -> Option<Expected> {
    let bit = random.pick(&free(disk)?);
    let last = *disk.files[index].chain.last()?;
    counted(disk, index, bit);
    disk.link(last, address(bit));
    disk.link(bit, [0, 0]);
    Some(Expected::Accepted)
}

fn shared_with_earlier(disk: &mut DrawnDisk, index: usize, random: &mut Random) -> Option<Expected> {
    let bit = bit_of_earlier(disk, index, random)?;
    Some(Expected::Refused(8, counted(disk, index, bit)))
}

fn shared_with_later(disk: &mut DrawnDisk, index: usize, random: &mut Random) -> Option<Expected> {
    let with_sectors = |&later: &usize| !disk.files[later].chain.is_empty();
    let later = some((index + 1..disk.files.len()).filter(with_sectors).collect())?;
    let later = random.pick(&later);
    let bit = random.pick(&disk.files[later].chain);
    counted(disk, index, bit);
    Some(Expected::Refused(8, disk.files[later].slot))
}

fn moved_to_earlier(disk: &mut DrawnDisk, index: usize, random: &mut Random) -> Option<Expected> {
    let to = bit_of_earlier(disk, index, random)?;
    let from = later_bit(disk, index, random)?;
    Some(Expected::Refused(8, moved(disk, index, from, to)))
}

/// A file whose chain begins in an earlier file's sector, with the map to fit.
fn first_of_earlier(disk: &mut DrawnDisk, index: usize, random: &mut Random) -> Option<Expected> {
    let to = bit_of_earlier(disk, index, random)?;
    let from = disk.files[index].chain[0];
    let slot = moved(disk, index, from, to);
    let at = address(to);
    disk.slot_mut(slot)[fields::FIRST..fields::MAP].copy_from_slice(&at);
    Some(Expected::Refused(8, slot))
}

fn moved_inside(disk: &mut DrawnDisk, index: usize, random: &mut Random) -> Option<Expected> {
    let to = random.pick(&inside(disk)?);
    let from = later_bit(disk, index, random)?;
    Some(Expected::Refused(6, moved(disk, index, from, to)))
}

fn counted_inside(disk: &mut DrawnDisk, index: usize, random: &mut Random) -> Option<Expected> {
    let bit = random.pick(&inside(disk)?);
    let fits = disk.files[index].chain.len() < disk.data();
    fits.then(|| Expected::Refused(6, counted(disk, index, bit)))
}

/// A file whose chain begins in the directory, with the map to fit.
fn first_inside(disk: &mut DrawnDisk, index: usize, random: &mut Random) -> Option<Expected> {
    let to = random.pick(&inside(disk)?);
    let from = disk.files[index].chain[0];
    let slot = moved(disk, index, from, to);
    disk.slot_mut(slot)[fields::FIRST..fields::MAP].copy_from_slice(&address(to));
    Some(Expected::Refused(6, slot))
}

/// One bit cleared and one set, so that the number stays. Gives the slot.
fn moved(disk: &mut DrawnDisk, index: usize, from: usize, to: usize) -> usize {
    let slot = disk.files[index].slot;
    fields::set_bit(disk.slot_mut(slot), from, false);
    fields::set_bit(disk.slot_mut(slot), to, true);
    slot
}

/// One bit more set, and the count raised with it. Gives the slot.
fn counted(disk: &mut DrawnDisk, index: usize, bit: usize) -> usize {
    let slot = disk.files[index].slot;
    let count = disk.files[index].chain.len() + 1;
    fields::set_bit(disk.slot_mut(slot), bit, true);
    fields::set_count(disk.slot_mut(slot), count);
    slot
}

fn later_bit(disk: &DrawnDisk, index: usize, random: &mut Random) -> Option<usize> {
    let chain = &disk.files[index].chain;
    (chain.len() > 1).then(|| random.pick(&chain[1..]))
}

fn bit_of_earlier(disk: &DrawnDisk, index: usize, random: &mut Random) -> Option<usize> {
    let earlier = disk.files[..index].iter().flat_map(|file| file.chain.iter().copied());
    some(earlier.collect()).map(|bits| random.pick(&bits))
}

/// The bits that are not this file's.
fn others(disk: &DrawnDisk, index: usize) -> Option<Vec<usize>> {
    let chain = &disk.files[index].chain;
    some((0..BITS).filter(|bit| !chain.contains(bit)).collect())
}

/// The bits of the directory's own sectors, its edges often.
fn inside(disk: &DrawnDisk) -> Option<Vec<usize>> {
    let mut bits: Vec<usize> = (0..BITS).filter(|&bit| !is_data(bit, disk.extra)).collect();
    let edges = bits.iter().copied().filter(|&bit| bit == 1 || bit + 1 == 10 * disk.extra);
    bits.extend(edges.collect::<Vec<_>>().repeat(bits.len() / 4));
    some(bits)
}

/// The data sectors' bits that are no file's.
fn free(disk: &DrawnDisk) -> Option<Vec<usize>> {
    let mut used = [false; BITS];
    disk.files
        .iter()
        .flat_map(|file| &file.chain)
        .for_each(|&bit| used[bit] = true);
    some((0..BITS).filter(|&bit| !used[bit] && is_data(bit, disk.extra)).collect())
}

fn some(numbers: Vec<usize>) -> Option<Vec<usize>> {
    if numbers.is_empty() { None } else { Some(numbers) }
}
