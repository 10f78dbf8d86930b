//! Document 02, M-112: gather a scattered file.

use crate::calls::found_among;
use crate::check::{Survey, survey};
use crate::geometry::{Address, Image, MAP_BITS, PAYLOAD_BYTES, SECTOR_BYTES, sector, sector_mut, slot_place, whole_mut};
use crate::map::Map;
use crate::refusal::{Reason, Refused};
use crate::save::number_bytes;
use crate::slot::{self, Slot};
use std::ops::Range;

/// Moves a file, all payload bytes in their order, to the lowest run of free map bits of its length that are consecutive,
/// chained rising. Answers how many sectors changed, and names them: the data in the order of the chain, then the slot's. A file
/// that lies on consecutive bits in rising order is left, and names none.
pub fn gather(image: &mut [u8], name: &[u8], list: &mut [u8]) -> Result<usize, Refused> {
    let image = whole_mut(image)?;
    let survey = survey(image)?;
    let slot = found_among(image, survey.extent, name)?;
    if slot.is_directory() {
        return Err(Reason::WrongKind.at(slot.number));
    }
    let old = chain(image, &slot);
    if is_gathered(&old) {
        return Ok(0);
    }
    let run = lowest_run(&survey, old.len()).ok_or(Reason::NoRun.alone())?;
    let list = list
        .as_chunks_mut()
        .0
        .get_mut(..old.len() + 1)
        .ok_or(Reason::BufferTooShort.alone())?;
    let place = slot_place(slot.number);
    for (entry, number) in list
        .iter_mut()
        .zip(run.clone().map(number_of_bit).chain([place / SECTOR_BYTES]))
    {
        *entry = number_bytes(number);
    }
    move_payload(image, &old, run.clone());
    point_to(image, place, run);
    Ok(list.len())
}

/// The map bits of a checked file, from its first sector to its last.
fn chain(image: &Image, slot: &Slot) -> Vec<usize> {
    let mut bits = Vec::with_capacity(slot.count());
    let mut here = slot.first();
    while let (Some(bit), Some(number)) = (here.bit(), here.number()) {
        bits.push(bit);
        here = Address::link(sector(image, number));
    }
    bits
}

/// Whether each bit is the one after the bit before it.
fn is_gathered(bits: &[usize]) -> bool {
    bits.windows(2).all(|pair| pair[1] == pair[0] + 1)
}

/// The lowest run of so many consecutive map bits that are all free. The file's own sectors are in use.
fn lowest_run(survey: &Survey, length: usize) -> Option<Range<usize>> {
    let mut start = 0;
    for bit in 0..MAP_BITS {
        if survey.used.has(bit) {
            start = bit + 1;
        } else if bit + 1 - start == length {
            return Some(start..bit + 1);
        }
    }
    None
}

/// The sector number of a map bit below 1,560.
fn number_of_bit(bit: usize) -> usize {
    Address::of_bit(bit).number().unwrap_or_default()
}

/// Copies the payload of each sector to its place in the run, and links that to the next.
fn move_payload(image: &mut Image, old: &[usize], run: Range<usize>) {
    for (&from, to) in old.iter().zip(run.clone()) {
        let mut bytes = *sector(image, number_of_bit(from));
        let next = Some(to + 1)
            .filter(|next| run.contains(next))
            .map_or(Address::END, Address::of_bit);
        bytes[PAYLOAD_BYTES..].copy_from_slice(&[next.track, next.sector]);
        *sector_mut(image, number_of_bit(to)) = bytes;
    }
}

/// Lets a slot say that its file lies in the run: its first address and its map, bytes 13 to 209.
fn point_to(image: &mut Image, place: usize, run: Range<usize>) {
    let first = Address::of_bit(run.start);
    let mut map = Map::CLEAR;
    map.set_all(run);
    image[place + slot::FIRST_AT..][..2].copy_from_slice(&[first.track, first.sector]);
    let map = map.to_bytes();
    image[place + slot::MAP_AT..][..map.len()].copy_from_slice(&map);
}
