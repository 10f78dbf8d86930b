//! The changes inside one directory slot: erase, rename, hide, show, protect, release.

use crate::calls::{found, found_among};
use crate::check::survey;
use crate::geometry::{SECTOR_BYTES, slot_place, whole_mut};
use crate::name::{asked_name, new_name};
use crate::refusal::{Reason, Refused};
use crate::save::number_bytes;
use crate::slot::{HIDDEN, NAME_AT, PROTECTED, find};
use crate::tree::is_empty;

/// Sets byte 0 to 0. The other bytes stay. A directory must be empty.
pub fn erase(image: &mut [u8], name: &[u8], list: &mut [u8]) -> Result<usize, Refused> {
    let image = whole_mut(image)?;
    let extent = survey(image)?.extent;
    let slot = found_among(image, extent, name)?;
    if slot.is_protected() {
        return Err(Reason::Protected.at(slot.number));
    }
    if !is_empty(image, extent, &slot) {
        return Err(Reason::NotEmpty.at(slot.number));
    }
    let place = slot_place(slot.number);
    name_directory_sector(list, place)?;
    image[place] = 0;
    Ok(1)
}

/// Changes the ten name bytes. The file's own name with other capitals is accepted; its own bytes are not, nor is another's
/// name.
pub fn rename(image: &mut [u8], name: &[u8], new: &[u8], list: &mut [u8]) -> Result<usize, Refused> {
    let image = whole_mut(image)?;
    let extent = survey(image)?.extent;
    let (Some(name), Some(new)) = (asked_name(name), new_name(new)) else {
        return Err(Reason::NameNotUsable.alone());
    };
    let slot = find(image, extent, &name).ok_or(Reason::NoSuchName.alone())?;
    if let Some(taken) = find(image, extent, &new)
        && (taken.number != slot.number || *slot.name() == new)
    {
        return Err(Reason::NameTaken.at(taken.number));
    }
    if slot.is_protected() {
        return Err(Reason::Protected.at(slot.number));
    }
    let place = slot_place(slot.number);
    name_directory_sector(list, place)?;
    image[place + NAME_AT..][..new.len()].copy_from_slice(&new);
    Ok(1)
}

pub fn hide(image: &mut [u8], name: &[u8], list: &mut [u8]) -> Result<usize, Refused> {
    mark(image, name, list, |byte| byte | HIDDEN)
}

pub fn show(image: &mut [u8], name: &[u8], list: &mut [u8]) -> Result<usize, Refused> {
    mark(image, name, list, |byte| byte & !HIDDEN)
}

pub fn protect(image: &mut [u8], name: &[u8], list: &mut [u8]) -> Result<usize, Refused> {
    mark(image, name, list, |byte| byte | PROTECTED)
}

pub fn release(image: &mut [u8], name: &[u8], list: &mut [u8]) -> Result<usize, Refused> {
    mark(image, name, list, |byte| byte & !PROTECTED)
}

/// Changes a slot's byte 0. A protected file may be marked too, and a mark that is there already is no fault.
fn mark(image: &mut [u8], name: &[u8], list: &mut [u8], change: fn(u8) -> u8) -> Result<usize, Refused> {
    let image = whole_mut(image)?;
    let place = slot_place(found(image, name)?.number);
    name_directory_sector(list, place)?;
    image[place] = change(image[place]);
    Ok(1)
}

/// Writes the number of the slot's sector to the list. This is the last thing that can be refused.
fn name_directory_sector(list: &mut [u8], place: usize) -> Result<(), Refused> {
    let entry = list.first_chunk_mut().ok_or(Reason::BufferTooShort.alone())?;
    *entry = number_bytes(place / SECTOR_BYTES);
    Ok(())
}
