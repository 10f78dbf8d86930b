//! The calls that change no image.

use crate::check::{Purpose, survey, survey_for};
use crate::extent::Extent;
use crate::geometry::{Address, Image, PAYLOAD_BYTES, SECTOR_BYTES, SLOT_BYTES, Sector, sector as sector_of, whole};
use crate::name::asked_name;
use crate::refusal::{Reason, Refused};
use crate::slot::{HEADER_BYTES, Slot, find, live_slots};
use crate::spectrum::PlusD;

/// The bytes of a listing for each live slot: the slot's number in two, then the slot.
const ENTRY_BYTES: usize = 2 + SLOT_BYTES;

/// What a listing answers.
#[derive(Clone, Copy, Debug, PartialEq, Eq)]
pub struct Listed {
    pub files: usize,
    pub free: usize,
}

pub fn check(image: &[u8]) -> Result<(), Refused> {
    survey(whole(image)?).map(|_| ())
}

/// The check before a release: it refuses waste sectors behind a file of a carried kind too.
pub fn check_release(image: &[u8]) -> Result<(), Refused> {
    survey_for(whole(image)?, Purpose::Release).map(|_| ())
}

/// Fills the buffer with every live slot, hidden ones too.
pub fn list(image: &[u8], out: &mut [u8]) -> Result<Listed, Refused> {
    let image = whole(image)?;
    let survey = survey(image)?;
    let out = out
        .get_mut(..survey.files * ENTRY_BYTES)
        .ok_or(Reason::BufferTooShort.alone())?;
    let entries = out.as_chunks_mut::<ENTRY_BYTES>().0.iter_mut();
    for (entry, slot) in entries.zip(live_slots(image, survey.extent)) {
        entry[..2].copy_from_slice(&slot.number.to_le_bytes());
        entry[2..].copy_from_slice(slot.bytes);
    }
    Ok(Listed {
        files: survey.files,
        free: survey.free(),
    })
}

/// Copies a file's body to the front of the buffer and answers its length.
pub fn read(image: &[u8], name: &[u8], out: &mut [u8]) -> Result<usize, Refused> {
    let image = whole(image)?;
    let (slot, length) = readable(image, name)?;
    let mut rest = out.get_mut(..length).ok_or(Reason::BufferTooShort.alone())?;
    let mut skip = HEADER_BYTES;
    for sector in chain(image, slot.first()) {
        let payload = &sector[skip..PAYLOAD_BYTES];
        let (now, later) = rest.split_at_mut(payload.len().min(rest.len()));
        now.copy_from_slice(&payload[..now.len()]);
        if later.is_empty() {
            break;
        }
        (rest, skip) = (later, 0);
    }
    Ok(length)
}

/// A file's start: of a carried kind the address that its slot gives, of a Spectrum kind what its header says.
pub fn start(image: &[u8], name: &[u8]) -> Result<u32, Refused> {
    let image = whole(image)?;
    let (slot, _) = readable(image, name)?;
    if let Some(header) = PlusD::of(image, &slot) {
        return Ok(header.start());
    }
    start_address(slot.page().into(), slot.offset().into()).ok_or(Reason::AddressOutOfRange.at(slot.number))
}

/// The place of a raw sector in the image of the chosen drive. The directory is not looked at.
pub fn sector(one: &[u8], two: &[u8], drive: u32, track: u32, sector: u32) -> Result<usize, Refused> {
    whole(one)?;
    whole(two)?;
    place(drive, track, sector).ok_or(Reason::NoSuchSector.alone())
}

fn place(drive: u32, track: u32, sector: u32) -> Option<usize> {
    let address = Address {
        track: track.try_into().ok()?,
        sector: sector.try_into().ok()?,
    };
    let number = address.number()?;
    matches!(drive, 1 | 2).then_some(number * SECTOR_BYTES)
}

/// The address where a file begins in memory: page × 16,384 + offset − 16,384, for the offsets of one page.
pub fn start_address(page: u32, offset: u32) -> Option<u32> {
    (page <= 31 && (32_768..=49_151).contains(&offset)).then(|| page * 16_384 + offset - 16_384)
}

/// The live slot of a name asked for on a disk that passes the check.
pub fn found<'a>(image: &'a Image, name: &[u8]) -> Result<Slot<'a>, Refused> {
    found_among(image, survey(image)?.extent, name)
}

/// The same where the disk has passed it.
pub fn found_among<'a>(image: &'a Image, extent: Extent, name: &[u8]) -> Result<Slot<'a>, Refused> {
    let name = asked_name(name).ok_or(Reason::NameNotUsable.alone())?;
    find(image, extent, &name).ok_or(Reason::NoSuchName.alone())
}

/// The same with the length of its body, with the demand that its kind has one: the carried kinds and those of the Spectrum.
pub fn readable<'a>(image: &'a Image, name: &[u8]) -> Result<(Slot<'a>, usize), Refused> {
    let slot = found(image, name)?;
    match PlusD::of(image, &slot) {
        Some(header) => Ok((slot, header.length())),
        None if slot.is_carried() => Ok((slot, slot.length())),
        None => Err(Reason::WrongKind.at(slot.number)),
    }
}

/// The sectors of a checked file, from its first to its last.
fn chain(image: &Image, first: Address) -> impl Iterator<Item = &Sector> {
    let mut next = first;
    std::iter::from_fn(move || {
        let sector = sector_of(image, next.number()?);
        next = Address::link(sector);
        Some(sector)
    })
}

#[cfg(test)]
mod tests {
    use super::*;

    #[test]
    fn the_papers_start_addresses() {
        assert_eq!(start_address(29, 32_768), Some(491_520));
        assert_eq!(start_address(31, 49_151), Some(540_671));
        assert_eq!(start_address(0, 32_768), Some(16_384));
        for (page, offset) in [(31, 49_152), (31, 32_767), (32, 32_768), (u32::MAX, u32::MAX)] {
            assert_eq!(start_address(page, offset), None);
        }
    }

    #[test]
    fn places_of_raw_sectors() {
        assert_eq!(place(1, 0, 1), Some(0));
        assert_eq!(place(2, 207, 10), Some(818_688));
        assert_eq!(place(1, 128, 1), Some(5_120));
        let refused = [
            (0, 0, 1),
            (3, 0, 1),
            (1, 80, 1),
            (1, 127, 1),
            (1, 208, 1),
            (1, 0, 0),
            (1, 0, 11),
            (1, 256, 1),
            (1, 0, 257),
        ];
        for (drive, track, sector) in refused {
            assert_eq!(place(drive, track, sector), None);
        }
    }
}
