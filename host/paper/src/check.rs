//! The check of a disk: refusals 24, 2, 4 to 11 and 25. Every call but the raw sector begins with it. The check before a
//! release has one row more, 22.

use crate::extent::Extent;
use crate::geometry::{Address, Image, PAYLOAD_BYTES, sector};
use crate::map::Map;
use crate::names::Names;
use crate::refusal::{Reason, Refused};
use crate::slot::{HEADER_BYTES, Slot, live_slots, remainder, sectors_for};
use crate::spectrum::PlusD;

/// Which check is made.
#[derive(Clone, Copy, PartialEq, Eq)]
pub enum Purpose {
    /// The one that every call begins with.
    Use,
    /// The one before a compilation goes out: it refuses waste sectors too.
    Release,
}

/// What the check learns of the live slots.
pub struct Survey {
    /// How large the directory is.
    pub extent: Extent,
    /// How many slots are live.
    pub files: usize,
    /// Every sector that a live slot has, and those of the directory that have a map bit: none of them is free.
    pub used: Map,
    /// The map bits of the directory's own sectors.
    own: Map,
    /// How many sectors the live slots have.
    used_count: usize,
    names: Names,
}

impl Survey {
    fn empty(extent: Extent) -> Survey {
        let mut used = Map::CLEAR;
        used.set_all(extent.own_bits());
        Survey {
            extent,
            files: 0,
            used,
            own: used,
            used_count: 0,
            names: Names::EMPTY,
        }
    }

    /// The used map: the sectors of the live slots alone.
    pub fn live_map(&self) -> Map {
        self.used.without(&self.own)
    }

    /// How many data sectors no live slot has.
    pub fn free(&self) -> usize {
        self.extent.data_sectors() - self.used_count
    }

    /// Joins in a slot, or says the first of 2 and 4 to 9 that it gives beside the slots before it; before a release 22 stands
    /// directly after 7.
    fn join(&mut self, slot: &Slot, purpose: Purpose) -> Result<(), Reason> {
        let count = slot.count();
        own_rules(slot, self.extent)?;
        let map = slot.map();
        if map.count() != count {
            return Err(Reason::MapUnlikeCount);
        }
        let first_is_own = slot.first().bit().is_some_and(|bit| map.has(bit));
        if !slot.is_directory() && (!first_is_own || self.own.overlaps(&map)) {
            return Err(Reason::FirstNotInMap);
        }
        if slot.is_carried() && PAYLOAD_BYTES * count < HEADER_BYTES + slot.length() {
            return Err(Reason::TooFewSectors);
        }
        if purpose == Purpose::Release && slot.is_carried() && count > sectors_for(slot.length()) {
            return Err(Reason::WasteSectors);
        }
        if self.used.overlaps(&map) {
            return Err(Reason::MapShared);
        }
        if !self.names.add(slot.name()) {
            return Err(Reason::NameTwice);
        }
        self.used.join(&map);
        self.used_count += count;
        self.files += 1;
        Ok(())
    }
}

/// Refusals 2 and 4. A directory has no sectors, and every file has one at least.
fn own_rules(slot: &Slot, extent: Extent) -> Result<(), Reason> {
    if !matches!(slot.kind(), 1..=12 | 16..=23) {
        return Err(Reason::KindUnknown);
    }
    let counts = if slot.is_directory() {
        0..=0
    } else {
        1..=extent.data_sectors()
    };
    if !counts.contains(&slot.count()) {
        return Err(Reason::CountOutOfRange);
    }
    Ok(())
}

/// The check that every call begins with.
pub fn survey(image: &Image) -> Result<Survey, Refused> {
    survey_for(image, Purpose::Use)
}

/// The whole check: the directory first, then every chain. A subdirectory has none.
pub fn survey_for(image: &Image, purpose: Purpose) -> Result<Survey, Refused> {
    let survey = directory(image, purpose)?;
    for slot in live_slots(image, survey.extent).filter(|slot| !slot.is_directory()) {
        file(image, &slot).map_err(|reason| reason.at(slot.number))?;
    }
    Ok(survey)
}

/// Refusals 24, 2 and 4 to 9, and 22 before a release.
fn directory(image: &Image, purpose: Purpose) -> Result<Survey, Refused> {
    let mut survey = Survey::empty(Extent::of(image)?);
    for slot in live_slots(image, survey.extent) {
        survey.join(&slot, purpose).map_err(|reason| reason.at(slot.number))?;
    }
    Ok(survey)
}

/// Refusals 10, 11 and 25.
fn file(image: &Image, slot: &Slot) -> Result<(), Reason> {
    if !chain_holds(image, slot) {
        return Err(Reason::ChainBroken);
    }
    if slot.is_carried() && !header_agrees(image, slot) {
        return Err(Reason::HeaderDiffers);
    }
    if PlusD::of(image, slot).is_some_and(|header| PAYLOAD_BYTES * slot.count() < HEADER_BYTES + header.length()) {
        return Err(Reason::BodyTooLong);
    }
    Ok(())
}

/// Whether the chain passes as many different sectors of the slot's map as the count says, and ends there.
/// A sector passed leaves the map, so one that comes again is found as one that is not in it.
fn chain_holds(image: &Image, slot: &Slot) -> bool {
    let mut left = slot.map();
    let mut here = slot.first();
    for _ in 0..slot.count() {
        let (Some(bit), Some(number)) = (here.bit(), here.number()) else {
            return false;
        };
        if !left.take(bit) {
            return false;
        }
        here = Address::link(sector(image, number));
    }
    here == Address::END
}

/// Whether the header in a file's first sector says what the slot says.
fn header_agrees(image: &Image, slot: &Slot) -> bool {
    let Some(number) = slot.first().number() else { return false };
    let first = sector(image, number);
    first[0] == slot.kind() && remainder([first[1], first[2]]) == slot.remainder() && first[7] == slot.pages()
}

#[cfg(test)]
mod tests {
    use super::*;
    use crate::geometry::{IMAGE_BYTES, slot_place, whole};
    use crate::slot::{COUNT_AT, MAP_AT, NAME_AT, REMAINDER_AT};

    fn put(image: &mut [u8], slot: u16, at: usize, bytes: &[u8]) {
        image[slot_place(slot) + at..][..bytes.len()].copy_from_slice(bytes);
    }

    /// The paper's case L, as the first part of an image that is zero elsewhere.
    fn case_l() -> Vec<u8> {
        let mut image = vec![0; IMAGE_BYTES];
        put(&mut image, 1, 0, &[83]);
        put(&mut image, 1, NAME_AT, b"SAMDOS2   ");
        put(&mut image, 1, COUNT_AT, &[0, 20, 4, 1]);
        put(&mut image, 1, MAP_AT, &[255, 255, 15]);
        put(&mut image, 1, REMAINDER_AT, &[16, 39]);
        put(&mut image, 3, 0, &[16]);
        put(&mut image, 3, NAME_AT, b"TUNES     ");
        put(&mut image, 3, COUNT_AT, &[0, 2, 6, 1]);
        put(&mut image, 3, MAP_AT + 2, &[48]);
        put(&mut image, 3, REMAINDER_AT, &[88, 2]);
        image
    }

    /// Case L with an erased file in slot 2, so that slot 3 is read.
    fn case_l_read_on() -> Vec<u8> {
        let mut image = case_l();
        put(&mut image, 2, NAME_AT, b"OLD TUNES ");
        image
    }

    /// Slot 2 has no name: the directory ends there, and the file in slot 3 is unread.
    #[test]
    fn case_l_has_1540_free_sectors() {
        let mut image = case_l();
        for byte_0 in [0, 16, 63] {
            put(&mut image, 2, 0, &[byte_0]);
            let whole = whole(&image).expect("a whole image");
            let survey = directory(whole, Purpose::Use).unwrap_or_else(|refused| panic!("{refused:?}"));
            assert_eq!((survey.files, survey.free(), survey.used.count()), (1, 1_540, 20));
        }
        let image = case_l_read_on();
        let image = whole(&image).expect("a whole image");
        let survey = directory(image, Purpose::Use).unwrap_or_else(|refused| panic!("{refused:?}"));
        assert_eq!((survey.files, survey.free(), survey.used.count()), (2, 1_538, 22));
        assert_eq!(super::survey(image).err(), Some(Reason::ChainBroken.at(1)));
    }

    /// What the directory of case L, read on to slot 3, gives with some bytes of a slot put over it.
    fn with(slot: u16, at: usize, bytes: &[u8]) -> Option<Refused> {
        let mut image = case_l_read_on();
        put(&mut image, slot, at, bytes);
        directory(whole(&image).expect("a whole image"), Purpose::Use).err()
    }

    #[test]
    fn the_directory_refuses_by_number_and_slot() {
        for kind in [13, 15, 24, 63, 64, 128, 192] {
            assert_eq!(with(3, 0, &[kind]), Some(Reason::KindUnknown.at(3)));
        }
        for kind in [1, 12, 16, 20, 22, 23, 0xc0 | 23, 0] {
            assert_eq!(with(3, 0, &[kind]), None);
        }
        assert_eq!(with(3, 0, &[21]), Some(Reason::CountOutOfRange.at(3)));
        assert_eq!(with(3, NAME_AT, &[0]), None);
        assert_eq!(with(3, 0, &[63, 0, 0, 0, 0, 0, 0, 0, 0, 0, 0, 255, 255, 255]), None);
        assert_eq!(with(3, COUNT_AT, &[0, 0]), Some(Reason::CountOutOfRange.at(3)));
        assert_eq!(with(3, COUNT_AT, &[6, 25]), Some(Reason::CountOutOfRange.at(3)));
        assert_eq!(with(3, COUNT_AT, &[6, 24]), Some(Reason::MapUnlikeCount.at(3)));
        assert_eq!(with(3, COUNT_AT, &[2, 0]), Some(Reason::MapUnlikeCount.at(3)));
        assert_eq!(with(3, COUNT_AT, &[0, 2, 3, 1]), Some(Reason::FirstNotInMap.at(3)));
        assert_eq!(with(3, COUNT_AT, &[0, 2, 6, 3]), Some(Reason::FirstNotInMap.at(3)));
        assert_eq!(with(3, REMAINDER_AT, &[0xf3, 0xc3]), None);
        assert_eq!(with(3, REMAINDER_AT, &[0xf4, 3]), Some(Reason::TooFewSectors.at(3)));
        assert_eq!(with(3, MAP_AT + 2, &[24]), Some(Reason::MapShared.at(3)));
        assert_eq!(with(3, NAME_AT, b"SAMDOS2   "), Some(Reason::NameTwice.at(3)));
        assert_eq!(with(1, NAME_AT, b"TUNES     "), Some(Reason::NameTwice.at(3)));
        assert_eq!(with(1, NAME_AT, b"tunes     "), Some(Reason::NameTwice.at(3)));
        assert_eq!(with(3, NAME_AT, b"SamDos2   "), Some(Reason::NameTwice.at(3)));
    }
}
