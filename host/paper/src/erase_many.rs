//! Document 02, M-104: erase many files at once.

use crate::check::survey;
use crate::extent::Extent;
use crate::geometry::{Image, SECTOR_BYTES, slot_place, whole_mut};
use crate::name::{Name, asked_name, folded};
use crate::refusal::{Reason, Refused};
use crate::save::number_bytes;
use crate::slot::{Slot, live_slots};
use crate::tree::ROOT;
use std::collections::HashMap;

/// Erases the files of these names, ten bytes to each, one after the other. Each name gets a byte of the answers: 0, or the
/// number that refuses it. Then the list names the directory's sectors that changed, each once and rising, and how many they
/// are is answered. A name that is refused refuses nothing of the rest.
pub fn erase_many(image: &mut [u8], names: &[u8], answers: &mut [u8], list: &mut [u8]) -> Result<usize, Refused> {
    let image = whole_mut(image)?;
    let extent = survey(image)?.extent;
    let (names, []) = names.as_chunks() else {
        return Err(Reason::NamesNotTens.alone());
    };
    let mut files = Files::of(image, extent, names.len());
    let given: Vec<u8> = names.iter().map(|name| files.erase(name)).collect();
    let erased = files.erased;
    let sectors = sectors(&erased);
    let too_short = Reason::BufferTooShort.alone();
    let answers = answers.get_mut(..given.len()).ok_or(too_short)?;
    let list = list.as_chunks_mut().0.get_mut(..sectors.len()).ok_or(too_short)?;
    answers.copy_from_slice(&given);
    for slot in erased {
        image[slot_place(slot)] = 0;
    }
    for (entry, sector) in list.iter_mut().zip(&sectors) {
        *entry = number_bytes(*sector);
    }
    Ok(sectors.len())
}

/// The sectors of these slots, each once, rising.
fn sectors(slots: &[u16]) -> Vec<usize> {
    let mut sectors: Vec<usize> = slots.iter().map(|slot| slot_place(*slot) / SECTOR_BYTES).collect();
    sectors.sort_unstable();
    sectors.dedup();
    sectors
}

/// For so few names the slots are looked through; with more an index of them is faster.
const FEW_NAMES: usize = 8;

/// The files of a disk that passes the check, while some of them are erased. The image stays as it is meanwhile.
struct Files<'a> {
    /// By rising slot; none where one is erased.
    live: Vec<Option<Slot<'a>>>,
    /// Where each name stands among them, capitals or not; none where few names are asked for.
    places: Option<HashMap<Name, usize>>,
    /// How many files each directory holds, by its code.
    held: [usize; 256],
    erased: Vec<u16>,
}

impl<'a> Files<'a> {
    /// All of them, where so many names are asked for.
    fn of(image: &'a Image, extent: Extent, names: usize) -> Files<'a> {
        let slots = || live_slots(image, extent);
        let places = slots().map(|slot| folded(slot.name())).zip(0..);
        let mut held = [0; 256];
        slots().for_each(|slot| held[usize::from(slot.parent())] += 1);
        Files {
            live: slots().map(Some).collect(),
            places: (names > FEW_NAMES).then(|| places.collect()),
            held,
            erased: Vec::new(),
        }
    }

    /// Erases the file of this name. Gives 0, or the number that refuses it.
    fn erase(&mut self, name: &Name) -> u8 {
        match self.erasable(name) {
            Ok((at, slot)) => {
                self.live[at] = None;
                self.held[usize::from(slot.parent())] -= 1;
                self.erased.push(slot.number);
                0
            }
            Err(reason) => reason as u8,
        }
    }

    /// The file of this name and where it stands, if it can be erased.
    fn erasable(&self, name: &Name) -> Result<(usize, Slot<'a>), Reason> {
        let name = asked_name(name).ok_or(Reason::NameNotUsable)?;
        let (at, slot) = self.find(&folded(&name)).ok_or(Reason::NoSuchName)?;
        if slot.is_protected() {
            return Err(Reason::Protected);
        }
        if slot.is_directory() && slot.code() != ROOT && self.holds_other(&slot) {
            return Err(Reason::NotEmpty);
        }
        Ok((at, slot))
    }

    fn find(&self, name: &Name) -> Option<(usize, Slot<'a>)> {
        let has = |slot: &Option<Slot>| slot.is_some_and(|slot| folded(slot.name()) == *name);
        let at = match &self.places {
            Some(places) => *places.get(name)?,
            None => self.live.iter().position(has)?,
        };
        Some((at, self.live[at]?))
    }

    /// Whether another file is in this directory. It may be in itself.
    fn holds_other(&self, directory: &Slot) -> bool {
        let own = usize::from(directory.parent() == directory.code());
        self.held[usize::from(directory.code())] > own
    }
}
