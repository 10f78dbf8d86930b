//! Document 02, M-108: subdirectories. A directory is a slot of kind 21. Its byte 250 is its code, and byte 254 of each live
//! slot says which directory it is in, 0 for the root.

use crate::calls::found_among;
use crate::check::survey;
use crate::extent::Extent;
use crate::geometry::{Image, whole};
use crate::refusal::{Reason, Refused};
use crate::slot::{Slot, live_slots};

/// The code of the root, which no directory has.
pub const ROOT: u8 = 0;

/// Fills the buffer with the slots beneath the directory of this name, or beneath the root where it is empty, and answers how
/// many they are: two bytes to a number, low byte first.
pub fn tree(image: &[u8], name: &[u8], out: &mut [u8]) -> Result<usize, Refused> {
    let image = whole(image)?;
    let extent = survey(image)?.extent;
    let codes = Codes::of(image, extent)?;
    for slot in live_slots(image, extent) {
        codes.place(&slot).map_err(|reason| reason.at(slot.number))?;
    }
    let top = asked_directory(image, extent, name)?;
    let mut beneath = Vec::new();
    Levels::of(image, extent).list(top, &mut beneath);
    let out = out
        .as_chunks_mut()
        .0
        .get_mut(..beneath.len())
        .ok_or(Reason::BufferTooShort.alone())?;
    for (entry, number) in out.iter_mut().zip(&beneath) {
        *entry = number.to_le_bytes();
    }
    Ok(beneath.len())
}

/// Whether a slot may be erased: it is a file, or no other live slot is in it. A directory with the root's code holds nothing.
pub fn is_empty(image: &Image, extent: Extent, slot: &Slot) -> bool {
    let is_in = |other: Slot| other.number != slot.number && other.parent() == slot.code();
    !slot.is_directory() || slot.code() == ROOT || !live_slots(image, extent).any(is_in)
}

/// The code of the directory asked for.
fn asked_directory(image: &Image, extent: Extent, name: &[u8]) -> Result<u8, Refused> {
    if name.is_empty() {
        return Ok(ROOT);
    }
    let slot = found_among(image, extent, name)?;
    if !slot.is_directory() {
        return Err(Reason::WrongKind.at(slot.number));
    }
    Ok(slot.code())
}

/// For each code the code of the directory around it, where a directory has that code.
struct Codes {
    parents: [Option<u8>; 256],
    directories: usize,
}

impl Codes {
    /// Refusal 26: every directory has a code of its own.
    fn of(image: &Image, extent: Extent) -> Result<Codes, Refused> {
        let (mut parents, mut directories) = ([None; 256], 0);
        for slot in live_slots(image, extent).filter(Slot::is_directory) {
            let parent = &mut parents[usize::from(slot.code())];
            if slot.code() == ROOT || parent.is_some() {
                return Err(Reason::CodeNotOwn.at(slot.number));
            }
            *parent = Some(slot.parent());
            directories += 1;
        }
        Ok(Codes { parents, directories })
    }

    /// Refusals 27 and 28: a slot is in the root or in a directory that is there, and no directory is inside itself.
    fn place(&self, slot: &Slot) -> Result<(), Reason> {
        if slot.parent() != ROOT && self.parents[usize::from(slot.parent())].is_none() {
            return Err(Reason::NoSuchDirectory);
        }
        if slot.is_directory() && self.above(slot.code()).any(|code| code == slot.code()) {
            return Err(Reason::InsideItself);
        }
        Ok(())
    }

    /// The directories around one, from the next on. Where they go round in a ring there are no more than all.
    fn above(&self, code: u8) -> impl Iterator<Item = u8> {
        let up = |code: &u8| self.parents[usize::from(*code)];
        std::iter::successors(up(&code), up).take(self.directories)
    }
}

/// The live slots by the directory they are in, and in each by rising slot.
struct Levels {
    /// The slots' numbers, and of a directory its code.
    slots: Vec<(u16, Option<u8>)>,
    /// Where each directory's slots begin, by its code; they end where the next one's begin.
    begins: [usize; 257],
}

impl Levels {
    fn of(image: &Image, extent: Extent) -> Levels {
        let mut begins = [0; 257];
        for slot in live_slots(image, extent) {
            begins[usize::from(slot.parent()) + 1] += 1;
        }
        for code in 0..256 {
            begins[code + 1] += begins[code];
        }
        let mut slots = vec![(0, None); begins[256]];
        let mut next = begins;
        for slot in live_slots(image, extent) {
            let place = &mut next[usize::from(slot.parent())];
            slots[*place] = (slot.number, slot.is_directory().then_some(slot.code()));
            *place += 1;
        }
        Levels { slots, begins }
    }

    /// Adds what lies beneath a directory: each slot in it, a directory directly followed by what lies beneath that. No directory
    /// is inside itself, so this goes no deeper than there are codes.
    fn list(&self, code: u8, beneath: &mut Vec<u16>) {
        let code = usize::from(code);
        for (number, inner) in &self.slots[self.begins[code]..self.begins[code + 1]] {
            beneath.push(*number);
            if let Some(inner) = inner {
                self.list(*inner, beneath);
            }
        }
    }
}
