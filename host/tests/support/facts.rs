//! What a request is drawn around: the names, lengths and free room that an image shows. Nothing is judged here; a damaged
//! image gives what its bytes happen to say.

use super::fields;
use super::geometry::{self, SLOT, bit_of, bit_place, number, sectors_for, slot_place, slot_sector};
use super::names::{self, Name};

pub struct LiveSlot {
    pub slot: usize,
    pub name: Name,
    pub kind: u8,
    pub protected: bool,
    /// Of a kind that can be read; else 0.
    pub length: usize,
    /// The numbers of the sectors in its map.
    pub sectors: Vec<usize>,
    /// Of a directory: by which code the live slots in it name it.
    pub code: u8,
    /// The code of the directory that it is in; 0 for the root.
    pub parent: u8,
}

impl LiveSlot {
    pub fn is_directory(&self) -> bool {
        fields::is_directory(self.kind)
    }
}

pub struct Facts {
    /// The directory tracks beyond four.
    pub extra: usize,
    pub live: Vec<LiveSlot>,
    /// Names that stand in erased slots, and from the directory's end on.
    pub erased: Vec<Name>,
    pub free: usize,
    /// The first slot whose first name byte is 0: the directory's end.
    pub end: Option<usize>,
    /// The slot that a save takes: the lowest erased one before the end, else the end.
    pub taken: Option<usize>,
    /// The next slot, where a save clears it.
    pub cleared: Option<usize>,
}

impl Facts {
    /// The image has the length of a disk.
    pub fn of(image: &[u8]) -> Facts {
        let extra = geometry::extra(image);
        let last = geometry::slots(extra);
        let slots = || (1..=last).map(|slot| (slot, &image[slot_place(slot)..][..SLOT]));
        let end = end(image);
        let read = |slot: usize| end.is_none_or(|end| slot < end);
        let live = slots().filter(|&(slot, bytes)| read(slot) && bytes[0] != 0);
        let live = live.map(|(slot, bytes)| LiveSlot {
            slot,
            name: fields::name(bytes),
            kind: fields::kind(bytes),
            protected: bytes[0] & fields::PROTECTED != 0,
            length: length(image, bytes),
            sectors: fields::bits(bytes).into_iter().map(|bit| number(bit_place(bit))).collect(),
            code: bytes[fields::CODE],
            parent: bytes[fields::PARENT],
        });
        let live: Vec<LiveSlot> = live.collect();
        let erased = slots().filter(|&(slot, bytes)| !read(slot) || bytes[0] == 0);
        let taken = slots().find(|(_, bytes)| bytes[0] == 0 || bytes[fields::NAME] == 0);
        let taken = taken.map(|(slot, _)| slot);
        let named = |slot: &usize| image[slot_place(*slot) + fields::NAME] != 0;
        let next = taken.filter(|&slot| Some(slot) == end && slot < last).map(|end| end + 1);
        Facts {
            extra,
            free: geometry::data(extra).saturating_sub(used(&live)),
            live,
            erased: erased.map(|(_, bytes)| fields::name(bytes)).collect(),
            end,
            taken,
            cleared: next.filter(named),
        }
    }

    /// The directory's sectors that a save changes, in the order of writing; one where no slot is left.
    pub fn directory_sectors(&self) -> Vec<usize> {
        let saved = slot_sector(self.taken.unwrap_or(1));
        let before = self.cleared.map(slot_sector).filter(|&sector| sector != saved);
        before.into_iter().chain([saved]).collect()
    }

    /// How many sectors a save of a body of this length changes.
    pub fn save_sectors(&self, length: usize) -> usize {
        sectors_for(length) + self.directory_sectors().len()
    }

    /// The live slot that a name asked for finds, capitals or not.
    pub fn find(&self, given: &[u8]) -> Option<&LiveSlot> {
        let usable = (1..=10).contains(&given.len()) && given[0] != 0;
        usable
            .then(|| names::filled(given))
            .and_then(|name| self.live.iter().find(|live| names::same(&live.name, &name)))
    }
}

/// The length that a live slot or the header of its file gives.
fn length(image: &[u8], slot: &[u8]) -> usize {
    match fields::kind(slot) {
        kind if fields::is_carried(kind) => fields::length(slot),
        kind if fields::is_spectrum(kind) => {
            let first = bit_of([slot[fields::FIRST], slot[fields::FIRST + 1]]);
            first.map_or(0, |bit| fields::plus_d(&image[bit_place(bit)..], fields::PLUS_D_LENGTH))
        }
        _ => 0,
    }
}

/// The first slot whose first name byte is 0.
pub fn end(image: &[u8]) -> Option<usize> {
    let last = geometry::slots(geometry::extra(image));
    (1..=last).find(|&slot| image[slot_place(slot) + fields::NAME] == 0)
}

/// How many sectors the live maps have together.
fn used(live: &[LiveSlot]) -> usize {
    let mut used: Vec<usize> = live.iter().flat_map(|live| live.sectors.iter().copied()).collect();
    used.sort_unstable();
    used.dedup();
    used.len()
}
