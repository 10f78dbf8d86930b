//! Document 02, M-113: a plain ledger of slots. It is made of an accepted disk once, and from then on each change is entered in
//! it: there is no image, there are no links, and nothing is written in an order.
//!
//! - `answers`: listing, reading, start addresses, the check before a release
//! - `directories`: what lies beneath a directory
//! - `refusals`: what each change is refused, but for 20 and 30
//! - `entering`: what each change enters

mod answers;
mod directories;
mod entering;
mod refusals;

pub use refusals::{Change, Mark};

use crate::check::survey;
use crate::extent::Extent;
use crate::geometry::{Address, Image, MAP_BITS, PAYLOAD_BYTES, SLOT_BYTES, sector, whole};
use crate::map::Map;
use crate::name::{Name, asked_name, folded};
use crate::refusal::{Reason, Refused};
use crate::save::KEPT;
use crate::slot::{Slot, live_slots};

/// A slot that holds a file.
#[derive(Clone, Debug, PartialEq, Eq)]
struct LedgerEntry {
    /// Its 256 bytes.
    slot: [u8; SLOT_BYTES],
    /// The payload of the file, 510 bytes to a sector, in the order of its chain.
    payload: Vec<u8>,
    /// The map bits of its sectors in that order: a map says which sectors are a file's and not in what order.
    chain: Vec<usize>,
}

#[derive(Clone, Debug, PartialEq, Eq)]
pub struct Ledger {
    /// The number of directory tracks.
    extent: Extent,
    /// The bytes of slot 1 that a save keeps; the others are 0.
    label: [u8; SLOT_BYTES],
    /// From slot 1 on: no file, or an entry.
    entries: Vec<Option<LedgerEntry>>,
}

impl Ledger {
    /// The ledger of a disk that passes the check.
    pub fn of(image: &[u8]) -> Result<Ledger, Refused> {
        let image = whole(image)?;
        let extent = survey(image)?.extent;
        let mut label = [0; SLOT_BYTES];
        for kept in KEPT.into_iter().flatten() {
            label[kept] = image[kept];
        }
        let mut entries = vec![None; extent.slots().into()];
        for slot in live_slots(image, extent) {
            entries[usize::from(slot.number) - 1] = Some(LedgerEntry::of(image, &slot));
        }
        Ok(Ledger { extent, label, entries })
    }

    /// How many slots hold a file.
    pub fn files(&self) -> usize {
        self.live().count()
    }

    /// How many data sectors no file has.
    pub fn free(&self) -> usize {
        MAP_BITS - self.used().count()
    }

    /// The names of its files, by rising slot.
    pub fn names(&self) -> Vec<Name> {
        self.live().map(|slot| *slot.name()).collect()
    }

    /// The slots that hold a file, rising.
    fn live(&self) -> impl Iterator<Item = Slot<'_>> {
        self.numbered().map(|(number, entry)| entry.as_slot(number))
    }

    /// The entries with the numbers of their slots, rising.
    fn numbered(&self) -> impl Iterator<Item = (u16, &LedgerEntry)> {
        (1..)
            .zip(&self.entries)
            .filter_map(|(number, entry)| Some((number, entry.as_ref()?)))
    }

    /// The map bits that are not free: those of files, and the directory's own.
    fn used(&self) -> Map {
        let mut used = Map::CLEAR;
        used.set_all(self.extent.own_bits());
        for slot in self.live() {
            used.join(&slot.map());
        }
        used
    }

    /// The slot of that name, capitals or not.
    fn find(&self, name: &Name) -> Option<(u16, &LedgerEntry)> {
        let name = folded(name);
        self.numbered()
            .find(|(number, entry)| folded(entry.as_slot(*number).name()) == name)
    }

    /// The same for a name asked for: refusals 12 and 15.
    fn named(&self, name: &[u8]) -> Result<(u16, &LedgerEntry), Refused> {
        let name = asked_name(name).ok_or(Reason::NameNotUsable.alone())?;
        self.find(&name).ok_or(Reason::NoSuchName.alone())
    }

    /// The lowest slot that holds no file.
    fn lowest_slot(&self) -> Option<u16> {
        (1..)
            .zip(&self.entries)
            .find_map(|(number, entry)| entry.is_none().then_some(number))
    }
}

impl LedgerEntry {
    /// The entry of a live slot of an accepted disk: its payload and its sectors along its links.
    fn of(image: &Image, slot: &Slot) -> LedgerEntry {
        let (mut payload, mut chain) = (Vec::new(), Vec::new());
        let mut here = slot.first();
        while chain.len() < slot.count()
            && let (Some(bit), Some(number)) = (here.bit(), here.number())
        {
            let bytes = sector(image, number);
            payload.extend(&bytes[..PAYLOAD_BYTES]);
            chain.push(bit);
            here = Address::link(bytes);
        }
        LedgerEntry {
            slot: *slot.bytes,
            payload,
            chain,
        }
    }

    fn as_slot(&self, number: u16) -> Slot<'_> {
        Slot {
            number,
            bytes: &self.slot,
        }
    }
}
