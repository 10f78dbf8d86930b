//! What the ledger answers: the listing, bodies, start addresses, and whether the disk may go out.

use super::{Ledger, LedgerEntry};
use crate::calls::{Listed, start_address};
use crate::refusal::{Reason, Refused};
use crate::slot::{HEADER_BYTES, Slot, sectors_for};

impl Ledger {
    /// The bytes of a listing, and what it answers: each slot's number in two bytes, and the slot.
    pub fn list(&self) -> (Vec<u8>, Listed) {
        let entry = |slot: Slot| [&slot.number.to_le_bytes()[..], slot.bytes].concat();
        let listed = Listed {
            files: self.files(),
            free: self.free(),
        };
        (self.live().flat_map(entry).collect(), listed)
    }

    /// A file's body: refusals 12, 13, 15. Opening it for reading is refused the same.
    pub fn read(&self, name: &[u8]) -> Result<&[u8], Refused> {
        let (_, entry, length) = self.readable(name)?;
        Ok(&entry.payload[HEADER_BYTES..][..length])
    }

    /// A file's start: refusals 12, 13, 14, 15.
    pub fn start(&self, name: &[u8]) -> Result<u32, Refused> {
        let (slot, entry, _) = self.readable(name)?;
        match is_spectrum(&slot) {
            true => Ok(entry.two_bytes(3).into()),
            false => {
                start_address(slot.page().into(), slot.offset().into()).ok_or(Reason::AddressOutOfRange.at(slot.number))
            }
        }
    }

    /// Refusal 22, at the lowest slot.
    pub fn check_release(&self) -> Result<(), Refused> {
        let wasteful = |slot: &Slot| slot.is_carried() && slot.count() > sectors_for(slot.length());
        let found = self.live().find(wasteful);
        found.map_or(Ok(()), |slot| Err(Reason::WasteSectors.at(slot.number)))
    }

    /// A file that can be read, and the length of its body.
    fn readable(&self, name: &[u8]) -> Result<(Slot<'_>, &LedgerEntry, usize), Refused> {
        let (number, entry) = self.named(name)?;
        let slot = entry.as_slot(number);
        if is_spectrum(&slot) {
            Ok((slot, entry, entry.two_bytes(1).into()))
        } else if slot.is_carried() {
            Ok((slot, entry, slot.length()))
        } else {
            Err(Reason::WrongKind.at(number))
        }
    }
}

impl LedgerEntry {
    /// A number of the nine bytes before the body, low byte first.
    fn two_bytes(&self, at: usize) -> u16 {
        u16::from_le_bytes([self.payload[at], self.payload[at + 1]])
    }
}

/// The kinds whose length and start stand before the body alone.
fn is_spectrum(slot: &Slot) -> bool {
    (1..=4).contains(&slot.kind())
}
