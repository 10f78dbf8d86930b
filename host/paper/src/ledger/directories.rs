//! What lies beneath a directory of the ledger.

use super::Ledger;
use crate::refusal::{Reason, Refused};
use crate::slot::Slot;
use crate::tree::ROOT;

impl Ledger {
    /// The slots beneath the directory of this name, beneath the root where it is empty: refusals 26, 27, 28, 12, 13, 15.
    pub fn tree(&self, name: &[u8]) -> Result<Vec<u16>, Refused> {
        self.codes_are_their_own()?;
        for slot in self.live() {
            self.has_a_place(&slot).map_err(|reason| reason.at(slot.number))?;
        }
        let mut beneath = Vec::new();
        let code = self.code_of(name)?;
        self.add_beneath(code, &mut beneath);
        Ok(beneath)
    }

    /// Refusal 29: whether this is a directory with a code that another slot is in.
    pub(super) fn is_occupied(&self, directory: &Slot) -> bool {
        let inside = |other: Slot| other.number != directory.number && other.parent() == directory.code();
        directory.is_directory() && directory.code() != ROOT && self.live().any(inside)
    }

    fn directories(&self) -> impl Iterator<Item = Slot<'_>> {
        self.live().filter(Slot::is_directory)
    }

    /// The directory that has a code, if one has.
    fn directory(&self, code: u8) -> Option<Slot<'_>> {
        self.directories().find(|slot| slot.code() == code)
    }

    /// Refusal 26.
    fn codes_are_their_own(&self) -> Result<(), Refused> {
        let first = |slot: &Slot| self.directory(slot.code()).is_some_and(|first| first.number == slot.number);
        let not_own = |slot: &Slot| slot.code() == ROOT || !first(slot);
        let found = self.directories().find(not_own);
        found.map_or(Ok(()), |slot| Err(Reason::CodeNotOwn.at(slot.number)))
    }

    /// Refusals 27 and 28.
    fn has_a_place(&self, slot: &Slot) -> Result<(), Reason> {
        let around = |inner: &Slot| self.directory(inner.parent());
        if slot.parent() != ROOT && around(slot).is_none() {
            return Err(Reason::NoSuchDirectory);
        }
        // A ring has no more steps than there are directories.
        let mut above = std::iter::successors(around(slot), around).take(self.directories().count());
        if slot.is_directory() && above.any(|outer| outer.number == slot.number) {
            return Err(Reason::InsideItself);
        }
        Ok(())
    }

    fn code_of(&self, name: &[u8]) -> Result<u8, Refused> {
        if name.is_empty() {
            return Ok(ROOT);
        }
        let (number, entry) = self.named(name)?;
        let slot = entry.as_slot(number);
        if slot.is_directory() {
            Ok(slot.code())
        } else {
            Err(Reason::WrongKind.at(number))
        }
    }

    /// The slots in a directory, each that is one directly followed by all beneath it.
    fn add_beneath(&self, code: u8, beneath: &mut Vec<u16>) {
        for slot in self.live().filter(|slot| slot.parent() == code) {
            beneath.push(slot.number);
            if slot.is_directory() {
                self.add_beneath(slot.code(), beneath);
            }
        }
    }
}
