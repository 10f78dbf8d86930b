//! What each change is refused by the ledger: every number but 20 and 30.

use super::{Ledger, LedgerEntry};
use crate::calls::start_address;
use crate::geometry::MAP_BITS;
use crate::name::{asked_name, new_name};
use crate::refusal::{Reason, Refused};
use crate::save::SaveRequest;
use crate::slot::{HIDDEN, PROTECTED, is_carried, sectors_for};
use std::ops::Range;

/// A change that is entered as a whole.
#[derive(Clone, Copy, Debug)]
pub enum Change<'a> {
    Save(SaveRequest<'a>),
    Erase(&'a [u8]),
    Rename(&'a [u8], &'a [u8]),
    Mark(Mark, &'a [u8]),
    Gather(&'a [u8]),
}

#[derive(Clone, Copy, Debug)]
pub enum Mark {
    Hide,
    Show,
    Protect,
    Release,
}

impl Mark {
    /// Byte 0 of a slot with this mark.
    pub(super) fn on(self, byte: u8) -> u8 {
        match self {
            Mark::Hide => byte | HIDDEN,
            Mark::Show => byte & !HIDDEN,
            Mark::Protect => byte | PROTECTED,
            Mark::Release => byte & !PROTECTED,
        }
    }
}

impl Ledger {
    /// Whether a change is refused, and by what.
    pub fn refuses(&self, change: &Change) -> Result<(), Refused> {
        match *change {
            Change::Save(ref request) => self.refuses_save(request, request.body.len()),
            Change::Erase(name) => self.refuses_erase(name),
            Change::Rename(name, new) => self.refuses_rename(name, new),
            Change::Mark(_, name) => self.named(name).map(|_| ()),
            Change::Gather(name) => self.refuses_gather(name),
        }
    }

    /// A save's, for a body of this length: 12, 13, 14, 16, 18, 19. A recording is opened with a body of none, and closed with
    /// the joined pieces.
    pub fn refuses_save(&self, request: &SaveRequest, length: usize) -> Result<(), Refused> {
        let name = new_name(request.name).ok_or(Reason::NameNotUsable.alone())?;
        if !is_carried(request.kind) {
            return Err(Reason::WrongKind.alone());
        }
        if start_address(request.page, request.offset).is_none() {
            return Err(Reason::AddressOutOfRange.alone());
        }
        if let Some((taken, _)) = self.find(&name) {
            return Err(Reason::NameTaken.at(taken));
        }
        if self.lowest_slot().is_none() {
            return Err(Reason::NoFreeSlot.alone());
        }
        self.has_room(length)
    }

    /// Refusal 19: a piece's, where the joined pieces have this length.
    pub fn has_room(&self, length: usize) -> Result<(), Refused> {
        if self.free() < sectors_for(length) {
            return Err(Reason::DiskFull.alone());
        }
        Ok(())
    }

    /// Refusal 23, and no other for the whole of an erase of many files.
    pub fn refuses_many(&self, names: &[u8]) -> Result<(), Refused> {
        if !names.len().is_multiple_of(10) {
            return Err(Reason::NamesNotTens.alone());
        }
        Ok(())
    }

    fn refuses_erase(&self, name: &[u8]) -> Result<(), Refused> {
        let (number, entry) = self.named(name)?;
        let slot = entry.as_slot(number);
        if slot.is_protected() {
            return Err(Reason::Protected.at(number));
        }
        if self.is_occupied(&slot) {
            return Err(Reason::NotEmpty.at(number));
        }
        Ok(())
    }

    /// A rename that alters only the case of its own name is allowed; one to the stored bytes is not.
    fn refuses_rename(&self, name: &[u8], new: &[u8]) -> Result<(), Refused> {
        let (Some(_), Some(new)) = (asked_name(name), new_name(new)) else {
            return Err(Reason::NameNotUsable.alone());
        };
        let (number, entry) = self.named(name)?;
        let slot = entry.as_slot(number);
        if let Some((taken, _)) = self.find(&new)
            && (taken != number || *slot.name() == new)
        {
            return Err(Reason::NameTaken.at(taken));
        }
        if slot.is_protected() {
            return Err(Reason::Protected.at(number));
        }
        Ok(())
    }

    fn refuses_gather(&self, name: &[u8]) -> Result<(), Refused> {
        let (number, entry) = self.named(name)?;
        if entry.as_slot(number).is_directory() {
            return Err(Reason::WrongKind.at(number));
        }
        if entry.must_move() && self.run_for(entry).is_none() {
            return Err(Reason::NoRun.alone());
        }
        Ok(())
    }

    /// The lowest run of free map bits that are as many as the file's sectors, which are not free themselves.
    pub(super) fn run_for(&self, entry: &LedgerEntry) -> Option<Range<usize>> {
        let (used, many) = (self.used(), entry.chain.len());
        let runs = (0..=MAP_BITS - many).map(|first| first..first + many);
        runs.into_iter().find(|run| !run.clone().any(|bit| used.has(bit)))
    }
}

impl LedgerEntry {
    /// Whether it is not on consecutive bits in rising order.
    pub(super) fn must_move(&self) -> bool {
        self.chain.windows(2).any(|pair| pair[1] != pair[0] + 1)
    }
}
