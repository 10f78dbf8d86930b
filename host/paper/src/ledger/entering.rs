//! What each change enters in the ledger.

use super::{Change, Ledger, LedgerEntry};
use crate::geometry::{Address, PAYLOAD_BYTES, SLOT_BYTES};
use crate::map::Map;
use crate::name::new_name;
use crate::refusal::Refused;
use crate::save::{KEPT, SaveRequest};
use crate::slot::{self, PAGE_BYTES, sectors_for};

impl Ledger {
    /// Enters a change whose last sector was written. A refused one enters nothing.
    pub fn enter(&mut self, change: &Change) -> Result<(), Refused> {
        self.refuses(change)?;
        match *change {
            Change::Save(ref request) => self.enter_save(request, stream(request)),
            Change::Erase(name) => self.alter(name, |_, _| None),
            Change::Rename(name, new) => self.alter(name, |_, mut entry| {
                let name = new_name(new)?;
                entry.slot[slot::NAME_AT..][..name.len()].copy_from_slice(&name);
                Some(entry)
            }),
            Change::Mark(mark, name) => self.alter(name, |_, mut entry| {
                entry.slot[0] = mark.on(entry.slot[0]);
                Some(entry)
            }),
            Change::Gather(name) => self.alter(name, |ledger, entry| Some(ledger.gathered(entry))),
        }
        Ok(())
    }

    /// Enters a recording at its close, where other changes or a cut came since opening: its pieces give its length alone, and
    /// its payload is what its sectors then read.
    pub fn enter_recording(&mut self, request: &SaveRequest, payload: Vec<u8>) -> Result<(), Refused> {
        self.refuses_save(request, request.body.len())?;
        self.enter_save(request, payload);
        Ok(())
    }

    /// The lowest free map bits that a body of this length takes, rising.
    pub fn chain_for(&self, length: usize) -> Vec<usize> {
        self.used().clear_bits().take(sectors_for(length)).collect()
    }

    /// The answers to many names, ten bytes to each, and the ledger after all of them: each is erased on its own.
    pub fn without(&self, names: &[u8]) -> (Vec<u8>, Ledger) {
        let mut after = self.clone();
        let erase = |name: &[u8]| {
            after
                .enter(&Change::Erase(name))
                .map_or_else(|refused| refused.number, |()| 0)
        };
        let answers = names.chunks(10).map(erase).collect();
        (answers, after)
    }

    /// Enters an erase of many files of which so many sectors were written: those files are gone whose slots lie in them.
    /// Two slots lie in a sector.
    pub fn enter_many(&mut self, names: &[u8], sectors: usize) {
        let (_, after) = self.without(names);
        let gone = |index: &usize| self.entries[*index].is_some() && after.entries[*index].is_none();
        let mut gone: Vec<usize> = (0..self.entries.len()).filter(gone).collect();
        let mut changed: Vec<usize> = gone.iter().map(|index| index / 2).collect();
        changed.dedup();
        changed.truncate(sectors);
        gone.retain(|index| changed.contains(&(index / 2)));
        gone.into_iter().for_each(|index| self.entries[index] = None);
    }

    /// Makes something else of the entry that has the name.
    fn alter(&mut self, name: &[u8], then: impl FnOnce(&Ledger, LedgerEntry) -> Option<LedgerEntry>) {
        if let Ok((number, entry)) = self.named(name) {
            let after = then(self, entry.clone());
            self.entries[usize::from(number) - 1] = after;
        }
    }

    fn enter_save(&mut self, request: &SaveRequest, payload: Vec<u8>) {
        if let (Some(number), Some(name)) = (self.lowest_slot(), new_name(request.name)) {
            let chain = self.chain_for(request.body.len());
            let mut slot = new_slot(request, &chain);
            slot[slot::NAME_AT..][..name.len()].copy_from_slice(&name);
            for kept in KEPT.into_iter().flatten().filter(|_| number == 1) {
                slot[kept] = self.label[kept];
            }
            self.entries[usize::from(number) - 1] = Some(LedgerEntry { slot, payload, chain });
        }
    }

    /// A file moved to the lowest run that has room for it, where it must move: bytes 13 to 209 of its slot change.
    fn gathered(&self, mut entry: LedgerEntry) -> LedgerEntry {
        if entry.must_move()
            && let Some(run) = self.run_for(&entry)
        {
            entry.chain = run.collect();
            place(&mut entry.slot, &entry.chain);
        }
        entry
    }
}

/// The bytes of a new slot, but for its name.
fn new_slot(request: &SaveRequest, chain: &[usize]) -> [u8; SLOT_BYTES] {
    let mut bytes = [0; SLOT_BYTES];
    let mut put = |at: usize, part: &[u8], most: usize| {
        let many = part.len().min(most);
        bytes[at..][..many].copy_from_slice(&part[..many]);
    };
    let length = request.body.len();
    put(0, &[request.kind as u8], 1);
    put(slot::COUNT_AT, &(chain.len() as u16).to_be_bytes(), 2);
    put(slot::INFO_AT, request.info, 11);
    put(slot::PAGE_AT, &[request.page as u8], 1);
    put(slot::OFFSET_AT, &(request.offset as u16).to_le_bytes(), 2);
    put(slot::PAGES_AT, &[(length / PAGE_BYTES) as u8], 1);
    put(slot::REMAINDER_AT, &((length % PAGE_BYTES) as u16).to_le_bytes(), 2);
    put(slot::EXEC_AT, request.exec, 3);
    put(slot::DATE_AT, &[255], 1);
    place(&mut bytes, chain);
    bytes
}

/// The first address and the map of a slot.
fn place(bytes: &mut [u8; SLOT_BYTES], chain: &[usize]) {
    let first = chain.first().map_or(Address::END, |bit| Address::of_bit(*bit));
    let mut map = Map::CLEAR;
    chain.iter().for_each(|bit| map.set(*bit));
    bytes[slot::FIRST_AT..slot::MAP_AT].copy_from_slice(&[first.track, first.sector]);
    let map = map.to_bytes();
    bytes[slot::MAP_AT..][..map.len()].copy_from_slice(&map);
}

/// Header, body, and 0 up to the end of the last sector.
fn stream(request: &SaveRequest) -> Vec<u8> {
    let length = request.body.len();
    let [low, high] = ((length % PAGE_BYTES) as u16).to_le_bytes();
    let [offset, above] = (request.offset as u16).to_le_bytes();
    let pages = (length / PAGE_BYTES) as u8;
    let header = [request.kind as u8, low, high, offset, above, 0, 0, pages, request.page as u8];
    let mut stream = [&header[..], request.body].concat();
    stream.resize(PAYLOAD_BYTES * sectors_for(length), 0);
    stream
}
