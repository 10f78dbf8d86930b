//! An accepted change: the old disk, the new one, and the sectors that it names.

use crate::support::calls::{self, BODY, Call, NAME, NEW, OUT, Request};
use crate::support::compare;
use crate::support::directories;
use crate::support::facts::{self, Facts, LiveSlot};
use crate::support::fields;
use crate::support::gathers::{self, GatherResult};
use crate::support::geometry::{BITS, IMAGE, MOST_SLOTS, SECTOR, SECTORS, SLOT, bit_place, is_directory, slot_place, slots};
use crate::support::margins::Margins;
use crate::support::names;
use crate::support::random::Random;
use crate::support::requests::OwnedRequest;
use crate::support::save_requests;

pub struct AcceptedChange<'a> {
    pub asked: OwnedRequest,
    pub old: &'a [u8],
    pub new: Vec<u8>,
    /// The sector numbers, in the order of writing.
    pub named: Vec<usize>,
    /// What the old disk shows.
    pub facts: Facts,
}

impl AcceptedChange<'_> {
    /// A change of this sort; none where the disk does not take it.
    pub fn draw<'a>(call: Call, old: &'a [u8], random: &mut Random) -> Option<AcceptedChange<'a>> {
        let facts = Facts::of(old);
        if call == Call::Save {
            return AcceptedChange::make(save_requests::accepted(&facts, random), facts, old);
        }
        let fit = |live: &&LiveSlot| match call {
            Call::Erase => !live.protected && !directories::is_held(&facts, live),
            Call::Rename => !live.protected,
            Call::Gather => !live.is_directory() && gathers::gather_result(old, &facts, live) != GatherResult::NoRun,
            _ => true,
        };
        let names: Vec<_> = facts.live.iter().filter(fit).map(|live| live.name).collect();
        if names.is_empty() {
            return None;
        }
        let mut asked = OwnedRequest::new(call)
            .with(NAME, random.pick(&names))
            .with(OUT, random.bytes(5));
        if call == Call::Gather {
            // With room for every file.
            let room = 2 * BITS + random.below(4);
            asked = asked.with(OUT, random.bytes(room));
        }
        if call == Call::Rename {
            asked = asked.with(NEW, save_requests::unused_name(&facts, random));
        }
        if call == Call::Rename && random.one_in(3) {
            asked = in_other_letters(&facts, random).unwrap_or(asked);
        }
        Some(AcceptedChange::make(asked, facts, old).expect("nothing speaks against it"))
    }

    /// Whether it is a rename that alters the case of the file's own name alone.
    pub fn turns_letters(&self) -> bool {
        let [_, _, name, new, ..] = &self.asked.slices;
        self.asked.call == Call::Rename && names::same(&names::filled(name), &names::filled(new))
    }

    /// A save of a body of this length.
    pub fn save<'a>(old: &'a [u8], length: usize, random: &mut Random) -> Option<AcceptedChange<'a>> {
        let facts = Facts::of(old);
        let list = 2 * facts.save_sectors(length);
        let asked = save_requests::accepted(&facts, random)
            .with(BODY, random.bytes(length))
            .with(OUT, vec![0x5c; list]);
        AcceptedChange::make(asked, facts, old)
    }

    /// A gather of the file in this slot; none where it is refused.
    pub fn gather<'a>(old: &'a [u8], slot: usize) -> Option<AcceptedChange<'a>> {
        let facts = Facts::of(old);
        let live = facts.live.iter().find(|live| live.slot == slot).expect("it is live");
        let list = vec![0x5c; 2 * (live.sectors.len() + 1)];
        let asked = OwnedRequest::new(Call::Gather).with(NAME, live.name).with(OUT, list);
        AcceptedChange::make(asked, facts, old)
    }

    /// Whether it is a gather of a file that must move.
    pub fn moves(&self) -> bool {
        self.asked.call == Call::Gather && !self.named.is_empty()
    }

    /// The change that this asks for; none where it is refused.
    pub fn of(asked: OwnedRequest, old: &[u8]) -> Option<AcceptedChange<'_>> {
        AcceptedChange::make(asked, Facts::of(old), old)
    }

    /// Whether it takes a slot: a save, or the close of a recording.
    pub fn takes_a_slot(&self) -> bool {
        matches!(self.asked.call, Call::Save | Call::RecordClose)
    }

    fn make<'a>(asked: OwnedRequest, facts: Facts, old: &'a [u8]) -> Option<AcceptedChange<'a>> {
        let left = compare::ask(&asked.on(old), &mut Margins::default());
        let named = left.out.chunks_exact(2).take(calls::value(left.answer));
        let named = named.map(|pair| usize::from(pair[0]) + 256 * usize::from(pair[1])).collect();
        Some(AcceptedChange {
            new: left.image?,
            asked,
            old,
            named,
            facts,
        })
    }

    /// No number twice; sectors not named are unchanged; the directory sector comes last, and before it stand data sectors; of a
    /// save that clears the slot behind the directory's end, its sector stands between them. A gather that leaves its file names
    /// none, and a piece of a recording none of the directory.
    pub fn names_its_sectors(&self) {
        let mut named = [false; SECTORS];
        for &number in &self.named {
            assert!(
                number < SECTORS && !named[number],
                "sector {number} is no sector or is named twice"
            );
            named[number] = true;
        }
        for number in (0..SECTORS).filter(|&number| !named[number]) {
            let sector = number * SECTOR..(number + 1) * SECTOR;
            assert!(
                self.old[sector.clone()] == self.new[sector],
                "sector {number} is changed and not named"
            );
        }
        let directory = |number: usize| is_directory(number, self.facts.extra);
        let many = match self.asked.call {
            Call::Save | Call::RecordClose => self.facts.directory_sectors().len(),
            Call::Gather if !self.moves() => 0,
            Call::RecordAdd => 0,
            _ => 1,
        };
        let (data, last) = self.named.split_at(self.named.len() - many);
        assert!(
            last.iter().all(|&number| directory(number)) && !data.iter().any(|&number| directory(number)),
            "{:?}",
            self.named
        );
        let completes = self.asked.call == Call::RecordAdd && !self.named.is_empty();
        let takes = self.takes_a_slot() || self.moves() || completes;
        assert!(takes != data.is_empty(), "{:?}", self.named);
    }

    /// The directory ends where it ended: unread slots stay unread, but for the one that a whole save takes.
    pub fn keeps_the_end(&self, disk: &[u8], whole: bool) {
        let facts = &self.facts;
        let taken = whole && self.takes_a_slot() && facts.taken == facts.end;
        let end = facts
            .end
            .map(|end| end + usize::from(taken))
            .filter(|&end| end <= slots(facts.extra));
        assert_eq!(facts::end(disk), end, "the directory ends elsewhere");
    }

    /// What slot 1 says of the disk stays: its name, its random word, the number of its directory tracks.
    pub fn keeps_what_is_the_disks(&self, disk: &[u8]) {
        for at in fields::KEPT.into_iter().flatten() {
            assert_eq!(disk[at], self.old[at], "byte {at} of slot 1 is changed");
        }
    }

    /// Whether it erases a directory.
    pub fn erases_a_directory(&self) -> bool {
        let found = self.facts.find(&self.asked.slices[NAME]);
        self.asked.call == Call::Erase && found.is_some_and(LiveSlot::is_directory)
    }

    /// Where the directories fitted together they do still: the tree is the old one, without the slot that an erase frees, and
    /// with that which a save takes.
    pub fn keeps_the_tree(&self) {
        let [old, new] = [self.old, &self.new].map(|disk| {
            let room = vec![0; 2 * MOST_SLOTS];
            let left = compare::ask(&Request::new(Call::Tree, disk).with(OUT, &room), &mut Margins::default());
            let slots = left
                .out
                .chunks(2)
                .map(|pair| usize::from(pair[0]) + 256 * usize::from(pair[1]));
            let many = calls::value(left.answer);
            (calls::refusal(left.answer), slots.take(many).collect::<Vec<usize>>())
        });
        if old.0 != 0 {
            return;
        }
        let (freed, taken) = match self.asked.call {
            Call::Erase => (self.found(), None),
            _ if self.takes_a_slot() => (None, self.facts.taken),
            _ => (None, None),
        };
        let without = |slots: Vec<usize>, gone: Option<usize>| -> Vec<usize> {
            slots.into_iter().filter(|&slot| Some(slot) != gone).collect()
        };
        assert_eq!(
            new.1.len(),
            old.1.len() + usize::from(taken.is_some()) - usize::from(freed.is_some())
        );
        assert_eq!(
            (new.0, without(new.1, taken)),
            (0, without(old.1, freed)),
            "{:?}",
            self.asked.call
        );
    }

    /// Where no file had waste sectors none has any now: the new disk may go out where the old one might.
    pub fn leaves_no_waste(&self) {
        let [old, new] = [self.old, &self.new].map(|disk| {
            let request = Request::new(Call::CheckRelease, disk);
            calls::refusal(compare::ask(&request, &mut Margins::default()).answer)
        });
        assert!(old != 0 || new == 0, "{:?} leaves waste sectors", self.asked.call);
    }

    /// The old disk with the first k named sectors taken from the new one.
    pub fn cut(&self, k: usize) -> Vec<u8> {
        let mut disk = self.old.to_vec();
        for number in &self.named[..k] {
            let sector = number * SECTOR..(number + 1) * SECTOR;
            disk[sector.clone()].copy_from_slice(&self.new[sector]);
        }
        disk
    }

    /// The slot bytes and the sectors of every file that the change does not find by name are as on the old disk.
    pub fn keeps_other_files(&self, disk: &[u8]) {
        assert_eq!(disk.len(), IMAGE);
        for live in &self.facts.live {
            if self.found().is_some_and(|slot| slot == live.slot) {
                continue;
            }
            let slot = slot_place(live.slot)..slot_place(live.slot) + SLOT;
            assert!(disk[slot.clone()] == self.old[slot.clone()], "slot {} is changed", live.slot);
            for place in fields::bits(&self.old[slot]).into_iter().map(bit_place) {
                let sector = place..place + SECTOR;
                assert!(
                    disk[sector.clone()] == self.old[sector],
                    "a sector of slot {} is changed",
                    live.slot
                );
            }
        }
    }

    /// The slot that the change finds by name; a save finds none, and neither does a recording.
    pub fn found(&self) -> Option<usize> {
        if self.takes_a_slot() || self.asked.call == Call::RecordAdd {
            return None;
        }
        Some(
            self.facts
                .find(&self.asked.slices[NAME])
                .expect("an accepted change found it")
                .slot,
        )
    }
}

/// A rename of a file that is not protected to its own name in other letters; none where no file has a name for that.
fn in_other_letters(facts: &Facts, random: &mut Random) -> Option<OwnedRequest> {
    let usable = |name: &names::Name| name[0] != 32 && name.iter().all(|byte| (32..=126).contains(byte));
    let fit =
        |live: &&LiveSlot| !live.protected && usable(&live.name) && live.name.iter().any(|&byte| names::is_letter(byte));
    let names: Vec<_> = facts.live.iter().filter(fit).map(|live| live.name).collect();
    (!names.is_empty()).then_some(())?;
    let name = random.pick(&names);
    let new = std::iter::repeat_with(|| names::turned(name, random)).find(|new| *new != name)?;
    let asked = OwnedRequest::new(Call::Rename).with(NAME, names::turned(name, random));
    Some(asked.with(NEW, new).with(OUT, random.bytes(5)))
}
