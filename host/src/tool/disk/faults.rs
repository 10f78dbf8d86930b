//! Every fault of a disk, as the library finds them: each slot is tried by itself, and two slots together, on copies in which
//! no other is live. No rule of a disk stands here but where its slots are.
use crate::tool::failure::{Failure, Reason};
use crate::tool::output;
use crate::tool::output::counts::counted;
use crate::tool::output::json;
use crate::tool::printable::printable_path;
use std::ffi::OsStr;
use varnucht::calls;
use varnucht::{Image, Kind, Name, Refused, Slot};

/// A live slot of a disk: a file or a directory.
pub struct LiveSlot {
    pub slot: Slot,
    /// Its 256 bytes.
    pub bytes: [u8; 256],
    /// What refuses a disk on which it is the only live slot.
    pub alone: Option<Refused>,
    /// What refuses that disk before a release, where nothing else does.
    pub waste: Option<Refused>,
}

impl LiveSlot {
    /// Its name, as it stands; a live slot's first byte is not 0.
    pub fn name(&self) -> Option<Name> {
        Name::new(&self.bytes[1..11]).ok()
    }

    /// Its kind, known or not.
    pub fn kind(&self) -> Kind {
        Kind::new(self.bytes[0] & 0x3f)
    }

    /// Its slot and its name.
    pub fn words(&self) -> String {
        let name = self.name().map_or(String::new(), |name| format!(" {name}"));
        format!("slot {}{name}", self.slot)
    }
}

/// Two live slots that do not go together, by their places among all that were found, and what refuses a disk with both.
pub struct Conflict {
    pub earlier: usize,
    pub later: usize,
    pub refused: Refused,
}

/// All live slots, and what is wrong with them.
pub struct Faults {
    pub found: Vec<LiveSlot>,
    /// By rising slot of the later, and then of the earlier.
    pub conflicts: Vec<Conflict>,
}

impl Faults {
    /// Looks for the faults of an image. Refused 24: then it is not known where its slots are.
    pub fn of(image: &Image) -> Result<Faults, Refused> {
        let mut trial = TrialImage::new(image)?;
        let found = trial.singles();
        let conflicts = trial.pairs(&found);
        Ok(Faults { found, conflicts })
    }

    /// The slots among those marked that do not go with the one at a place, each with its refusal.
    pub fn against(&self, place: usize, marked: &[bool]) -> impl Iterator<Item = (&LiveSlot, Refused)> {
        self.conflicts.iter().filter_map(move |conflict| {
            let other = match place {
                _ if conflict.earlier == place => conflict.later,
                _ if conflict.later == place => conflict.earlier,
                _ => return None,
            };
            marked[other].then(|| (&self.found[other], conflict.refused))
        })
    }

    /// Every fault as JSON: what is wrong with a slot by itself, and with which earlier one it does not go together.
    pub fn json(&self, release: bool) -> String {
        let fault = |found: &LiveSlot, with: Option<Slot>, refused: Refused| {
            let name = found.name().map(|name| json::named(&name)).into_iter().flatten();
            let fields = [("slot", found.slot.to_string()), ("with", json::or_null(with))];
            let [number, _, words, _] = json::refused(&refused.into());
            json::object(fields.into_iter().chain(name).chain([number, words]))
        };
        let alone = self.found.iter().filter_map(|found| {
            let refused = found.alone.or(found.waste.filter(|_| release))?;
            Some(fault(found, None, refused))
        });
        let pairs = self.conflicts.iter().map(|conflict| {
            let (earlier, later) = (&self.found[conflict.earlier], &self.found[conflict.later]);
            fault(later, Some(earlier.slot), conflict.refused)
        });
        json::listed(alone.chain(pairs))
    }

    /// Whether nothing is wrong but waste sectors.
    pub fn none(&self) -> bool {
        self.conflicts.is_empty() && self.found.iter().all(|found| found.alone.is_none())
    }
}

/// A copy of an image on which no slot is live but those that are tried. Byte 0 of a slot is all that is altered: a name byte
/// would move the directory's end.
struct TrialImage {
    image: Image,
    /// The slots, each with the place of its byte 0 and what stood there.
    slots: Vec<(Slot, usize, u8)>,
}

impl TrialImage {
    fn new(image: &Image) -> Result<TrialImage, Refused> {
        let mut image = image.clone();
        let places = image.directory()?.places();
        let slots: Vec<_> = places.map(|(slot, place)| (slot, place, image.as_bytes()[place])).collect();
        for (_, place, _) in &slots {
            image.as_bytes_mut()[*place] = 0;
        }
        Ok(TrialImage { image, slots })
    }

    /// What is asked of the copy while these slots are live.
    fn with<T>(&mut self, live: &[Slot], ask: impl FnOnce(&Image) -> T) -> T {
        self.put(live, |first| first);
        let answer = ask(&self.image);
        self.put(live, |_| 0);
        answer
    }

    /// Puts something in the first bytes of these slots, by what stood there.
    fn put(&mut self, live: &[Slot], byte: impl Fn(u8) -> u8) {
        for slot in live {
            let (_, place, first) = self.slots[usize::from(slot.number()) - 1];
            self.image.as_bytes_mut()[place] = byte(first);
        }
    }

    /// Each live slot by itself. One that is not refused is live where the library lists it: not behind the directory's end.
    fn singles(&mut self) -> Vec<LiveSlot> {
        let all: Vec<Slot> = self.slots.iter().map(|(slot, ..)| *slot).collect();
        let single = |slot: Slot| {
            let mut entry = [0; 258];
            let listed = self.with(&[slot], |image| calls::list(image.as_bytes(), &mut entry).decode());
            let alone = match listed {
                Ok(listed) if listed.value == 0 => return None,
                listed => listed.err(),
            };
            let waste = match alone {
                None => self.with(&[slot], Image::check_release).err(),
                Some(_) => None,
            };
            Some(LiveSlot {
                slot,
                bytes: self.bytes(slot),
                alone,
                waste,
            })
        };
        all.into_iter().filter_map(single).collect()
    }

    /// The bytes of a slot, as they stand on the disk.
    fn bytes(&self, slot: Slot) -> [u8; 256] {
        let (_, place, first) = self.slots[usize::from(slot.number()) - 1];
        let mut bytes = [0; 256];
        bytes.copy_from_slice(&self.image.as_bytes()[place..place + 256]);
        bytes[0] = first;
        bytes
    }

    /// The pairs that do not go together, of those that are accepted by themselves. A disk with all of them is refused at a slot
    /// that has an earlier partner, and without that slot at the next. What is left goes together: so only those that were
    /// taken out are tried in pairs.
    fn pairs(&mut self, found: &[LiveSlot]) -> Vec<Conflict> {
        let alone: Vec<usize> = (0..found.len()).filter(|place| found[*place].alone.is_none()).collect();
        let mut kept: Vec<Slot> = alone.iter().map(|place| found[*place].slot).collect();
        while let Err(refused) = self.with(&kept, Image::check) {
            // The library names a slot that is live.
            let Some(place) = kept.iter().position(|slot| Some(*slot) == refused.slot) else {
                break;
            };
            kept.remove(place);
        }
        let is_out: Vec<bool> = found.iter().map(|found| !kept.contains(&found.slot)).collect();
        let mut conflicts = Vec::new();
        for (place, &later) in alone.iter().enumerate() {
            for &earlier in alone[..place].iter().filter(|earlier| is_out[later] || is_out[**earlier]) {
                let both = [found[earlier].slot, found[later].slot];
                conflicts.extend(
                    self.with(&both, Image::check)
                        .err()
                        .map(|refused| Conflict { earlier, later, refused }),
                );
            }
        }
        conflicts
    }
}

/// Says every fault of the disk in this file on a line of its own, waste sectors too where they are asked for. None where
/// there is no fault.
pub fn say(path: &OsStr, faults: &Faults, release: bool) -> Option<Failure> {
    let mut many = 0;
    let mut say = |what: String, refused: Refused, more: Option<&str>| {
        let more = more.map(String::from);
        let failure = Failure::refused(path, &what, Reason { refused, more });
        failure.words().iter().for_each(|words| output::say(words));
        many += 1;
    };
    for found in &faults.found {
        let waste = found.waste.filter(|_| release);
        if let Some(refused) = found.alone.or(waste) {
            say(found.words(), refused, None);
        }
    }
    for conflict in &faults.conflicts {
        let [earlier, later] = [conflict.earlier, conflict.later].map(|place| faults.found[place].words());
        say(format!("{earlier} and {later}"), conflict.refused, Some("both are doubtful"));
    }
    if many == 0 {
        return None;
    }
    let hint = if faults.none() {
        ""
    } else {
        ": `salvage` makes a copy without them"
    };
    output::say(&format!("{}: {}{hint}", printable_path(path), counted(many, "fault")));
    Some(Failure::Said(1))
}
