//! Names that are erased at once (document 02, M-104): drawn ones, and a third opinion on what becomes of them.

use super::calls::{ANSWERS, Call, NAMES, OUT};
use super::facts::{Facts, LiveSlot};
use super::geometry::{MOST_SLOTS, slot_place, slot_sector};
use super::names::{self, Name};
use super::random::Random;
use super::requests::{self, OwnedRequest};

/// What becomes of them.
pub struct EraseOutcome {
    /// For each name 0, or the number that refuses it.
    pub answers: Vec<u8>,
    /// The slots that are erased, in the order of their names.
    pub erased: Vec<usize>,
}

impl EraseOutcome {
    /// The names one after the other, on a disk that is accepted.
    pub fn of(facts: &Facts, names: &[Name]) -> EraseOutcome {
        let mut gone = [false; 1 + MOST_SLOTS];
        let mut erased = Vec::new();
        let answers = names.iter().map(|name| match erase(facts, name, &gone) {
            Ok(slot) => {
                gone[slot] = true;
                erased.push(slot);
                0
            }
            Err(number) => number,
        });
        EraseOutcome {
            answers: answers.collect(),
            erased,
        }
    }

    /// The directory's sectors that change, each once and rising.
    pub fn sectors(&self) -> Vec<usize> {
        let mut sectors: Vec<usize> = self.erased.iter().map(|&slot| slot_sector(slot)).collect();
        sectors.sort_unstable();
        sectors.dedup();
        sectors
    }

    /// The disk without the slots that are erased in its first sectors.
    pub fn disk(&self, old: &[u8], sectors: &[usize]) -> Vec<u8> {
        let mut new = old.to_vec();
        for &slot in self.erased.iter().filter(|&&slot| sectors.contains(&slot_sector(slot))) {
            new[slot_place(slot)] = 0;
        }
        new
    }
}

/// The slot that an erase of this name frees, or the number that refuses it.
fn erase(facts: &Facts, name: &Name, gone: &[bool]) -> Result<usize, u8> {
    let mut there = facts.live.iter().filter(|live| !gone[live.slot]);
    let found = match name[0] {
        0 => return Err(12),
        _ => there.clone().find(|live| names::same(&live.name, name)).ok_or(15)?,
    };
    let inside = |other: &LiveSlot| other.slot != found.slot && other.parent == found.code;
    match found {
        _ if found.protected => Err(17),
        _ if found.is_directory() && found.code != 0 && there.any(inside) => Err(29),
        _ => Ok(found.slot),
    }
}

/// Drawn names: some of those that are there and others, or all that is in a directory and the directory, before or behind.
pub fn names(facts: &Facts, random: &mut Random) -> Vec<Name> {
    let live = facts.live.len();
    let many = match random.below(10) {
        0 => 0,
        1 => 1,
        2 => live,
        3 => live + random.below(40),
        _ => random.between(2, 12),
    };
    let mut names: Vec<Name> = Vec::new();
    while names.len() < many {
        match random.below(8) {
            0 if !names.is_empty() => names.push(names::turned(random.pick(&names), random)),
            1 => names.extend(family(facts, random)),
            _ => names.push(name(facts, random)),
        }
    }
    match random.below(6) {
        // Every file that is there, and the directories behind them, from the innermost on.
        0 => names = inside_out(facts),
        1 => random.shuffle(&mut names),
        _ => {}
    }
    names
}

/// One name: mostly a live one, its letters turned.
fn name(facts: &Facts, random: &mut Random) -> Name {
    if facts.live.is_empty() {
        return names::filled(&names::usable(random));
    }
    let live = facts.live[random.below(facts.live.len())].name;
    match random.below(16) {
        0 => [&[0], &live[1..]].concat().try_into().expect("ten bytes"),
        1 => names::changed(live, random),
        2 if !facts.erased.is_empty() => random.pick(&facts.erased),
        3 => names::filled(&names::usable(random)),
        4 => [0; 10],
        _ => names::turned(live, random),
    }
}

/// All that is in a directory and the directory itself: behind it, before it, or both. None where there is no directory.
fn family(facts: &Facts, random: &mut Random) -> Vec<Name> {
    let directories: Vec<&LiveSlot> = facts.live.iter().filter(|live| live.is_directory()).collect();
    if directories.is_empty() {
        return vec![name(facts, random)];
    }
    let directory = random.pick(&directories);
    let inside = facts.live.iter().filter(|live| live.parent == directory.code);
    let mut names: Vec<Name> = inside.map(|live| live.name).collect();
    random.shuffle(&mut names);
    let where_it_stands = random.below(3);
    if where_it_stands > 0 {
        names.insert(0, directory.name);
    }
    if where_it_stands < 2 {
        names.push(names::turned(directory.name, random));
    }
    names
}

/// All live names, what is in a directory before it, where the directories do not go round in a ring.
pub fn inside_out(facts: &Facts) -> Vec<Name> {
    let depth = |live: &LiveSlot| {
        let around = |live: &&LiveSlot| {
            let around = |other: &&LiveSlot| other.is_directory() && other.code != 0 && other.code == live.parent;
            facts.live.iter().find(around)
        };
        std::iter::successors(Some(live), around).take(1 + MOST_SLOTS).count()
    };
    let mut live: Vec<(usize, Name)> = facts.live.iter().map(|live| (depth(live), live.name)).collect();
    live.sort_by_key(|(depth, _)| std::cmp::Reverse(*depth));
    live.into_iter().map(|(_, name)| name).collect()
}

/// A request: the names, seldom with bytes left over, and buffers around what they need.
pub fn draw(facts: &Facts, random: &mut Random) -> OwnedRequest {
    let names = names(facts, random);
    let sectors = EraseOutcome::of(facts, &names).sectors().len();
    let list = match sectors {
        0 => random.pick(&[0, 0, 1, 2, 7]),
        _ => requests::list(sectors, random).len(),
    };
    let mut bytes = names.concat();
    match random.below(12) {
        0 => bytes.extend(&[65; 9][..random.between(1, 9)]),
        1 => bytes.truncate(bytes.len().saturating_sub(random.between(1, 9))),
        _ => {}
    }
    OwnedRequest::new(Call::EraseMany)
        .with(NAMES, bytes)
        .with(ANSWERS, requests::buffer(names.len(), random))
        .with(OUT, random.bytes(list))
}

/// A request with just the room that it needs, in buffers of some other bytes.
pub fn exact(names: &[Name], sectors: usize) -> OwnedRequest {
    OwnedRequest::new(Call::EraseMany)
        .with(NAMES, names.concat())
        .with(ANSWERS, vec![0x5c; names.len()])
        .with(OUT, vec![0xc5; 2 * sectors])
}
