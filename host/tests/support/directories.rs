//! Subdirectories (document 02, M-108): drawn codes for a drawn disk, drawn requests for a tree, and a third opinion on what a
//! tree has, by the paths from the root.

use super::calls::{Call, NAME, OUT};
use super::disks::DrawnDisk;
use super::facts::{Facts, LiveSlot};
use super::fields;
use super::random::Random;
use super::requests::{self, OwnedRequest};

/// How the directories of a drawn disk lie in each other.
#[derive(Clone, Copy)]
enum Form {
    /// Each in the one drawn before it.
    Deep,
    /// All in the root.
    Flat,
    /// Each in the root or in one drawn before it.
    Any,
}

/// Gives every directory a code and every live slot the code of the directory that it is in. Mostly they fit together; else
/// one byte is spoilt, or all stay as they are.
pub fn arrange(disk: &mut DrawnDisk, random: &mut Random) {
    if random.one_in(8) {
        return;
    }
    let (mut directories, files): (Vec<usize>, Vec<usize>) = disk
        .files
        .iter()
        .map(|file| file.slot)
        .partition(|&slot| fields::is_directory(fields::kind(disk.slot(slot))));
    random.shuffle(&mut directories);
    let mut codes: Vec<u8> = (1..=255).collect();
    if random.coin() {
        random.shuffle(&mut codes);
    }
    let form = random.pick(&[Form::Deep, Form::Flat, Form::Any, Form::Any]);
    let mut given = vec![0];
    for (&slot, &code) in directories.iter().zip(codes.iter().cycle()) {
        let parent = match form {
            Form::Deep => given[given.len() - 1],
            Form::Flat => 0,
            Form::Any => random.pick(&given),
        };
        let bytes = disk.slot_mut(slot);
        (bytes[fields::CODE], bytes[fields::PARENT]) = (code, parent);
        given.push(code);
    }
    for slot in files {
        disk.slot_mut(slot)[fields::PARENT] = random.pick(&given);
    }
    if random.one_in(3) {
        spoil(disk, &directories, &given, random);
    }
}

/// One byte made such that the tree may be refused 26, 27 or 28.
fn spoil(disk: &mut DrawnDisk, directories: &[usize], codes: &[u8], random: &mut Random) {
    let live: Vec<usize> = disk.files.iter().map(|file| file.slot).collect();
    let of_directory = random.below(3);
    let (slots, at) = match of_directory {
        0 => (directories, fields::CODE),
        1 => (directories, fields::PARENT),
        _ => (&live[..], fields::PARENT),
    };
    if !slots.is_empty() {
        let slot = random.pick(slots);
        let byte = if random.coin() { random.pick(codes) } else { random.byte() };
        disk.slot_mut(slot)[at] = byte;
    }
}

/// What a tree must answer of an accepted disk, whatever is asked: none, or the number and the slot.
pub fn refused(facts: &Facts) -> Option<(u8, usize)> {
    let directories: Vec<&LiveSlot> = facts.live.iter().filter(|live| live.is_directory()).collect();
    let not_own =
        |(i, live): &(usize, &&LiveSlot)| live.code == 0 || directories[..*i].iter().any(|other| other.code == live.code);
    if let Some((_, live)) = directories.iter().enumerate().find(not_own) {
        return Some((26, live.slot));
    }
    facts.live.iter().find_map(|live| {
        if live.parent != 0 && above(facts, live.parent).is_none() {
            return Some((27, live.slot));
        }
        let mut around = live;
        for _ in 0..256 {
            around = above(facts, around.parent)?;
            if around.slot == live.slot {
                return Some((28, live.slot));
            }
        }
        None
    })
}

/// Whether a slot is a directory that another live slot is in, so that it cannot be erased.
pub fn is_held(facts: &Facts, directory: &LiveSlot) -> bool {
    let inside = |other: &LiveSlot| other.slot != directory.slot && other.parent == directory.code;
    directory.is_directory() && directory.code != 0 && facts.live.iter().any(inside)
}

/// The directory with this code.
fn above(facts: &Facts, code: u8) -> Option<&LiveSlot> {
    facts
        .live
        .iter()
        .find(|live| live.is_directory() && code != 0 && live.code == code)
}

/// The slots beneath a directory, or beneath the root, of a disk whose tree is not refused. The path of a slot is the slots of
/// the directories around it, from the root on, and its own: by rising paths a directory comes before what lies beneath it, and
/// each level is by rising slot.
pub fn beneath(facts: &Facts, directory: Option<&LiveSlot>) -> Vec<usize> {
    let mut paths: Vec<Vec<usize>> = facts.live.iter().map(|live| path(facts, live)).collect();
    paths.sort();
    let inside = |path: &&Vec<usize>| directory.is_none_or(|live| path[..path.len() - 1].contains(&live.slot));
    paths.iter().filter(inside).map(|path| path[path.len() - 1]).collect()
}

/// A directory that something lies beneath, and how many those are, of a disk whose tree is not refused.
pub fn some_directory(facts: &Facts) -> Option<(&LiveSlot, usize)> {
    let trees = refused(facts).is_none();
    let directories = facts.live.iter().filter(|live| trees && live.is_directory());
    directories
        .map(|live| (live, beneath(facts, Some(live)).len()))
        .find(|(_, many)| *many > 0)
}

fn path(facts: &Facts, live: &LiveSlot) -> Vec<usize> {
    let around = std::iter::successors(Some(live), |live| above(facts, live.parent));
    let mut path: Vec<usize> = around.map(|live| live.slot).collect();
    path.reverse();
    path
}

/// A request for a tree: of the root or of a directory mostly, else of any name.
pub fn draw(facts: &Facts, random: &mut Random) -> OwnedRequest {
    let directories: Vec<&LiveSlot> = facts.live.iter().filter(|live| live.is_directory()).collect();
    let name = match random.below(4) {
        0 => Vec::new(),
        1 | 2 if !directories.is_empty() => requests::spelled(random.pick(&directories).name, random),
        _ => requests::asked_name(facts, random),
    };
    let many = match refused(facts) {
        None if name.is_empty() => facts.live.len(),
        None => facts.find(&name).map_or(1, |live| beneath(facts, Some(live)).len()),
        Some(_) => random.below(4),
    };
    OwnedRequest::new(Call::Tree)
        .with(NAME, name)
        .with(OUT, requests::buffer(2 * many, random))
}
