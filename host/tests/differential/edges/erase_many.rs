//! Many names erased at once: none, one, the same twice, pairs in a sector, all there can be; names, left-over bytes and buffers
//! at their edges; directories before and behind what is in them.

use super::expect;
use crate::support::calls::{self, ANSWERS, Call, NAME, NAMES, OUT};
use crate::support::compare::Returned;
use crate::support::disks::{self, DrawnDisk};
use crate::support::fields;
use crate::support::geometry::{self, MOST_EXTRA, MOST_SLOTS, SECTOR, slot_place, slot_sector};
use crate::support::names::{self, Name};
use crate::support::random::Random;
use crate::support::requests::OwnedRequest;
use crate::support::shapes::{Background, Order, Shape};

/// A disk with a file of one sector in each of so many slots, named after them; none is protected, and all are in the root.
fn disk(extra: usize, many: usize) -> DrawnDisk {
    let shape = Shape {
        extra,
        files: (1..=many).map(|slot| (slot, 1)).collect(),
        end: Some(many + 1).filter(|&end| end <= geometry::slots(extra)),
        order: Order::Scattered,
        background: Background::Rubbish,
        tidy: false,
    };
    let mut disk = disks::of_shape(&shape, &mut Random::new(many as u64));
    for slot in 1..=many {
        let bytes = disk.slot_mut(slot);
        bytes[0] &= !fields::PROTECTED;
        bytes[fields::NAME..fields::COUNT].copy_from_slice(&name(slot));
        (bytes[fields::CODE], bytes[fields::PARENT]) = (99, 0);
    }
    disk
}

fn name(slot: usize) -> Name {
    names::filled(format!("Name {slot}").as_bytes())
}

fn names_of(slots: impl IntoIterator<Item = usize>) -> Vec<u8> {
    slots.into_iter().flat_map(name).collect()
}

/// Makes the file in a slot a directory with this code, in the directory of that code.
fn make_directory(disk: &mut DrawnDisk, slot: usize, code: u8, parent: u8) {
    let bytes = disk.slot_mut(slot);
    bytes[0] = fields::DIRECTORY;
    bytes[fields::COUNT..fields::MAP + fields::MAP_BYTES].fill(0);
    (bytes[fields::CODE], bytes[fields::PARENT]) = (code, parent);
}

fn asked(names: &[u8], answers: usize, list: usize) -> OwnedRequest {
    OwnedRequest::new(Call::EraseMany)
        .with(NAMES, names)
        .with(ANSWERS, vec![0x5c; answers])
        .with(OUT, vec![0x5c; list])
}

/// The names get these answers, and these slots are erased; the list names their sectors, each once and rising.
fn erases(disk: &DrawnDisk, names: &[u8], answers: &[u8], slots: &[usize]) -> Returned {
    let mut sectors: Vec<usize> = slots.iter().map(|&slot| slot_sector(slot)).collect();
    sectors.sort_unstable();
    sectors.dedup();
    let mut new = disk.image.clone();
    slots.iter().for_each(|&slot| new[slot_place(slot)] = 0);
    let mut last = None;
    for more in [0, 1, 5] {
        let asked = asked(names, answers.len() + more, 2 * sectors.len() + more);
        let left = expect(&asked, &disk.image, 0);
        assert_eq!(calls::value(left.answer), sectors.len());
        let listed = left
            .out
            .chunks(2)
            .map(|pair| usize::from(pair[0]) + 256 * usize::from(pair[1]));
        assert!(listed.take(sectors.len()).eq(sectors.iter().copied()));
        assert!(left.out[2 * sectors.len()..].iter().all(|&byte| byte == 0x5c));
        assert_eq!(left.answers[..answers.len()], *answers);
        assert!(left.answers[answers.len()..].iter().all(|&byte| byte == 0x5c));
        assert!(left.image.as_ref().is_some_and(|image| *image == new), "another disk");
        last = Some(left);
    }
    last.expect("it was asked")
}

#[test]
fn none_one_and_the_same_again() {
    let disk = disk(0, 6);
    erases(&disk, &[], &[], &[]);
    erases(&disk, &name(3), &[0], &[3]);
    erases(&disk, b"NAME 3    ", &[0], &[3]);
    erases(&disk, &names_of([3, 3]), &[0, 15], &[3]);
    erases(&disk, b"nAmE 3    Name 3    NAME 3    ", &[0, 15, 15], &[3]);
    erases(&disk, &names_of([2, 1]), &[0, 0], &[2, 1]);
    erases(&disk, &names_of([6, 1, 5]), &[0, 0, 0], &[6, 1, 5]);
    erases(&disk, &names_of([2, 9, 3]), &[0, 15, 0], &[2, 3]);
}

/// One name is as a single erase of it, but for the slot, which an answer of one byte does not tell.
#[test]
fn one_name_and_a_single_erase() {
    let mut disk = disk(0, 4);
    disk.slot_mut(2)[0] |= fields::PROTECTED;
    make_directory(&mut disk, 3, 7, 0);
    disk.slot_mut(4)[fields::PARENT] = 7;
    for (name, number) in [(name(1), 0), (name(2), 17), (name(3), 29), (name(5), 15), ([0; 10], 12)] {
        let single = expect(
            &OwnedRequest::new(Call::Erase).with(NAME, name).with(OUT, [0x5c; 2]),
            &disk.image,
            number,
        );
        let many = expect(&asked(&name, 1, 2), &disk.image, 0);
        assert_eq!((many.answers, many.out), (vec![number], single.out));
        assert!(many.image.unwrap_or_default() == single.image.unwrap_or(disk.image.clone()));
    }
}

/// A name has its ten bytes as they stand: a first byte 0 is 12, and shorter names are filled by whoever asks.
#[test]
fn bytes_of_names() {
    let mut disk = disk(0, 3);
    disk.slot_mut(2)[0] |= fields::PROTECTED;
    let mut names = names_of([1, 2, 3]);
    for first in 0..=255 {
        names[0] = first;
        let answer = match first {
            0 => 12,
            b'N' | b'n' => 0,
            _ => 15,
        };
        let slots: &[usize] = if answer == 0 { &[1, 3] } else { &[3] };
        erases(&disk, &names, &[answer, 17, 0], slots);
    }
    erases(&disk, &[0; 30], &[12; 3], &[]);
    erases(&disk, b"Name 1\0\0\0\0Name 3    ", &[15, 0], &[3]);
}

#[test]
fn all_there_can_be() {
    for (extra, slots) in [(0, 80), (1, 98), (MOST_EXTRA, MOST_SLOTS)] {
        let mut disk = disk(extra, slots);
        let all: Vec<usize> = (1..=slots).rev().collect();
        let left = erases(&disk, &names_of(all.clone()), &vec![0; slots], &all);
        assert_eq!(calls::value(left.answer), slots / 2);
        // Of every other file one, so that all sectors are named all the same, and each of the others twice.
        let (even, twice): (Vec<usize>, Vec<usize>) = ((2..=slots).step_by(2).collect(), (1..slots).step_by(2).collect());
        erases(&disk, &names_of(even.clone()), &vec![0; slots / 2], &even);
        let answers: Vec<u8> = twice.iter().flat_map(|_| [0, 15]).collect();
        erases(
            &disk,
            &names_of(twice.iter().flat_map(|&slot| [slot, slot])),
            &answers,
            &twice,
        );
        // One protected file among them.
        disk.slot_mut(slots)[0] |= fields::PROTECTED;
        let mut answers = vec![0; slots];
        answers[0] = 17;
        erases(&disk, &names_of(all.clone()), &answers, &all[1..]);
        for (names, list) in [(slots, slots), (slots - 1, slots)] {
            expect(&asked(&names_of(1..=slots), names, list - 1), &disk.image, 20);
        }
    }
}

/// The disk before 23, 23 before 20 and before what is wrong with a name; 20 where either buffer is too short.
#[test]
fn what_refuses_the_whole_call() {
    let mut disk = disk(0, 6);
    let names = names_of([1, 2, 3, 6]);
    for length in 0..=names.len() {
        let many = length / 10;
        let whole = length % 10 == 0;
        expect(&asked(&names[..length], many, 6), &disk.image, if whole { 0 } else { 23 });
        expect(&asked(&vec![0; length], many, 6), &disk.image, if whole { 0 } else { 23 });
        if many > 0 {
            expect(
                &asked(&names[..length], many - 1, 6),
                &disk.image,
                if whole { 20 } else { 23 },
            );
        }
    }
    // Slots 1 and 2 share a sector, so three sectors are named.
    for (answers, list) in [(0, 6), (1, 6), (3, 6), (4, 0), (4, 1), (4, 4), (4, 5), (3, 5), (0, 0)] {
        expect(&asked(&names, answers, list), &disk.image, 20);
    }
    expect(&asked(&names, 4, 6), &disk.image, 0);
    // A name that is refused needs its answer, and no place in the list.
    expect(&asked(&names_of([9]), 1, 0), &disk.image, 0);
    expect(&asked(&names_of([9]), 0, 0), &disk.image, 20);
    disk.slot_mut(5)[0] = 63;
    for length in [0, 9, 10] {
        let answer = expect(&asked(&names[..length], 0, 0), &disk.image, 2).answer;
        assert_eq!(calls::slot(answer), 5);
    }
    disk.image[geometry::EXTRA] = 36;
    expect(&asked(&names[..9], 0, 0), &disk.image, 24);
    expect(&asked(&names[..9], 0, 0), &disk.image[1..], 1);
}

/// 29 looks at the disk as the names before left it.
#[test]
fn directories() {
    let mut disk = disk(0, 8);
    make_directory(&mut disk, 2, 7, 0);
    make_directory(&mut disk, 5, 9, 7);
    for (slot, parent) in [(1, 7), (7, 9), (8, 9)] {
        disk.slot_mut(slot)[fields::PARENT] = parent;
    }
    erases(&disk, &names_of([7, 8, 5, 1, 2]), &[0; 5], &[7, 8, 5, 1, 2]);
    erases(&disk, &names_of([2, 1, 5, 7, 8]), &[29, 0, 29, 0, 0], &[1, 7, 8]);
    erases(&disk, &names_of([5, 8, 5, 7, 5, 5]), &[29, 0, 29, 0, 0, 15], &[8, 7, 5]);
    // What is in it stays where it is protected, and so does the directory.
    disk.slot_mut(8)[0] |= fields::PROTECTED;
    erases(&disk, &names_of([7, 8, 5, 1, 2]), &[0, 17, 29, 0, 29], &[7, 1]);
    // A directory in itself alone is empty, and so is one with the code of the root; and a file's byte 250 is no code.
    disk.slot_mut(8)[0] &= !fields::PROTECTED;
    disk.slot_mut(5)[fields::PARENT] = 9;
    erases(&disk, &names_of([8, 7, 5]), &[0; 3], &[8, 7, 5]);
    erases(&disk, &names_of([8, 5]), &[0, 29], &[8]);
    disk.slot_mut(5)[fields::CODE] = 0;
    erases(&disk, &names_of([5, 2]), &[0, 29], &[5]);
    disk.slot_mut(3)[fields::PARENT] = 99;
    erases(&disk, &names_of([4]), &[0], &[4]);
    // Two directories with one code: what is in it is in both.
    disk.slot_mut(5)[fields::CODE] = 7;
    disk.slot_mut(5)[fields::PARENT] = 0;
    erases(&disk, &names_of([2, 5, 1, 2, 5]), &[29, 29, 0, 0, 0], &[1, 2, 5]);
}

/// A file in a later sector than its directory, both erased, cut between: accepted, the file is still there, and the tree is
/// refused 27 at its slot.
#[test]
fn cut_between_a_directory_and_its_file() {
    let mut disk = disk(0, 6);
    make_directory(&mut disk, 1, 7, 0);
    disk.slot_mut(5)[fields::PARENT] = 7;
    let new = erases(&disk, &names_of([5, 1]), &[0, 0], &[1, 5]).image.expect("accepted");
    let mut cut = disk.image.clone();
    cut[..SECTOR].copy_from_slice(&new[..SECTOR]);
    expect(&OwnedRequest::new(Call::Check), &cut, 0);
    assert_eq!(calls::slot(expect(&OwnedRequest::new(Call::Tree), &cut, 27).answer), 5);
    let list = OwnedRequest::new(Call::List).with(OUT, vec![0; 258 * 5]);
    assert_eq!(calls::value(expect(&list, &cut, 0).answer), 5);
    expect(
        &OwnedRequest::new(Call::Erase).with(NAME, name(1)).with(OUT, [0; 2]),
        &cut,
        15,
    );
    // The same names again does the rest.
    let again = expect(&asked(&names_of([5, 1]), 2, 2), &cut, 0);
    assert_eq!(again.answers, [0, 15]);
    assert!(again.image.expect("accepted") == new);
}
