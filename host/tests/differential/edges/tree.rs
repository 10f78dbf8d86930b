//! Subdirectories: their rows of the check, the codes one value after the other, rings, what is asked for, and the buffer.

use super::expect;
use crate::support::calls::{self, CALLS, Call, NAME, OUT};
use crate::support::disks::{self, DrawnDisk};
use crate::support::facts::Facts;
use crate::support::fields;
use crate::support::geometry::{self, BITS, MOST_EXTRA, MOST_SLOTS};
use crate::support::names;
use crate::support::random::Random;
use crate::support::requests::OwnedRequest;
use crate::support::shapes::{Background, Order, Shape};

/// A disk with these directories and files by slot: of a directory its code, of a file none; and the code of the directory that
/// it is in. All have names, and the directory ends behind them.
fn disk(extra: usize, slots: &[(Option<u8>, u8)]) -> DrawnDisk {
    let shape = Shape {
        extra,
        files: (1..)
            .zip(slots)
            .map(|(slot, (code, _))| (slot, usize::from(code.is_none())))
            .collect(),
        end: Some(slots.len() + 1).filter(|&end| end <= geometry::slots(extra)),
        order: Order::Scattered,
        background: Background::Rubbish,
        tidy: false,
    };
    let mut disk = disks::of_shape(&shape, &mut Random::new(slots.len() as u64));
    for (slot, (code, parent)) in (1..).zip(slots) {
        put(&mut disk, slot, code.unwrap_or(99), *parent);
        disk.slot_mut(slot)[0] &= !fields::PROTECTED;
        disk.slot_mut(slot)[fields::NAME..fields::COUNT].copy_from_slice(&name(slot));
    }
    disk
}

fn put(disk: &mut DrawnDisk, slot: usize, code: u8, parent: u8) {
    let bytes = disk.slot_mut(slot);
    (bytes[fields::CODE], bytes[fields::PARENT]) = (code, parent);
}

fn name(slot: usize) -> names::Name {
    names::filled(format!("Name {slot}").as_bytes())
}

/// 1 and 5 are directories in the root; 3 is a directory in 5 and 6 one in 3; 2, 4, 7 and 8 are files.
const NESTED: [(Option<u8>, u8); 8] = [
    (Some(200), 0),
    (None, 7),
    (Some(7), 255),
    (None, 0),
    (Some(255), 0),
    (Some(1), 7),
    (None, 1),
    (None, 255),
];

/// Asks for a tree with so many bytes of room; the number and the slot must be these.
fn refused(disk: &DrawnDisk, name: &[u8], room: usize, number: u8, slot: usize) {
    let asked = OwnedRequest::new(Call::Tree).with(NAME, name).with(OUT, vec![0x5c; room]);
    let answer = expect(&asked, &disk.image, number).answer;
    assert_eq!(calls::slot(answer), slot, "refused {number}");
}

/// The tree is these slots, and the rest of the buffer stays.
fn lists(disk: &DrawnDisk, name: &[u8], slots: &[usize]) {
    for more in [0, 1, 2, 7, 2_000] {
        let asked = OwnedRequest::new(Call::Tree)
            .with(NAME, name)
            .with(OUT, vec![0x5c; 2 * slots.len() + more]);
        let left = expect(&asked, &disk.image, 0);
        assert_eq!(calls::value(left.answer), slots.len());
        let (front, rest) = left.out.split_at(2 * slots.len());
        let numbers = front.chunks(2).map(|pair| usize::from(pair[0]) + 256 * usize::from(pair[1]));
        assert!(numbers.eq(slots.iter().copied()), "other slots");
        assert!(rest.iter().all(|&byte| byte == 0x5c), "the rest is changed");
    }
    for less in 1..=2 * slots.len().min(3) {
        refused(disk, name, 2 * slots.len() - less, 20, 0);
    }
}

#[test]
fn nested() {
    let disk = disk(0, &NESTED);
    lists(&disk, b"", &[1, 4, 5, 3, 2, 6, 7, 8]);
    lists(&disk, &name(5), &[3, 2, 6, 7, 8]);
    lists(&disk, b"name 3", &[2, 6, 7]);
    lists(&disk, b"NAME 6   ", &[7]);
    lists(&disk, b"nAmE 1", &[]);
    let blank = vec![0; disk.image.len()];
    expect(&OwnedRequest::new(Call::Tree), &blank, 0);
}

/// What is asked for: 12 for what cannot be a name, 13 with the slot for a file, 15 for what is not there; and 20 last.
#[test]
fn names_asked_for() {
    let disk = disk(0, &NESTED);
    for bytes in [&b"\0"[..], b"\0ame 1", b"Name 1     ", &[b'N'; 11], &[0; 300]] {
        refused(&disk, bytes, 0, 12, 0);
    }
    for slot in [2, 4, 7, 8] {
        refused(&disk, &name(slot), 0, 13, slot);
    }
    for bytes in [&b"Name"[..], b"Name 9", b" ", b"\xff"] {
        refused(&disk, bytes, 0, 15, 0);
    }
    refused(&disk, b"", 15, 20, 0);
    refused(&disk, b"Name 5", 0, 20, 0);
}

/// Both checks give this number, at slot 3.
fn checked(disk: &DrawnDisk, number: u8) {
    for call in [Call::Check, Call::CheckRelease] {
        let answer = expect(&OwnedRequest::new(call), &disk.image, number).answer;
        assert_eq!(calls::slot(answer), if number == 0 { 0 } else { 3 });
    }
}

/// The rows of the check: every count but 0, and every bit of the map.
#[test]
fn counts_and_bits() {
    let mut disk = disk(0, &NESTED);
    for count in [0, 1, 2, 3, 255, 256, BITS, BITS + 1, 32_768, 65_535] {
        fields::set_count(disk.slot_mut(3), count);
        checked(&disk, if count == 0 { 0 } else { 4 });
    }
    fields::set_count(disk.slot_mut(3), 0);
    for bit in 0..BITS {
        fields::set_bit(disk.slot_mut(3), bit, true);
        checked(&disk, 5);
        fields::set_bit(disk.slot_mut(3), bit, false);
    }
}

/// Any first address and any length are taken: 6, 7, 10, 11, 22 and 25 are not given. Of another kind a count of 0 is refused.
#[test]
fn what_is_not_looked_at() {
    let mut disk = disk(0, &NESTED);
    for track in 0..=255 {
        for sector in [0, 1, 10, 11, 255] {
            disk.slot_mut(3)[fields::FIRST..fields::MAP].copy_from_slice(&[track, sector]);
            checked(&disk, 0);
        }
    }
    for at in fields::PAGE..=fields::EXEC {
        disk.slot_mut(3)[at] ^= 255;
        checked(&disk, 0);
    }
    for marks in [0, 64, 128, 192] {
        disk.slot_mut(3)[0] = marks | fields::DIRECTORY;
        checked(&disk, 0);
        for kind in fields::KNOWN.into_iter().filter(|&kind| !fields::is_directory(kind)) {
            disk.slot_mut(3)[0] = marks | kind;
            checked(&disk, 4);
        }
    }
}

/// All rows at one directory, mended one after the other: 2, 4, 5, 9.
#[test]
fn rows_in_order() {
    let mut disk = disk(0, &NESTED);
    let given = |disk: &DrawnDisk, number: u8| {
        let answer = expect(&OwnedRequest::new(Call::Check), &disk.image, number).answer;
        assert_eq!(calls::slot(answer), if number == 0 { 0 } else { 5 });
    };
    let slot = disk.slot_mut(5);
    slot[fields::NAME..fields::COUNT].copy_from_slice(&name(2));
    fields::set_bit(slot, 700, true);
    fields::set_count(slot, 1);
    slot[0] = 63;
    given(&disk, 2);
    disk.slot_mut(5)[0] = fields::DIRECTORY;
    given(&disk, 4);
    fields::set_count(disk.slot_mut(5), 0);
    given(&disk, 5);
    fields::set_bit(disk.slot_mut(5), 700, false);
    given(&disk, 9);
    disk.slot_mut(5)[fields::NAME..fields::COUNT].copy_from_slice(&name(5));
    given(&disk, 0);
}

/// A directory cannot be read, opened or asked its start, hidden or protected too; every other call takes it like a file.
#[test]
fn other_calls() {
    for marks in [0, 64, 128, 192] {
        let mut disk = disk(0, &NESTED);
        disk.slot_mut(1)[0] = marks | fields::DIRECTORY;
        for call in [Call::Read, Call::Open, Call::Start] {
            let answer = expect(&OwnedRequest::new(call).with(NAME, name(1)), &disk.image, 13).answer;
            assert_eq!(calls::slot(answer), 1);
        }
        for call in [Call::Hide, Call::Show, Call::Protect, Call::Release] {
            expect(&OwnedRequest::new(call).with(NAME, name(1)).with(OUT, [0; 2]), &disk.image, 0);
        }
        let protected = marks & 64 != 0;
        let rename = OwnedRequest::new(Call::Rename)
            .with(NAME, name(1))
            .with(calls::NEW, *b"other");
        expect(&rename.with(OUT, [0; 2]), &disk.image, if protected { 17 } else { 0 });
        let erase = OwnedRequest::new(Call::Erase).with(NAME, name(1)).with(OUT, [0; 2]);
        expect(&erase, &disk.image, if protected { 17 } else { 0 });
        let room = vec![0x5c; 8 * 258];
        let listed = expect(&OwnedRequest::new(Call::List).with(OUT, room), &disk.image, 0).answer;
        assert_eq!((calls::value(listed), calls::free(listed)), (8, BITS - 4));
    }
}

/// Every code of one directory: its own, 0, an earlier one's, or a later one's, which is then refused there.
#[test]
fn every_code() {
    for code in 0..=255 {
        let mut disk = disk(0, &NESTED);
        disk.slot_mut(3)[fields::CODE] = code;
        match code {
            0 | 200 => refused(&disk, b"", 0, 26, 3),
            255 => refused(&disk, b"", 0, 26, 5),
            1 => refused(&disk, b"", 0, 26, 6),
            7 => lists(&disk, &name(3), &[2, 6, 7]),
            _ => refused(&disk, b"", 0, 27, 2),
        }
    }
}

/// Every byte 254 of a file and of a directory.
#[test]
fn every_place() {
    for parent in 0..=255 {
        let mut disk = disk(0, &NESTED);
        disk.slot_mut(8)[fields::PARENT] = parent;
        match parent {
            0 => lists(&disk, b"", &[1, 4, 5, 3, 2, 6, 7, 8]),
            1 => lists(&disk, &name(6), &[7, 8]),
            7 => lists(&disk, &name(3), &[2, 6, 7, 8]),
            200 => lists(&disk, &name(1), &[8]),
            255 => lists(&disk, &name(5), &[3, 2, 6, 7, 8]),
            _ => refused(&disk, b"", 0, 27, 8),
        }
        disk.slot_mut(8)[fields::PARENT] = 0;
        disk.slot_mut(3)[fields::PARENT] = parent;
        match parent {
            0 => lists(&disk, &name(5), &[]),
            1 | 7 => refused(&disk, b"", 0, 28, 3),
            200 => lists(&disk, &name(1), &[3, 2, 6, 7]),
            255 => lists(&disk, &name(5), &[3, 2, 6, 7]),
            _ => refused(&disk, b"", 0, 27, 3),
        }
    }
}

/// 26 over all slots before 27 and 28; these by the lowest slot, and at a slot 27 first; all before 12 to 20, and after the
/// check. No other call looks at codes.
#[test]
fn in_the_order() {
    let mut disk = disk(0, &NESTED);
    put(&mut disk, 6, 1, 1);
    refused(&disk, b"\0", 0, 28, 6);
    disk.slot_mut(8)[fields::PARENT] = 9;
    refused(&disk, b"not there", 0, 28, 6);
    disk.slot_mut(4)[fields::PARENT] = 9;
    refused(&disk, &name(4), 0, 27, 4);
    put(&mut disk, 5, 255, 7);
    refused(&disk, b"", 0, 28, 3);
    put(&mut disk, 3, 7, 8);
    refused(&disk, b"", 0, 27, 3);
    put(&mut disk, 6, 200, 1);
    refused(&disk, b"", 0, 26, 6);
    put(&mut disk, 5, 0, 0);
    refused(&disk, b"", 0, 26, 5);
    for call in CALLS.into_iter().filter(|call| call.needs_name()) {
        expect(&OwnedRequest::new(call), &disk.image, 12);
    }
    expect(&OwnedRequest::new(Call::Check), &disk.image, 0);
    let file = disk.files[7].chain[0];
    disk.link(file, [9, 9]);
    refused(&disk, b"", 0, 10, 8);
}

/// A directory lies inside itself where the way up comes back to it. One that only hangs from such a ring does not.
#[test]
fn rings() {
    for length in [1, 2, 3, 10, 100, 253] {
        for hanging in [0, 1, 2] {
            let many = length + hanging;
            // Those that hang come first; the first of the ring is around the last of them.
            let parent = |i: usize| if i + 1 == many { hanging } else { i + 1 };
            let slots: Vec<_> = (0..many).map(|i| (Some(i as u8 + 1), parent(i) as u8 + 1)).collect();
            let mut disk = disk(MOST_EXTRA, &slots);
            refused(&disk, b"", 0, 28, hanging + 1);
            // Without the last link all hang from the root.
            put(&mut disk, many, many as u8, 0);
            lists(&disk, b"", &(1..=many).rev().collect::<Vec<_>>());
        }
    }
}

/// As deep as codes go, in either direction, with files in the last directory and every slot taken.
#[test]
fn as_deep_as_codes_go() {
    for falling in [false, true] {
        let code = |depth: usize| if falling { 256 - depth } else { depth } as u8;
        let mut slots: Vec<_> = (1..=255).map(|depth| (Some(code(depth)), code(depth - 1))).collect();
        if falling {
            slots.reverse();
        }
        slots.resize(MOST_SLOTS, (None, code(255)));
        let disk = disk(MOST_EXTRA, &slots);
        let mut all: Vec<usize> = (1..=MOST_SLOTS).collect();
        if falling {
            all[..255].reverse();
        }
        lists(&disk, b"", &all);
        for depth in [1, 2, 128, 254, 255] {
            lists(&disk, &name(all[depth - 1]), &all[depth..]);
        }
        let mut ring = disk.clone();
        ring.slot_mut(all[0])[fields::PARENT] = code(255);
        refused(&ring, b"", 0, 28, 1);
    }
}

/// 255 directories are as many as codes. One more has an earlier one's code, or none.
#[test]
fn as_many_as_codes() {
    let mut slots: Vec<_> = (1..=255).map(|code| (Some(code), 0)).collect();
    lists(&disk(MOST_EXTRA, &slots), b"", &(1..=255).collect::<Vec<_>>());
    for code in 0..=255 {
        slots.push((Some(code), 0));
        refused(&disk(MOST_EXTRA, &slots), b"", 0, 26, 256);
        slots.pop();
    }
}

/// Erased slots and those from the directory's end on are in nothing, and no directory there has a code.
#[test]
fn what_is_not_live() {
    let mut disk = disk(0, &NESTED);
    disk.slot_mut(3)[0] = 0;
    refused(&disk, b"", 0, 27, 2);
    disk.slot_mut(2)[0] = 0;
    refused(&disk, b"", 0, 27, 6);
    disk.slot_mut(6)[fields::NAME] = 0;
    lists(&disk, b"", &[1, 4, 5]);
    lists(&disk, &name(5), &[]);
    // A code behind the end, or of an erased slot, is free.
    put(&mut disk, 5, 7, 0);
    lists(&disk, b"", &[1, 4, 5]);
}

/// 29: a directory that another live slot names, whatever that is; not before 15 and 17, and before 20.
#[test]
fn erases() {
    let erase = |disk: &DrawnDisk, slot: usize, room: usize, number: u8| {
        let asked = OwnedRequest::new(Call::Erase)
            .with(NAME, name(slot))
            .with(OUT, vec![0x5c; room]);
        let left = expect(&asked, &disk.image, number);
        let given = calls::slot(left.answer);
        assert_eq!(given, if matches!(number, 17 | 29) { slot } else { 0 });
        left.image.map(|image| DrawnDisk { image, ..disk.clone() })
    };
    let disk = disk(0, &NESTED);
    for slot in [3, 5, 6] {
        for room in [0, 1, 2, 9] {
            erase(&disk, slot, room, 29);
        }
        let mut protected = disk.clone();
        protected.slot_mut(slot)[0] |= fields::PROTECTED;
        erase(&protected, slot, 0, 17);
    }
    erase(&disk, 1, 1, 20);
    erase(&disk, 9, 2, 15);
    // From the innermost out each becomes empty.
    let mut left = disk.clone();
    for (slot, around) in [(7, 6), (6, 3), (2, 3), (3, 5), (8, 5), (5, 0), (1, 0), (4, 0)] {
        if around != 0 {
            erase(&left, around, 2, 29);
        }
        left = erase(&left, slot, 2, 0).expect("it is erased");
    }
    lists(&left, b"", &[]);
}

/// Every pair of a directory's code and another slot's byte 254, of a file and of a directory: 29 where they are the same and
/// not 0. Its own byte 254 is not another's.
#[test]
fn every_code_of_an_erase() {
    let mut disk = disk(0, &[(None, 0), (Some(1), 0), (Some(2), 0)]);
    let asked = OwnedRequest::new(Call::Erase).with(NAME, name(2)).with(OUT, [0; 2]);
    for code in 0..=255 {
        for parent in [0, 1, 127, 128, 254, 255, code, code ^ 1] {
            for (slot, own) in [(1, 0), (3, 0), (1, code), (3, code)] {
                put(&mut disk, 1, 99, 0);
                put(&mut disk, 3, code, 0);
                put(&mut disk, 2, code, own);
                disk.slot_mut(slot)[fields::PARENT] = parent;
                let held = code != 0 && parent == code;
                expect(&asked, &disk.image, if held { 29 } else { 0 });
            }
        }
    }
}

/// A file's byte 250 is no code: it is erased, whatever is said to be in it.
#[test]
fn a_file_has_no_code() {
    let mut disk = disk(0, &[(None, 0), (Some(1), 0), (None, 1)]);
    put(&mut disk, 1, 5, 0);
    put(&mut disk, 3, 5, 5);
    refused(&disk, b"", 0, 27, 3);
    for slot in [1, 3] {
        expect(
            &OwnedRequest::new(Call::Erase).with(NAME, name(slot)).with(OUT, [0; 2]),
            &disk.image,
            0,
        );
    }
}

/// A save goes to the root, in slot 1 too, whose byte 254 is not the disk's.
#[test]
fn saves_go_to_the_root() {
    let mut disk = disk(0, &NESTED);
    for slot in [1, 3, 9] {
        disk.slot_mut(slot)[fields::PARENT] = 255;
    }
    disk.slot_mut(1)[0] = 0;
    let left = expect(&super::save(vec![7; 10]), &disk.image, 0);
    disk.image = left.image.expect("it is saved");
    lists(&disk, b"", &[1, 4, 5, 3, 2, 6, 7, 8]);
    assert_eq!(Facts::of(&disk.image).live[0].parent, 0);
}
