//! Names asked for and new names: their lengths, their bytes at each place, their spellings, capitals or not.

use super::{disk, expect, save};
use crate::support::calls::{self, CHANGES, Call, NAME, NEW, OUT};
use crate::support::disks::DrawnDisk;
use crate::support::fields;
use crate::support::requests::OwnedRequest;

/// The calls that ask for a name that is there.
pub const ASKING: [Call; 9] = [
    Call::Read,
    Call::Open,
    Call::Start,
    Call::Erase,
    Call::Rename,
    Call::Hide,
    Call::Show,
    Call::Protect,
    Call::Release,
];

/// A disk with four short files; the first is carried, not protected, starts inside the range and has this name.
pub fn named(name: &[u8; 10]) -> DrawnDisk {
    let mut disk = disk(11, 4, 9);
    let file = disk
        .files
        .iter_mut()
        .find(|file| fields::is_carried(file.kind))
        .expect("the seed gives a carried file");
    file.name = *name;
    let slot = file.slot;
    let bytes = disk.slot_mut(slot);
    bytes[0] &= !fields::PROTECTED;
    bytes[fields::NAME..fields::COUNT].copy_from_slice(name);
    bytes[fields::OFFSET..fields::PAGES].copy_from_slice(&32_768_u16.to_le_bytes());
    disk
}

/// One request of this call for a name, with all else such that the name decides.
pub fn asking(call: Call, name: &[u8]) -> OwnedRequest {
    let asked = OwnedRequest::new(call).with(NAME, name);
    match call {
        Call::Open | Call::Start => asked,
        Call::Read => asked.with(OUT, vec![0x5c; 6_000]),
        Call::Rename => asked.with(NEW, *b"other").with(OUT, vec![0x5c; 2]),
        _ => asked.with(OUT, vec![0x5c; 2]),
    }
}

fn asked_for(disk: &DrawnDisk, name: &[u8], number: u8) {
    for call in ASKING {
        expect(&asking(call, name), &disk.image, number);
    }
}

#[test]
fn names_asked_for() {
    let disk = named(b"AB c      ");
    for length in 4..=10 {
        asked_for(&disk, &b"AB c      "[..length], 0);
    }
    for spelled in [&b"ab c"[..], b"AB C", b"aB c ", b"Ab C      "] {
        asked_for(&disk, spelled, 0);
    }
    for absent in [
        &b"A"[..],
        b"AB",
        b"AB ",
        b" AB c",
        b"AB c     x",
        b"AB c\0",
        b"AB c     \0",
        b"AB c\0\0\0\0\0\0",
    ] {
        asked_for(&disk, absent, 15);
    }
    for unusable in [
        &b""[..],
        b"\0",
        b"\0B c",
        b"\0\0\0\0\0\0\0\0\0\0",
        b"AB c       ",
        b"AB c      \0",
        b"AB c       x",
        &[65; 500],
    ] {
        asked_for(&disk, unusable, 12);
    }
}

/// Any ten bytes are found if the first is not 0, also those that no new name may have.
#[test]
fn names_of_any_bytes() {
    for name in [
        b"          ",
        b"\x01\0\0\0\0\0\0\0\0\0",
        b"\xff\xff\xff\xff\xff\xff\xff\xff\xff\xff",
        b" a\x7f\x80\x1f\0\n\r\t ",
    ] {
        let disk = named(name);
        asked_for(&disk, name, 0);
        let mut nearly = *name;
        nearly[9] ^= 1;
        asked_for(&disk, &nearly, 15);
    }
    asked_for(&named(b"          "), b" ", 0);
}

/// A new name of this call, on a disk that has the name `old`.
fn new(call: Call, name: &[u8]) -> OwnedRequest {
    match call {
        Call::Save => save(vec![7; 10]).with(NAME, name),
        _ => OwnedRequest::new(call)
            .with(NAME, *b"old")
            .with(NEW, name)
            .with(OUT, vec![0x5c; 2]),
    }
}

/// Each byte at each place of a name of each length.
#[test]
fn bytes_of_new_names() {
    let disk = named(b"old       ");
    for length in 1..=10 {
        for at in 0..length {
            for byte in [0, 1, 31, 32, 33, 125, 126, 127, 128, 255] {
                let mut name = vec![b'n'; length];
                name[at] = byte;
                let usable = (32..=126).contains(&byte) && !(at == 0 && byte == 32);
                for call in [Call::Save, Call::Rename] {
                    expect(&new(call, &name), &disk.image, if usable { 0 } else { 12 });
                }
            }
        }
    }
}

#[test]
fn lengths_of_new_names() {
    let disk = named(b"old       ");
    for length in 0..=13 {
        for call in [Call::Save, Call::Rename] {
            expect(
                &new(call, &vec![b'n'; length]),
                &disk.image,
                if (1..=10).contains(&length) { 0 } else { 12 },
            );
        }
    }
}

/// A live slot has the new name, in whatever spelling: 16 with that slot. One byte else, and it is another name.
#[test]
fn new_names_that_are_there() {
    let disk = named(b"old       ");
    let slot = disk
        .files
        .iter()
        .find(|file| &file.name == b"old       ")
        .expect("it is there")
        .slot;
    for call in [Call::Save, Call::Rename] {
        for name in [&b"old"[..], b"old ", b"old       "] {
            assert_eq!(calls::slot(expect(&new(call, name), &disk.image, 16).answer), slot);
        }
        for name in [&b"old      x"[..], b"ol"] {
            expect(&new(call, name), &disk.image, 0);
        }
        // With other capitals a save finds it taken, and a rename of the file itself is accepted.
        for name in [&b"Old"[..], b"olD", b"OLD       "] {
            let left = expect(&new(call, name), &disk.image, if call == Call::Save { 16 } else { 0 });
            assert_eq!(calls::slot(left.answer), if call == Call::Save { slot } else { 0 });
        }
    }
}

/// Erase and rename refuse a protected file (17, with its slot); the other changes do not.
#[test]
fn protected_files() {
    let mut disk = named(b"old       ");
    let slot = disk
        .files
        .iter()
        .find(|file| &file.name == b"old       ")
        .expect("it is there")
        .slot;
    disk.slot_mut(slot)[0] |= fields::PROTECTED;
    for call in CHANGES.into_iter().skip(1) {
        let refused = matches!(call, Call::Erase | Call::Rename);
        let left = expect(&asking(call, b"old"), &disk.image, if refused { 17 } else { 0 });
        assert_eq!(calls::slot(left.answer), if refused { slot } else { 0 });
    }
}
