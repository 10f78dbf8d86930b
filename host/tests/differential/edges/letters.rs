//! Capitals or not: a to z and A to Z are the same letters wherever names are compared, and no other bytes are.

use super::names::{ASKING, asking, named};
use super::{expect, save};
use crate::support::calls::{self, Call, NAME, NEW, OUT};
use crate::support::disks::DrawnDisk;
use crate::support::fields;
use crate::support::geometry::slot_place;
use crate::support::requests::OwnedRequest;

/// The letters at the ends of the alphabet and what stands beside them, each with what stands 32 away; and a byte that is a
/// letter in its low seven bits alone.
const PAIRS: [(u8, u8, bool); 8] = [
    (64, 96, false),
    (65, 97, true),
    (77, 109, true),
    (90, 122, true),
    (91, 123, false),
    (193, 225, false),
    (193, 161, false),
    (65, 193, false),
];

/// A name with this byte at this place.
fn with(byte: u8, at: usize) -> [u8; 10] {
    let mut name = *b"+1234567+9";
    name[at] = byte;
    name
}

/// The places of a file's name bytes in the image.
fn name_of(disk: &mut DrawnDisk, index: usize) -> &mut [u8] {
    let slot = disk.files[index].slot;
    &mut disk.slot_mut(slot)[fields::NAME..fields::COUNT]
}

/// Each pair at each place of a stored name, asked for by every call.
#[test]
fn asked_for_by_every_call() {
    for at in 0..10 {
        for (one, other, same) in PAIRS {
            for (stored, asked) in [(one, other), (other, one)] {
                let disk = named(&with(stored, at));
                for call in ASKING {
                    expect(&asking(call, &with(stored, at)), &disk.image, 0);
                    expect(&asking(call, &with(asked, at)), &disk.image, if same { 0 } else { 15 });
                }
            }
        }
    }
}

/// Every byte stored, and every byte asked for: found where they are equal or a letter's two cases.
#[test]
fn every_byte_against_every_byte() {
    let mut disk = named(&with(0, 5));
    let file = disk
        .files
        .iter()
        .position(|file| file.name == with(0, 5))
        .expect("it is there");
    for stored in 0..=255u8 {
        name_of(&mut disk, file)[5] = stored;
        for asked in [0, 31, 32, 33, 64, 95, 96, 127, 128, 223, 224].map(|by| stored ^ by) {
            let same = stored == asked || stored.is_ascii_alphabetic() && stored ^ asked == 32;
            expect(&asking(Call::Open, &with(asked, 5)), &disk.image, if same { 0 } else { 15 });
        }
    }
}

/// Users type `tunes` for `TUNES`: every call finds it, and what is stored stays as it is.
#[test]
fn tunes() {
    for stored in [b"TUNES     ", b"tunes     ", b"Tunes     "] {
        let disk = named(stored);
        for typed in [&b"tunes"[..], b"TUNES", b"tUnEs  "] {
            for call in ASKING {
                let left = expect(&asking(call, typed), &disk.image, 0);
                let kept = |image: Vec<u8>| {
                    disk.files
                        .iter()
                        .all(|file| image[slot_place(file.slot) + 1..][..10] == file.name)
                };
                assert!(call == Call::Rename || left.image.is_none_or(kept), "{call:?} changed a name");
            }
        }
        for absent in [&b"tune"[..], b"tuness", b"tunes\0", b"+unes"] {
            for call in ASKING {
                expect(&asking(call, absent), &disk.image, 15);
            }
        }
    }
}

/// Two stored names that are the same, capitals or not: refused 9 at the later slot.
#[test]
fn stored_twice() {
    for at in 0..10 {
        for (one, other, same) in PAIRS {
            for (first, second) in [(one, other), (other, one)] {
                let mut disk = named(&with(0x7f, at));
                name_of(&mut disk, 1).copy_from_slice(&with(first, at));
                name_of(&mut disk, 3).copy_from_slice(&with(second, at));
                let answer = expect(&OwnedRequest::new(Call::Check), &disk.image, if same { 9 } else { 0 }).answer;
                assert_eq!(calls::slot(answer), if same { disk.files[3].slot } else { 0 });
            }
        }
    }
}

/// A new name that another file has, capitals or not: 16 with its slot, for a save and for a rename.
#[test]
fn new_names_taken() {
    for (one, other, same) in PAIRS.into_iter().filter(|(one, other, _)| one.max(other) < &127) {
        for (stored, given) in [(one, other), (other, one)] {
            let mut disk = named(b"file      ");
            let taken = disk
                .files
                .iter()
                .position(|file| &file.name != b"file      ")
                .expect("another");
            name_of(&mut disk, taken).copy_from_slice(&with(stored, 4));
            let rename = OwnedRequest::new(Call::Rename).with(NAME, *b"FILE").with(OUT, [0; 2]);
            for asked in [save(vec![7]).with(NAME, with(given, 4)), rename.with(NEW, with(given, 4))] {
                let answer = expect(&asked, &disk.image, if same { 16 } else { 0 }).answer;
                assert_eq!(calls::slot(answer), if same { disk.files[taken].slot } else { 0 });
            }
        }
    }
}

/// A rename of a file to its own name: refused where the ten bytes are the stored ones, accepted where their case differs,
/// however the file is asked for; and the row comes after 15 and before 17 and 20.
#[test]
fn renames_of_case_alone() {
    let mut disk = named(b"My Tunes 1");
    let slot = disk
        .files
        .iter()
        .find(|file| &file.name == b"My Tunes 1")
        .expect("it is there")
        .slot;
    let rename = |name: &[u8], new: &[u8]| {
        OwnedRequest::new(Call::Rename)
            .with(NAME, name)
            .with(NEW, new)
            .with(OUT, [0x5c; 2])
    };
    for name in [b"My Tunes 1", b"my tunes 1", b"MY TUNES 1"] {
        assert_eq!(
            calls::slot(expect(&rename(name, b"My Tunes 1"), &disk.image, 16).answer),
            slot
        );
        for new in [b"my tunes 1", b"MY TUNES 1", b"My tunes 1", b"mY tUNES 1"] {
            let image = expect(&rename(name, new), &disk.image, 0).image.expect("accepted");
            assert_eq!(image[slot_place(slot) + 1..][..10], new[..]);
            // Both spellings find it, and it can be named back.
            for spelled in [&name[..], new, b"MY tunes 1"] {
                expect(&asking(Call::Open, spelled), &image, 0);
            }
            let back = expect(&rename(new, b"My Tunes 1"), &image, 0).image.expect("accepted");
            assert!(back == disk.image, "the rename back restores every byte");
        }
        // Another name is another name, and an absent one is not there.
        expect(&rename(name, b"my tunes 2"), &disk.image, 0);
        expect(&rename(b"my tunes 2", b"my tunes 1"), &disk.image, 15);
    }
    let short = |new: &[u8]| OwnedRequest::new(Call::Rename).with(NAME, *b"my tunes 1").with(NEW, new);
    expect(&short(b"My Tunes 1"), &disk.image, 16);
    expect(&short(b"MY TUNES 1"), &disk.image, 20);
    disk.slot_mut(slot)[0] |= fields::PROTECTED;
    expect(&short(b"My Tunes 1"), &disk.image, 16);
    assert_eq!(calls::slot(expect(&short(b"MY TUNES 1"), &disk.image, 17).answer), slot);
}
