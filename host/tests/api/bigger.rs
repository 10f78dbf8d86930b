//! Bigger directories and the disk's name: the types say what the library does.
use super::*;
use varnucht::{Directory, Refusal, calls};

/// Where slot 1 says what is about the disk: its name, its random word, the directory tracks beyond four.
const DISKS: [std::ops::RangeInclusive<usize>; 3] = [210..=219, 252..=253, 255..=255];

/// For every byte there is, the type and the library draw the line at the same place, and count alike.
#[test]
fn every_number_of_tracks() {
    let mut image = Image::blank();
    for byte in 0..=255 {
        image.as_bytes_mut()[255] = byte;
        let listed = calls::list(image.as_bytes(), &mut []).decode();
        let Ok(directory) = image.directory() else {
            assert_eq!(listed.unwrap_err(), Refused::from(Refusal::DirectoryTracks), "{byte}");
            assert_eq!(image.directory(), Err(Refusal::DirectoryTracks.into()));
            assert_eq!(parts(image.check().unwrap_err()).0, 24);
            continue;
        };
        assert_eq!(directory.tracks(), if byte == 255 { 4 } else { 4 + byte });
        assert_eq!(usize::from(listed.unwrap().free), directory.data_sectors(), "{byte}");
        let disk = Disk::open(image.clone()).expect("it has no file");
        assert_eq!((disk.directory(), disk.listing().directory()), (directory, directory));
        assert_eq!(disk.listing().free_slots(), directory.slots());
        let room = 510 * directory.data_sectors() - 9;
        assert_eq!(disk.listing().room(), Some(room as u32));
        if byte != 255 {
            assert!(image == Image::blank_with(directory), "{byte}");
        }
    }
    assert!(Image::blank_with(Directory::default()) == Image::blank());
    let made = (0..=300).filter_map(Directory::new).map(Directory::tracks);
    assert!(made.eq(4..=39));
    assert_eq!((Directory::new(256 + 4), Directory::new(u32::MAX)), (None, None));
}

/// Saves fill every slot and take every data sector; a sector is the directory's or can be a file's.
#[test]
fn every_slot_and_every_sector() {
    for tracks in [4, 5, 6, 39] {
        let directory = Directory::new(tracks).unwrap();
        let mut disk = Disk::open(Image::blank_with(directory)).unwrap();
        let (mut data, mut slots) = (Vec::new(), Vec::new());
        for number in 1..directory.slots() {
            let sectors = save(&mut disk, &code(&format!("F{number}"), b""));
            assert_eq!(sectors.len(), 2);
            data.push(sectors[0]);
            slots.push(sectors[1]);
        }
        let room = disk.listing().room().unwrap();
        let sectors = save(&mut disk, &code("LAST", &body(room as usize)));
        data.extend(&sectors[..sectors.len() - 1]);
        slots.push(sectors[sectors.len() - 1]);
        assert_eq!(
            (disk.listing().free(), disk.listing().free_slots(), disk.listing().room()),
            (0, 0, None)
        );
        assert_eq!(
            usize::from(disk.listing().entries().last().unwrap().slot().number()),
            directory.slots()
        );
        assert!(data.len() == directory.data_sectors() && data.iter().all(|sector| !directory.holds(*sector)));
        assert!(slots.iter().all(|sector| directory.holds(*sector)));
        slots.dedup();
        assert_eq!(slots.len(), directory.sectors());
        assert_eq!(parts(disk.save(&code("MORE", b"")).unwrap_err()).0, 18);
        let entries = disk.listing().entries();
        assert!(entries.iter().zip(1..).all(|(entry, slot)| entry.slot().number() == slot));
    }
}

/// No change alters what slot 1 says of the disk, whatever it does to slot 1.
#[test]
fn changes_keep_what_is_the_disks() {
    let mut image = Image::blank_with(Directory::new(20).unwrap());
    let bytes = image.as_bytes_mut();
    bytes[..210].fill(7);
    bytes[1] = 0;
    bytes[210..220].copy_from_slice(b"\xcdAGAZINE 7");
    bytes[220..255].fill(9);
    let kept: Vec<u8> = DISKS.into_iter().flatten().map(|at| bytes[at]).collect();
    let mut disk = Disk::open(image).unwrap();
    let same = |disk: &Disk| {
        let bytes = disk.image().as_bytes();
        assert!(DISKS.into_iter().flatten().map(|at| bytes[at]).eq(kept.iter().copied()));
        assert_eq!(disk.name().unwrap().as_bytes(), b"MAGAZINE 7");
        assert_eq!(disk.directory().tracks(), 20);
    };
    same(&disk);
    for _ in 0..2 {
        save(&mut disk, &code("ONE", &body(900)));
        assert_eq!(disk.listing().entries()[0].slot().number(), 1);
        assert_eq!(disk.image().as_bytes()[220], 0, "what is not the disk's is written anew");
        same(&disk);
        drop(disk.rename(&name("ONE"), &NewName::new("TWO").unwrap()).unwrap());
        drop(disk.hide(&name("TWO")).unwrap());
        same(&disk);
        drop(disk.erase(&name("TWO")).unwrap());
        same(&disk);
    }
}

#[test]
fn names_of_disks() {
    let named = |stored: &[u8; 10]| {
        let mut image = Image::blank();
        image.as_bytes_mut()[210..220].copy_from_slice(stored);
        let name = image.name();
        assert_eq!(Disk::open(image).unwrap().name(), name);
        name.map(|name| (name.as_bytes().to_vec(), name.to_string()))
    };
    let some = |bytes: &[u8], text: &str| Some((bytes.to_vec(), text.to_string()));
    assert_eq!(named(b"MY TUNES  "), some(b"MY TUNES", "MY TUNES"));
    assert_eq!(named(b"\xcdY TUNES  "), some(b"MY TUNES", "MY TUNES"));
    assert_eq!(named(b"ABCDEFGHIJ"), some(b"ABCDEFGHIJ", "ABCDEFGHIJ"));
    assert_eq!(named(b"A\x00B\xff  \x00 \x00 "), some(b"A\x00B\xff", r"A\x00B\xff"));
    assert_eq!(named(b"\xa0B        "), some(b" B", r"\x20B"));
    assert_eq!(named(b"*         "), some(b"*", "*"));
    for none in [
        b"\x00BCDEFGHIJ",
        b"\x80BCDEFGHIJ",
        &[255; 10],
        b"\x7f         ",
        &[32; 10],
        &[0; 10],
    ] {
        assert_eq!(named(none), None);
    }
}
