//! Bigger directories (document 02, M-106): every number of directory tracks, the map bits around the directory's own, every slot
//! past the gap, and what a save into slot 1 keeps.

use super::{expect, save};
use crate::support::calls::{self, BODY, CALLS, Call, NAME, NEW, OUT};
use crate::support::disks::{self, DrawnDisk};
use crate::support::fields;
use crate::support::geometry::{
    BITS, EXTRA, IMAGE, SECTOR, SLOT, address, bit_place, data, fills, is_data, number, slot_place, slot_sector, slots,
};
use crate::support::random::Random;
use crate::support::requests::OwnedRequest;
use crate::support::shapes::{Background, Order, Shape};

/// The numbers of tracks beyond four that are tried one by one where all would take long.
const EXTRAS: [usize; 7] = [0, 1, 2, 3, 16, 34, 35];

/// A disk with a file of so many sectors in each of its first slots, the highest bits first, and the end behind them.
fn filled(extra: usize, files: usize, sectors: usize) -> DrawnDisk {
    let shape = Shape {
        extra,
        files: (1..=files).map(|slot| (slot, sectors)).collect(),
        end: Some(files + 1).filter(|&end| end <= slots(extra)),
        order: Order::Falling,
        background: Background::Rubbish,
        tidy: true,
    };
    disks::of_shape(&shape, &mut Random::new((1_000 * extra + files) as u64))
}

/// Every call that checks the disk gives this number at this slot, whatever else it is asked.
fn all_refuse(image: &[u8], number: u8, slot: usize) {
    for call in CALLS.into_iter().filter(|call| !call.is_raw()) {
        assert_eq!(
            calls::slot(expect(&OwnedRequest::new(call), image, number).answer),
            slot,
            "{call:?}"
        );
    }
}

/// How many files are listed and how many sectors are free.
fn listed(image: &[u8], files: usize) -> (usize, usize) {
    let left = expect(&OwnedRequest::new(Call::List).with(OUT, vec![0x5c; 258 * files]), image, 0);
    (calls::value(left.answer), calls::free(left.answer))
}

fn sectors_of(list: &[u8]) -> Vec<usize> {
    let pairs = list.as_chunks().0.iter();
    pairs.map(|pair| u16::from_le_bytes(*pair).into()).collect()
}

/// Every value of the byte, with slot 1 live, erased and unread, and with a worse fault behind it.
#[test]
fn every_number_of_tracks() {
    for (bytes, files) in [([19, b'A'], 1), ([0, b'A'], 0), ([63, 0], 0)] {
        let mut disk = filled(0, 1, 1);
        disk.slot_mut(1)[..2].copy_from_slice(&bytes);
        if files == 1 {
            disk.image[0] = disk.files[0].kind;
        }
        for byte in 0..=255_u8 {
            disk.image[EXTRA] = byte;
            match byte {
                36..=254 => all_refuse(&disk.image, 24, 0),
                _ => {
                    let extra = if byte == 255 { 0 } else { byte.into() };
                    expect(&OwnedRequest::new(Call::Check), &disk.image, 0);
                    assert_eq!(listed(&disk.image, files), (files, data(extra) - files), "{byte}");
                }
            }
        }
    }
}

/// 24 stands after 1 and before every number that a slot gives; the calls that check no directory do not give it.
#[test]
fn where_24_stands() {
    let mut image = filled(0, 3, 2).image;
    image[0] = 13;
    for byte in [36, 128, 254] {
        image[EXTRA] = byte;
        all_refuse(&image, 24, 0);
        expect(&OwnedRequest::new(Call::Check), &image[..IMAGE - 1], 1);
        expect(&OwnedRequest::new(Call::Sector), &image, 1);
        expect(&OwnedRequest::new(Call::Next), &image, 0);
        let added = expect(&OwnedRequest::new(Call::ReportAdd).with(OUT, vec![0; 496]), &image, 0);
        assert_eq!((added.out[4 * 24], added.out[0]), (1, 0), "it is counted by its number");
    }
    image[EXTRA] = 35;
    all_refuse(&image, 2, 1);
}

/// One bit more in a map: refused 5 by the count; with the count raised too, 6 inside the directory and 10 outside, where the
/// chain does not reach it.
#[test]
fn bits_around_the_directory() {
    for extra in EXTRAS {
        let disk = filled(extra, 3, 2);
        let own = 10 * extra;
        let near = [0, 1, 2, 8, 9, 10, 11, own.saturating_sub(1), own, own + 1, 760];
        for bit in near.into_iter().chain([own / 2]) {
            let mut disk = disk.clone();
            fields::set_bit(disk.slot_mut(2), bit, true);
            all_refuse(&disk.image, 5, 2);
            fields::set_count(disk.slot_mut(2), 3);
            if is_data(bit, extra) {
                expect(&OwnedRequest::new(Call::Check), &disk.image, 10);
            } else {
                all_refuse(&disk.image, 6, 2);
            }
        }
    }
}

/// A file of one sector at each bit around the directory: accepted outside, track 4 sector 1 among them, and refused 6 inside.
#[test]
fn files_around_the_directory() {
    for extra in EXTRAS {
        let own = 10 * extra;
        for bit in [0, 1, 9, own.saturating_sub(1), own, own + 1] {
            let mut disk = filled(extra, 2, 1);
            let (from, bytes) = (disk.files[1].chain[0], disk.first(&disk.files[1]).to_vec());
            let slot = disk.slot_mut(2);
            fields::set_bit(slot, from, false);
            fields::set_bit(slot, bit, true);
            slot[fields::FIRST..fields::MAP].copy_from_slice(&address(bit));
            if is_data(bit, extra) {
                disk.image[bit_place(bit)..][..SECTOR].copy_from_slice(&bytes);
                assert_eq!(listed(&disk.image, 2), (2, data(extra) - 2), "bit {bit}, n {extra}");
            } else {
                all_refuse(&disk.image, 6, 2);
            }
        }
    }
}

/// The count is at most the number of data sectors.
#[test]
fn counts_at_the_number_of_data_sectors() {
    for extra in 0..=35 {
        let mut disk = filled(extra, 2, 1);
        for count in [data(extra) - 1, data(extra), data(extra) + 1, BITS, BITS + 1] {
            fields::set_count(disk.slot_mut(2), count);
            let number = if count <= data(extra) { 5 } else { 4 };
            let answer = expect(&OwnedRequest::new(Call::Check), &disk.image, number).answer;
            assert_eq!(calls::slot(answer), 2);
        }
    }
}

/// A save takes bit 0 and then goes on behind the directory; all data sectors fit, and a byte more does not.
#[test]
fn saves_take_data_sectors_alone() {
    for extra in 0..=35 {
        let disk = filled(extra, 0, 0);
        let left = expect(&save(vec![7; fills(4)]), &disk.image, 0);
        let next = if extra == 0 { 1 } else { 10 * extra };
        let bits = [0, next, next + 1, next + 2].map(|bit| number(bit_place(bit)));
        assert_eq!(sectors_of(&left.out)[..4], bits, "n {extra}");
        expect(&save(vec![7; fills(data(extra)) + 1]), &disk.image, 19);
        let image = expect(&save(vec![7; fills(data(extra))]), &disk.image, 0)
            .image
            .expect("accepted");
        assert_eq!(listed(&image, 1), (1, 0));
        for slot in 2..=slots(extra) {
            let bytes = slot_place(slot)..slot_place(slot) + SLOT;
            let kept = if slot == 2 { 2 } else { 0 };
            assert!(
                image[bytes.clone()][kept..] == disk.image[bytes][kept..],
                "slot {slot} is changed"
            );
        }
    }
}

/// The slots around the gap, around a track's edge and the last: each is read, refused, erased and taken by a save.
#[test]
fn slots_past_the_gap() {
    for extra in [1, 2, 35] {
        let full = filled(extra, slots(extra), 1);
        expect(&save(vec![7; 10]), &full.image, 18);
        let tried = [1, 79, 80, 81, 82, 97, 98, 99, 100, 118, 119, 777, 778];
        for slot in tried.into_iter().filter(|&slot| slot <= slots(extra)) {
            let mut disk = full.clone();
            disk.slot_mut(slot)[0] = 13;
            all_refuse(&disk.image, 2, slot);
            let twin = disk.files[if slot == 1 { 1 } else { 0 }].name;
            disk.slot_mut(slot)[0] = 5;
            disk.slot_mut(slot)[fields::NAME..fields::COUNT].copy_from_slice(&twin);
            all_refuse(&disk.image, 9, slot.max(2));
            taken(&full, slot);
            ended(&full, slot);
        }
    }
}

/// The slot erased: its file is gone, and a save takes the slot and the file's sector.
fn taken(full: &DrawnDisk, slot: usize) {
    let (name, files) = (full.files[slot - 1].name, full.files.len());
    let mut disk = full.clone();
    disk.slot_mut(slot)[0] &= !fields::PROTECTED;
    let erase = OwnedRequest::new(Call::Erase).with(NAME, name).with(OUT, [0x5c; 2]);
    let left = expect(&erase, &disk.image, 0);
    assert_eq!(sectors_of(&left.out), [slot_sector(slot)]);
    let erased = left.image.expect("accepted");
    assert_eq!(listed(&erased, files), (files - 1, full.free() + 1));
    expect(&OwnedRequest::new(Call::Start).with(NAME, name), &erased, 15);
    let left = expect(&save(vec![7; 10]), &erased, 0);
    assert_eq!(sectors_of(&left.out)[1], slot_sector(slot));
    let image = left.image.expect("accepted");
    assert_eq!(&image[slot_place(slot)..][..4], b"\x13new");
    let rename = OwnedRequest::new(Call::Rename).with(NAME, *b"NEW").with(NEW, *b"newer");
    let left = expect(&rename.with(OUT, [0x5c; 2]), &image, 0);
    assert_eq!(sectors_of(&left.out), [slot_sector(slot)]);
}

/// The slot without a name: the directory ends there, and a save clears the old name in the next, across the gap too.
fn ended(full: &DrawnDisk, slot: usize) {
    let mut disk = full.clone();
    disk.slot_mut(slot)[fields::NAME] = 0;
    assert_eq!(listed(&disk.image, slot - 1).0, slot - 1);
    let left = expect(&save(vec![7; 10]), &disk.image, 0);
    let mut directory = vec![slot_sector(slot)];
    if slot < disk.slots() && slot.is_multiple_of(2) {
        directory.insert(0, slot_sector(slot + 1));
    }
    assert_eq!(calls::value(left.answer), 1 + directory.len());
    assert_eq!(sectors_of(&left.out)[1..1 + directory.len()], directory);
    let image = left.image.expect("accepted");
    assert_eq!(listed(&image, slot).0, slot);
    if slot < disk.slots() {
        assert_eq!(image[slot_place(slot + 1)..][..2], [0, 0]);
    }
}

/// The longest listing: 778 files, and a buffer of 200,724 bytes.
#[test]
fn the_longest_listing() {
    let disk = filled(35, 778, 1);
    for (length, number) in [(0, 20), (80 * 258, 20), (200_723, 20), (200_724, 0), (200_725, 0)] {
        let left = expect(
            &OwnedRequest::new(Call::List).with(OUT, vec![0x5c; length]),
            &disk.image,
            number,
        );
        if number == 0 {
            assert_eq!((calls::value(left.answer), calls::free(left.answer)), (778, 1_211 - 778));
            assert_eq!(left.out[777 * 258..][..2], [10, 3]);
            assert!(left.out[777 * 258 + 2..][..SLOT] == *disk.slot(778));
        }
    }
}

/// Each byte of slot 1 that a save keeps or writes, where it was erased or unread; a save into another slot keeps nothing.
#[test]
fn a_save_into_slot_1_keeps_what_is_the_disks() {
    for extra in [0, 1, 35] {
        for (status, named) in [(0, b'A'), (0, 0), (255, 0)] {
            let mut old = filled(extra, 0, 0);
            old.slot_mut(1)[..2].copy_from_slice(&[status, named]);
            for slot in 2..=old.slots() {
                old.slot_mut(slot)[..2].copy_from_slice(&[0, 0]);
            }
            let clean = expect(&save(vec![7; 10]), &blank(extra), 0).image.expect("accepted");
            let image = expect(&save(vec![7; 10]), &old.image, 0).image.expect("accepted");
            let kept = |at: &usize| fields::KEPT.iter().any(|part| part.contains(at));
            for at in 0..SLOT {
                let expected = if kept(&at) { old.image[at] } else { clean[at] };
                assert_eq!(image[at], expected, "byte {at}, n {extra}");
            }
            let second = save(vec![7; 10]).with(NAME, *b"second").with(BODY, [8; 20]);
            let image = expect(&second, &image, 0).image.expect("accepted");
            assert!((0..SLOT).filter(kept).all(|at| image[SLOT + at] == 0), "slot 2 keeps nothing");
        }
    }
}

/// A disk of zeros with so many directory tracks beyond four.
fn blank(extra: usize) -> Vec<u8> {
    let mut image = vec![0; IMAGE];
    image[EXTRA] = extra as u8;
    image
}
