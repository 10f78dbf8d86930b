//! Where the directory ends (document 02, M-103): each end beside each fault behind it, and saves into the end.

use super::{expect, release, save};
use crate::support::calls::{self, CALLS, Call, NAME, OUT};
use crate::support::disks::{self, DrawnDisk};
use crate::support::fields;
use crate::support::geometry::{BITS, EXTRA, SECTOR, SLOT, SLOTS, fills, slot_place, slot_sector};
use crate::support::random::Random;
use crate::support::requests::OwnedRequest;
use crate::support::shapes::{Background, Order, Shape};

/// The first slot, those around the edge of a sector, those around the edge of each track, and the last.
const ENDS: [usize; 12] = [1, 2, 3, 4, 19, 20, 21, 22, 41, 60, 79, 80];

/// What the end's byte 0 may be: it counts for nothing there.
const BYTES_0: [u8; 4] = [0, 19, 63, 255];

/// A disk whose slots up to this one all have files of two sectors, none of them waste, and no end; the last is carried.
fn full_to(last: usize) -> DrawnDisk {
    let fits = |disk: &DrawnDisk| fields::is_carried(disk.files[last - 1].kind);
    let drawn = (0..).map(|seed| {
        let shape = Shape {
            extra: 0,
            files: (1..=last).map(|slot| (slot, 2)).collect(),
            end: None,
            order: Order::Scattered,
            background: Background::Rubbish,
            tidy: true,
        };
        disks::of_shape(&shape, &mut Random::new(700 + seed))
    });
    { drawn }.find(fits).expect("one is drawn")
}

/// Every number that a slot can give, with what brings it about in the last file of a disk, beside the file before it.
fn spoil(disk: &mut DrawnDisk, number: u8) {
    let [twin, faulty] = disk.files.last_chunk().expect("two files").clone();
    let like = disk.slot(twin.slot).to_vec();
    let slot = disk.slot_mut(faulty.slot);
    match number {
        2 => slot[0] = 13,
        4 => fields::set_count(slot, BITS + 1),
        5 => fields::set_count(slot, 3),
        6 => slot[fields::FIRST] = 3,
        7 => slot[fields::PAGES] = 255,
        8 => slot[fields::COUNT..fields::INFO].copy_from_slice(&like[fields::COUNT..fields::INFO]),
        9 => slot[fields::NAME..fields::COUNT].copy_from_slice(&like[fields::NAME..fields::COUNT]),
        10 => disk.link(faulty.chain[1], [4, 1]),
        22 => release::set_length(disk, disk.files.len() - 1, 501),
        25 => {
            slot[0] = 4;
            disk.sector_mut(faulty.chain[0])[1..3].fill(255);
        }
        _ => disk.sector_mut(faulty.chain[0])[0] ^= 1,
    }
}

/// The fault is there: where the slot before it is only erased, every call that checks the disk refuses it. Where that slot
/// has no name, none does, and the files before it are all that is listed.
#[test]
fn faults_behind_the_end() {
    for end in ENDS.into_iter().filter(|&end| end < SLOTS) {
        let faulty = (end + 2).min(SLOTS);
        let drawn = full_to(faulty);
        for number in [2, 4, 5, 6, 7, 8, 9, 10, 11, 22, 25] {
            let mut disk = drawn.clone();
            spoil(&mut disk, number);
            disk.slot_mut(end)[0] = 0;
            // The last slot has no file between it and the end that it could be like.
            if faulty == end + 2 || !matches!(number, 8 | 9) {
                let refuses = |call: &Call| !call.is_raw() && (number != 22 || *call == Call::CheckRelease);
                for call in CALLS.into_iter().filter(refuses) {
                    assert_eq!(
                        calls::slot(expect(&OwnedRequest::new(call), &disk.image, number).answer),
                        faulty
                    );
                }
            }
            for byte_0 in BYTES_0 {
                disk.slot_mut(end)[..2].copy_from_slice(&[byte_0, 0]);
                ends_at(&disk, end);
            }
        }
    }
}

/// No call refuses the disk; the listing has the files before this slot and nothing else; a name that stands behind it is not
/// found.
fn ends_at(disk: &DrawnDisk, end: usize) {
    expect(&OwnedRequest::new(Call::Check), &disk.image, 0);
    expect(&OwnedRequest::new(Call::CheckRelease), &disk.image, 0);
    for call in CALLS.into_iter().filter(|call| call.needs_name()) {
        expect(&OwnedRequest::new(call), &disk.image, 12);
    }
    let files = end - 1;
    let left = expect(
        &OwnedRequest::new(Call::List).with(OUT, vec![0x5c; 258 * files]),
        &disk.image,
        0,
    );
    assert_eq!(
        (calls::value(left.answer), calls::free(left.answer)),
        (files, BITS - 2 * files)
    );
    let behind = disk.files.iter().filter(|file| file.slot >= end);
    for name in behind.map(|file| file.name).filter(|name| name[0] != 0) {
        if disk.files[..files].iter().all(|file| file.name != name) {
            expect(&OwnedRequest::new(Call::Start).with(NAME, name), &disk.image, 15);
        }
    }
}

/// Nothing but rubbish from the end on, in every slot there is.
#[test]
fn rubbish_from_the_end_on() {
    for end in 1..=SLOTS {
        let mut disk = full_to(end);
        for slot in end..=SLOTS {
            disk.slot_mut(slot).fill(99);
        }
        disk.slot_mut(end)[fields::NAME] = 0;
        disk.image[EXTRA] = 255;
        ends_at(&disk, end);
    }
}

/// What stands in the slot behind the end.
#[derive(Clone, Copy, PartialEq)]
enum Next {
    /// A live slot's byte 0 and a name.
    LiveSlot,
    /// A name behind a byte 0 that is 0 already.
    Erased,
    /// No name: the directory ends there too.
    Nameless,
}

/// A disk with files before the end and old bytes from it on.
fn ending(end: usize, byte_0: u8, next: Next) -> DrawnDisk {
    let mut disk = full_to(end);
    disk.files.truncate(end - 1);
    for slot in end..=SLOTS {
        disk.slot_mut(slot).fill(0x77);
    }
    disk.slot_mut(end)[..2].copy_from_slice(&[byte_0, 0]);
    disk.image[EXTRA] = 255;
    if end < SLOTS {
        let bytes = match next {
            Next::LiveSlot => [19, b'X'],
            Next::Erased => [0, b'X'],
            Next::Nameless => [19, 0],
        };
        disk.slot_mut(end + 1)[..2].copy_from_slice(&bytes);
    }
    disk
}

/// A save into the end: the next slot's bytes 0 and 1 are cleared where it has a name, and nothing else beside the slot and its
/// sectors changes; that sector is named between the data and the slot's, once if it is the same.
#[test]
fn saves_into_the_end() {
    for end in ENDS {
        for next in [Next::LiveSlot, Next::Erased, Next::Nameless] {
            for byte_0 in BYTES_0 {
                let disk = ending(end, byte_0, next);
                let cleared = (end < SLOTS && next != Next::Nameless).then_some(end + 1);
                let other = cleared.map(slot_sector).filter(|&sector| sector != slot_sector(end));
                let directory: Vec<usize> = other.into_iter().chain([slot_sector(end)]).collect();
                let need = 2 * (3 + directory.len());
                let asked = save(vec![7; fills(3)]);
                for short in [1, 2] {
                    expect(&save(vec![7; fills(3)]).with(OUT, vec![0x5c; need - short]), &disk.image, 20);
                }
                let left = expect(&asked.with(OUT, vec![0x5c; need + 1]), &disk.image, 0);
                let named: Vec<usize> = left.out[..need]
                    .chunks(2)
                    .map(|pair| usize::from(pair[0]) + 256 * usize::from(pair[1]))
                    .collect();
                assert_eq!((named[3..].to_vec(), left.out[need]), (directory, 0x5c), "end {end}");
                let image = left.image.expect("accepted");
                only_these_change(&disk, &image, end, cleared, &named[..3]);
                let listing = OwnedRequest::new(Call::List).with(OUT, vec![0; 258 * end]);
                assert_eq!(calls::value(expect(&listing, &image, 0).answer), end);
            }
        }
    }
}

/// The saved slot, two bytes of the next, and the data sectors named.
fn only_these_change(disk: &DrawnDisk, image: &[u8], slot: usize, cleared: Option<usize>, data: &[usize]) {
    let mut expected = disk.image.clone();
    let mut copy = |from: usize, length: usize| expected[from..from + length].copy_from_slice(&image[from..from + length]);
    copy(slot_place(slot), SLOT);
    data.iter().for_each(|sector| copy(sector * SECTOR, SECTOR));
    if let Some(next) = cleared {
        expected[slot_place(next)..][..2].fill(0);
    }
    assert!(image == expected, "slot {slot}: other bytes change");
}

/// An erased slot before the end is taken first, and no slot behind it is cleared, not even the end.
#[test]
fn saves_into_erased_slots_before_the_end() {
    for end in ENDS.into_iter().filter(|&end| end > 1) {
        for erased in [1, end / 2, end - 1].into_iter().filter(|&slot| slot > 0) {
            let mut disk = ending(end, 63, Next::LiveSlot);
            disk.slot_mut(erased)[0] = 0;
            let left = expect(&save(vec![7; 10]).with(OUT, [0x5c; 4]), &disk.image, 0);
            assert_eq!(calls::value(left.answer), 2);
            let image = left.image.expect("accepted");
            let data = usize::from(left.out[0]) + 256 * usize::from(left.out[1]);
            only_these_change(&disk, &image, erased, None, &[data]);
        }
    }
}

/// 18 is given where no slot is erased and none ends the directory; with either it is not, and the slot is taken.
#[test]
fn no_slot_is_left() {
    let disk = full_to(SLOTS);
    expect(&save(vec![7; 10]), &disk.image, 18);
    for slot in ENDS {
        for bytes in [[0, b'X'], [0, 0], [19, 0], [255, 0]] {
            let mut free = disk.clone();
            free.slot_mut(slot)[..2].copy_from_slice(&bytes);
            let image = expect(&save(vec![7; 10]), &free.image, 0).image.expect("accepted");
            assert_eq!(&image[slot_place(slot)..][..4], b"\x13new", "slot {slot}");
        }
    }
}

/// Rows that hold together with an end: 18 never, 19 and 20 as ever.
#[test]
fn an_end_with_no_room() {
    let mut disk = ending(2, 19, Next::LiveSlot);
    expect(&save(vec![7; fills(BITS)]), &disk.image, 19);
    expect(&save(vec![7; fills(BITS - 2) + 1]), &disk.image, 19);
    let most = || save(vec![7; fills(BITS - 2)]);
    let need = 2 * (BITS - 2 + 2);
    expect(&most().with(OUT, vec![0x5c; need - 1]), &disk.image, 20);
    expect(&most().with(OUT, vec![0x5c; need]), &disk.image, 0);
    // The name that stands behind the end is not taken.
    disk.slot_mut(3)[fields::NAME..fields::COUNT].copy_from_slice(b"new       ");
    expect(&save(vec![7; 10]), &disk.image, 0);
}
