//! The check before a release: a count at the least that the length needs and above it, by kind, and its place in the order.

use super::expect;
use crate::support::calls::{self, CALLS, Call, NAME, OUT};
use crate::support::disks::{DrawnDisk, DrawnFile};
use crate::support::facts::Facts;
use crate::support::fields;
use crate::support::geometry::{fills, sectors_for};
use crate::support::recordings::{self, Recording};
use crate::support::reports;
use crate::support::requests::OwnedRequest;
use crate::support::waste;

/// A disk with three files of five sectors each, all carried, which their bodies need.
fn disk() -> DrawnDisk {
    let fits = |file: &DrawnFile| fields::is_carried(file.kind) && file.chain.len() == 5;
    let tidy = |disk: &DrawnDisk| disk.files.iter().all(fits) && waste::lowest(&disk.image).is_none();
    (40..).map(|seed| super::disk(seed, 3, 15)).find(tidy).expect("one is found")
}

/// What the two checks give, each with a slot, and that the second is what follows from the first.
fn given(disk: &DrawnDisk, check: (u8, usize), release: (u8, usize)) {
    for (call, (number, slot)) in [(Call::Check, check), (Call::CheckRelease, release)] {
        let answer = expect(&OwnedRequest::new(call), &disk.image, number).answer;
        assert_eq!(calls::slot(answer), slot, "{call:?} gives {number}");
    }
    let first = u64::from(check.0) | (check.1 as u64) << 8;
    assert_eq!(
        waste::release(first, &disk.image),
        u64::from(release.0) | (release.1 as u64) << 8
    );
}

/// The length of a file, in its slot and in its header.
pub fn set_length(disk: &mut DrawnDisk, index: usize, length: usize) {
    let (slot, first) = (disk.files[index].slot, disk.files[index].chain[0]);
    let (pages, remainder) = ((length / 16_384) as u8, fields::remainder(length, 0xc0));
    let bytes = disk.slot_mut(slot);
    bytes[fields::PAGES] = pages;
    bytes[fields::REMAINDER..fields::EXEC].copy_from_slice(&remainder);
    let header = disk.sector_mut(first);
    header[fields::HEADER_PAGES] = pages;
    header[fields::HEADER_REMAINDER..fields::HEADER_OFFSET].copy_from_slice(&remainder);
}

const FINE: (u8, usize) = (0, 0);

/// Every length that five sectors hold: the last 510 of them need all five.
#[test]
fn every_length() {
    let mut disk = disk();
    let slot = disk.files[1].slot;
    for length in 0..=fills(5) + 1 {
        set_length(&mut disk, 1, length);
        match sectors_for(length) {
            0..=4 => given(&disk, FINE, (22, slot)),
            5 => given(&disk, FINE, FINE),
            _ => given(&disk, (7, slot), (7, slot)),
        }
    }
}

/// The least count and one above it, for files of one sector to all, and with pages in the length.
#[test]
fn least_counts_and_one_above() {
    for sectors in [1, 2, 3, 33, 34, 256, 1_559, 1_560] {
        let disk = (0..)
            .map(|seed| super::disk(seed, 1, sectors))
            .find(|disk| fields::is_carried(disk.files[0].kind));
        let mut disk = disk.expect("one is found");
        let slot = disk.files[0].slot;
        set_length(&mut disk, 0, fills(sectors));
        given(&disk, FINE, FINE);
        let least = if sectors == 1 { 0 } else { fills(sectors - 1) + 1 };
        set_length(&mut disk, 0, least);
        given(&disk, FINE, FINE);
        if sectors > 1 {
            set_length(&mut disk, 0, least - 1);
            given(&disk, FINE, (22, slot));
            set_length(&mut disk, 0, 0);
            given(&disk, FINE, (22, slot));
        }
    }
}

/// A kind that is not carried has no waste, those of the Spectrum neither. A carried one has, hidden or protected too.
#[test]
fn by_kind() {
    let mut disk = disk();
    let (slot, first) = (disk.files[1].slot, disk.files[1].chain[0]);
    set_length(&mut disk, 1, 9);
    // Kinds 1 to 4 have all 16 bits of their length there.
    disk.sector_mut(first)[fields::HEADER_REMAINDER + 1] = 0;
    for kind in fields::KNOWN.into_iter().filter(|&kind| !fields::is_directory(kind)) {
        disk.sector_mut(first)[0] = kind;
        for marks in [0, 64, 128, 192] {
            disk.slot_mut(slot)[0] = marks | kind;
            given(&disk, FINE, if fields::is_carried(kind) { (22, slot) } else { FINE });
        }
    }
    // An erased file is not looked at.
    disk.slot_mut(slot)[0] = 0;
    given(&disk, FINE, FINE);
}

/// At a slot 7 comes before 22, and 8 and 9 after it.
#[test]
fn at_one_slot() {
    let mut disk = disk();
    let [earlier, file] = [0, 1].map(|index| disk.files[index].clone());
    let at = file.slot;
    // A bit of the earlier file, counted in, and its name: six sectors.
    let slot = disk.slot_mut(at);
    fields::set_bit(slot, earlier.chain[2], true);
    fields::set_count(slot, 6);
    slot[fields::NAME..fields::COUNT].copy_from_slice(&earlier.name);
    set_length(&mut disk, 1, fills(6) + 1);
    given(&disk, (7, at), (7, at));
    set_length(&mut disk, 1, fills(6));
    given(&disk, (8, at), (8, at));
    set_length(&mut disk, 1, fills(5) + 1);
    given(&disk, (8, at), (8, at));
    set_length(&mut disk, 1, fills(5));
    given(&disk, (8, at), (22, at));
    // The same without the shared bit.
    let slot = disk.slot_mut(at);
    fields::set_bit(slot, earlier.chain[2], false);
    fields::set_count(slot, 5);
    given(&disk, (9, at), (9, at));
    set_length(&mut disk, 1, fills(4));
    given(&disk, (9, at), (22, at));
    // The rows before 7 come before it too.
    for (number, spoil) in [(6, fields::FIRST), (4, fields::COUNT), (2, 0)] {
        disk.slot_mut(at)[spoil] = if number == 2 { 63 } else { 0 };
        if number == 4 {
            disk.slot_mut(at)[spoil + 1] = 0;
        }
        given(&disk, (number, at), (number, at));
    }
    // Without a name it is the directory's end, and nothing there is seen.
    disk.slot_mut(at)[fields::NAME] = 0;
    given(&disk, FINE, FINE);
}

/// The lowest slot is given: what is wrong before comes first; what is wrong behind, and every chain, after it.
#[test]
fn at_two_slots() {
    let mut disk = disk();
    let [first, second, third] = [0, 1, 2].map(|index| disk.files[index].clone());
    set_length(&mut disk, 1, 0);
    given(&disk, FINE, (22, second.slot));
    // 7 and 2 at a later slot, 10 and 11 at an earlier one.
    set_length(&mut disk, 2, fills(5) + 1);
    given(&disk, (7, third.slot), (22, second.slot));
    disk.slot_mut(third.slot)[0] = 63;
    given(&disk, (2, third.slot), (22, second.slot));
    disk.slot_mut(third.slot)[0] = third.kind;
    set_length(&mut disk, 2, 0);
    given(&disk, FINE, (22, second.slot));
    disk.sector_mut(first.chain[0])[0] ^= 1;
    given(&disk, (11, first.slot), (22, second.slot));
    disk.link(first.chain[3], [0, 0]);
    given(&disk, (10, first.slot), (22, second.slot));
    // 7 and 2 at an earlier slot, and 22 there.
    set_length(&mut disk, 0, fills(5) + 1);
    given(&disk, (7, first.slot), (7, first.slot));
    disk.slot_mut(first.slot)[0] = 63;
    given(&disk, (2, first.slot), (2, first.slot));
    disk.slot_mut(first.slot)[0] = first.kind;
    set_length(&mut disk, 0, 0);
    given(&disk, (10, first.slot), (22, first.slot));
}

/// A recording on this disk that nothing came to.
fn recording(image: &[u8]) -> Recording {
    Recording::of(&super::save(Vec::new()), &Facts::of(image))
}

/// No other call minds waste sectors.
#[test]
fn other_calls_accept_them() {
    let mut disk = disk();
    let file = disk.files[1].clone();
    set_length(&mut disk, 1, 3);
    disk.slot_mut(file.slot)[fields::OFFSET..fields::PAGES].copy_from_slice(&32_768_u16.to_le_bytes());
    disk.slot_mut(file.slot)[0] &= !fields::PROTECTED;
    for slot in disk.files.iter().map(|file| file.slot).collect::<Vec<_>>() {
        disk.slot_mut(slot)[fields::PARENT] = 0;
    }
    let checks = |call: &Call| !matches!(call, Call::Sector | Call::ReportJoin);
    for call in CALLS.into_iter().filter(checks) {
        let asked = match call {
            Call::Check | Call::CheckRelease => OwnedRequest::new(call),
            Call::List | Call::Next | Call::Tree => OwnedRequest::new(call).with(OUT, vec![0x5c; 1_000]),
            Call::Open | Call::Start => OwnedRequest::new(call).with(NAME, file.name),
            Call::ReportAdd => OwnedRequest::new(call).with(OUT, [0; reports::REPORT]),
            Call::Save => super::save(vec![7; 10]),
            Call::RecordOpen => recordings::opening(super::save(Vec::new()), vec![0x5c; recordings::LENGTH]),
            Call::RecordAdd => recording(&disk.image).add(&[7; 10], 0),
            Call::RecordClose => recording(&disk.image).close(8),
            Call::EraseMany => OwnedRequest::new(call)
                .with(calls::NAMES, file.name)
                .with(calls::ANSWERS, [0])
                .with(OUT, [0; 2]),
            Call::Rename => OwnedRequest::new(call)
                .with(NAME, file.name)
                .with(calls::NEW, *b"other")
                .with(OUT, [0; 2]),
            Call::Gather => OwnedRequest::new(call)
                .with(NAME, file.name)
                .with(OUT, vec![0x5c; 2 * (file.chain.len() + 1)]),
            _ => OwnedRequest::new(call).with(NAME, file.name).with(OUT, [0x5c; 9]),
        };
        expect(&asked, &disk.image, if call == Call::CheckRelease { 22 } else { 0 });
    }
}
