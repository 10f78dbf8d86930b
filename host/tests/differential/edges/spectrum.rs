//! Kinds 1 to 4: every byte of their header, lengths around the most that the sectors hold, starts, and the place of 25 in
//! the order.

use super::expect;
use crate::support::calls::{self, Call, NAME, OUT};
use crate::support::disks::DrawnDisk;
use crate::support::fields;
use crate::support::geometry::{PAYLOAD, bit_place, fills, number};
use crate::support::requests::OwnedRequest;

/// A disk whose second file has so many sectors and is of this kind, with any header.
fn disk(kind: u8, sectors: usize) -> DrawnDisk {
    let fits = |disk: &DrawnDisk| disk.files[1].chain.len() == sectors;
    let drawn = (0..).map(|seed| super::disk(seed, 3, sectors + 2)).find(fits);
    let mut disk = drawn.expect("one is found");
    let slot = disk.files[1].slot;
    disk.slot_mut(slot)[0] = disk.slot(slot)[0] & 192 | kind;
    disk.files[1].kind = kind;
    disk
}

/// The length and the start in the header of a file.
fn head(disk: &mut DrawnDisk, index: usize, length: usize, start: usize) {
    let first = disk.files[index].chain[0];
    let sector = disk.sector_mut(first);
    for (at, number) in [(fields::PLUS_D_LENGTH, length), (fields::PLUS_D_START, start)] {
        sector[at..at + 2].copy_from_slice(&(number as u16).to_le_bytes());
    }
}

/// What the check gives, with its slot.
fn given(disk: &DrawnDisk, number: u8, index: usize) {
    let answer = expect(&OwnedRequest::new(Call::Check), &disk.image, number).answer;
    assert_eq!(calls::slot(answer), if number == 0 { 0 } else { disk.files[index].slot });
}

/// The body that a length gives, along the chain that was drawn.
fn body(disk: &DrawnDisk, index: usize, length: usize) -> Vec<u8> {
    let chain = disk.files[index].chain.iter();
    let payload: Vec<u8> = chain
        .flat_map(|&bit| &disk.image[bit_place(bit)..][..PAYLOAD])
        .copied()
        .collect();
    payload[fields::HEADER..][..length].to_vec()
}

/// Read, open and start answer by the header, which fits.
fn answers(disk: &DrawnDisk, index: usize, length: usize, start: usize) {
    let file = &disk.files[index];
    let read = OwnedRequest::new(Call::Read)
        .with(NAME, file.name)
        .with(OUT, vec![0x5c; length + 3]);
    let left = expect(&read, &disk.image, 0);
    assert_eq!(calls::value(left.answer), length);
    assert!(left.out == [&body(disk, index, length)[..], &[0x5c; 3]].concat());
    let open = expect(&OwnedRequest::new(Call::Open).with(NAME, file.name), &disk.image, 0).answer;
    let opened = [calls::slot(open), calls::free(open), calls::value(open)];
    assert_eq!(opened, [number(bit_place(file.chain[0])), 9, length]);
    let started = expect(&OwnedRequest::new(Call::Start).with(NAME, file.name), &disk.image, 0).answer;
    assert_eq!(calls::value(started), start);
    if length > 0 {
        expect(&read.with(OUT, vec![0x5c; length - 1]), &disk.image, 20);
    }
}

/// Lengths from none to one above what the sectors hold, for each of the four kinds.
#[test]
fn lengths() {
    for (kind, sectors) in [(1, 1), (2, 2), (3, 5), (4, 128), (1, 129), (4, 200)] {
        let mut disk = disk(kind, sectors);
        let full = fills(sectors);
        let near = [0, 1, 500, 501, 502, 510, 511, 16_384, 65_534, 65_535].into_iter();
        for length in near
            .chain([full - 1, full, full + 1, full + 2])
            .filter(|&length| length <= 65_535)
        {
            head(&mut disk, 1, length, length ^ 0x5a5a);
            if length <= full {
                given(&disk, 0, 1);
                answers(&disk, 1, length, length ^ 0x5a5a);
            } else {
                given(&disk, 25, 1);
            }
        }
    }
}

/// Every start is given as it stands; 14 is not for these kinds, whatever their slot says.
#[test]
fn starts() {
    let mut disk = disk(4, 2);
    let slot = disk.files[1].slot;
    for page in [0, 31, 255] {
        for offset in [0u16, 32_767, 32_768, 49_151, 49_152, 65_535] {
            disk.slot_mut(slot)[fields::PAGE] = page;
            disk.slot_mut(slot)[fields::OFFSET..fields::PAGES].copy_from_slice(&offset.to_le_bytes());
            for start in [0, 1, 255, 256, 16_384, 32_767, 32_768, 49_151, 49_152, 65_534, 65_535] {
                head(&mut disk, 1, 700, start);
                answers(&disk, 1, 700, start);
            }
        }
    }
}

/// Every value of each header byte: the two of the length decide, and no other is looked at. Neither is the slot's length.
#[test]
fn header_bytes() {
    let mut disk = disk(3, 5);
    let (slot, first) = (disk.files[1].slot, disk.files[1].chain[0]);
    head(&mut disk, 1, 1_000, 40_000);
    for at in 0..fields::HEADER {
        let right = disk.sector_mut(first)[at];
        for byte in 0..=255 {
            disk.sector_mut(first)[at] = byte;
            let length = fields::plus_d(disk.first(&disk.files[1]), fields::PLUS_D_LENGTH);
            given(&disk, if length > fills(5) { 25 } else { 0 }, 1);
        }
        disk.sector_mut(first)[at] = right;
    }
    for byte in 0..=255 {
        disk.slot_mut(slot)[fields::PAGES..fields::EXEC].fill(byte);
        given(&disk, 0, 1);
        answers(&disk, 1, 1_000, 40_000);
    }
}

/// Kinds beside each other: 1 to 4 have this header, 5 to 12 have none and cannot be read, nor can 22 and 23. 21 has no
/// sectors.
#[test]
fn by_kind() {
    let mut disk = disk(4, 2);
    let (slot, name) = (disk.files[1].slot, disk.files[1].name);
    let marks = disk.slot(slot)[0] & 192;
    for (length, long) in [(700, false), (fills(2), false), (fills(2) + 1, true)] {
        head(&mut disk, 1, length, 65_535);
        let sectors = |&kind: &u8| !fields::is_carried(kind) && !fields::is_directory(kind);
        for kind in fields::KNOWN.into_iter().filter(sectors) {
            disk.slot_mut(slot)[0] = marks | kind;
            let spectrum = kind <= 4;
            given(&disk, if spectrum && long { 25 } else { 0 }, 1);
            match (spectrum, long) {
                (true, true) => {}
                (true, false) => answers(&disk, 1, length, 65_535),
                (false, _) => {
                    for call in [Call::Read, Call::Open, Call::Start] {
                        let answer = expect(&OwnedRequest::new(call).with(NAME, name), &disk.image, 13).answer;
                        assert_eq!(calls::slot(answer), slot);
                    }
                }
            }
        }
    }
}

/// At a slot 25 comes after 10; at two slots the lower decides; and all of 2 to 9 come before it.
#[test]
fn in_the_order() {
    let carried = |disk: &DrawnDisk| [0, 2].into_iter().all(|index| fields::is_carried(disk.files[index].kind));
    let drawn = (0..).map(|seed| super::disk(seed, 3, 15));
    let mut disk = drawn
        .filter(|disk| disk.files.iter().all(|file| file.chain.len() == 5))
        .find(carried)
        .expect("one is found");
    let [first, second, third] = [0, 1, 2].map(|index| disk.files[index].clone());
    disk.slot_mut(second.slot)[0] = 2;
    head(&mut disk, 1, fills(5) + 1, 0);
    given(&disk, 25, 1);
    // 10 and 11 at a later slot come after it, at an earlier one before it.
    disk.sector_mut(third.chain[0])[0] ^= 1;
    given(&disk, 25, 1);
    disk.link(third.chain[1], [0, 0]);
    given(&disk, 25, 1);
    disk.sector_mut(first.chain[0])[0] ^= 1;
    given(&disk, 11, 0);
    disk.link(first.chain[1], [0, 0]);
    given(&disk, 10, 0);
    disk.slot_mut(first.slot)[0] = 5;
    given(&disk, 10, 0);
    disk.slot_mut(first.slot)[0] = 0;
    given(&disk, 25, 1);
    // Its own chain comes first, and the directory before all.
    disk.link(second.chain[4], [4, 1]);
    given(&disk, 10, 1);
    disk.slot_mut(third.slot)[0] = 63;
    given(&disk, 2, 2);
    disk.slot_mut(third.slot)[0] = 0;
    disk.link(second.chain[4], [0, 0]);
    given(&disk, 25, 1);
    head(&mut disk, 1, fills(5), 0);
    given(&disk, 0, 1);
    // Two files of the Spectrum: the lower slot.
    for (index, file) in [(1, &second), (2, &third)] {
        disk.slot_mut(file.slot)[0] = 4;
        head(&mut disk, index, 65_535, 0);
    }
    disk.link(third.chain[1], [0, 0]);
    given(&disk, 25, 1);
    disk.slot_mut(second.slot)[0] = 0;
    given(&disk, 10, 2);
}

/// Every call that looks at the directory refuses such a disk; a save refuses the kinds themselves.
#[test]
fn by_every_call() {
    let mut disk = disk(1, 3);
    head(&mut disk, 1, fills(3) + 1, 0);
    for call in calls::CALLS.into_iter().filter(|call| !call.is_raw()) {
        // The request itself is refused too, which is looked at later.
        let answer = expect(&OwnedRequest::new(call), &disk.image, 25).answer;
        assert_eq!(calls::slot(answer), disk.files[1].slot);
    }
    head(&mut disk, 1, fills(3), 0);
    for kind in 1..=4 {
        let mut asked = super::save(vec![7; 10]);
        asked.numbers[0] = kind;
        expect(&asked, &disk.image, 13);
    }
}
