//! The fields of a slot and the links of a chain, value after value, on one small disk.

use super::expect;
use crate::support::calls::{self, Call, OUT};
use crate::support::disks::DrawnDisk;
use crate::support::fields;
use crate::support::geometry::{BITS, address, bit_of};
use crate::support::requests::OwnedRequest;

/// A disk whose second file is carried and has five sectors.
fn disk() -> DrawnDisk {
    let fits = |disk: &DrawnDisk| fields::is_carried(disk.files[1].kind) && disk.files[1].chain.len() == 5;
    (40..).map(|seed| super::disk(seed, 3, 12)).find(fits).expect("one is found")
}

/// The check gives this number, at the second file's slot.
fn refused(disk: &DrawnDisk, number: u8) {
    let answer = expect(&OwnedRequest::new(Call::Check), &disk.image, number).answer;
    assert_eq!(calls::slot(answer), if number == 0 { 0 } else { disk.files[1].slot });
}

/// Every track, with the sectors that exist and some that do not.
fn addresses() -> impl Iterator<Item = [u8; 2]> {
    (0..=255).flat_map(|track| (0..=12).chain([16, 127, 128, 129, 255]).map(move |sector| [track, sector]))
}

#[test]
fn byte_0() {
    let mut disk = disk();
    let (slot, kind) = (disk.files[1].slot, disk.files[1].kind);
    let long = fields::plus_d(disk.first(&disk.files[1]), fields::PLUS_D_LENGTH) > 5 * 510 - 9;
    for byte in 0..=255 {
        disk.slot_mut(slot)[0] = byte;
        let number = match byte & 63 {
            _ if byte == 0 => 0,
            found if !fields::is_known(found) => 2,
            found if fields::is_directory(found) => 4,
            found if fields::is_carried(found) && found != kind => 11,
            found if fields::is_spectrum(found) && long => 25,
            _ => 0,
        };
        refused(&disk, number);
    }
}

#[test]
fn bytes_of_the_name() {
    let mut disk = disk();
    let slot = disk.files[1].slot;
    for at in 0..10 {
        for byte in [0, 1, 31, 32, 126, 127, 128, 255] {
            disk.slot_mut(slot)[fields::NAME..fields::COUNT].copy_from_slice(b"~unlike it");
            disk.slot_mut(slot)[fields::NAME + at] = byte;
            refused(&disk, 0);
            // Without a first byte it is no name: the directory ends there.
            let listing = OwnedRequest::new(Call::List).with(OUT, vec![0x5c; 3 * 258]);
            let files = calls::value(expect(&listing, &disk.image, 0).answer);
            assert_eq!(files, if at == 0 && byte == 0 { 1 } else { 3 });
        }
    }
}

#[test]
fn counts() {
    let mut disk = disk();
    let slot = disk.files[1].slot;
    let counts = (0..=20).chain([
        255, 256, 257, 260, 1_280, 1_559, 1_560, 1_561, 1_562, 32_767, 32_768, 32_773, 65_535,
    ]);
    for count in counts {
        fields::set_count(disk.slot_mut(slot), count);
        let number = match count {
            5 => 0,
            1..=1_560 => 5,
            _ => 4,
        };
        refused(&disk, number);
    }
}

/// Every bit of the map turned.
#[test]
fn map_bits() {
    let mut disk = disk();
    let slot = disk.files[1].slot;
    for bit in 0..BITS {
        let on = fields::has_bit(disk.slot(slot), bit);
        fields::set_bit(disk.slot_mut(slot), bit, !on);
        refused(&disk, 5);
        fields::set_bit(disk.slot_mut(slot), bit, on);
    }
    refused(&disk, 0);
}

#[test]
fn first_addresses() {
    let mut disk = disk();
    let (slot, chain) = (disk.files[1].slot, disk.files[1].chain.clone());
    for at in addresses() {
        disk.slot_mut(slot)[fields::FIRST..fields::MAP].copy_from_slice(&at);
        let number = match bit_of(at) {
            Some(bit) if bit == chain[0] => 0,
            Some(bit) if chain.contains(&bit) => 10,
            _ => 6,
        };
        refused(&disk, number);
    }
}

/// The link of each sector of the chain: the one that was drawn, or number 10.
#[test]
fn links() {
    let mut disk = disk();
    let chain = disk.files[1].chain.clone();
    for (i, &bit) in chain.iter().enumerate() {
        let right = chain.get(i + 1).map_or([0, 0], |&next| address(next));
        for next in addresses() {
            disk.link(bit, next);
            refused(&disk, if next == right { 0 } else { 10 });
        }
        disk.link(bit, right);
    }
}

/// Every value of each header byte. Bits 14 and 15 of the remainder say nothing, nor do offset, page and unused bytes.
#[test]
fn headers() {
    let mut disk = disk();
    let first = disk.files[1].chain[0];
    for at in 0..fields::HEADER {
        let right = disk.sector_mut(first)[at];
        for byte in 0..=255 {
            disk.sector_mut(first)[at] = byte;
            let same = match at {
                0 | 1 | fields::HEADER_PAGES => byte == right,
                2 => byte & 63 == right & 63,
                _ => true,
            };
            refused(&disk, if same { 0 } else { 11 });
        }
        disk.sector_mut(first)[at] = right;
    }
}

/// Every length around the most that the sectors hold, with the header to fit.
#[test]
fn lengths() {
    let mut disk = disk();
    let (slot, first) = (disk.files[1].slot, disk.files[1].chain[0]);
    for length in (0..=2_560).chain([16_383, 16_384, 16_385, 65_536, 4_194_303]) {
        for junk in [0, 64, 128, 192] {
            let (pages, remainder) = ((length / 16_384) as u8, fields::remainder(length, junk));
            disk.slot_mut(slot)[fields::PAGES] = pages;
            disk.slot_mut(slot)[fields::REMAINDER..fields::EXEC].copy_from_slice(&remainder);
            disk.sector_mut(first)[fields::HEADER_PAGES] = pages;
            disk.sector_mut(first)[fields::HEADER_REMAINDER..fields::HEADER_OFFSET].copy_from_slice(&remainder);
            refused(&disk, if 9 + length <= 5 * 510 { 0 } else { 7 });
        }
    }
}
