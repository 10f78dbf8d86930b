//! Small helps for the tests: disks, requests, places.
#![allow(dead_code)]

pub mod recording;

use paper::{Refused, SaveRequest};

pub const IMAGE: usize = 819_200;

pub fn blank() -> Vec<u8> {
    vec![0; IMAGE]
}

pub fn refused<T>(number: u8, slot: usize) -> Result<T, Refused> {
    let slot = slot as u16;
    Err(Refused { number, slot })
}

/// A blank disk whose directory has so many tracks beyond four.
pub fn blank_with(extra: u8) -> Vec<u8> {
    let mut image = blank();
    image[255] = extra;
    image
}

/// A request that nothing stands against on a blank disk.
pub fn request<'a>(name: &'a [u8], body: &'a [u8]) -> SaveRequest<'a> {
    SaveRequest {
        kind: 19,
        name,
        page: 29,
        offset: 32_768,
        exec: &[1, 2, 3],
        info: &[9; 11],
        body,
    }
}

/// Bytes that differ from each other and from zero often enough to show a wrong place.
pub fn body(length: usize) -> Vec<u8> {
    (0..length).map(|at| (at % 251 + at / 251 % 3 + 1) as u8).collect()
}

pub fn put(image: &mut [u8], name: &[u8], length: usize) -> Vec<usize> {
    let mut list = vec![0; 2 * 1_562];
    let count = paper::save(image, &request(name, &body(length)), &mut list).expect("there is room");
    numbers(&list[..2 * count])
}

pub fn numbers(list: &[u8]) -> Vec<usize> {
    list.as_chunks()
        .0
        .iter()
        .map(|pair| u16::from_le_bytes(*pair).into())
        .collect()
}

/// Where slot 1 to 778 begins; track 4 sector 1 is passed over.
pub fn slot_place(slot: usize) -> usize {
    let before = if slot > 80 { slot + 1 } else { slot - 1 };
    before / 20 * 10_240 + before % 20 * 256
}

/// Whether a byte of slot 1 is about the disk, so that a save keeps it.
pub fn is_kept(at: usize) -> bool {
    matches!(at, 210..=219 | 252 | 253 | 255)
}

/// The numbers of the sectors that differ.
pub fn changed(old: &[u8], new: &[u8]) -> Vec<usize> {
    let pairs = old.chunks(512).zip(new.chunks(512)).enumerate();
    pairs.filter(|(_, (old, new))| old != new).map(|(number, _)| number).collect()
}
