//! No bytes and no arguments stop a call: disks with a few bytes changed, and every call on each. A refused change leaves
//! everything as it was; an accepted one leaves a disk that passes the check, and changes no sector that it does not name.

mod common;
use common::*;
use paper::{Refused, SaveRequest};
use std::collections::BTreeMap;

/// A small generator of numbers, so that every run sees the same disks.
struct Random(u64);

impl Random {
    fn below(&mut self, limit: usize) -> usize {
        self.0 = self
            .0
            .wrapping_mul(6_364_136_223_846_793_005)
            .wrapping_add(1_442_695_040_888_963_407);
        (self.0 >> 33) as usize % limit
    }
}

/// Where a byte of meaning lies: a slot's front, its end, its first map byte, the number of directory tracks, or the header or
/// link of a low data sector.
fn place(numbers: &mut Random) -> usize {
    let slot = slot_place(1 + numbers.below(4));
    match numbers.below(21) {
        0..4 => slot + numbers.below(18),
        4..8 => slot + 236 + numbers.below(8),
        8..12 => slot + 15,
        20 => 255,
        12..16 => 40_960 + numbers.below(12) * 512 + 510 + numbers.below(2),
        _ => 40_960 + numbers.below(12) * 512 + numbers.below(9),
    }
}

type ChangeFn = fn(&mut [u8], &[u8], &mut [u8]) -> Result<usize, Refused>;

fn save(image: &mut [u8], name: &[u8], list: &mut [u8]) -> Result<usize, Refused> {
    let bytes = body(700);
    paper::save(
        image,
        &SaveRequest {
            kind: 20,
            name,
            page: 1,
            offset: 33_000,
            exec: &[1; 9],
            info: &[2; 99],
            body: &bytes,
        },
        list,
    )
}

fn rename(image: &mut [u8], name: &[u8], list: &mut [u8]) -> Result<usize, Refused> {
    paper::rename(image, name, b"NEWER", list)
}

/// The name, C, and the name once more; with no name some bytes are left over.
fn erase_many(image: &mut [u8], name: &[u8], list: &mut [u8]) -> Result<usize, Refused> {
    let mut names = [[32; 10]; 3];
    names[0][..name.len()].copy_from_slice(name);
    names[1][0] = b'C';
    names[2] = names[0];
    let over = if name.is_empty() { 1 } else { 0 };
    paper::erase_many(image, &names.concat()[over..], &mut [9; 3], list)
}

/// A recording of four sectors, of which a piece writes two.
fn record_add(image: &mut [u8], name: &[u8], list: &mut [u8]) -> Result<usize, Refused> {
    let mut record = [0; paper::RECORD_BYTES];
    paper::record_open(image, &request(name, &[]), &mut record)?;
    paper::record_add(image, &body(1_600), &mut record, list)
}

/// A recording that nothing came to, closed.
fn record_close(image: &mut [u8], name: &[u8], list: &mut [u8]) -> Result<usize, Refused> {
    let mut record = [0; paper::RECORD_BYTES];
    paper::record_open(image, &request(name, &[]), &mut record)?;
    paper::record_close(image, &record, list)
}

#[test]
fn calls_hold_on_damaged_disks() {
    let calls: [ChangeFn; 11] = [
        save,
        rename,
        paper::erase,
        paper::hide,
        paper::show,
        paper::protect,
        paper::release,
        paper::gather,
        erase_many,
        record_add,
        record_close,
    ];
    let mut disk = blank();
    for (name, length) in [(&b"A"[..], 900), (b"B", 1_500), (b"C", 0)] {
        put(&mut disk, name, length);
    }
    let mut numbers = Random(1);
    let mut seen = BTreeMap::<u8, usize>::new();
    let (mut image, mut old) = (disk.clone(), disk.clone());
    for _ in 0..4_000 {
        for _ in 0..1 + numbers.below(2) {
            let byte = [0, 1, 4, 5, 16, 19, 65, 66, 128, 255][numbers.below(10)];
            image[place(&mut numbers)] = byte;
        }
        old.copy_from_slice(&image);
        let checked = paper::check(&image);
        let name = [&b"A"[..], b"B", b"NEW", b"", b"\xff"][numbers.below(5)];
        let mut list = [7; 7];
        let answer = calls[numbers.below(calls.len())](&mut image, name, &mut list);
        let number = answer.map_or_else(|refused| refused.number, |_| 0);
        *seen.entry(number).or_default() += 1;
        match (checked, answer) {
            (Err(damage), _) => assert_eq!((answer, &image, list), (Err(damage), &old, [7; 7])),
            (Ok(()), Err(_)) => assert_eq!((&image, list), (&old, [7; 7])),
            (Ok(()), Ok(count)) => {
                assert_eq!(paper::check(&image), Ok(()));
                let named = self::numbers(&list[..2 * count]);
                assert!(changed(&old, &image).iter().all(|sector| named.contains(sector)));
                assert!(list[2 * count..].iter().all(|byte| *byte == 7));
            }
        }
        image.copy_from_slice(&disk);
    }
    println!("answers by number: {seen:?}");
    for number in [0, 2, 4, 5, 6, 7, 8, 9, 10, 11, 12, 15, 16, 23, 24] {
        assert!(seen.contains_key(&number), "no disk gave {number}");
    }
    assert!(!seen.contains_key(&3), "3 is given no more");
}
