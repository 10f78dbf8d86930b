//! Lent output buffers: one byte too short, just long enough, longer.

use super::{disk, expect, save};
use crate::support::calls::{self, CHANGES, Call, NAME, NEW, OUT};
use crate::support::fields;
use crate::support::geometry::{BITS, IMAGE, sectors_for};
use crate::support::requests::OwnedRequest;

#[test]
fn listings() {
    for (files, sectors) in [(0, 0), (1, 1), (2, 5), (79, 300), (80, BITS)] {
        let disk = disk(20 + files as u64, files, sectors);
        let need = 258 * files;
        for length in [
            0,
            1,
            2,
            257,
            258,
            259,
            need.saturating_sub(258),
            need.saturating_sub(1),
            need,
            need + 1,
            need + 258,
            30_000,
        ] {
            let asked = OwnedRequest::new(Call::List).with(OUT, vec![0x5c; length]);
            let left = expect(&asked, &disk.image, if length < need { 20 } else { 0 });
            assert_eq!(calls::value(left.answer), if length < need { 0 } else { files });
        }
    }
}

#[test]
fn bodies_read() {
    for sectors in [1, 2, 3, 50, BITS] {
        let disk = (0..)
            .map(|seed| disk(seed, 1, sectors))
            .find(|disk| !disk.files[0].body.is_empty())
            .expect("one is found");
        let (file, need) = (&disk.files[0], disk.files[0].body.len());
        for length in [0, 1, need / 2, need - 1, need, need + 1, need + 512] {
            let asked = OwnedRequest::new(Call::Read)
                .with(NAME, file.name)
                .with(OUT, vec![0x5c; length]);
            let left = expect(&asked, &disk.image, if length < need { 20 } else { 0 });
            let read = if length < need { 0 } else { need };
            assert!(left.out[..read] == file.body[..read] && left.out[read..].iter().all(|&byte| byte == 0x5c));
        }
    }
}

/// Two bytes to a number; an odd last byte holds none and stays.
#[test]
fn lists_of_saves() {
    let blank = vec![0; IMAGE];
    for body in [0, 501, 502, 5_000, 795_591] {
        let need = 2 * (sectors_for(body) + 1);
        for length in [
            0,
            1,
            2,
            3,
            need - 3,
            need - 2,
            need - 1,
            need,
            need + 1,
            need + 2,
            need + 3,
            10_000,
        ] {
            let left = expect(
                &save(vec![7; body]).with(OUT, vec![0x5c; length]),
                &blank,
                if length < need { 20 } else { 0 },
            );
            let listed = if length < need { 0 } else { need };
            assert!(
                left.out[listed..].iter().all(|&byte| byte == 0x5c),
                "the rest of the list is changed"
            );
        }
    }
}

#[test]
fn lists_of_other_changes() {
    let mut disk = disk(31, 30, 100);
    let (slot, name) = (disk.files[17].slot, disk.files[17].name);
    disk.slot_mut(slot)[0] &= !fields::PROTECTED;
    // A save and a gather name data sectors too; `gather` has the lists of the latter.
    for call in CHANGES.into_iter().filter(|call| !matches!(call, Call::Save | Call::Gather)) {
        for length in [0, 1, 2, 3, 4, 5, 3_000] {
            let mut asked = OwnedRequest::new(call).with(NAME, name).with(OUT, vec![0x5c; length]);
            if call == Call::Rename {
                asked = asked.with(NEW, *b"other name");
            }
            let left = expect(&asked, &disk.image, if length < 2 { 20 } else { 0 });
            if length >= 2 {
                assert_eq!(calls::value(left.answer), 1);
                let sector = (slot - 1) / 20 * 20 + (slot - 1) % 20 / 2;
                assert_eq!(usize::from(left.out[0]) + 256 * usize::from(left.out[1]), sector);
                assert!(
                    left.out[2..].iter().all(|&byte| byte == 0x5c),
                    "the rest of the list is changed"
                );
            }
        }
    }
}
