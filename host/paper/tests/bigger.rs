//! Bigger MasterDOS directories (document 02, M-106): n tracks beyond four, n in byte 255 of slot 1.

mod common;
use common::*;
use paper::Listed;

/// How many slots and data sectors a disk has.
fn sizes(extra: usize) -> (usize, usize) {
    match extra {
        0 => (80, 1_560),
        n => (78 + 20 * n, 1_561 - 10 * n),
    }
}

fn name(slot: usize) -> Vec<u8> {
    format!("F{slot}").into_bytes()
}

/// A disk with a file of one sector in each of its first slots.
fn filled(extra: u8, files: usize) -> Vec<u8> {
    let mut image = blank_with(extra);
    for slot in 1..=files {
        put(&mut image, &name(slot), 0);
    }
    image
}

fn listed(image: &[u8]) -> Listed {
    paper::list(image, &mut [0; 778 * 258]).expect("it is accepted")
}

/// Sets byte 255 of slot 1 and gives what the check says.
fn with_tracks(byte: u8) -> Result<(), paper::Refused> {
    paper::check(&blank_with(byte))
}

#[test]
fn n_is_0_to_35_and_255() {
    for byte in (0..=35).chain([255]) {
        assert_eq!(with_tracks(byte), Ok(()), "{byte}");
        let extra = if byte == 255 { 0 } else { byte.into() };
        let (files, free) = (0, sizes(extra).1);
        assert_eq!(listed(&blank_with(byte)), Listed { files, free }, "{byte}");
    }
    for byte in 36..=254 {
        assert_eq!(with_tracks(byte), refused(24, 0), "{byte}");
    }
}

/// 24 stands after 1 and before what any slot gives.
#[test]
fn where_24_stands() {
    let mut image = blank_with(36);
    image[..2].copy_from_slice(&[13, b'A']);
    assert_eq!(paper::check(&image), refused(24, 0));
    assert_eq!(paper::check(&image[1..]), refused(1, 0));
    assert_eq!(paper::read(&image, b"", &mut []), refused(24, 0));
    assert_eq!(paper::save(&mut image, &request(b"", &[]), &mut []), refused(24, 0));
    assert_eq!(paper::sector(&image, &image, 1, 0, 1), Ok(0));
    image[255] = 1;
    assert_eq!(paper::check(&image), refused(2, 1));
}

/// Every slot is taken in turn, past the gap, and then none is left. Track 4 is directory from its second sector on, and its first
/// is data.
#[test]
fn every_slot_is_taken() {
    for extra in [0, 1, 2, 16, 35] {
        let (slots, data) = sizes(extra.into());
        let mut image = blank_with(extra);
        for slot in 1..=slots {
            let named = put(&mut image, &name(slot), 0);
            assert_eq!(named[1..], [slot_place(slot) / 512], "n {extra}, slot {slot}");
            let (files, free) = (slot, data - slot);
            assert_eq!(listed(&image), Listed { files, free });
        }
        assert_eq!(paper::save(&mut image, &request(b"NEW", &[]), &mut [0; 6]), refused(18, 0));
        assert_eq!(paper::read(&image, &name(1), &mut []), Ok(0));
        let last = name(slots);
        let mut again = image.clone();
        again[slot_place(slots) + 1..][..10].copy_from_slice(b"f1        ");
        assert_eq!(paper::check(&again), refused(9, slots));
        paper::erase(&mut image, &last, &mut [0; 2]).expect("it is there");
        assert_eq!(image[slot_place(slots)], 0);
    }
}

/// A save takes the free bits in order and none inside the directory: bit 0, then 10n on.
#[test]
fn saves_pass_over_the_directory() {
    for extra in 0..=35 {
        let mut image = blank_with(extra);
        let before = image.clone();
        let named = put(&mut image, b"TUNES", 3 * 510 - 9);
        let second = if extra == 0 { 1 } else { 10 * usize::from(extra) };
        let sector = |bit: usize| (4 + bit / 10) * 20 + bit % 10;
        assert_eq!(named, [sector(0), sector(second), sector(second + 1), 0]);
        assert_eq!(changed(&before, &image).len(), 4);
        let data = sizes(extra.into()).1;
        let (longest, mut list) = (510 * (data - 3) - 9, vec![0; 3_124]);
        let too_long = body(longest + 1);
        assert_eq!(
            paper::save(&mut image, &request(b"LONG", &too_long), &mut list),
            refused(19, 0)
        );
        assert_eq!(
            paper::save(&mut image, &request(b"LONG", &body(longest)), &mut list),
            Ok(data - 2)
        );
        assert_eq!(listed(&image), Listed { files: 2, free: 0 });
        let mut back = vec![0; longest];
        assert_eq!(paper::read(&image, b"LONG", &mut back), Ok(longest));
        assert!(back == body(longest));
    }
}

/// Rows 4, 5 and 6 of a slot in a bigger directory.
#[test]
fn counts_and_bits_inside_the_directory() {
    for extra in [1, 2, 35] {
        let data = sizes(extra.into()).1 as u16;
        let image = filled(extra, 3);
        let at = slot_place(2);
        let count = |count: u16| {
            let mut image = image.clone();
            image[at + 11..at + 13].copy_from_slice(&count.to_be_bytes());
            paper::check(&image)
        };
        assert_eq!(count(data), refused(5, 2));
        assert_eq!(count(data + 1), refused(4, 2));
        for bit in [1, 2, 9, 10 * usize::from(extra) - 1] {
            let mut image = image.clone();
            image[at + 15 + bit / 8] |= 1 << (bit % 8);
            assert_eq!(paper::check(&image), refused(5, 2), "{bit}: the bits are counted first");
            image[at + 12] = 2;
            assert_eq!(paper::check(&image), refused(6, 2), "{bit}");
            image[255] = 0;
            assert_eq!(
                paper::check(&image),
                refused(10, 2),
                "{bit} is data where there are four tracks"
            );
        }
        let mut outside = image.clone();
        let bit = 10 * usize::from(extra) + 5;
        outside[at + 15 + bit / 8] |= 1 << (bit % 8);
        outside[at + 12] = 2;
        assert_eq!(paper::check(&outside), refused(10, 2), "{bit} is data");
    }
}

/// What slot 1 says of the disk stays, whatever it held, and nothing else of it does.
#[test]
fn a_save_into_slot_1_keeps_what_is_about_the_disk() {
    for (extra, status) in [(0, 0), (3, 0), (35, 19), (255, 255)] {
        let mut old = blank();
        for (at, byte) in old[..256].iter_mut().enumerate() {
            *byte = (at % 250 + 3) as u8;
        }
        old[..2].copy_from_slice(&[status, 0]);
        old[255] = extra;
        let mut clean = blank_with(extra);
        put(&mut clean, b"TUNES", 100);
        let mut image = old.clone();
        put(&mut image, b"TUNES", 100);
        for at in 0..256 {
            let expected = if is_kept(at) { old[at] } else { clean[at] };
            assert_eq!(image[at], expected, "byte {at}");
        }
        let mut second = image.clone();
        put(&mut second, b"SECOND", 100);
        assert!(
            second[256 + 210..][..10].iter().all(|byte| *byte == 0),
            "another slot keeps nothing"
        );
        assert_eq!(second[256 + 255], 0);
    }
}

/// The next slot of slot 80 is 81, across the gap: its old name is cleared, and its sector is written first.
#[test]
fn the_end_across_the_gap() {
    let mut image = filled(1, 79);
    let next = slot_place(81);
    image[next..next + 256].fill(99);
    image[41 * 512 + 256 + 1] = 99;
    let old = image.clone();
    let named = put(&mut image, b"NEW", 0);
    assert_eq!(named[1..], [81, 69], "track 4 sector 2, then track 3 sector 10");
    assert_eq!(image[next..next + 2], [0, 0]);
    assert!(image[next + 2..next + 256].iter().all(|byte| *byte == 99));
    assert_eq!(listed(&image).files, 80);
    let mut without = old.clone();
    without[255] = 0;
    without[slot_place(80) + 1] = 0;
    assert_eq!(put(&mut without, b"NEW", 0)[1..], [69], "there is no slot 81");
}
