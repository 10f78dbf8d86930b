//! Check, list, read, start address and raw sector over whole disks.

mod common;
use common::*;

#[test]
fn the_image_must_be_whole() {
    let image = blank();
    for short in [&image[..0], &image[..IMAGE - 1], &[&image[..], &[0]].concat()] {
        assert_eq!(paper::check(short), refused(1, 0));
        assert_eq!(paper::list(short, &mut []), refused(1, 0));
        assert_eq!(paper::sector(short, &image, 9, 9, 9), refused(1, 0));
        assert_eq!(paper::sector(&image, short, 9, 9, 9), refused(1, 0));
    }
    assert_eq!(paper::check(&image), Ok(()));
    assert_eq!(paper::sector(&image, &image, 2, 207, 10), Ok(818_688));
    assert_eq!(paper::sector(&image, &image, 0, 207, 10), refused(21, 0));
}

#[test]
fn listing_gives_live_slots_and_leaves_the_rest() {
    let mut image = blank();
    for name in [&b"ONE"[..], b"TWO", b"THREE"] {
        put(&mut image, name, 900);
    }
    paper::hide(&mut image, b"THREE", &mut [0; 2]).expect("it is there");
    paper::erase(&mut image, b"TWO", &mut [0; 2]).expect("it is there");
    let mut out = [7; 2 * 258 + 1];
    assert_eq!(paper::list(&image, &mut out), Ok(paper::Listed { files: 2, free: 1_556 }));
    assert_eq!((&out[..2], &out[2..258]), (&[1, 0][..], &image[..256]));
    assert_eq!((&out[258..260], &out[260..516]), (&[3, 0][..], &image[512..768]));
    assert_eq!(out[516], 7);
    let mut short = [7; 2 * 258 - 1];
    assert_eq!(paper::list(&image, &mut short), refused(20, 0));
    assert_eq!(short, [7; 2 * 258 - 1]);
}

#[test]
fn reading_gives_the_body_that_was_saved() {
    for length in [0, 1, 501, 502, 1_011, 1_012, 10_000, 16_384, 795_591] {
        let mut image = blank();
        let list = put(&mut image, b"BODY", length);
        assert_eq!(list.len(), (9 + length).div_ceil(510) + 1);
        let mut out = vec![7; length + 2];
        assert_eq!(paper::read(&image, b"BODY", &mut out), Ok(length));
        assert_eq!((&out[..length], &out[length..]), (&body(length)[..], &[7, 7][..]));
        if length > 0 {
            let mut short = vec![7; length - 1];
            assert_eq!(paper::read(&image, b"BODY", &mut short), refused(20, 0));
            assert!(short.iter().all(|byte| *byte == 7));
        }
    }
}

#[test]
fn reading_asks_for_name_kind_and_presence() {
    let mut image = blank();
    put(&mut image, b"ONE", 900);
    put(&mut image, b"TWO", 900);
    assert_eq!(paper::read(&image, b"", &mut []), refused(12, 0));
    assert_eq!(paper::read(&image, b"THREE", &mut []), refused(15, 0));
    assert_eq!(paper::read(&image, b"TWO ", &mut []), refused(20, 0));
    image[slot_place(2)] = 0x80 | 5;
    assert_eq!(paper::read(&image, b"TWO", &mut []), refused(13, 2));
    assert_eq!(paper::start(&image, b"TWO"), refused(13, 2));
}

#[test]
fn start_addresses_come_from_the_slot() {
    let mut image = blank();
    put(&mut image, b"ONE", 900);
    assert_eq!(paper::start(&image, b"ONE"), Ok(491_520));
    image[236..239].copy_from_slice(&[0xff, 0xff, 0xbf]);
    assert_eq!(paper::start(&image, b"ONE"), Ok(540_671));
    image[237..239].copy_from_slice(&[0x00, 0xc0]);
    assert_eq!(paper::start(&image, b"ONE"), refused(14, 1));
    image[237..239].copy_from_slice(&[0xff, 0x7f]);
    assert_eq!(paper::start(&image, b"ONE"), refused(14, 1));
    assert_eq!(paper::check(&image), Ok(()));
}

/// Two files of three sectors; where the first file's sectors lie.
fn two_files() -> (Vec<u8>, Vec<usize>) {
    let mut image = blank();
    let first = put(&mut image, b"ONE", 1_500);
    put(&mut image, b"TWO", 1_500);
    (image, first[..3].iter().map(|number| number * 512).collect())
}

#[test]
fn broken_chains_are_found() {
    // Bits 0, 1, 2 are track 4, sectors 1, 2, 3; the second file has sectors 4, 5, 6.
    let breaks = [
        (0, [4, 1]),
        (0, [4, 4]),
        (0, [0, 0]),
        (0, [3, 1]),
        (0, [4, 11]),
        (1, [4, 1]),
        (1, [4, 2]),
        (2, [4, 1]),
        (2, [0, 1]),
    ];
    for (sector, link) in breaks {
        let (mut image, places) = two_files();
        image[places[sector] + 510..][..2].copy_from_slice(&link);
        assert_eq!(paper::check(&image), refused(10, 1), "sector {sector}, link {link:?}");
    }
    let (mut image, places) = two_files();
    for (sector, link) in [(0, [4, 3]), (2, [4, 2]), (1, [0, 0])] {
        image[places[sector] + 510..][..2].copy_from_slice(&link);
    }
    assert_eq!(paper::check(&image), Ok(()), "another order is a chain too");
}

#[test]
fn headers_are_compared() {
    for (at, byte, answer) in [
        (0, 19 | 0x40, true),
        (0, 18, true),
        (1, 0, true),
        (2, 0xc0 | 5, false),
        (7, 1, true),
        (8, 7, false),
        (5, 1, false),
    ] {
        let (mut image, places) = two_files();
        image[places[0] + at] = byte;
        assert_eq!(
            paper::check(&image),
            if answer { refused(11, 1) } else { Ok(()) },
            "byte {at} is {byte}"
        );
    }
}

#[test]
fn only_carried_kinds_have_a_length_and_a_header() {
    let (mut image, places) = two_files();
    image[239] = 255;
    assert_eq!(paper::check(&image), refused(7, 1));
    image[0] = 5;
    image[places[0]] = 77;
    assert_eq!(paper::check(&image), Ok(()));
}

#[test]
fn the_directory_comes_before_the_chains() {
    let (mut image, places) = two_files();
    image[places[0] + 7] = 1;
    let second = paper::check(&image);
    assert_eq!(second, refused(11, 1));
    image[slot_place(2) + 13] = 200;
    assert_eq!(paper::check(&image), refused(6, 2));
    image[slot_place(2)] = 0;
    assert_eq!(paper::check(&image), refused(11, 1));
    image[places[0] + 510] = 77;
    assert_eq!(paper::check(&image), refused(10, 1));
    image[0] = 5;
    assert_eq!(paper::check(&image), refused(10, 1), "every kind has a chain");
}
