//! The changes but gathering: what they write, what they name, what they refuse.

mod common;
use common::*;
use paper::{Refused, SaveRequest};

type ChangeFn = fn(&mut [u8], &[u8], &mut [u8]) -> Result<usize, Refused>;

#[test]
fn a_saved_file_byte_by_byte() {
    let mut image = blank();
    image[slot_place(1)..][..256].fill(99);
    image[slot_place(1)] = 0;
    image[255] = 255;
    image[40_960..][..1_024].fill(99);
    let old = image.clone();
    let bytes = body(600);
    let request = SaveRequest {
        kind: 18,
        name: b"NEW",
        page: 3,
        offset: 40_000,
        exec: &[4, 5, 6, 7],
        info: &[8, 9],
        body: &bytes,
    };
    let mut list = [7; 7];
    assert_eq!(paper::save(&mut image, &request, &mut list), Ok(3));
    assert_eq!(list, [80, 0, 81, 0, 0, 0, 7]);
    assert_eq!(changed(&old, &image), [0, 80, 81]);

    let mut slot = [0; 256];
    slot[0] = 18;
    slot[1..11].copy_from_slice(b"NEW       ");
    slot[11..15].copy_from_slice(&[0, 2, 4, 1]);
    slot[15] = 3;
    slot[221..223].copy_from_slice(&[8, 9]);
    slot[236..242].copy_from_slice(&[3, 64, 156, 0, 88, 2]);
    slot[242..246].copy_from_slice(&[4, 5, 6, 255]);
    slot[210..220].fill(99);
    slot[252..254].fill(99);
    slot[255] = 255;
    assert_eq!(image[..256], slot, "what is about the disk stays");

    let mut sectors = [0; 1_024];
    sectors[..9].copy_from_slice(&[18, 88, 2, 64, 156, 0, 0, 0, 3]);
    sectors[9..510].copy_from_slice(&bytes[..501]);
    sectors[510..512].copy_from_slice(&[4, 2]);
    sectors[512..611].copy_from_slice(&bytes[501..]);
    assert_eq!(image[40_960..][..1_024], sectors);
}

#[test]
fn information_and_execution_bytes_are_cut_or_filled() {
    let long: Vec<u8> = (1..=20).collect();
    for (given, info, exec) in [
        (0, 0, 0),
        (2, 2, 2),
        (3, 3, 3),
        (4, 4, 3),
        (11, 11, 3),
        (12, 11, 3),
        (20, 11, 3),
    ] {
        let mut image = blank();
        let request = SaveRequest {
            info: &long[..given],
            exec: &long[..given],
            ..request(b"NEW", &[])
        };
        assert_eq!(paper::save(&mut image, &request, &mut [0; 4]), Ok(2));
        let mut expected = [0; 15];
        expected[..info].copy_from_slice(&long[..info]);
        assert_eq!(image[221..236], expected, "{given} bytes given");
        let mut expected = [0, 0, 0, 255];
        expected[..exec].copy_from_slice(&long[..exec]);
        assert_eq!(image[242..246], expected, "{given} bytes given");
    }
}

#[test]
fn freed_slots_and_sectors_are_used_again() {
    let mut image = blank();
    for name in [&b"A"[..], b"B", b"C"] {
        put(&mut image, name, 900);
    }
    paper::erase(&mut image, b"B", &mut [0; 2]).expect("it is there");
    let list = put(&mut image, b"D", 1_800);
    assert_eq!(list, [82, 83, 86, 87, 0]);
    assert_eq!(&image[slot_place(2)..][..2], [19, b'D']);
    assert_eq!(paper::check(&image), Ok(()));
}

#[test]
fn the_directory_sector_of_every_slot() {
    let mut image = blank();
    for slot in 1..=80 {
        let name = [b'A' + slot as u8 / 10, b'0' + slot as u8 % 10];
        let list = put(&mut image, &name, 0);
        assert_eq!(list[1], slot_place(slot) / 512);
        assert_eq!(&image[slot_place(slot)..][1..3], name);
    }
    assert_eq!(paper::save(&mut image, &request(b"NEXT", &[]), &mut [0; 4]), refused(18, 0));
}

#[test]
fn a_full_disk() {
    let mut image = blank();
    let mut list = [0; 2 * 1_561];
    let long = body(795_592);
    assert_eq!(paper::save(&mut image, &request(b"BIG", &long), &mut list), refused(19, 0));
    assert_eq!(image, blank());
    let named = put(&mut image, b"BIG", 795_591);
    assert_eq!(
        (named.len(), named[759], named[760], named[1_559], named[1_560]),
        (1_561, 1_589, 10, 1_599, 0)
    );
    assert_eq!(paper::save(&mut image, &request(b"MORE", &[]), &mut list), refused(19, 0));
}

#[test]
fn save_refuses_in_order() {
    let mut image = blank();
    put(&mut image, b"OLD", 0);
    put(&mut image, b"FULL", 794_571);
    assert_eq!(paper::list(&image, &mut [0; 516]), Ok(paper::Listed { files: 2, free: 1 }));
    let bytes = body(502);
    let mut request = SaveRequest {
        kind: 21,
        name: b"\x7f",
        page: 32,
        offset: 0,
        exec: &[],
        info: &[],
        body: &bytes,
    };
    let mut list = [7; 3];
    let old = image.clone();
    let mut tried = |request: &SaveRequest, number, slot| {
        assert_eq!(paper::save(&mut image, request, &mut list), refused(number, slot));
        assert_eq!((&image, list), (&old, [7; 3]));
    };
    tried(&request, 12, 0);
    request.name = b"OLD";
    tried(&request, 13, 0);
    request.kind = 16;
    tried(&request, 14, 0);
    request.page = 31;
    tried(&request, 14, 0);
    (request.page, request.offset) = (32, 32_768);
    tried(&request, 14, 0);
    request.page = 31;
    tried(&request, 16, 1);
    request.name = b"NEW";
    tried(&request, 19, 0);
    request.body = &bytes[..501];
    tried(&request, 20, 0);
    request.kind = 16 + 256;
    tried(&request, 13, 0);
}

#[test]
fn no_slot_comes_before_no_room_and_a_taken_name_before_both() {
    let mut image = blank();
    for slot in 1..=80 {
        put(&mut image, &[b'A' + slot / 10, b'0' + slot % 10], 9_500);
    }
    let bytes = body(100_000);
    assert_eq!(paper::save(&mut image, &request(b"NEW", &bytes), &mut []), refused(18, 0));
    assert_eq!(paper::save(&mut image, &request(b"I0", &bytes), &mut []), refused(16, 80));
}

#[test]
fn erase_rename_and_marks_change_only_their_bytes() {
    let mut image = blank();
    for name in [&b"A"[..], b"B", b"C"] {
        put(&mut image, name, 900);
    }
    let place = slot_place(3);
    let mut expected = image.clone();
    let mut list = [7; 3];
    let steps: [(ChangeFn, u8); 8] = [
        (paper::hide, 0x80 | 19),
        (paper::hide, 0x80 | 19),
        (paper::protect, 0xc0 | 19),
        (paper::protect, 0xc0 | 19),
        (paper::show, 0x40 | 19),
        (paper::show, 0x40 | 19),
        (paper::release, 19),
        (paper::release, 19),
    ];
    for (step, byte) in steps {
        assert_eq!(step(&mut image, b"C", &mut list), Ok(1));
        expected[place] = byte;
        assert_eq!((&image, list), (&expected, [1, 0, 7]));
    }
    assert_eq!(paper::rename(&mut image, b"C", b"C D", &mut list), Ok(1));
    expected[place + 1..place + 11].copy_from_slice(b"C D       ");
    assert_eq!((&image, list), (&expected, [1, 0, 7]));
    assert_eq!(paper::erase(&mut image, b"C D", &mut list), Ok(1));
    expected[place] = 0;
    assert_eq!((&image, list), (&expected, [1, 0, 7]));
    assert_eq!(paper::hide(&mut image, b"C D", &mut list), refused(15, 0));
}

#[test]
fn rename_refuses_in_order() {
    let mut image = blank();
    put(&mut image, b"A", 900);
    put(&mut image, b"B", 900);
    paper::protect(&mut image, b"B", &mut [0; 2]).expect("it is there");
    let old = image.clone();
    let mut tried = |name: &[u8], new: &[u8], number, slot| {
        let mut list = [7];
        assert_eq!(paper::rename(&mut image, name, new, &mut list), refused(number, slot));
        assert_eq!((&image, list), (&old, [7]));
    };
    tried(b"", b"A", 12, 0);
    tried(b"X", b" A", 12, 0);
    tried(b"X", b"A", 15, 0);
    tried(b"B", b"A", 16, 1);
    tried(b"B", b"B", 16, 2);
    tried(b"A", b"A ", 16, 1);
    tried(b"B", b"C", 17, 2);
    tried(b"A", b"C", 20, 0);
}

/// A rename may alter the case of a file's own name alone; both spellings then find the file.
#[test]
fn rename_in_other_letters() {
    let mut image = blank();
    put(&mut image, b"Tunes 1", 900);
    put(&mut image, b"SONGS", 0);
    let mut list = [7; 3];
    for (name, new) in [
        (&b"TUNES 1"[..], &b"tunes 1"[..]),
        (b"tUNES 1", b"TUNES 1"),
        (b"tunes 1", b"Tunes 1"),
    ] {
        let mut expected = image.clone();
        expected[1..8].copy_from_slice(new);
        assert_eq!(paper::rename(&mut image, name, new, &mut list), Ok(1));
        assert_eq!((&image, list), (&expected, [0, 0, 7]));
        assert_eq!(paper::start(&image, name), Ok(491_520));
        assert_eq!(paper::start(&image, new), Ok(491_520));
        assert_eq!(paper::check(&image), Ok(()));
    }
    let old = image.clone();
    let mut tried = |name: &[u8], new: &[u8], number, slot| {
        assert_eq!(paper::rename(&mut image, name, new, &mut list), refused(number, slot));
        assert_eq!((&image, list), (&old, [0, 0, 7]));
    };
    tried(b"tunes 1", b"Tunes 1", 16, 1);
    tried(b"TUNES 1", b"Tunes 1   ", 16, 1);
    tried(b"tunes 1", b"songs", 16, 2);
    tried(b"songs", b"TUNES 1", 16, 1);
    tried(b"songs", b"SONGS", 16, 2);
    assert_eq!(paper::save(&mut image, &request(b"Songs", &[]), &mut [0; 4]), refused(16, 2));
    // A protected file keeps its name, in whatever letters.
    paper::protect(&mut image, b"sONGS", &mut list).expect("it is there");
    assert_eq!(paper::rename(&mut image, b"songs", b"songs", &mut list), refused(17, 2));
    assert_eq!(paper::rename(&mut image, b"songs", b"SONGS", &mut list), refused(16, 2));
    assert_eq!(paper::erase(&mut image, b"TUNES 1", &mut list), Ok(1));
    assert_eq!(paper::read(&image, b"Tunes 1", &mut [0; 900]), refused(15, 0));
}

#[test]
fn erase_and_marks_refuse_in_order() {
    let mut image = blank();
    put(&mut image, b"A", 900);
    put(&mut image, b"B", 900);
    paper::protect(&mut image, b"B", &mut [0; 2]).expect("it is there");
    let old = image.clone();
    assert_eq!(paper::erase(&mut image, b"\x00", &mut []), refused(12, 0));
    assert_eq!(paper::erase(&mut image, b"X", &mut []), refused(15, 0));
    assert_eq!(paper::erase(&mut image, b"B", &mut []), refused(17, 2));
    assert_eq!(paper::erase(&mut image, b"A", &mut [0]), refused(20, 0));
    for mark in [paper::hide, paper::show, paper::protect, paper::release] {
        assert_eq!(mark(&mut image, b"ABCDEFGHIJK", &mut []), refused(12, 0));
        assert_eq!(mark(&mut image, b"X", &mut []), refused(15, 0));
        assert_eq!(mark(&mut image, b"B", &mut [0]), refused(20, 0));
    }
    assert_eq!(image, old);
}
