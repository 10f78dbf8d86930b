//! Subdirectories (document 02, M-108): slots of kind 21, and the slots beneath them.

mod common;
use common::*;
use paper::Listed;

const CODE: usize = 250;
const PARENT: usize = 254;

/// Puts a directory into a slot, with its code and the code of the directory that it is in.
fn directory(image: &mut [u8], slot: usize, name: &[u8], code: u8, parent: u8) {
    let bytes = &mut image[slot_place(slot)..][..256];
    let kept = bytes[255];
    bytes.fill(0);
    bytes[0] = 21;
    bytes[1..11].fill(32);
    bytes[1..1 + name.len()].copy_from_slice(name);
    (bytes[CODE], bytes[PARENT], bytes[255]) = (code, parent, kept);
}

/// Saves a file and puts it into a directory.
fn file(image: &mut [u8], slot: usize, name: &[u8], parent: u8) {
    put(image, name, 10);
    image[slot_place(slot) + PARENT] = parent;
}

/// GAMES holds CHESS, ARCADE and its PONG; MUSIC stands inside ARCADE; LETTER is in the root.
fn nested_disk() -> Vec<u8> {
    let mut image = blank();
    file(&mut image, 1, b"CHESS", 7);
    directory(&mut image, 2, b"MUSIC", 200, 3);
    directory(&mut image, 3, b"GAMES", 7, 0);
    file(&mut image, 4, b"LETTER", 0);
    file(&mut image, 5, b"PONG", 3);
    directory(&mut image, 6, b"ARCADE", 3, 7);
    file(&mut image, 7, b"TUNE", 200);
    directory(&mut image, 8, b"EMPTY", 1, 0);
    image
}

/// The slots beneath a directory.
fn beneath(image: &[u8], name: &[u8]) -> Result<Vec<usize>, paper::Refused> {
    let mut out = vec![0x5c; 1_600];
    let many = paper::tree(image, name, &mut out)?;
    assert!(out[2 * many..].iter().all(|byte| *byte == 0x5c), "the rest stays");
    Ok(numbers(&out[..2 * many]))
}

#[test]
fn each_level_by_slots_and_a_directory_before_its_own() {
    let image = nested_disk();
    assert_eq!(paper::check(&image), Ok(()));
    assert_eq!(beneath(&image, b""), Ok(vec![3, 1, 6, 2, 7, 5, 4, 8]));
    assert_eq!(beneath(&image, b"GAMES"), Ok(vec![1, 6, 2, 7, 5]));
    assert_eq!(beneath(&image, b"games "), Ok(vec![1, 6, 2, 7, 5]));
    assert_eq!(beneath(&image, b"ARCADE"), Ok(vec![2, 7, 5]));
    assert_eq!(beneath(&image, b"Music"), Ok(vec![7]));
    assert_eq!(beneath(&image, b"EMPTY"), Ok(vec![]));
    assert_eq!(beneath(&blank(), b""), Ok(vec![]));
}

/// A directory takes a slot and no sector, whatever its first address says.
#[test]
fn rows_of_kind_21() {
    let image = nested_disk();
    let listed = paper::list(&image, &mut [0; 778 * 258]);
    assert_eq!(listed, Ok(Listed { files: 8, free: 1_556 }));
    assert_eq!(paper::check_release(&image), Ok(()));
    let with = |at: usize, bytes: &[u8]| {
        let mut image = image.clone();
        image[slot_place(3) + at..][..bytes.len()].copy_from_slice(bytes);
        paper::check(&image)
    };
    for first in [[0, 0], [4, 1], [3, 11], [255, 255]] {
        assert_eq!(with(13, &first), Ok(()));
    }
    for count in [[0, 1], [1, 0], [6, 24], [255, 255]] {
        assert_eq!(with(11, &count), refused(4, 3));
    }
    for (at, bits) in [(15, 1), (15, 255), (100, 4), (209, 128)] {
        assert_eq!(with(at, &[bits]), refused(5, 3));
    }
    assert_eq!(with(11, &[0, 1, 4, 1, 1]), refused(4, 3));
    assert_eq!(with(1, b"Chess     "), refused(9, 3));
    assert_eq!(with(0, &[0xc0 | 21]), Ok(()));
    assert_eq!(with(0, &[22]), refused(4, 3));
    for length in [[255; 3], [1, 2, 3]] {
        assert_eq!(with(239, &length), Ok(()));
    }
}

/// What would be refused 26 to 28 refuses no other call.
#[test]
fn other_calls_look_at_no_codes() {
    let mut image = nested_disk();
    image[slot_place(3) + CODE] = 0;
    image[slot_place(4) + PARENT] = 99;
    assert_eq!(paper::check(&image), Ok(()));
    assert_eq!(paper::read(&image, b"LETTER", &mut [0; 10]), Ok(10));
    assert_eq!(paper::hide(&mut image, b"GAMES", &mut [0; 2]), Ok(1));
    for call in [
        paper::start(&image, b"GAMES").map(|_| 0),
        paper::read(&image, b"GAMES", &mut []),
    ] {
        assert_eq!(call, refused(13, 3));
    }
    assert_eq!(paper::open(&image, b"GAMES"), refused(13, 3));
}

/// Codes before places, places by slots, and at a slot 27 before 28; all of them before what is asked.
#[test]
fn the_order_of_26_to_28() {
    let mut image = nested_disk();
    image[slot_place(4) + PARENT] = 99;
    assert_eq!(beneath(&image, b""), refused(27, 4));
    assert_eq!(beneath(&image, b"\x00"), refused(27, 4));
    image[slot_place(3) + PARENT] = 3;
    assert_eq!(beneath(&image, b""), refused(28, 3));
    image[slot_place(3) + PARENT] = 8;
    assert_eq!(beneath(&image, b""), refused(27, 3));
    image[slot_place(8) + CODE] = 0;
    assert_eq!(beneath(&image, b""), refused(26, 8));
    image[slot_place(6) + CODE] = 7;
    assert_eq!(beneath(&image, b""), refused(26, 6), "an earlier directory's");
    image[slot_place(2) + CODE] = 0;
    assert_eq!(beneath(&image, b"LETTER"), refused(26, 2));
    image[slot_place(1)] = 63;
    assert_eq!(beneath(&image, b""), refused(2, 1), "the disk's own come first");
}

/// A directory that only hangs from a ring is not inside itself; one that is its own parent is.
#[test]
fn rings() {
    let mut image = blank();
    for (slot, code, parent) in [(1, 10, 20), (2, 20, 30), (3, 30, 20)] {
        directory(&mut image, slot, &[b'A' + slot as u8], code, parent);
    }
    assert_eq!(beneath(&image, b""), refused(28, 2));
    image[slot_place(2) + PARENT] = 20;
    assert_eq!(beneath(&image, b""), refused(28, 2));
    image[slot_place(2) + PARENT] = 10;
    assert_eq!(beneath(&image, b""), refused(28, 1));
    image[slot_place(1) + PARENT] = 0;
    assert_eq!(beneath(&image, b""), Ok(vec![1, 2, 3]));
}

#[test]
fn what_is_asked_for() {
    let image = nested_disk();
    for name in [&b"\x00"[..], b"\x00GAMES", b"ELEVEN BYTE"] {
        assert_eq!(beneath(&image, name), refused(12, 0));
    }
    assert_eq!(beneath(&image, b"LETTER"), refused(13, 4));
    assert_eq!(beneath(&image, b"SONGS"), refused(15, 0));
    for length in 0..12 {
        let mut out = vec![0x5c; length];
        let answer = paper::tree(&image, b"GAMES", &mut out);
        assert_eq!(answer, if length < 10 { refused(20, 0) } else { Ok(5) });
        assert!(length >= 10 || out.iter().all(|byte| *byte == 0x5c));
    }
    assert_eq!(paper::tree(&image, b"EMPTY", &mut []), Ok(0));
}

/// As deep as codes go: 255 directories, each in the one before, with a file in the last. Then the other way round.
#[test]
fn as_deep_as_codes_go() {
    for falling in [false, true] {
        let mut image = blank_with(35);
        for depth in 0..255 {
            let (slot, code) = (1 + depth, 1 + depth as u8);
            let parent = match (falling, depth) {
                (false, _) => code - 1,
                (true, 254) => 0,
                (true, _) => code + 1,
            };
            directory(&mut image, slot, format!("D{slot}").as_bytes(), code, parent);
        }
        file(&mut image, 256, b"DEEP", if falling { 1 } else { 255 });
        let mut whole: Vec<usize> = (1..=255).collect();
        if falling {
            whole.reverse();
        }
        whole.push(256);
        assert_eq!(beneath(&image, b""), Ok(whole.clone()));
        let hundredth = format!("D{}", whole[99]);
        assert_eq!(beneath(&image, hundredth.as_bytes()), Ok(whole[100..].to_vec()));
        let root = if falling { 255 } else { 1 };
        image[slot_place(root) + PARENT] = if falling { 1 } else { 255 };
        assert_eq!(beneath(&image, b""), refused(28, 1), "all are inside themselves");
    }
}

/// 29: not before 17, and not where the code is 0 or the one slot that is in it is itself.
#[test]
fn a_directory_that_is_not_empty_stays() {
    let image = nested_disk();
    let erase = |image: &[u8], name: &[u8], room: usize| {
        let mut image = image.to_vec();
        let answer = paper::erase(&mut image, name, &mut vec![0; room]);
        answer.map(|_| image)
    };
    assert_eq!(erase(&image, b"GAMES", 0), refused(29, 3));
    assert_eq!(erase(&image, b"GAMES", 2), refused(29, 3));
    assert_eq!(erase(&image, b"EMPTY", 0), refused(20, 0));
    assert_eq!(erase(&image, b"EMPTY", 2).map(|image| image[slot_place(8)]), Ok(0));
    let mut other = image.clone();
    other[slot_place(3)] |= 64;
    assert_eq!(erase(&other, b"GAMES", 2), refused(17, 3));
    other = image.clone();
    other[slot_place(3) + CODE] = 0;
    assert!(erase(&other, b"GAMES", 2).is_ok(), "what is in the root is in no directory");
    other = image.clone();
    other[slot_place(8) + PARENT] = 1;
    assert!(erase(&other, b"EMPTY", 2).is_ok(), "it is in itself alone");
    other[slot_place(4) + CODE] = 77;
    other[slot_place(5) + PARENT] = 77;
    assert!(erase(&other, b"LETTER", 2).is_ok(), "a file's byte 250 is no code");
    other = image.clone();
    other[slot_place(7)] = 0;
    assert!(erase(&other, b"MUSIC", 2).is_ok(), "what is erased is in nothing");
    other = image.clone();
    assert_eq!(erase(&other, b"MUSIC", 2), refused(29, 2));
    other[slot_place(3) + 1] = 0;
    assert!(
        erase(&other, b"MUSIC", 2).is_ok(),
        "nor is what stands behind the directory's end"
    );
}

/// Slots behind the end and erased ones lie beneath nothing, and no directory there has a code.
#[test]
fn what_is_not_live() {
    let mut image = nested_disk();
    image[slot_place(6)] = 0;
    assert_eq!(beneath(&image, b""), refused(27, 2), "the directory of MUSIC is gone");
    image[slot_place(2)] = 0;
    image[slot_place(5)] = 0;
    assert_eq!(beneath(&image, b""), refused(27, 7));
    image[slot_place(7) + 1] = 0;
    assert_eq!(beneath(&image, b""), Ok(vec![3, 1, 4]));
}

/// A save goes to the root.
#[test]
fn a_save_goes_to_the_root() {
    let mut image = nested_disk();
    image[slot_place(9)..][..256].fill(99);
    image[slot_place(9) + 1] = 0;
    put(&mut image, b"NEW", 1);
    assert_eq!(beneath(&image, b""), Ok(vec![3, 1, 6, 2, 7, 5, 4, 8, 9]));
}
