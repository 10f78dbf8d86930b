//! Recordings with other changes or a cut in between (document 02, M-109).

mod common;
use common::recording::{TestRecording, listing, read};
use common::*;
use paper::{record_add, record_close};

/// A disk with two files, and a recording on it that has come to five sectors: three of them are written.
fn begun() -> (TestRecording, Vec<u8>) {
    let mut image = blank();
    put(&mut image, b"A", 900);
    put(&mut image, b"B", 100);
    let mut recording = TestRecording::open(&image, b"TUNE");
    let bytes = body(2_300);
    assert_eq!(recording.add(&bytes), Ok(3));
    (recording, bytes)
}

/// The sectors of that recording, in the order of its chain: files A and B have sectors 80 to 82.
const FIRST: usize = 83;

/// One more piece and the close, which must both be accepted; the file then reads so.
fn goes_on(mut recording: TestRecording, bytes: &[u8]) {
    let others: Vec<Vec<u8>> = [b"A", b"B"].map(|name| read(&recording.image, name)).into();
    assert_eq!(recording.add(&[7, 8]), Ok(0));
    assert_eq!(recording.close(), Ok(3));
    assert_eq!(&read(&recording.image, b"TUNE"), &[bytes, &[7, 8]].concat());
    assert_eq!(
        others,
        [b"A", b"B"].map(|name| read(&recording.image, name)),
        "no other file altered"
    );
}

/// A piece, an empty one too, and the close are refused 30.
fn has_moved(mut recording: TestRecording) {
    assert_eq!(recording.add(&[]), refused(30, 0));
    assert_eq!(recording.add(&body(900)), refused(30, 0));
    // 30 comes before 19 and 20.
    assert_eq!(recording.add(&body(800_000)), refused(30, 0));
    assert_eq!(recording.close(), refused(30, 0));
    assert_eq!(record_close(&mut recording.image, &recording.record, &mut []), refused(30, 0));
}

#[test]
fn changes_that_move_no_sector() {
    let changes: [fn(&mut [u8]); 4] = [
        |image| assert_eq!(paper::hide(image, b"A", &mut [0; 2]), Ok(1)),
        |image| assert_eq!(paper::protect(image, b"B", &mut [0; 2]), Ok(1)),
        |image| assert_eq!(paper::gather(image, b"A", &mut []), Ok(0)),
        // 255 is read as 0.
        |image| image[255] = 255,
    ];
    for change in changes {
        let (mut recording, bytes) = begun();
        change(&mut recording.image);
        goes_on(recording, &bytes);
    }
}

#[test]
fn a_save_an_erase_or_another_directory_in_between() {
    let (mut recording, _) = begun();
    put(&mut recording.image, b"C", 100);
    has_moved(recording);
    let (mut recording, _) = begun();
    assert_eq!(paper::erase(&mut recording.image, b"A", &mut [0; 2]), Ok(1));
    has_moved(recording);
    let mut recording = TestRecording::open(&blank(), b"TUNE");
    assert_eq!(recording.add(&body(300)), Ok(0));
    recording.image[255] = 1;
    has_moved(recording);
}

/// The save wrote into the recording's sectors. It is refused where a link is gone, and else reads as its sectors do.
#[test]
fn a_save_and_its_erase_in_between() {
    for (length, holds) in [
        (0, true),
        (501, true),
        (502, false),
        (2_031, false),
        (2_032, true),
        (9_000, true),
    ] {
        let (mut recording, bytes) = begun();
        put(&mut recording.image, b"C", length);
        assert_eq!(paper::erase(&mut recording.image, b"C", &mut [0; 2]), Ok(1));
        if !holds {
            has_moved(recording);
            continue;
        }
        // The first sector and the last are written at the close; those of C stay between them.
        let mut expected = bytes;
        if length > 501 {
            expected[501..2_031].copy_from_slice(&body(9_000)[501..2_031]);
        }
        goes_on(recording, &expected);
    }
}

/// A piece whose sectors were not all written: the disk as it was before, with the first of them taken from the new one.
#[test]
fn a_cut_piece() {
    for written in 0..=3 {
        let (mut recording, bytes) = begun();
        let mut cut = recording.image.clone();
        cut[512 * (FIRST + 1 + written)..512 * (FIRST + 4)].fill(0);
        recording.image = cut;
        match written {
            3 => goes_on(recording, &bytes),
            _ => has_moved(recording),
        }
    }
    // The unwritten sectors hold the links already, as after a save of the same length that was erased.
    let (recording, _) = begun();
    let mut image = recording.image;
    let other: Vec<u8> = body(2_300).iter().map(|byte| !byte).collect();
    assert_eq!(paper::save(&mut image, &request(b"C", &other), &mut [0; 12]), Ok(6));
    assert_eq!(paper::erase(&mut image, b"C", &mut [0; 2]), Ok(1));
    let mut recording = TestRecording::open(&image, b"TUNE");
    assert_eq!(recording.add(&body(2_300)), Ok(3));
    recording.image = image;
    let mut expected = body(2_300);
    expected[501..2_031].copy_from_slice(&other[501..2_031]);
    goes_on(recording, &expected);
}

/// Both have the same sectors; the one that closes has them.
#[test]
fn two_recordings_at_once() {
    let mut one = TestRecording::open(&blank(), b"ONE");
    let mut two = TestRecording::open(&blank(), b"TWO");
    assert_eq!(one.add(&[1; 1_600]), Ok(2));
    two.image = one.image;
    assert_eq!(two.add(&[2; 1_012]), Ok(1));
    one.image = two.image;
    assert_eq!(one.add(&[3; 100]), Ok(0));
    assert_eq!(one.close(), Ok(3));
    // The second sector is what the other wrote there last.
    let mut expected = [&[1; 1_600][..], &[3; 100]].concat();
    expected[501..1_011].fill(2);
    assert_eq!(read(&one.image, b"ONE"), expected);
    two.image = one.image;
    has_moved(two);
}

/// The name, the kind of slot and the room are tested at the close again.
#[test]
fn a_rename_that_takes_the_name() {
    let (mut recording, bytes) = begun();
    assert_eq!(paper::rename(&mut recording.image, b"B", b"Tune", &mut [0; 2]), Ok(1));
    assert_eq!(recording.add(&[]), Ok(0));
    assert_eq!(recording.close(), refused(16, 2));
    // With the name given back it closes.
    assert_eq!(paper::rename(&mut recording.image, b"TUNE", b"B", &mut [0; 2]), Ok(1));
    goes_on(recording, &bytes);
}

/// Slots that were taken since: a subdirectory has no sectors.
#[test]
fn no_slot_is_left_at_the_close() {
    let mut recording = TestRecording::open(&blank(), b"TUNE");
    for slot in 1..=80 {
        let bytes = &mut recording.image[slot_place(slot)..][..256];
        bytes[..11].copy_from_slice(format!("\x15DIR {slot:<6}").as_bytes());
        bytes[250] = slot as u8;
    }
    assert_eq!(recording.add(&[]), Ok(0));
    assert_eq!(recording.close(), refused(18, 0));
}

/// Cut anywhere before its end, a close leaves the old files and can be made again.
#[test]
fn every_cut_of_a_close() {
    let (mut recording, bytes) = begun();
    let old = recording.image.clone();
    let count = recording.close().expect("nothing stands against it");
    let named = recording.named.split_off(recording.named.len() - count);
    let mut cut = old.clone();
    for sector in &named {
        assert_eq!(listing(&cut), listing(&old));
        for name in [b"A", b"B"] {
            assert_eq!(read(&cut, name), read(&old, name));
        }
        let mut again = cut.clone();
        assert_eq!(record_close(&mut again, &recording.record, &mut [0; 8]), Ok(count));
        assert!(again == recording.image);
        let range = 512 * sector..512 * (sector + 1);
        cut[range.clone()].copy_from_slice(&recording.image[range]);
    }
    assert!(cut == recording.image);
    assert_eq!(read(&cut, b"TUNE"), bytes);
}

/// Of a record that no call gave it is asked that every call answers, and that a refused one changes nothing.
#[test]
fn any_bytes_as_a_record() {
    let (recording, _) = begun();
    let mut state = 1_u64;
    let mut random = || {
        state = state
            .wrapping_mul(6_364_136_223_846_793_005)
            .wrapping_add(1_442_695_040_888_963_407);
        (state >> 33) as usize
    };
    let mut accepted = 0;
    for _ in 0..2_000 {
        let mut record = recording.record.clone();
        for _ in 0..=random() % 3 {
            record[[random() % 36, random() % 1_300, 8, 9, 11][random() % 5]] = random() as u8;
        }
        let piece = body(random() % 1_500);
        let (mut image, mut after, mut list) = (recording.image.clone(), record.clone(), [0x5c; 8]);
        let answer = match random() % 2 {
            0 => record_add(&mut image, &piece, &mut after, &mut list),
            _ => record_close(&mut image, &after, &mut list),
        };
        accepted += usize::from(answer.is_ok());
        assert_eq!(paper::check(&image), Ok(()));
        if answer.is_err() {
            assert!((image, after, list) == (recording.image.clone(), record, [0x5c; 8]));
        }
    }
    assert!((200..1_800).contains(&accepted), "{accepted} accepted");
}
