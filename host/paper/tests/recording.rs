//! Save while recording (document 02, M-109).

mod common;
use common::recording::{TestRecording, listing, read};
use common::*;
use paper::{RECORD_BYTES, record_add, record_close, record_open};

/// Disks to record on: an empty one; one with files, a gap between them and old names behind the end; a bigger directory.
fn disks() -> Vec<Vec<u8>> {
    let mut used = blank();
    for (name, length) in [(&b"A"[..], 900), (b"B", 1_500), (b"C", 0)] {
        put(&mut used, name, length);
    }
    paper::erase(&mut used, b"B", &mut [0; 2]).expect("it is there");
    let mut ends = used.clone();
    paper::save(&mut ends, &request(b"D", &[]), &mut [0; 4]).expect("there is room");
    ends[slot_place(5)..][..11].copy_from_slice(b"\x13OLD NAME  ");
    ends[slot_place(4)..][..2].fill(0);
    let mut bigger = blank_with(3);
    put(&mut bigger, b"A", 600);
    vec![blank(), used, ends, bigger]
}

/// Records a body in pieces of one length on this disk, and compares with one save of it.
fn records(disk: &[u8], bytes: &[u8], piece: usize) {
    let mut saved = disk.to_vec();
    let mut list = vec![0; 3_124];
    let count = paper::save(&mut saved, &request(b"TUNE", bytes), &mut list).expect("there is room");
    let mut recording = TestRecording::open(disk, b"TUNE");
    assert_eq!(recording.add(&[]), Ok(0));
    for piece in bytes.chunks(piece) {
        let answer = recording.add(piece);
        assert!(answer.is_ok(), "{answer:?}");
    }
    assert_eq!(recording.add(&[]), Ok(0));
    assert_eq!(listing(&recording.image), listing(disk));
    let closed = recording.close();
    assert!(recording.image == saved, "{} bytes in pieces of {piece}", bytes.len());
    // The same sectors as by the save, the first of them after the last.
    let data = (9 + bytes.len()).div_ceil(510);
    assert_eq!(closed, Ok(count - data + data.min(2)));
    let mut expected = numbers(&list[..2 * count]);
    expected[..data].rotate_left(1);
    assert_eq!(recording.named, expected);
}

#[test]
fn a_closed_recording_is_one_save() {
    for (disk, which) in disks().iter().zip(0..) {
        for length in [0, 1, 500, 501, 502, 1_010, 1_011, 1_012, 1_521, 1_522, 2_600] {
            let bytes = body(length);
            for piece in [1, 509, 510, 511, 1_020, length.max(1)] {
                // Pieces of one byte are many.
                if piece > 1 || which == 2 && length < 1_100 {
                    records(disk, &bytes, piece);
                }
            }
        }
    }
}

/// A whole disk of sound, in pieces of 4,096; one byte more is refused 19, and the recording goes on.
#[test]
fn a_full_disk() {
    let bytes = body(795_591);
    records(&blank(), &bytes, 4_096);
    records(&blank(), &bytes, 795_591);
    let mut recording = TestRecording::open(&blank(), b"BIG");
    assert_eq!(recording.add(&body(795_592)), refused(19, 0));
    assert_eq!(recording.add(&bytes[..795_000]), Ok(1_557));
    assert_eq!(recording.add(&[7; 592]), refused(19, 0));
    assert_eq!(recording.add(&bytes[795_000..]), Ok(1));
    assert_eq!(recording.add(&[7]), refused(19, 0));
    assert_eq!(recording.add(&[]), Ok(0));
    assert_eq!(recording.close(), Ok(3));
    assert_eq!(&read(&recording.image, b"BIG"), &bytes);
}

/// Where each part of the record stands.
#[test]
fn the_record_byte_by_byte() {
    let mut image = blank_with(2);
    put(&mut image, b"A", 600);
    let file = paper::SaveRequest {
        kind: 18,
        page: 3,
        offset: 40_000,
        exec: &[4, 5],
        info: &[6; 20],
        ..request(b"Tune", &[])
    };
    let mut record = vec![0x5c; RECORD_BYTES];
    assert_eq!(record_open(&image, &file, &mut record), Ok(()));
    let mut expected = vec![0; RECORD_BYTES];
    expected[..5].copy_from_slice(&[18, 3, 64, 156, 2]);
    expected[12..22].copy_from_slice(b"Tune      ");
    expected[22..24].copy_from_slice(&[4, 5]);
    expected[25..36].fill(6);
    // Track 4 sector 1, and the first sector behind the directory: bit 20.
    (expected[36], expected[38]) = (1, 1 << 4);
    assert_eq!(record, expected);

    let bytes = body(1_100);
    let mut expect = |from: usize, to: usize, last: usize| {
        let answer = record_add(&mut image, &bytes[from..to], &mut record, &mut [0; 20]);
        assert!(answer.is_ok(), "{answer:?}");
        expected[8..12].copy_from_slice(&(to as u32).to_le_bytes());
        expected[231..732].fill(0);
        expected[231..][..to.min(501)].copy_from_slice(&bytes[..to.min(501)]);
        expected[732..1_242].fill(0);
        expected[732..][..to - last].copy_from_slice(&bytes[last..to]);
        assert_eq!(record, expected, "{to} bytes");
    };
    expect(0, 3, 0);
    expect(3, 501, 0);
    expect(501, 502, 501);
    expect(502, 1_011, 501);
    expect(1_011, 1_012, 1_011);
    expect(1_012, 1_100, 1_011);
}

#[test]
fn opening_refuses_as_an_empty_save_and_then_20() {
    let mut image = blank();
    put(&mut image, b"OLD", 0);
    put(&mut image, b"FULL", 795_081);
    let mut record = vec![0x5c; RECORD_BYTES];
    let mut tried = |image: &[u8], request: &paper::SaveRequest, number, slot| {
        assert_eq!(record_open(image, request, &mut record), refused(number, slot));
        assert!(record.iter().all(|byte| *byte == 0x5c));
    };
    let mut file = paper::SaveRequest {
        kind: 21,
        page: 32,
        ..request(b"\x7f", &[])
    };
    tried(&image[1..], &file, 1, 0);
    tried(&image, &file, 12, 0);
    file.name = b"old";
    tried(&image, &file, 13, 0);
    file.kind = 16;
    tried(&image, &file, 14, 0);
    file.page = 31;
    tried(&image, &file, 16, 1);
    file.name = b"NEW";
    tried(&image, &file, 19, 0);
    paper::erase(&mut image, b"FULL", &mut [0; 2]).expect("it is there");
    assert_eq!(record_open(&image, &file, &mut vec![0; RECORD_BYTES - 1]), refused(20, 0));
    assert_eq!(record_open(&image, &file, &mut []), refused(20, 0));
    assert_eq!(record_open(&image, &file, &mut record), Ok(()));
    // A directory of 80 files.
    let mut image = blank();
    for slot in 1..=80 {
        put(&mut image, &[b'A' + slot / 10, b'0' + slot % 10], 0);
    }
    assert_eq!(record_open(&image, &request(b"NEW", &[]), &mut []), refused(18, 0));
    image[255] = 99;
    assert_eq!(record_open(&image, &request(b"NEW", &[]), &mut []), refused(24, 0));
}

/// Lists and records too short, and the order beside the other numbers.
#[test]
fn room_or_20() {
    let mut recording = TestRecording::open(&blank(), b"TUNE");
    let bytes = body(2_100);
    let tried = |piece: &[u8], room: usize, short: usize| {
        let (mut image, mut list) = (recording.image.clone(), vec![0x5c; room]);
        let mut record = recording.record[..RECORD_BYTES - short].to_vec();
        let answer = record_add(&mut image, piece, &mut record, &mut list);
        if answer.is_err() {
            assert!(image == recording.image && list == vec![0x5c; room]);
            assert_eq!(record, recording.record[..RECORD_BYTES - short]);
        }
        answer
    };
    assert_eq!(tried(&bytes, 5, 0), refused(20, 0));
    assert_eq!(tried(&bytes, 6, 0), Ok(3));
    assert_eq!(tried(&bytes[..1_011], 0, 0), Ok(0));
    assert_eq!(tried(&bytes[..1_012], 1, 0), refused(20, 0));
    assert_eq!(tried(&[], 0, 0), Ok(0));
    assert_eq!(tried(&[], 0, 1), refused(20, 0));
    assert_eq!(tried(&vec![0; 795_592], 0, 1), refused(20, 0));
    assert_eq!(tried(&vec![0; 795_592], 0, 0), refused(19, 0));

    recording.add(&bytes).expect("there is room");
    let close = |image: &[u8], record: &[u8], room: usize| record_close(&mut image.to_vec(), record, &mut vec![0; room]);
    assert_eq!(close(&recording.image, &recording.record, 5), refused(20, 0));
    assert_eq!(close(&recording.image, &recording.record, 6), Ok(3));
    assert_eq!(
        close(&recording.image, &recording.record[..RECORD_BYTES - 1], 6),
        refused(20, 0)
    );
    assert_eq!(close(&recording.image[1..], &[], 6), refused(1, 0));
    // An old name behind the end is one sector more, where it is in another.
    let mut image = recording.image.clone();
    put(&mut image, b"A", 0);
    image[slot_place(3)..][..11].copy_from_slice(b"\x13OLD NAME  ");
    let other = TestRecording::open(&image, b"TUNE");
    assert_eq!(close(&image, &other.record, 5), refused(20, 0));
    assert_eq!(close(&image, &other.record, 6), Ok(3));
}
