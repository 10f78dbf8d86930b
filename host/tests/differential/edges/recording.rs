//! Recordings at their edges: bodies at the ends of sectors in pieces of every sort, what comes in between, and the numbers in
//! their order.

use super::{expect, save};
use crate::support::calls::{self, Call, NAME, NEW, OUT, RECORD};
use crate::support::compare::Returned;
use crate::support::facts::Facts;
use crate::support::fields;
use crate::support::geometry::{self, IMAGE, LONGEST, SECTOR, bit_place, fills, slot_place};
use crate::support::names;
use crate::support::random::Random;
use crate::support::recordings::{self, CAME, KIND, LENGTH, OFFSET, OWN_NAME, PAGE, Recording, USED};
use crate::support::requests::OwnedRequest;

/// A disk of nothing, with this number of directory tracks beyond four.
fn blank(extra: u8) -> Vec<u8> {
    let mut image = vec![0; IMAGE];
    image[geometry::EXTRA] = extra;
    image
}

/// The same with files A and B of so many bytes.
fn disk(extra: u8, lengths: [usize; 2]) -> Vec<u8> {
    let mut image = blank(extra);
    for (name, length) in [*b"A", *b"B"].into_iter().zip(lengths) {
        image = change(save(vec![7; length]).with(NAME, name), &image);
    }
    image
}

/// What an accepted change leaves.
fn change(asked: OwnedRequest, image: &[u8]) -> Vec<u8> {
    expect(&asked, image, 0).image.expect("it changes the disk")
}

fn on_name(call: Call, name: &[u8]) -> OwnedRequest {
    OwnedRequest::new(call).with(NAME, name).with(OUT, [0x5c; 2])
}

/// Opens a recording: the record is what follows from the rule.
fn open(image: &[u8]) -> Recording {
    let opening = recordings::opening(save(Vec::new()), vec![0x5c; LENGTH + 3]);
    let left = expect(&opening, image, 0);
    let recording = Recording::of(&opening, &Facts::of(image));
    assert!(
        left.record == [&recording.record()[..], &[0x5c; 3]].concat(),
        "another record"
    );
    recording
}

/// Adds a piece; record, list and disk are what follows from the rule.
fn add(recording: &mut Recording, piece: &[u8], image: &mut Vec<u8>) -> usize {
    let completed = recording.completes(piece);
    let left = expect(&recording.add(piece, 3_116), image, 0);
    *recording = recording.with(piece);
    assert!(left.record == recording.record(), "another record");
    assert_eq!(listed(&left), recordings::numbers(&completed));
    *image = left.image.expect("accepted");
    completed.len()
}

fn listed(left: &Returned) -> Vec<usize> {
    let pairs = left.out.chunks(2).take(calls::value(left.answer));
    pairs.map(|pair| usize::from(pair[0]) + 256 * usize::from(pair[1])).collect()
}

/// A body in pieces of one length, an empty one before and behind, and then the close: the disk of one save.
fn records(image: &[u8], body: &[u8], piece: usize) {
    let (mut recording, mut now) = (open(image), image.to_vec());
    assert_eq!(add(&mut recording, &[], &mut now), 0);
    for piece in body.chunks(piece) {
        add(&mut recording, piece, &mut now);
    }
    assert_eq!(add(&mut recording, &[], &mut now), 0);
    let closed = expect(&recording.close(8), &now, 0);
    let saved = expect(&recording.save(), image, 0);
    assert!(closed.image == saved.image, "{} bytes in pieces of {piece}", body.len());
    assert_eq!(calls::value(closed.answer), recording.close_sectors(&Facts::of(image)));
}

#[test]
fn bodies_and_pieces() {
    let random = &mut Random::new(22_000_000);
    for extra in [0, 1, 35] {
        let image = disk(extra, [600, 0]);
        for length in [0, 1, 500, 501, 502, 1_010, 1_011, 1_012, 1_521, 1_522] {
            let body = random.bytes(length);
            for piece in [1, 510, 511, LONGEST] {
                // Pieces of one byte are many.
                if piece > 1 || extra == 0 && [0, 501, 502, 1_011, 1_012].contains(&length) {
                    records(&image, &body, piece);
                }
            }
        }
    }
}

#[test]
fn the_longest() {
    let body = Random::new(22_000_001).bytes(LONGEST);
    for piece in [4_096, LONGEST] {
        records(&blank(0), &body, piece);
    }
    let (mut recording, mut image) = (open(&blank(0)), blank(0));
    assert_eq!(add(&mut recording, &body, &mut image), 1_558);
    expect(&recording.add(&[7], 3_116), &image, 19);
    expect(&open(&blank(0)).add(&[&body[..], &[7]].concat(), 3_116), &blank(0), 19);
    // 3,116 bytes are just enough, and one less is too few.
    expect(&open(&blank(0)).add(&body, 3_115), &blank(0), 20);
    let most = fills(geometry::data(35));
    records(&blank(35), &body[..most], most);
}

/// The directory's end with an old name behind it: two sectors of the directory, which are four with those of the data.
#[test]
fn an_old_name_behind_the_end() {
    let mut image = disk(0, [0, 0]);
    image[slot_place(4)..][..11].copy_from_slice(b"\x13OLD NAME  ");
    let taken = Facts::of(&image);
    assert_eq!((taken.taken, taken.cleared), (Some(3), Some(4)));
    let mut image = change(save(Vec::new()).with(NAME, *b"C"), &image);
    image[slot_place(5)..][..11].copy_from_slice(b"\x13OLD NAME  ");
    let facts = Facts::of(&image);
    assert_eq!(
        (facts.taken, facts.cleared, facts.directory_sectors().len()),
        (Some(4), Some(5), 2)
    );
    for length in [0, 600] {
        records(&image, &vec![9; length], 100);
        let recording = open(&image).with(&vec![9; length]);
        let many = if length == 0 { 3 } else { 4 };
        expect(&recording.close(2 * many - 1), &image, 20);
        assert_eq!(calls::value(expect(&recording.close(2 * many), &image, 0).answer), many);
    }
}

/// A recording of five sectors on a disk with two files; its pieces have written three.
fn begun() -> (Recording, Vec<u8>) {
    let mut image = disk(0, [600, 100]);
    let mut recording = open(&image);
    let body = Random::new(22_000_002).bytes(2_300);
    assert_eq!(add(&mut recording, &body, &mut image), 3);
    (recording, image)
}

/// A piece, an empty one too, and the close are refused 30, and that before 19 and 20.
fn has_moved(recording: &Recording, image: &[u8]) {
    for (piece, room) in [(0, 3_116), (900, 3_116), (LONGEST, 0)] {
        expect(&recording.add(&vec![7; piece], room), image, 30);
    }
    expect(&recording.close(8), image, 30);
    expect(&recording.close(0), image, 30);
}

/// It goes on and closes; the file reads as this body and two bytes more.
fn goes_on(recording: &Recording, image: &[u8], body: &[u8]) {
    let added = expect(&recording.add(&[7, 8], 0), image, 0);
    assert_eq!(added.answer, 0);
    let closed = expect(&recording.with(&[7, 8]).close(6), image, 0).image.expect("accepted");
    let read = OwnedRequest::new(Call::Read)
        .with(NAME, recording.name)
        .with(OUT, vec![0; body.len() + 2]);
    assert!(expect(&read, &closed, 0).out == [body, &[7, 8]].concat());
    expect(&OwnedRequest::new(Call::Check), &closed, 0);
}

#[test]
fn changes_in_between() {
    let (recording, image) = begun();
    let body = &recording.body;
    goes_on(&recording, &image, body);
    for call in [Call::Hide, Call::Protect] {
        goes_on(&recording, &change(on_name(call, b"a"), &image), body);
    }
    let renamed = change(on_name(Call::Rename, b"A").with(NEW, *b"C"), &image);
    goes_on(&recording, &renamed, body);
    has_moved(&recording, &change(save(Vec::new()).with(NAME, *b"C"), &image));
    has_moved(&recording, &change(on_name(Call::Erase, b"A"), &image));
    // 255 is read as 0, and any other number is not.
    let mut other = image.clone();
    other[geometry::EXTRA] = 255;
    goes_on(&recording, &other, body);
}

/// A directory of another size whose sectors no file has.
#[test]
fn other_tracks_in_between() {
    let image = blank(0);
    let recording = open(&image).with(&[9; 300]);
    expect(&recording.close(8), &image, 0);
    for extra in 1..=35 {
        has_moved(&recording, &blank(extra));
    }
}

/// A save and its erase, which wrote into the recording's sectors: where a link is gone it is refused, else it reads as its
/// sectors do.
#[test]
fn a_save_and_its_erase_in_between() {
    let (recording, image) = begun();
    for (length, holds) in [
        (0, true),
        (501, true),
        (502, false),
        (2_031, false),
        (2_032, true),
        (9_000, true),
    ] {
        let saved = change(save(vec![0xaa; length]).with(NAME, *b"C"), &image);
        has_moved(&recording, &saved);
        let given_back = change(on_name(Call::Erase, b"C"), &saved);
        if !holds {
            has_moved(&recording, &given_back);
            continue;
        }
        let mut body = recording.body.clone();
        if length > fills(1) {
            body[fills(1)..fills(4)].fill(0xaa);
        }
        goes_on(&recording, &given_back, &body);
    }
}

/// A piece cut after each of its sectors: 30 until all are written, but where the unwritten ones hold these links already.
#[test]
fn a_cut_piece() {
    let (recording, whole) = begun();
    let chain = recording.chain();
    for written in 0..=3 {
        let mut image = whole.clone();
        for &bit in &chain[1 + written..4] {
            image[bit_place(bit)..][..SECTOR].fill(0);
        }
        match written {
            3 => goes_on(&recording, &image, &recording.body),
            _ => has_moved(&recording, &image),
        }
    }
    let saved = change(save(vec![0xaa; 2_300]).with(NAME, *b"C"), &disk(0, [600, 100]));
    let old = change(on_name(Call::Erase, b"C"), &saved);
    let mut body = recording.body.clone();
    body[fills(1)..fills(4)].fill(0xaa);
    goes_on(&recording, &old, &body);
}

#[test]
fn two_at_once() {
    let mut image = disk(0, [600, 100]);
    let (mut one, mut two) = (open(&image), open(&image));
    two.name = names::filled(b"two");
    assert_eq!(add(&mut one, &[1; 1_600], &mut image), 2);
    assert_eq!(add(&mut two, &[2; 1_012], &mut image), 1);
    let mut body = one.body.clone();
    body[fills(1)..fills(2)].fill(2);
    goes_on(&one, &image, &body);
    let closed = change(one.close(8), &image);
    has_moved(&two, &closed);
    has_moved(&one, &closed);
}

/// 20 of a record that is too short comes before 30; then all that apply, mended one after the other.
#[test]
fn rows_of_a_close() {
    let (recording, image) = begun();
    let mut image = change(on_name(Call::Rename, b"B").with(NEW, *b"NEW"), &image);
    let mut asked = recording.close(5);
    let original = asked.slices[RECORD].clone();
    let record = &mut asked.slices[RECORD];
    record[USED] ^= 1;
    (record[OWN_NAME], record[KIND], record[PAGE]) = (31, 21, 32);
    record.truncate(LENGTH - 1);
    expect(&asked, &image[1..], 1);
    image[geometry::EXTRA] = 36;
    expect(&asked, &image, 24);
    image[geometry::EXTRA] = 0;
    expect(&asked, &image, 20);
    asked.slices[RECORD].push(0);
    expect(&asked, &image, 30);
    asked.slices[RECORD][USED] = original[USED];
    expect(&asked, &image, 12);
    asked.slices[RECORD][OWN_NAME] = original[OWN_NAME];
    expect(&asked, &image, 13);
    asked.slices[RECORD][KIND] = original[KIND];
    expect(&asked, &image, 14);
    asked.slices[RECORD][PAGE] = original[PAGE];
    asked.slices[RECORD][OFFSET + 1] = 0;
    expect(&asked, &image, 14);
    asked.slices[RECORD][OFFSET + 1] = original[OFFSET + 1];
    assert_eq!(calls::slot(expect(&asked, &image, 16).answer), 2);
    let mut image = change(on_name(Call::Rename, b"NEW").with(NEW, *b"B"), &image);
    expect(&asked, &image, 20);
    expect(&recording.close(6), &image, 0);
    // Every slot taken by a directory, which has no sectors.
    for slot in 3..=80 {
        let bytes = &mut image[slot_place(slot)..][..256];
        bytes[0] = fields::DIRECTORY;
        bytes[fields::NAME..fields::COUNT].copy_from_slice(&names::filled(format!("D{slot}").as_bytes()));
    }
    expect(&recording.close(6), &image, 18);
    // More bytes than there are sectors: a record that no call gave.
    let mut image = blank(0);
    image = change(save(vec![7; LONGEST - 510]).with(NAME, *b"A"), &image);
    let mut asked = open(&image).close(8);
    asked.slices[RECORD][CAME..OWN_NAME].copy_from_slice(&(fills(1) as u32 + 1).to_le_bytes());
    expect(&asked, &image, 19);
    asked.slices[RECORD][CAME..OWN_NAME].copy_from_slice(&u32::MAX.to_le_bytes());
    expect(&asked, &image, 19);
}
