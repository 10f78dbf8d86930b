//! The order of the table: at a slot the lowest number; the lowest slot first; all slots for 2 to 9 before any for 10, 11
//! and 25; and nothing from the directory's end on.

use super::expect;
use crate::support::calls::{self, Call, NAME, NEW, OUT};
use crate::support::disks::{DrawnDisk, DrawnFile};
use crate::support::fields;
use crate::support::geometry::{address, fills};
use crate::support::requests::OwnedRequest;

/// A disk with three files of five sectors each, all carried and none empty.
fn disk() -> DrawnDisk {
    let fits = |file: &DrawnFile| fields::is_carried(file.kind) && file.chain.len() == 5 && !file.body.is_empty();
    (40..)
        .map(|seed| super::disk(seed, 3, 15))
        .find(|disk| disk.files.iter().all(fits))
        .expect("one is found")
}

fn given(disk: &DrawnDisk, number: u8, index: usize) {
    let answer = expect(&OwnedRequest::new(Call::Check), &disk.image, number).answer;
    assert_eq!(calls::slot(answer), if number == 0 { 0 } else { disk.files[index].slot });
}

fn set_length(slot: &mut [u8], length: usize) {
    slot[fields::PAGES] = (length / 16_384) as u8;
    slot[fields::REMAINDER..fields::EXEC].copy_from_slice(&fields::remainder(length, 0));
}

/// All rows hold at the second file, and are mended one after the other.
#[test]
fn at_one_slot() {
    let mut disk = disk();
    let (file, earlier) = (disk.files[1].clone(), disk.files[0].clone());
    let original = disk.slot(file.slot).to_vec();
    let slot = disk.slot_mut(file.slot);
    slot[0] = 63;
    slot[fields::NAME..fields::COUNT].copy_from_slice(&earlier.name);
    fields::set_count(slot, 0);
    fields::set_bit(slot, earlier.chain[2], true);
    slot[fields::FIRST] = 3;
    set_length(slot, fills(6) + 1);
    disk.link(file.chain[2], [3, 1]);
    disk.sector_mut(file.chain[0])[0] ^= 1;
    type Mend = fn(&mut [u8], &[u8]);
    let mends: [(u8, Mend); 7] = [
        (2, |slot, original| slot[0] = original[0]),
        (4, |slot, _| fields::set_count(slot, 5)),
        (5, |slot, _| fields::set_count(slot, 6)),
        (6, |slot, original| slot[fields::FIRST] = original[fields::FIRST]),
        (7, |slot, original| {
            slot[fields::PAGES..].copy_from_slice(&original[fields::PAGES..])
        }),
        (8, |slot, original| {
            slot[fields::COUNT..].copy_from_slice(&original[fields::COUNT..])
        }),
        (9, |slot, original| slot.copy_from_slice(original)),
    ];
    for (number, mend) in mends {
        given(&disk, number, 1);
        without_a_name(&disk, file.slot);
        mend(disk.slot_mut(file.slot), &original);
    }
    given(&disk, 10, 1);
    without_a_name(&disk, file.slot);
    disk.link(file.chain[2], address(file.chain[3]));
    given(&disk, 11, 1);
    without_a_name(&disk, file.slot);
    disk.sector_mut(file.chain[0])[0] ^= 1;
    given(&disk, 0, 1);
}

/// The same disk with a first name byte of 0 in this slot is accepted: the directory ends there.
fn without_a_name(disk: &DrawnDisk, slot: usize) {
    let mut ended = disk.clone();
    ended.slot_mut(slot)[fields::NAME] = 0;
    given(&ended, 0, 1);
}

/// The lowest slot is given, whatever its number among 2 to 9, or among 10 and 11.
#[test]
fn at_two_slots() {
    let mut disk = disk();
    let [first, second, third] = [0, 1, 2].map(|index| disk.files[index].clone());
    disk.link(third.chain[1], [0, 0]);
    given(&disk, 10, 2);
    disk.sector_mut(first.chain[0])[0] ^= 1;
    given(&disk, 11, 0);
    disk.link(first.chain[4], [0, 1]);
    given(&disk, 10, 0);
    disk.slot_mut(third.slot)[0] = 63;
    given(&disk, 2, 2);
    disk.slot_mut(second.slot)[fields::NAME..fields::COUNT].copy_from_slice(&first.name);
    given(&disk, 9, 1);
    disk.slot_mut(first.slot)[fields::FIRST] = 0;
    given(&disk, 6, 0);
    disk.slot_mut(first.slot)[0] = 0;
    given(&disk, 2, 2);
    disk.slot_mut(third.slot)[0] = 0;
    given(&disk, 0, 1);
}

/// What is wrong with the disk comes before what is wrong with the request.
#[test]
fn the_disk_before_the_request() {
    let mut disk = disk();
    let last = disk.files[2].clone();
    disk.sector_mut(last.chain[0])[0] ^= 1;
    let takes_name = |call: &Call| call.takes().contains(&NAME);
    for call in
        calls::CALLS
            .into_iter()
            .filter(takes_name)
            .chain([Call::List, Call::EraseMany, Call::RecordAdd, Call::RecordClose])
    {
        let left = expect(&OwnedRequest::new(call), &disk.image, 11);
        assert_eq!(calls::slot(left.answer), last.slot);
    }
    disk.sector_mut(last.chain[0])[0] ^= 1;
    for call in calls::CALLS.into_iter().filter(|call| call.needs_name()) {
        expect(&OwnedRequest::new(call), &disk.image, 12);
    }
    expect(&OwnedRequest::new(Call::List), &disk.image, 20);
}

/// Rename: all of 12, 15, 16, 17 and 20 that apply, mended one after the other.
#[test]
fn rows_of_a_rename() {
    let mut disk = disk();
    let file = disk.files[1].clone();
    disk.slot_mut(file.slot)[0] |= fields::PROTECTED;
    disk.slot_mut(file.slot)[fields::NAME..fields::COUNT].copy_from_slice(b"old name  ");
    let mut asked = OwnedRequest::new(Call::Rename)
        .with(NAME, *b"not there")
        .with(NEW, *b"old name\n");
    expect(&asked, &disk.image, 12);
    asked = asked.with(NEW, *b"old name");
    expect(&asked, &disk.image, 15);
    asked = asked.with(NAME, *b"old name");
    expect(&asked, &disk.image, 16);
    asked = asked.with(NEW, *b"new name");
    expect(&asked, &disk.image, 17);
    disk.slot_mut(file.slot)[0] &= !fields::PROTECTED;
    expect(&asked, &disk.image, 20);
    expect(&asked.with(OUT, [0, 0]), &disk.image, 0);
}

/// Reading, opening and start address: a kind that cannot be read comes before the buffer and the offset; the buffer is the
/// last, and opening has none.
#[test]
fn rows_of_read_open_and_start() {
    let mut disk = disk();
    let file = disk.files[1].clone();
    let [read, open, start] =
        [Call::Read, Call::Open, Call::Start].map(|call| OwnedRequest::new(call).with(NAME, file.name));
    disk.slot_mut(file.slot)[fields::OFFSET + 1] = 0;
    let marks = disk.slot(file.slot)[0] & 192;
    disk.slot_mut(file.slot)[0] = marks | 22;
    for asked in [&read, &open, &start] {
        assert_eq!(calls::slot(expect(asked, &disk.image, 13).answer), file.slot);
    }
    disk.slot_mut(file.slot)[0] = marks | file.kind;
    expect(&read, &disk.image, 20);
    expect(&open, &disk.image, 0);
    assert_eq!(calls::slot(expect(&start, &disk.image, 14).answer), file.slot);
}
