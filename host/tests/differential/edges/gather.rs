//! Gathering: document 02, M-112.

use super::expect;
use crate::support::calls::{self, Call, NAME, OUT};
use crate::support::compare::Returned;
use crate::support::disks::{DrawnDisk, DrawnFile};
use crate::support::fields;
use crate::support::gathers;
use crate::support::geometry::{BITS, IMAGE, SECTOR, address, bit_place, number, slot_place, slot_sector};
use crate::support::random::Random;
use crate::support::requests::OwnedRequest;

/// A disk with a file for each of these chains, in slots 1 on; the first is gathered.
fn disk(extra: usize, chains: &[Vec<usize>]) -> DrawnDisk {
    gathers::disk(extra, chains, &mut Random::new(20_000_000 + chains.len() as u64))
}

fn row(from: usize, to: usize) -> Vec<usize> {
    (from..to).collect()
}

fn falling(from: usize, to: usize) -> Vec<usize> {
    (from..to).rev().collect()
}

fn gather(file: &DrawnFile, room: usize) -> OwnedRequest {
    OwnedRequest::new(Call::Gather)
        .with(NAME, file.name)
        .with(OUT, vec![0x5c; room])
}

/// The file goes to the run that begins at this bit, and its bytes with it. Gives what is left.
fn moves(disk: &DrawnDisk, i: usize, start: usize) -> Returned {
    let file = &disk.files[i];
    let count = file.chain.len();
    let left = expect(&gather(file, 2 * (count + 1) + 3), &disk.image, 0);
    assert_eq!((calls::slot(left.answer), calls::value(left.answer)), (0, count + 1));
    let run = row(start, start + count);
    let named = run.iter().map(|&bit| number(bit_place(bit))).chain([slot_sector(file.slot)]);
    let mut list: Vec<u8> = named.flat_map(|number| (number as u16).to_le_bytes()).collect();
    list.extend([0x5c; 3]);
    assert_eq!(left.out, list);
    let new = left.image.as_ref().expect("accepted");
    for (i, (&from, &to)) in file.chain.iter().zip(&run).enumerate() {
        let link = run.get(i + 1).map_or([0, 0], |&next| address(next));
        assert!(
            new[bit_place(to)..][..510] == disk.image[bit_place(from)..][..510],
            "payload {i}"
        );
        assert_eq!(new[bit_place(to) + 510..][..2], link);
    }
    left
}

/// Nothing is changed, whatever the room in the list, and the answer is this refusal, slot 0; 0: it is left.
fn stays(disk: &DrawnDisk, i: usize, refused: u8) {
    let file = &disk.files[i];
    for room in [0, 1, 2 * (file.chain.len() + 1), 3_124] {
        let left = expect(&gather(file, room), &disk.image, refused);
        assert_eq!(left.answer, refused.into());
        assert!(left.image.is_none_or(|image| image == disk.image) && left.out == vec![0x5c; room]);
    }
}

/// A run of exactly the length at the end of the disk, and one bit short.
#[test]
fn at_the_end_of_the_disk() {
    for count in [2, 3, 8, 17] {
        let chain = falling(0, count);
        moves(&disk(0, &[chain.clone(), row(count, BITS - count)]), 0, BITS - count);
        stays(&disk(0, &[chain.clone(), row(count, BITS - count + 1)]), 0, 32);
        stays(&disk(0, &[chain, row(count, BITS)]), 0, 32);
    }
}

#[test]
fn across_the_sides() {
    for (before, after) in [(1, 1), (2, 2), (1, 7), (7, 1), (8, 8), (20, 3)] {
        let count = before + after;
        let wall = [row(count, 760 - before), row(760 + after, BITS)].concat();
        moves(&disk(0, &[falling(0, count), wall]), 0, 760 - before);
        for short in [[760 - before], [760 + after - 1]] {
            let wall = [&row(count, 760 - before)[..], &row(760 + after, BITS), &short].concat();
            stays(&disk(0, &[falling(0, count), wall]), 0, 32);
        }
        // Lying across them already.
        stays(&disk(0, &[row(760 - before, 760 + after)]), 0, 0);
        moves(&disk(0, &[falling(760 - before, 760 + after)]), 0, 0);
    }
}

/// A hole of every small length at every place in a byte: just long enough, and just too short, before free bits at the end.
#[test]
fn holes_of_every_length() {
    let mut holes = 0;
    for count in [2, 3, 7, 8, 9, 16, 23, 24] {
        for at in (0..17).chain([745, 752, 753, 759, 760]).map(|at| at + 40) {
            let file = falling(0, count);
            let wall = |hole: usize| [row(count, at), row(at + hole, 1_500)].concat();
            moves(&disk(0, &[file.clone(), wall(count)]), 0, at);
            moves(&disk(0, &[file.clone(), wall(count + 1)]), 0, at);
            moves(&disk(0, &[file, wall(count - 1)]), 0, 1_500);
            holes += 3;
        }
    }
    println!("{holes} holes");
}

/// A hole that is long enough only with the file's own sectors.
#[test]
fn its_own_sectors_are_in_use() {
    let (low, high) = (row(0, 10), row(16, 1_556));
    moves(&disk(0, &[vec![12, 15, 1_556], [&low[..], &high].concat()]), 0, 1_557);
    stays(&disk(0, &[vec![12, 15, 1_556], [&low[..], &high, &[1_558]].concat()]), 0, 32);
    // Without a bit beside them that is another's: the falling file in its own place.
    stays(&disk(0, &[falling(0, 781)]), 0, 32);
    moves(&disk(0, &[falling(0, 780)]), 0, 780);
    moves(&disk(0, &[falling(780, 1_560)]), 0, 0);
}

/// Every order of four consecutive bits: the rising one alone is left.
#[test]
fn orders_of_a_chain() {
    let mut orders = 0;
    for code in 0..256 {
        let chain: Vec<usize> = (0..4).map(|i| 758 + (code >> (2 * i) & 3)).collect();
        if (758..762).all(|bit| chain.contains(&bit)) {
            match chain[..] == [758, 759, 760, 761] {
                true => stays(&disk(0, &[chain]), 0, 0),
                false => drop(moves(&disk(0, &[chain]), 0, 0)),
            }
            orders += 1;
        }
    }
    assert_eq!(orders, 24);
    for chain in [
        row(0, 1),
        row(759, 760),
        row(1_559, 1_560),
        row(5, 7),
        row(1, BITS),
        row(0, BITS),
    ] {
        stays(&disk(0, &[chain]), 0, 0);
    }
    // Rising with one gap: after the first, in the middle, before the last.
    for gap in [1, 5, 9] {
        moves(&disk(0, &[[row(0, gap), row(gap + 1, 11)].concat()]), 0, 11);
    }
    stays(&disk(0, &[falling(0, BITS)]), 0, 32);
}

/// One byte of the list too short, none, and more than is needed; where the file is left none is needed.
#[test]
fn lists() {
    for count in [2, 3, 20, 780] {
        let disk = disk(0, &[falling(0, count), vec![1_559]]);
        let need = 2 * (count + 1);
        for room in [0, 1, 2, need - 2, need - 1, need, need + 1, 3_124] {
            // For the 780 of them there is one free sector too few.
            let number = if count == 780 {
                32
            } else if room < need {
                20
            } else {
                0
            };
            expect(&gather(&disk.files[0], room), &disk.image, number);
        }
        stays(&disk, 1, 0);
    }
}

#[test]
fn refusals_in_their_order() {
    let disk = disk(0, &[falling(0, 800), vec![1_000, 900]]);
    let ask = |name: &[u8], room: usize| OwnedRequest::new(Call::Gather).with(NAME, name).with(OUT, vec![0x5c; room]);
    for name in [&b""[..], b"\0name", b"eleven byte"] {
        expect(&ask(name, 0), &disk.image, 12);
    }
    let missing = b"\x01 not there";
    expect(&ask(&missing[..10], 0), &disk.image, 15);
    expect(&gather(&disk.files[0], 0), &disk.image, 32);
    expect(&gather(&disk.files[1], 5), &disk.image, 20);
    // A directory, with its slot, before the list is looked at.
    let directory = &disk.files[2];
    assert!(fields::is_directory(directory.kind));
    for room in [0, 2, 100] {
        let left = expect(&gather(directory, room), &disk.image, 13);
        assert_eq!(calls::slot(left.answer), directory.slot);
    }
    // The disk comes first.
    let mut image = disk.image.clone();
    image[bit_place(1_000) + 511] ^= 1;
    for file in &disk.files {
        let left = expect(&gather(file, 0), &image, 10);
        assert_eq!(calls::slot(left.answer), 2);
    }
    expect(&ask(b"", 0), &image, 10);
    expect(&gather(&disk.files[0], 0), &disk.image[..IMAGE - 1], 1);
}

/// Directory sectors are no part of a run, and track 4 sector 1 has no neighbour.
#[test]
fn bigger_directories() {
    for extra in [1, 2, 20, 35] {
        let first = 10 * extra;
        stays(&disk(extra, &[vec![0]]), 0, 0);
        moves(&disk(extra, &[vec![0, first]]), 0, first + 1);
        moves(&disk(extra, &[vec![first, 0]]), 0, first + 1);
        moves(&disk(extra, &[vec![1_559, 1_558]]), 0, first);
        let wall = row(first + 2, 1_558);
        moves(&disk(extra, &[vec![first + 1, first], wall.clone()]), 0, 1_558);
        stays(&disk(extra, &[vec![first + 1, first], wall, vec![1_558]]), 0, 32);
        // As many as can move: half of the bits behind the directory.
        let most = (BITS - first) / 2;
        moves(&disk(extra, &[falling(first, first + most)]), 0, first + most);
        stays(&disk(extra, &[falling(first, first + most + 1)]), 0, 32);
    }
}

/// The slot's sector is named last, wherever the slot is, and of the slot its first address and its map change alone.
#[test]
fn slots() {
    for (extra, slot) in [
        (0, 1),
        (0, 2),
        (0, 20),
        (0, 21),
        (0, 79),
        (1, 81),
        (1, 97),
        (2, 99),
        (35, 777),
    ] {
        let chains: Vec<Vec<usize>> = (1..=slot)
            .map(|i| if i == slot { vec![1_559, 1_550] } else { vec![400 + i] })
            .collect();
        let disk = disk(extra, &chains);
        let file = &disk.files[slot - 1];
        assert_eq!(file.slot, slot);
        let left = moves(&disk, slot - 1, 10 * extra);
        let new = left.image.expect("accepted");
        let place = number(slot_place(slot)) * SECTOR;
        let beside = slot_place(slot) - place;
        for at in (0..SECTOR).filter(|&at| !(beside + 13..beside + 210).contains(&at)) {
            assert_eq!(
                new[place + at],
                disk.image[place + at],
                "byte {at} of the sector of slot {slot}"
            );
        }
    }
}

/// Every kind with sectors, with every mark; its answers stay.
#[test]
fn kinds_and_marks() {
    for kind in fields::KNOWN.into_iter().filter(|&kind| !fields::is_directory(kind)) {
        for marks in [0, fields::HIDDEN, fields::PROTECTED, fields::HIDDEN | fields::PROTECTED] {
            let mut disk = disk(0, &[vec![30, 20, 25]]);
            disk.slot_mut(1)[0] = kind | marks;
            disk.slot_mut(1)[fields::PAGES..fields::EXEC].copy_from_slice(&[0, 5, 0]);
            disk.sector_mut(30)[..fields::HEADER].copy_from_slice(&[kind, 5, 0, 1, 2, 3, 4, 0, 7]);
            let name = disk.files[0].name;
            let new = moves(&disk, 0, 0).image.expect("accepted");
            for call in [Call::Read, Call::Start] {
                let mut asked = OwnedRequest::new(call).with(NAME, name);
                if call == Call::Read {
                    asked = asked.with(OUT, vec![0x5c; 9]);
                }
                let outside = fields::is_carried(kind) && fields::start(disk.slot(1)).is_none();
                let number = match fields::is_readable(kind) {
                    true if call == Call::Start && outside => 14,
                    true => 0,
                    false => 13,
                };
                let [old, new] = [&disk.image, &new].map(|image| expect(&asked, image, number));
                assert!(old.answer == new.answer && old.out == new.out);
            }
        }
    }
}

/// What erased and unread slots say is in use by nobody.
#[test]
fn what_is_not_live() {
    let chains = [vec![9, 8], row(0, 2), row(2, 4), row(4, 8)];
    let mut erased = disk(0, &chains);
    erased.slot_mut(2)[0] = 0;
    moves(&erased, 0, 0);
    let mut ended = disk(0, &chains);
    ended.slot_mut(3)[fields::NAME] = 0;
    moves(&ended, 0, 2);
    let all = disk(0, &chains);
    moves(&all, 0, 10);
}
