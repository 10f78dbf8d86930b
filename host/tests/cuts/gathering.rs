//! Gathers cut after every sector.

use crate::Counts;
use crate::answers::{self, Answers};
use crate::change::AcceptedChange;
use crate::support::disks::{self, DrawnDisk};
use crate::support::gathers::{self, GatherResult};
use crate::support::random::Random;
use crate::support::shapes::{Background, Order, Shape};
use crate::{after, cut};

/// A file of so many sectors in slot 2, between two of one sector; taken in this order.
fn disk(extra: usize, sectors: usize, order: Order, random: &mut Random) -> DrawnDisk {
    let shape = Shape {
        extra,
        files: vec![(1, 1), (2, sectors), (3, 1), (4, 0)],
        end: Some(6),
        order,
        background: Background::Rubbish,
        tidy: false,
    };
    disks::of_shape(&shape, random)
}

/// Every place, from none of the sectors to all of them.
#[test]
fn every_place() {
    let (mut cuts, mut answered) = (0, 0);
    for (extra, sectors, order) in [
        (0, 2, Order::Falling),
        (0, 2, Order::Scattered),
        (0, 20, Order::Scattered),
        (0, 40, Order::Falling),
        (1, 12, Order::Scattered),
        (35, 15, Order::Falling),
        (35, 30, Order::Scattered),
    ] {
        let random = &mut Random::new(8_900_000 + sectors as u64);
        let disk = disk(extra, sectors, order, random);
        let change = AcceptedChange::gather(&disk.image, 2).expect("there is room");
        assert_eq!(change.named.len(), sectors + 1);
        change.names_its_sectors();
        after::examine(&change);
        let answers = Answers::of(&change, random);
        for k in 0..=change.named.len() {
            let left = change.cut(k);
            change.keeps_other_files(&left);
            change.keeps_the_end(&left, k == change.named.len());
            change.keeps_what_is_the_disks(&left);
            if k < change.named.len() {
                answered += answers.same_on(&left);
                gathered_after_the_cut(&change, &left);
            } else {
                assert!(left == change.new, "cut after all sectors, the disk is not the new one");
                answers::accepted(&left);
            }
            cuts += 1;
        }
    }
    println!("{cuts} cuts, {answered} answers");
}

/// A gather that was cut can be asked for again, and leaves the same disk.
fn gathered_after_the_cut(change: &AcceptedChange, left: &[u8]) {
    let again = AcceptedChange::gather(left, 2).expect("there is room still");
    assert!(again.new == change.new, "another disk than without the cut");
    assert_eq!(again.named, change.named);
}

/// The largest file that can move: half of all data sectors, falling, to the other half. Its list is the longest.
#[test]
fn the_largest_gather() {
    for (extra, data) in [(0, 1_560), (1, 1_551), (35, 1_211)] {
        let random = &mut Random::new(8_950_000 + extra as u64);
        // With track 4 sector 1 beside a bigger directory the run begins behind it.
        let most = if extra == 0 { data / 2 } else { (data - 1) / 2 };
        for (sectors, moves) in [(most, true), (most + 1, false)] {
            let shape = Shape {
                extra,
                files: vec![(2, sectors)],
                end: None,
                order: Order::Falling,
                background: Background::Rubbish,
                tidy: false,
            };
            let disk = disks::of_shape(&shape, random);
            match AcceptedChange::gather(&disk.image, 2) {
                Some(change) => {
                    assert!(moves, "{sectors} of {data}");
                    assert_eq!(change.named.len(), sectors + 1);
                    cut(&change, &mut Counts::default(), random);
                }
                None => assert!(!moves, "{sectors} of {data}"),
            }
        }
    }
}

/// A file that lies in a row has no sector to be cut at: the disk stays as it is.
#[test]
fn a_file_in_a_row() {
    for (extra, sectors) in [(0, 1), (0, 2), (0, 700), (1, 1), (35, 200)] {
        let random = &mut Random::new(8_960_000 + sectors as u64);
        let disk = disk(extra, sectors, Order::Rising, random);
        let change = AcceptedChange::gather(&disk.image, 3).expect("it is left");
        assert!(change.named.is_empty() && change.new == disk.image);
        cut(&change, &mut Counts::default(), random);
        // With n above 0 the first file has track 4 sector 1, and the second lies behind the directory.
        let change = AcceptedChange::gather(&disk.image, 2).expect("it is left");
        let live = &change.facts.live[1];
        assert_eq!(
            gathers::gather_result(&disk.image, &change.facts, live),
            GatherResult::InPlace
        );
        assert!(change.named.is_empty());
    }
}
