//! Every file of drawn disks gathered, by what was drawn: the expectation comes from the disk's own bytes.

use crate::support::calls::{self, Call, NAME, OUT, Request};
use crate::support::compare::{self, Returned};
use crate::support::disks::{self, DrawnDisk, DrawnFile};
use crate::support::facts::Facts;
use crate::support::fields;
use crate::support::gathers::{self, GatherResult};
use crate::support::margins::Margins;
use crate::support::random::Random;
use crate::support::requests::OwnedRequest;
use crate::support::settings::{Round, Rounds};

/// How many files moved, were left, and could not move; and how many directories were refused.
type Counts = [usize; 4];

fn gather(image: &[u8], file: &DrawnFile, lender: &mut Margins) -> Returned {
    let room = vec![0x5c; 2 * (file.chain.len() + 1)];
    let asked = OwnedRequest::new(Call::Gather).with(NAME, file.name).with(OUT, room);
    compare::ask(&asked.on(image), lender)
}

/// Gathers a file of an image and compares the answer with what the image's bytes ask for. Gives the image left.
fn gathered(image: &[u8], file: &DrawnFile, lender: &mut Margins, counts: &mut Counts) -> Vec<u8> {
    let facts = Facts::of(image);
    let live = facts.live.iter().find(|live| live.slot == file.slot).expect("it is live");
    let left = gather(image, file, lender);
    let given = (
        calls::refusal(left.answer),
        calls::slot(left.answer),
        calls::value(left.answer),
    );
    let new = left.image.unwrap_or_else(|| image.to_vec());
    if live.is_directory() {
        assert_eq!(given, (13, file.slot, 0));
        counts[3] += 1;
        return new;
    }
    match gathers::gather_result(image, &facts, live) {
        GatherResult::InPlace => {
            assert_eq!(given, (0, 0, 0));
            assert!(new == image);
            counts[1] += 1;
        }
        GatherResult::MovedTo(start) => {
            assert_eq!(given, (0, 0, file.chain.len() + 1));
            let facts = Facts::of(&new);
            let live = facts.live.iter().find(|live| live.slot == file.slot).expect("it is live");
            let chain: Vec<usize> = (start..start + file.chain.len()).collect();
            assert_eq!(gathers::chain(&new, live), chain);
            assert_eq!(gather(&new, file, lender).answer, 0, "gathered again it is left");
            counts[0] += 1;
        }
        GatherResult::NoRun => {
            assert_eq!(given, (32, 0, 0));
            counts[2] += 1;
        }
    }
    new
}

/// Every body that can be read is what was drawn.
fn reads_as_drawn(disk: &DrawnDisk, image: &[u8], lender: &mut Margins) {
    for file in disk.files.iter().filter(|file| fields::is_readable(file.kind)) {
        let out = vec![0x5c; file.body.len()];
        let request = Request::new(Call::Read, image).with(NAME, &file.name).with(OUT, &out);
        let left = compare::ask(&request, lender);
        assert!(
            calls::refusal(left.answer) == 0 && left.out == file.body,
            "slot {}",
            file.slot
        );
    }
}

/// Each file alone, and then one after the other, the lowest slot first.
#[test]
fn every_file_of_drawn_disks() {
    let (mut alone, mut in_turn) = (Counts::default(), Counts::default());
    let mut lender = Margins::default();
    let rounds = Rounds::new(6_500_000, 120);
    for seed in rounds.seeds() {
        let _round = Round(seed);
        let random = &mut Random::new(seed);
        let disk = disks::draw(random);
        let some = disk.files.iter().filter(|_| disk.files.len() < 20 || random.one_in(10));
        let some: Vec<&DrawnFile> = some.collect();
        for file in &some {
            gathered(&disk.image, file, &mut lender, &mut alone);
        }
        let left = some.iter().fold(disk.image.clone(), |image, file| {
            gathered(&image, file, &mut lender, &mut in_turn)
        });
        assert_eq!(compare::ask(&Request::new(Call::Check, &left), &mut lender).answer, 0);
        reads_as_drawn(&disk, &left, &mut lender);
    }
    println!("moved, left, stuck, directories: {alone:?} alone, {in_turn:?} in turn");
    let fewest = alone.iter().chain(&in_turn).min().expect("there are eight");
    assert!(!rounds.enough() || *fewest >= 20, "too few of one sort");
}
