//! Many names erased at once: what becomes of each name, what becomes of the disk, and the sectors named are those of single
//! erases one after the other, whatever `paper` says. And what refuses the whole call.

use crate::support::calls::{self, ANSWERS, NAMES, OUT};
use crate::support::compare::{self, Returned};
use crate::support::disks::{self, DrawnDisk};
use crate::support::erase_many::{self, EraseOutcome};
use crate::support::facts::Facts;
use crate::support::fields;
use crate::support::geometry::{self, MOST_EXTRA, SECTOR, SECTORS};
use crate::support::margins::Margins;
use crate::support::names::Name;
use crate::support::random::Random;
use crate::support::settings::{Round, Rounds};
use crate::support::shapes::{Background, Order, Shape};

/// How many calls there were, and how many names got each number.
#[derive(Default, Debug)]
struct Counts {
    calls: usize,
    done: usize,
    refused: [usize; 30],
    /// The names that were refused 29 and done further on, and those that were done and then not there.
    emptied: usize,
    repeated: usize,
    /// Calls of more than one sector, and those that erase something on a disk with a bigger directory.
    several: usize,
    bigger: usize,
    refused_whole: usize,
}

#[test]
fn drawn_names() {
    let mut counts = Counts::default();
    let rounds = Rounds::new(9_300_000, 400);
    for seed in rounds.seeds() {
        let _round = Round(seed);
        let random = &mut Random::new(seed);
        let mut disk = disks::draw(random);
        if random.coin() {
            disk.release_all();
        }
        let facts = Facts::of(&disk.image);
        for _ in 0..5 {
            let names = erase_many::names(&facts, random);
            examine(&disk.image, &facts, &names, &mut counts, random);
        }
    }
    println!("{counts:?}");
    let often = [12, 15, 17, 29].map(|number| counts.refused[number]);
    let all = [counts.done, counts.emptied, counts.repeated, counts.several, counts.bigger];
    assert!(
        !rounds.enough() || often.iter().chain(&all).all(|&many| many >= 50),
        "too few of a sort"
    );
}

/// Every slot of a full directory has a file or a directory, and all names are given, in a drawn order and inside out.
#[test]
fn full_directories() {
    let mut counts = Counts::default();
    for extra in [0, 1, 2, 17, MOST_EXTRA] {
        let random = &mut Random::new(9_400_000 + extra as u64);
        let mut disk = full(extra, random);
        let facts = Facts::of(&disk.image);
        let mut names = disk.names();
        random.shuffle(&mut names);
        examine(&disk.image, &facts, &names, &mut counts, random);
        names.extend(disk.names());
        examine(&disk.image, &facts, &names, &mut counts, random);
        disk.release_all();
        for slot in 1..=disk.slots() {
            // None is in itself or in a ring: each directory is in one that stands before it, or in the root.
            disk.slot_mut(slot)[fields::CODE] = (slot % 256) as u8;
            disk.slot_mut(slot)[fields::PARENT] = (slot % 256 / 2) as u8;
        }
        let facts = Facts::of(&disk.image);
        let all = erase_many::inside_out(&facts);
        examine(&disk.image, &facts, &all, &mut counts, random);
        let outcome = EraseOutcome::of(&facts, &all);
        assert!(outcome.answers.iter().all(|&answer| answer == 0), "all of them can be erased");
        assert_eq!(outcome.sectors().len(), disk.slots() / 2);
    }
    println!("{counts:?}");
}

/// A directory without a free slot; every fifth is a directory.
fn full(extra: usize, random: &mut Random) -> DrawnDisk {
    let shape = Shape {
        extra,
        files: (1..=geometry::slots(extra))
            .map(|slot| (slot, usize::from(slot % 5 != 0)))
            .collect(),
        end: None,
        order: Order::Scattered,
        background: Background::Rubbish,
        tidy: false,
    };
    disks::of_shape(&shape, random)
}

/// Asks for the names with the room that it needs, and compares it with what must become of it and with single erases.
fn examine(old: &[u8], facts: &Facts, names: &[Name], counts: &mut Counts, random: &mut Random) {
    let outcome = EraseOutcome::of(facts, names);
    let sectors = outcome.sectors();
    let mut asked = erase_many::exact(names, sectors.len());
    let more = random.pick(&[0, 0, 1, 2, 9]);
    asked.slices[ANSWERS].extend(vec![0x5c; more]);
    asked.slices[OUT].extend(vec![0xc5; random.pick(&[0, 0, 1, 2, 9])]);
    let left = compare::ask(&asked.on(old), &mut Margins::default());
    assert_eq!(
        left.answer,
        (sectors.len() as u64) << 24,
        "{}",
        compare::read_out(left.answer)
    );
    let (answers, rest) = left.answers.split_at(names.len());
    assert!(
        answers == outcome.answers && rest.iter().all(|&byte| byte == 0x5c),
        "the answers"
    );
    listed(&left, &sectors);
    let new = left.image.as_deref().expect("it is accepted");
    assert!(new == outcome.disk(old, &sectors), "another disk");
    assert_eq!(sectors, changed(old, new), "the sectors whose bytes differ");
    assert!(answers == one_by_one(old, names, new), "single erases answer otherwise");
    refused_whole(old, names, sectors.len(), counts, random);
    counts.add(names, &outcome, facts);
}

/// The list names these sectors, and its rest stays.
fn listed(left: &Returned, sectors: &[usize]) {
    let (front, rest) = left.out.split_at(2 * sectors.len());
    let numbers = front.chunks(2).map(|pair| usize::from(pair[0]) + 256 * usize::from(pair[1]));
    assert!(
        numbers.eq(sectors.iter().copied()) && rest.iter().all(|&byte| byte == 0xc5),
        "the list"
    );
    assert!(sectors.is_sorted_by(|a, b| a < b), "each once and rising");
}

/// The sectors whose bytes differ, rising.
fn changed(old: &[u8], new: &[u8]) -> Vec<usize> {
    let differs = |number: &usize| old[number * SECTOR..][..SECTOR] != new[number * SECTOR..][..SECTOR];
    (0..SECTORS).filter(differs).collect()
}

/// The numbers that single erases of the C layer give, one after the other. They leave the same disk.
fn one_by_one(old: &[u8], names: &[Name], new: &[u8]) -> Vec<u8> {
    let mut image = old.to_vec();
    let mut list = [0; 2];
    let mut erase = |name: &Name| calls::refusal(varnucht::calls::erase(&mut image, name, &mut list).number());
    let answers = names.iter().map(&mut erase).collect();
    assert!(image == new, "single erases leave another disk");
    answers
}

/// Bytes left over, answers that are too short, a list that is too short: 23, 20, 20, and 23 before both.
fn refused_whole(old: &[u8], names: &[Name], sectors: usize, counts: &mut Counts, random: &mut Random) {
    let mut refused = |number: u64, over: usize, answers: usize, list: usize| {
        let mut asked = erase_many::exact(names, sectors);
        asked.slices[NAMES].extend(random.bytes(over));
        asked.slices[ANSWERS].truncate(answers);
        asked.slices[OUT].truncate(list);
        let left = compare::ask(&asked.on(old), &mut Margins::default());
        assert_eq!(left.answer, number, "{}", compare::read_out(left.answer));
        counts.refused_whole += 1;
    };
    let (answers, list) = (names.len(), 2 * sectors);
    refused(23, 1, answers, list);
    refused(23, 9, 0, 0);
    if answers > 0 {
        refused(20, 0, answers - 1, list);
        refused(20, 0, 0, list);
    }
    if list > 0 {
        refused(20, 0, answers, list - 1);
        refused(20, 0, answers, 0);
    }
}

impl Counts {
    fn add(&mut self, names: &[Name], outcome: &EraseOutcome, facts: &Facts) {
        self.calls += 1;
        self.several += usize::from(outcome.sectors().len() > 1);
        self.bigger += usize::from(facts.extra > 0 && !outcome.erased.is_empty());
        for (at, (name, &answer)) in names.iter().zip(&outcome.answers).enumerate() {
            match answer {
                0 => self.done += 1,
                number => self.refused[usize::from(number)] += 1,
            }
            let slot = facts.find(name).map(|live| live.slot);
            let before = names[..at].iter().zip(&outcome.answers);
            let same = |earlier: &Name| slot.is_some() && facts.find(earlier).map(|live| live.slot) == slot;
            let earlier = |number: u8| before.clone().any(|(name, &given)| given == number && same(name));
            // Of many names the pairs are too many to be counted.
            if at < 100 {
                self.emptied += usize::from(answer == 0 && earlier(29));
                self.repeated += usize::from(answer == 15 && earlier(0));
            }
        }
    }
}
