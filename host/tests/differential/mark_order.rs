//! The order of marks: marks in either order, marks of two phones merged in every order that keeps each phone's, and a rename
//! taken back. Every call goes to the C layer and to `paper`; merges and renames go through the Rust crate too, and what is
//! left is known from the drawing.

use crate::support::calls::{Call, NAME, NEW, OUT, Request, refusal};
use crate::support::compare;
use crate::support::damage;
use crate::support::disks::{self, DrawnDisk, DrawnFile};
use crate::support::facts::Facts;
use crate::support::fields::{HIDDEN, PROTECTED};
use crate::support::geometry::slot_place;
use crate::support::margins::Margins;
use crate::support::names;
use crate::support::random::Random;
use crate::support::requests;
use crate::support::settings::{Round, Rounds};
use varnucht::{Change, Name, NewName, Refused, SectorNumber};

const MARKS: [Call; 4] = [Call::Hide, Call::Show, Call::Protect, Call::Release];

/// A mark of a name, and the list that is lent for its sector.
#[derive(Clone)]
struct MarkCall {
    mark: Call,
    name: Vec<u8>,
    list: Vec<u8>,
}

impl MarkCall {
    fn draw(facts: &Facts, random: &mut Random) -> MarkCall {
        MarkCall {
            mark: random.pick(&MARKS),
            name: requests::asked_name(facts, random),
            list: match random.below(4) {
                0 => requests::list(1, random),
                _ => random.bytes(2),
            },
        }
    }

    /// The bit of a slot's first byte that it is about.
    fn bit(&self) -> u8 {
        match self.mark {
            Call::Hide | Call::Show => HIDDEN,
            _ => PROTECTED,
        }
    }

    fn sets(&self) -> bool {
        matches!(self.mark, Call::Hide | Call::Protect)
    }

    /// The file of a drawn disk that it is about.
    fn finds<'a>(&self, disk: &'a DrawnDisk) -> Option<&'a DrawnFile> {
        disk.files.iter().find(|file| asks_for(&self.name, &file.name))
    }

    fn change(&self) -> Option<Change<'static>> {
        let name = Name::new(&self.name).ok()?;
        Some(match self.mark {
            Call::Hide => Change::Hide(name),
            Call::Show => Change::Show(name),
            Call::Protect => Change::Protect(name),
            _ => Change::Release(name),
        })
    }
}

/// Whether a name given asks for a file with this name.
fn asks_for(given: &[u8], name: &names::Name) -> bool {
    (1..=10).contains(&given.len()) && names::same(&names::filled(given), name)
}

/// Whether two marks are of one name, however it is spelt.
fn one_name(a: &MarkCall, b: &MarkCall) -> bool {
    let asked = |call: &MarkCall| (1..=10).contains(&call.name.len()) && call.name[0] != 0;
    asked(a) && asked(b) && asks_for(&a.name, &names::filled(&b.name))
}

/// What a call answers: the number, and the list at return.
type MarkAnswer = (u64, Vec<u8>);

/// Makes a mark on both sides, and leaves the image as they do.
fn run_mark(call: &MarkCall, image: &mut Vec<u8>) -> MarkAnswer {
    let request = Request::new(call.mark, image).with(NAME, &call.name).with(OUT, &call.list);
    let left = compare::ask(&request, &mut Margins::default());
    if let Some(new) = left.image {
        *image = new;
    }
    (left.answer, left.out)
}

/// Marks in a row; gives the answers and the image they leave.
fn row<'a>(calls: impl IntoIterator<Item = &'a MarkCall>, image: &[u8]) -> (Vec<MarkAnswer>, Vec<u8>) {
    let mut image = image.to_vec();
    let answers = calls.into_iter().map(|one| run_mark(one, &mut image)).collect();
    (answers, image)
}

/// A drawn disk; now and then one that is not accepted.
fn image(random: &mut Random, all: &[&'static damage::Damage]) -> Vec<u8> {
    if random.one_in(8) {
        return damage::one(random.pick(all), random).0.image;
    }
    disks::draw(random).image
}

/// What two marks are to each other, by the places of a count.
const SORTS: [&str; 6] = ["two names", "two pairs", "twice", "one pair", "one refused", "both refused"];

/// Two marks, often of one name: those that may change places do, and of the others the later holds.
#[test]
fn pairs_in_either_order() {
    let (all, rounds) = (damage::all(), Rounds::new(12_000_000, 400));
    let mut met = [0; SORTS.len()];
    for seed in rounds.seeds() {
        let _round = Round(seed);
        let random = &mut Random::new(seed);
        let image = image(random, &all);
        let facts = Facts::of(&image);
        let (a, mut b) = (MarkCall::draw(&facts, random), MarkCall::draw(&facts, random));
        if random.coin() {
            b.name = spelt(&a.name, random);
        }
        met[either_order(&a, &b, &image)] += 1;
    }
    println!("{:?}", SORTS.iter().zip(met).collect::<Vec<_>>());
    assert!(!rounds.enough() || met.iter().all(|times| *times >= 5), "{met:?}");
}

/// Makes two marks alone and in either order; gives their place in `SORTS`.
fn either_order(a: &MarkCall, b: &MarkCall, image: &[u8]) -> usize {
    let ((one, after_one), (two, after_two)) = (row([a], image), row([b], image));
    let ((forth, after_forth), (back, after_back)) = (row([a, b], image), row([b, a], image));
    assert_eq!(forth, [one.clone(), two.clone()].concat(), "a mark answers as it does alone");
    assert_eq!(back, [two, one].concat(), "a mark answers as it does alone");
    let refused = forth.iter().filter(|(answer, _)| refusal(*answer) != 0).count();
    let (one_name, one_pair) = (one_name(a, b), a.bit() == b.bit());
    if !(one_name && one_pair) {
        assert!(after_forth == after_back, "the order makes a difference");
    } else if refused == 0 {
        assert!(after_forth == after_two && after_back == after_one, "the later holds");
    }
    match refused {
        0 if !one_name => 0,
        0 if !one_pair => 1,
        0 if a.mark == b.mark => 2,
        0 => 3,
        some => 3 + some,
    }
}

/// The same name in another spelling, where it is one.
fn spelt(name: &[u8], random: &mut Random) -> Vec<u8> {
    if !(1..=10).contains(&name.len()) {
        return name.to_vec();
    }
    let turned = names::turned(names::filled(name), random);
    if random.coin() {
        turned.to_vec()
    } else {
        turned[..name.len()].to_vec()
    }
}

/// One of the merged lists of two: each mark is the next of one or of the other.
fn merged<'a>(mut xs: &'a [MarkCall], mut ys: &'a [MarkCall], random: &mut Random) -> Vec<&'a MarkCall> {
    let mut zs = Vec::new();
    loop {
        let from_first = ys.is_empty() || !xs.is_empty() && random.coin();
        let from = if from_first { &mut xs } else { &mut ys };
        let Some((next, rest)) = from.split_first() else {
            return zs;
        };
        zs.push(next);
        *from = rest;
    }
}

/// Those of a row that no later one of their name and pair follows, with a list that has room.
fn that_hold<'a>(zs: &[&'a MarkCall]) -> Vec<&'a MarkCall> {
    let outdone = |at: usize| {
        let mut later = zs[at + 1..].iter().filter(|call| call.list.len() >= 2);
        later.any(|call| call.bit() == zs[at].bit() && one_name(call, zs[at]))
    };
    (0..zs.len()).filter(|&at| !outdone(at)).map(|at| zs[at]).collect()
}

/// The image with the marks of the drawn files set and cleared by hand, one phone after the other.
fn by_hand(disk: &DrawnDisk, xs: &[MarkCall], ys: &[MarkCall]) -> Vec<u8> {
    let mut image = disk.image.clone();
    for call in xs.iter().chain(ys).filter(|call| call.list.len() >= 2) {
        if let Some(file) = call.finds(disk) {
            let byte = &mut image[slot_place(file.slot)];
            *byte = if call.sets() {
                *byte | call.bit()
            } else {
                *byte & !call.bit()
            };
        }
    }
    image
}

/// The marks of two phones on names that are not the same, or of two pairs: however they are merged, the disk is the same,
/// and each answers as it does alone.
#[test]
fn marks_of_two_phones() {
    let rounds = Rounds::new(13_000_000, 60);
    let (mut made, mut done) = (0, 0);
    for seed in rounds.seeds() {
        let _round = Round(seed);
        let random = &mut Random::new(seed);
        let disk = disks::draw(random);
        let (xs, ys) = phones(&disk, random);
        let expected = by_hand(&disk, &xs, &ys);
        let (roomy_xs, roomy_ys) = (roomy(&xs), roomy(&ys));
        let alone = |call: &MarkCall| row([call], &disk.image).0.remove(0);
        for _ in 0..3 {
            let zs = merged(&xs, &ys, random);
            let (answers, left) = row(zs.iter().copied(), &disk.image);
            assert!(left == expected, "a merge gives another disk");
            for (call, answer) in zs.iter().zip(answers) {
                done += usize::from(refusal(answer.0) == 0);
                assert_eq!(answer, alone(call), "a mark answers as it does alone");
            }
            let (_, held) = row(that_hold(&zs), &disk.image);
            assert!(held == expected, "a mark holds that is not the last of its pair");
            made += zs.len();
            through_the_crate(&disk, &roomy_xs, &roomy_ys, random);
        }
    }
    println!("{made} marks, {done} of them accepted");
    assert!(!rounds.enough() || made / 3 < done && done < made, "{done} of {made}");
}

/// Marks that two phones make: each pair of a name is the first phone's or the second's, and some names are no file's.
fn phones(disk: &DrawnDisk, random: &mut Random) -> (Vec<MarkCall>, Vec<MarkCall>) {
    let facts = Facts::of(&disk.image);
    let (mut xs, mut ys): (Vec<MarkCall>, Vec<MarkCall>) = Default::default();
    for _ in 0..random.between(2, 10) {
        let call = MarkCall::draw(&facts, random);
        let meets = |others: &[MarkCall]| others.iter().any(|other| other.bit() == call.bit() && one_name(other, &call));
        let first = meets(&xs) || !meets(&ys) && random.coin();
        (if first { &mut xs } else { &mut ys }).push(call);
    }
    (xs, ys)
}

/// The marks of names that can be asked for, with lists that have room: those that the Rust crate takes.
fn roomy(calls: &[MarkCall]) -> Vec<MarkCall> {
    let asked = calls.iter().filter(|call| call.change().is_some()).cloned();
    asked
        .map(|call| MarkCall {
            list: vec![0; 2],
            ..call
        })
        .collect()
}

/// Such marks of two phones, merged, through the Rust crate.
fn through_the_crate(disk: &DrawnDisk, xs: &[MarkCall], ys: &[MarkCall], random: &mut Random) {
    let mut opened = open(&disk.image);
    for call in merged(xs, ys, random) {
        let change = call.change().expect("a name that can be asked for");
        let given = opened.change(&change).map(|sectors| sectors.into_numbers());
        match (given, call.finds(disk)) {
            (Ok(numbers), Some(file)) => assert_eq!(numbers, [sector_of(file)]),
            (Err(refused), None) => assert_eq!(refused.refusal.number(), 15),
            (given, _) => panic!("{given:?}"),
        }
    }
    assert!(
        opened.image().as_bytes()[..] == by_hand(disk, xs, ys),
        "the crate leaves another disk"
    );
}

fn open(image: &[u8]) -> varnucht::Disk {
    let image = varnucht::Image::from_bytes(image.to_vec()).expect("it has an image's length");
    varnucht::Disk::open(image).expect("a drawn disk is accepted")
}

/// The directory sector of a file.
fn sector_of(file: &DrawnFile) -> SectorNumber {
    SectorNumber::new((slot_place(file.slot) / 512) as u16).expect("a sector's number")
}

/// Every file of a drawn disk is renamed and renamed back: every byte is as it was. Where the old name is not usable as a new
/// one, the way back is refused 12.
#[test]
fn renames_taken_back() {
    let rounds = Rounds::new(14_000_000, 60);
    let (mut restored, mut irreversible, mut refused) = (0, 0, 0);
    for seed in rounds.seeds() {
        let _round = Round(seed);
        let random = &mut Random::new(seed);
        let disk = disks::draw(random);
        let facts = Facts::of(&disk.image);
        for file in disk.files.iter().take(8) {
            let to = match random.below(4) {
                0 => names::turned(file.name, random).to_vec(),
                1 => requests::new_name(&facts, random),
                _ => names::usable(random),
            };
            let Some((sector, renamed)) = rename(&disk.image, &file.name, &to) else {
                refused += 1;
                continue;
            };
            let old = if random.coin() {
                &file.name[..]
            } else {
                names::without_spaces(&file.name)
            };
            match rename(&renamed, &spelt(&to, random), old) {
                Some((again, image)) => {
                    assert!(image == disk.image, "a byte is not restored");
                    assert_eq!(again, sector);
                    assert!(there_and_back(&disk, file, &to).is_ok());
                    restored += 1;
                }
                None => {
                    assert!(NewName::new(old).is_err(), "the way back is refused");
                    irreversible += 1;
                }
            }
        }
    }
    println!("{restored} renames taken back, {irreversible} with no way back, {refused} refused");
    assert!(
        !rounds.enough() || restored > 20 && irreversible > 5 && refused > 5,
        "{restored} {irreversible} {refused}"
    );
}

/// Renames on both sides, with a list that has room: the list's bytes and the image, where it is accepted.
fn rename(image: &[u8], name: &[u8], new: &[u8]) -> Option<(Vec<u8>, Vec<u8>)> {
    let request = Request::new(Call::Rename, image)
        .with(NAME, name)
        .with(NEW, new)
        .with(OUT, &[9; 2]);
    let left = compare::ask(&request, &mut Margins::default());
    Some((left.out, left.image?))
}

/// The same through the Rust crate.
fn there_and_back(disk: &DrawnDisk, file: &DrawnFile, to: &[u8]) -> Result<(), Refused> {
    let mut opened = open(&disk.image);
    let (old, to) = (NewName::new(file.name)?, NewName::new(to)?);
    for (from, new) in [(old.name(), to), (to.name(), old)] {
        let sectors = opened.rename(&from, &new)?;
        assert_eq!(sectors.numbers(), [sector_of(file)]);
    }
    assert!(opened.image().as_bytes()[..] == disk.image, "a byte is not restored");
    Ok(())
}
