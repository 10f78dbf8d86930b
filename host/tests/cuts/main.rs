//! Every accepted change, cut after k of the sectors that it names (document 01, "Words of demand 3"): the disk is accepted;
//! until the last sector is written, listing, reading and start addresses answer as on the old disk; after it the disk is the
//! new one; every other file keeps its slot and its sectors; what slot 1 says of the disk stays; and the directory ends where it
//! ended, or one slot further where a whole save took its end. The C layer is under test, and `paper` is asked beside it.
//!
//! - `change`: the drawn change, the sectors it names, and what it leaves.
//! - `after`: what a change must leave, once more from document 01.
//! - `gathering`: gathers cut after every sector.
//! - `erase_many`: names erased at once, where each sector counts as a change of its own.
//! - `recording`: each piece of a recording, and its close.
//! - `answers`: the questions, and the answers on the old disk and on a cut one.
//!
//! `VARNUCHT_SEED` and `VARNUCHT_ROUNDS` draw other tests, or a single one again.

#[path = "../support/mod.rs"]
mod support;

mod after;
mod answers;
mod change;
mod erase_many;
mod gathering;
mod recording;

use answers::Answers;
use change::AcceptedChange;
use support::calls::{CHANGES, Call};
use support::disks;
use support::random::Random;
use support::settings::{Round, Rounds};
use support::shapes::{Background, Order, Shape};

/// How many changes of each sort were cut, at how many places, and how many answers were compared.
#[derive(Default)]
struct Counts {
    changes: [usize; CHANGES.len()],
    /// Saves that clear the slot behind the directory's end: in their slot's sector, and in another.
    clearing: [usize; 2],
    /// Those on disks with more than four directory tracks, and the saves into slot 1 among all.
    bigger: usize,
    first_slot: usize,
    /// The renames among them that alter the case of the file's own name alone.
    turned: usize,
    /// Erases of directories.
    directories: usize,
    /// Gathers of files that must move.
    moved: usize,
    cuts: usize,
    answers: usize,
}

#[test]
fn every_change_cut_anywhere() {
    let mut counts = Counts::default();
    let rounds = Rounds::new(8_000_000, 120);
    for seed in rounds.seeds() {
        let _round = Round(seed);
        let random = &mut Random::new(seed);
        let disk = disks::draw(random);
        for call in CHANGES
            .into_iter()
            .chain([Call::Save, Call::Save, Call::Gather, Call::Gather])
        {
            if let Some(change) = AcceptedChange::draw(call, &disk.image, random) {
                cut(&change, &mut counts, random);
            }
        }
    }
    println!(
        "{:?}: {:?} changes, {} with bigger directories, {} saves into slot 1, {} renames of case alone, {} erases of \
         directories, {} gathers that move, {:?} saves that clear a slot in the same sector and in another, {} cuts, {} answers",
        CHANGES,
        counts.changes,
        counts.bigger,
        counts.first_slot,
        counts.turned,
        counts.directories,
        counts.moved,
        counts.clearing,
        counts.cuts,
        counts.answers
    );
    assert!(
        !rounds.enough() || counts.bigger.min(10 * counts.first_slot) >= 100,
        "too few such"
    );
    assert!(
        !rounds.enough() || counts.changes.iter().chain([&counts.turned]).all(|&changes| changes >= 20),
        "too few changes were accepted"
    );
    assert!(
        !rounds.enough() || counts.clearing.iter().all(|&saves| saves >= 5),
        "too few saves cleared a slot"
    );
    assert!(!rounds.enough() || counts.directories >= 5, "too few directories were erased");
    assert!(!rounds.enough() || counts.moved >= 20, "too few files were moved");
}

/// A save into the directory's end at the edges of sectors and tracks, cut after every sector. The slot behind holds a name,
/// one behind a byte 0 that is 0 already, or none.
#[test]
fn saves_into_the_end_cut_anywhere() {
    let mut counts = Counts::default();
    for end in [1, 2, 3, 19, 20, 21, 22, 40, 41, 60, 61, 79, 80] {
        saves_into(0, end, &mut counts);
    }
    println!(
        "{:?} saves, {} cuts, {} answers",
        counts.clearing, counts.cuts, counts.answers
    );
    assert_eq!(counts.clearing, [14, 10]);
}

/// The same in bigger directories, across the gap after slot 80 too.
#[test]
fn saves_into_the_end_of_bigger_directories_cut_anywhere() {
    let mut counts = Counts::default();
    for (extra, ends) in [
        (1, &[1, 2, 79, 80, 81, 97, 98][..]),
        (2, &[80, 98, 99, 118]),
        (35, &[1, 98, 99, 777, 778]),
    ] {
        for &end in ends {
            saves_into(extra, end, &mut counts);
        }
    }
    println!(
        "{:?} saves, {} cuts, {} answers",
        counts.clearing, counts.cuts, counts.answers
    );
    assert_eq!(counts.clearing, [16, 10]);
}

/// Three saves into the end at this slot.
fn saves_into(extra: usize, end: usize, counts: &mut Counts) {
    for next in [[19, b'X'], [0, b'X'], [19, 0]] {
        let random = &mut Random::new(8_700_000 + end as u64);
        let mut disk = disks::of_shape(&ending(extra, end), random);
        let last = disk.slots();
        if end < last {
            disk.slot_mut(end + 1)[..2].copy_from_slice(&next);
        }
        let change = AcceptedChange::save(&disk.image, 700, random).expect("it has room");
        assert_eq!(change.facts.taken, Some(end));
        assert_eq!(change.facts.cleared, (end < last && next[1] != 0).then_some(end + 1));
        cut(&change, counts, random);
    }
}

/// A file of one sector in each slot before the end, and rubbish from it on.
fn ending(extra: usize, end: usize) -> Shape {
    Shape {
        extra,
        files: (1..end).map(|slot| (slot, 1)).collect(),
        end: Some(end),
        order: Order::Scattered,
        background: Background::Rubbish,
        tidy: false,
    }
}

/// The largest save: every data sector, on a disk whose directory holds rubbish.
#[test]
fn the_largest_save_cut_anywhere() {
    let random = &mut Random::new(9_000_000);
    let shape = Shape::with(0, 0, random);
    let disk = disks::of_shape(&shape, random);
    let change = AcceptedChange::save(&disk.image, 795_591, random).expect("an empty disk takes it");
    assert_eq!(change.named.len(), 1_561);
    cut(&change, &mut Counts::default(), random);
    // All sectors but that of a file before the end, and two of the directory.
    let mut disk = disks::of_shape(&ending(0, 2), random);
    disk.slot_mut(3)[..2].copy_from_slice(b"\xffX");
    let change = AcceptedChange::save(&disk.image, 795_591 - 510, random).expect("the room is there");
    assert_eq!((change.named.len(), &change.named[1_559..]), (1_561, &[1, 0][..]));
    cut(&change, &mut Counts::default(), random);
    // All sectors there are, beside a directory, and two of the directory's: the longest list.
    let mut shape = ending(0, 2);
    shape.files = vec![(1, 0)];
    let mut disk = disks::of_shape(&shape, random);
    disk.slot_mut(3)[..2].copy_from_slice(b"\xffX");
    let change = AcceptedChange::save(&disk.image, 795_591, random).expect("no sector is taken");
    assert_eq!((change.named.len(), &change.named[1_560..]), (1_562, &[1, 0][..]));
    cut(&change, &mut Counts::default(), random);
}

fn cut(change: &AcceptedChange, counts: &mut Counts, random: &mut Random) {
    change.names_its_sectors();
    after::examine(change);
    let answers = Answers::of(change, random);
    for k in places(change.named.len(), random) {
        let disk = change.cut(k);
        change.keeps_other_files(&disk);
        change.keeps_the_end(&disk, k == change.named.len());
        change.keeps_what_is_the_disks(&disk);
        if k < change.named.len() {
            counts.answers += answers.same_on(&disk);
        } else {
            assert!(disk == change.new, "cut after all sectors, the disk is not the new one");
            answers::accepted(&disk);
            change.leaves_no_waste();
            change.keeps_the_tree();
        }
        counts.cuts += 1;
    }
    if let (Call::Save, Some(_)) = (change.asked.call, change.facts.cleared) {
        counts.clearing[change.facts.directory_sectors().len() - 1] += 1;
    }
    let sort = CHANGES.iter().position(|&call| call == change.asked.call).expect("a change");
    counts.changes[sort] += 1;
    counts.turned += usize::from(change.turns_letters());
    counts.directories += usize::from(change.erases_a_directory());
    counts.moved += usize::from(change.moves());
    counts.bigger += usize::from(change.facts.extra > 0);
    counts.first_slot += usize::from(change.asked.call == Call::Save && change.facts.taken == Some(1));
}

/// None, the first, all but the last two, all but the last, all, and some between.
fn places(named: usize, random: &mut Random) -> Vec<usize> {
    let mut places = vec![0, 1.min(named), named.saturating_sub(2), named.saturating_sub(1), named];
    places.extend((0..2).map(|_| random.between(0, named)));
    places.sort_unstable();
    places.dedup();
    places
}
