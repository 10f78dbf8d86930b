//! Recordings: each piece and the close, cut after every sector (document 02, M-109). A piece changes nothing that is seen,
//! wherever it is cut and where it is not; a close is a change like a save, and can be made again.

use crate::answers::{self, Answers};
use crate::change::AcceptedChange;
use crate::ending;
use crate::support::calls::{self, BODY};
use crate::support::compare;
use crate::support::disks::{self, DrawnDisk};
use crate::support::facts::Facts;
use crate::support::geometry::{PAYLOAD, SECTOR, address, bit_place, fills};
use crate::support::margins::Margins;
use crate::support::random::Random;
use crate::support::recordings::Recording;
use crate::support::requests::OwnedRequest;
use crate::support::save_requests;
use crate::support::settings::{Round, Rounds};

#[derive(Default, Debug)]
struct Counts {
    recordings: usize,
    pieces: usize,
    cuts: usize,
    answers: usize,
    /// Cut pieces after which the recording is refused 30, and those whose links were there already.
    moved: usize,
    linked: usize,
}

/// The refusal of a request.
fn refusal(asked: &OwnedRequest, disk: &[u8]) -> u8 {
    calls::refusal(compare::ask(&asked.on(disk), &mut Margins::default()).answer)
}

/// Whether each sector that the pieces have written leads to the next.
fn is_linked(recording: &Recording, disk: &[u8]) -> bool {
    let chain = recording.chain();
    let middle = 1..chain.len().saturating_sub(1).max(1);
    let leads = |at: usize| disk[bit_place(chain[at])..][PAYLOAD..SECTOR] == address(chain[at + 1]);
    middle.into_iter().all(leads)
}

/// Adds a piece, cut after every sector, and gives the disk with all of them.
fn piece(recording: &mut Recording, piece: &[u8], old: &[u8], counts: &mut Counts, random: &mut Random) -> Vec<u8> {
    let change = AcceptedChange::of(recording.add(piece, 3_116), old).expect("it fits");
    *recording = recording.with(piece);
    change.names_its_sectors();
    let answers = Answers::of(&change, random);
    for k in 0..=change.named.len() {
        let disk = change.cut(k);
        change.keeps_other_files(&disk);
        change.keeps_the_end(&disk, false);
        change.keeps_what_is_the_disks(&disk);
        counts.answers += answers.same_on(&disk);
        counts.cuts += 1;
        let linked = is_linked(recording, &disk);
        assert!(
            linked || k < change.named.len(),
            "all sectors are written and a link is missing"
        );
        let expected = if linked { 0 } else { 30 };
        assert_eq!(refusal(&recording.add(&[], 0), &disk), expected, "cut after {k}");
        assert_eq!(refusal(&recording.close(8), &disk), expected, "cut after {k}");
        counts.moved += usize::from(!linked);
        counts.linked += usize::from(linked && k < change.named.len());
    }
    counts.pieces += 1;
    change.new
}

/// Closes it, cut after every sector.
fn close(recording: &Recording, old: &[u8], counts: &mut Counts, random: &mut Random) {
    let change = AcceptedChange::of(recording.close(8), old).expect("nothing stands against it");
    change.names_its_sectors();
    let answers = Answers::of(&change, random);
    for k in 0..=change.named.len() {
        let disk = change.cut(k);
        let whole = k == change.named.len();
        change.keeps_other_files(&disk);
        change.keeps_the_end(&disk, whole);
        change.keeps_what_is_the_disks(&disk);
        counts.cuts += 1;
        if whole {
            assert!(disk == change.new, "cut after all sectors, the disk is not the new one");
            answers::accepted(&disk);
            change.leaves_no_waste();
            change.keeps_the_tree();
            continue;
        }
        counts.answers += answers.same_on(&disk);
        let again = AcceptedChange::of(recording.close(8), &disk).expect("it can be made again");
        assert!(again.new == change.new, "another disk than without the cut");
    }
    counts.recordings += 1;
}

/// A recording of this body, in pieces of drawn lengths, each of them and the close cut after every sector.
fn record(image: &[u8], body: &[u8], counts: &mut Counts, random: &mut Random) {
    let facts = Facts::of(image);
    let mut recording = Recording::of(&save_requests::accepted(&facts, random), &facts);
    let (mut rest, mut image) = (body, image.to_vec());
    while !rest.is_empty() {
        let length = random.pick(&[1, 300, 510, 511, 1_100, 2_000]).min(rest.len());
        let (next, later) = rest.split_at(length);
        image = piece(&mut recording, next, &image, counts, random);
        rest = later;
    }
    close(&recording, &image, counts, random);
}

#[test]
fn recordings_on_drawn_disks_cut_anywhere() {
    let mut counts = Counts::default();
    let rounds = Rounds::new(23_000_000, 60);
    for seed in rounds.seeds() {
        let _round = Round(seed);
        let random = &mut Random::new(seed);
        let disk = disks::draw(random);
        let facts = Facts::of(&disk.image);
        if facts.taken.is_none() || facts.free == 0 {
            continue;
        }
        let most = fills(facts.free.min(8));
        let length = if random.coin() { most } else { random.below(most + 1) };
        let body = random.bytes(length);
        record(&disk.image, &body, &mut counts, random);
    }
    println!("{counts:?}");
    assert!(!rounds.enough() || counts.recordings >= 30 && counts.moved >= 30, "too few");
}

/// Into the directory's end, with an old name behind it in the same sector and in another, and across the gap.
#[test]
fn recordings_into_the_end_cut_anywhere() {
    let mut counts = Counts::default();
    for (extra, end) in [(0, 1), (0, 2), (0, 20), (0, 80), (1, 80), (1, 98), (35, 777), (35, 778)] {
        let random = &mut Random::new(23_500_000 + end as u64);
        let mut disk: DrawnDisk = disks::of_shape(&ending(extra, end), random);
        if end < disk.slots() {
            disk.slot_mut(end + 1)[..2].copy_from_slice(&[19, b'X']);
        }
        for length in [0, 501, 502, 1_012, 2_300] {
            let body = random.bytes(length);
            record(&disk.image, &body, &mut counts, random);
        }
    }
    println!("{counts:?}");
    assert_eq!(counts.recordings, 40);
}

/// A piece that is cut on a disk where a save of the same length was erased: its links are there already, and the recording
/// reads as its sectors do.
#[test]
fn links_that_are_there_already() {
    let random = &mut Random::new(23_600_000);
    let disk = disks::of_shape(&ending(0, 3), random);
    let facts = Facts::of(&disk.image);
    let recording = Recording::of(&save_requests::accepted(&facts, random), &facts);
    let saved = recording.with(&random.bytes(2_300)).save();
    let saved = saved.with(BODY, random.bytes(2_300));
    let mut old = AcceptedChange::of(saved, &disk.image).expect("it has room").new;
    old[crate::support::geometry::slot_place(3)] = 0;
    let mut counts = Counts::default();
    let mut again = Recording::of(&save_requests::accepted(&Facts::of(&old), random), &Facts::of(&old));
    let body = random.bytes(2_300);
    let image = piece(&mut again, &body, &old, &mut counts, random);
    assert_eq!((counts.moved, counts.linked), (0, 3));
    close(&again, &image, &mut counts, random);
    // Closed on the disk that none of its sectors was written to.
    close(&again, &old, &mut counts, random);
}
