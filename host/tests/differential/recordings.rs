//! Recordings on drawn disks: each call leaves what follows from the rule, whatever `paper` says, and the closed disk is that of
//! one save, however the body is cut. With other changes and cuts in between, what was accepted leaves an accepted disk.

use crate::support::calls::{self, CHANGES, Call, OUT, RECORD, Request};
use crate::support::compare::{self, Returned};
use crate::support::disks;
use crate::support::facts::Facts;
use crate::support::geometry::{SECTOR, SLOT, fills, sectors_for, slot_place};
use crate::support::margins::Margins;
use crate::support::random::Random;
use crate::support::recordings::{self, Recording};
use crate::support::requests::{self, OwnedRequest};
use crate::support::save_requests;
use crate::support::settings::{Round, Rounds};

fn ask(asked: &OwnedRequest, image: &[u8]) -> Returned {
    compare::ask(&asked.on(image), &mut Margins::default())
}

/// The numbers in a list.
fn listed(left: &Returned) -> Vec<usize> {
    let pairs = left.out.chunks_exact(2).take(calls::value(left.answer));
    pairs.map(|pair| usize::from(pair[0]) + 256 * usize::from(pair[1])).collect()
}

/// The length of the next piece: at the edges of sectors, none, one, or anything up to what is left.
fn piece(left: usize, random: &mut Random) -> usize {
    let length = match random.below(6) {
        0 => random.pick(&[0, 1, 2, 9]),
        1 => random.pick(&[500, 501, 502, 509, 510, 511, 512]),
        2 => left,
        3 => random.below(3_000),
        _ => random.below(left + 1),
    };
    length.min(left)
}

#[test]
fn pieces_make_the_disk_of_one_save() {
    let (mut made, mut pieces, mut sectors) = (0, 0, 0);
    let rounds = Rounds::new(20_000_000, 250);
    for seed in rounds.seeds() {
        let _round = Round(seed);
        let random = &mut Random::new(seed);
        let disk = disks::draw(random);
        let facts = Facts::of(&disk.image);
        let save_request = save_requests::accepted(&facts, random);
        let body = save_request.slices[calls::BODY].clone();
        let opening = recordings::opening(save_request, random.bytes(recordings::LENGTH));
        let opened = ask(&opening, &disk.image);
        if facts.taken.is_none() || facts.free == 0 {
            assert_eq!(calls::refusal(opened.answer), if facts.taken.is_none() { 18 } else { 19 });
            continue;
        }
        assert_eq!(opened.answer, 0);
        let mut recording = Recording::of(&opening, &facts);
        assert!(opened.record == recording.record(), "another record");
        let mut image = disk.image.clone();
        while recording.body.len() < body.len() || random.one_in(3) {
            let came = recording.body.len();
            let next = &body[came..came + piece(body.len() - came, random)];
            if !add(&mut recording, next, &mut image, &facts, random) {
                break;
            }
            pieces += 1;
        }
        close(&recording, &disk.image, &image, &facts);
        made += 1;
        sectors += recording.sectors();
    }
    println!("{made} recordings of {sectors} sectors, in {pieces} pieces");
    assert!(!rounds.enough() || made >= 100 && pieces >= 500, "too few");
}

/// Adds a piece, and compares every byte with the rule. Gives whether it fits.
fn add(recording: &mut Recording, piece: &[u8], image: &mut Vec<u8>, facts: &Facts, random: &mut Random) -> bool {
    let after = recording.with(piece);
    if after.sectors() > facts.free {
        assert_eq!(ask(&recording.add(piece, 3_116), image).answer, 19);
        return false;
    }
    let completed = recording.completes(piece);
    if !completed.is_empty() {
        assert_eq!(ask(&recording.add(piece, 2 * completed.len() - 1), image).answer, 20);
    }
    let left = ask(&recording.add(piece, 2 * completed.len() + random.below(4)), image);
    assert_eq!(left.answer, (completed.len() as u64) << 24);
    assert_eq!(listed(&left), recordings::numbers(&completed), "other sectors are named");
    assert!(left.record == after.record(), "another record");
    after.write_middle(image);
    assert!(left.image.is_some_and(|left| left == *image), "another disk");
    *recording = after;
    true
}

/// Closes it, and compares with one save on the disk that it was opened on.
fn close(recording: &Recording, old: &[u8], image: &[u8], facts: &Facts) {
    let many = recording.close_sectors(facts);
    assert_eq!(ask(&recording.close(2 * many - 1), image).answer, 20);
    let closed = ask(&recording.close(2 * many + 1), image);
    assert_eq!(closed.answer, (many as u64) << 24);
    let saved = ask(&recording.save(), old);
    assert!(
        closed.image == saved.image && closed.image.is_some(),
        "another disk than one save leaves"
    );
    // The last, then the first if it is another, then the directory's.
    let named = listed(&saved);
    let (data, directory) = named.split_at(recording.sectors());
    let mut expected = vec![data[data.len() - 1]];
    expected.extend(&data[..data.len().min(2) - 1]);
    expected.extend(directory);
    assert_eq!(listed(&closed), expected);
}

/// How often the calls of a recording gave each number in between other changes.
#[derive(Default, Debug)]
struct Counts {
    pieces: [usize; 31],
    closes: [usize; 31],
    /// Accepted closes of recordings that another change or a cut came in between.
    between: usize,
}

/// A recording, and whether anything but its own calls touched the disk since it was opened.
struct OpenRecording {
    recording: Recording,
    record: Vec<u8>,
    touched: bool,
}

/// Recordings, two at once too, among other changes, each run to its end or cut.
#[test]
fn among_other_changes() {
    let mut counts = Counts::default();
    let rounds = Rounds::new(21_000_000, 150);
    for seed in rounds.seeds() {
        let _round = Round(seed);
        let random = &mut Random::new(seed);
        let mut image = disks::draw(random).image;
        let mut open: Vec<OpenRecording> = Vec::new();
        for _ in 0..40 {
            let facts = Facts::of(&image);
            match random.below(8) {
                0 if open.len() < 2 => open.extend(opened(&image, &facts, random)),
                1..5 if !open.is_empty() => {
                    let at = random.below(open.len());
                    image = added(&mut open, at, image, &facts, &mut counts, random);
                }
                5 if !open.is_empty() => {
                    let at = random.below(open.len());
                    image = closed(&mut open, at, image, &facts, &mut counts, random);
                }
                change => {
                    let asked = match open.first() {
                        Some(open) if change == 6 => takes_the_name(&open.recording, &facts, random),
                        _ => None,
                    };
                    let asked = asked.unwrap_or_else(|| requests::draw(random.pick(&CHANGES), &facts, random));
                    image = cut(&image, ask(&asked, &image), random).0;
                    open.iter_mut().for_each(|open| open.touched = true);
                }
            }
        }
    }
    println!("{counts:?}");
    let [pieces, closes] = [&[0, 19, 20, 30][..], &[0, 16, 20, 30]];
    let given = |counts: &[usize; 31], numbers: &[usize]| numbers.iter().all(|&number| counts[number] > 0);
    assert!(!rounds.enough() || given(&counts.pieces, pieces) && given(&counts.closes, closes));
    assert!(
        !rounds.enough() || counts.between >= 20,
        "too few closes with a change in between"
    );
}

fn opened(image: &[u8], facts: &Facts, random: &mut Random) -> Option<OpenRecording> {
    let opening = recordings::opening(save_requests::accepted(facts, random), vec![0; recordings::LENGTH]);
    let left = ask(&opening, image);
    (left.answer == 0).then(|| OpenRecording {
        recording: Recording::of(&opening, facts),
        record: left.record,
        touched: false,
    })
}

/// A rename of some file that takes the name of a recording; none where there is no file.
fn takes_the_name(recording: &Recording, facts: &Facts, random: &mut Random) -> Option<OwnedRequest> {
    let names: Vec<_> = facts.live.iter().map(|live| live.name).collect();
    let rename = |name| {
        let asked = OwnedRequest::new(Call::Rename).with(calls::NAME, name).with(OUT, [0x5c; 2]);
        asked.with(calls::NEW, recording.name)
    };
    (!names.is_empty()).then(|| rename(random.pick(&names)))
}

/// Adds a drawn piece to one of the recordings, and cuts it or not. What is seen stays.
fn added(
    open: &mut [OpenRecording],
    at: usize,
    image: Vec<u8>,
    facts: &Facts,
    counts: &mut Counts,
    random: &mut Random,
) -> Vec<u8> {
    let (length, room) = match random.below(12) {
        0 => (fills(facts.free + 1), 3_116),
        1 => (random.between(1_100, 3_000), random.below(3)),
        _ => (random.below(2_500), 3_116),
    };
    let piece = random.bytes(length);
    let mut asked = open[at].recording.add(&piece, room);
    asked.slices[RECORD] = open[at].record.clone();
    let left = ask(&asked, &image);
    counts.pieces[usize::from(calls::refusal(left.answer))] += 1;
    if calls::refusal(left.answer) != 0 {
        return image;
    }
    open[at].record = left.record.clone();
    open[at].recording = open[at].recording.with(&piece);
    assert!(left.record == open[at].recording.record(), "another record");
    let writes = calls::value(left.answer) > 0;
    let (after, whole) = cut(&image, left, random);
    for (other, open) in open.iter_mut().enumerate() {
        open.touched |= if other == at { !whole } else { writes };
    }
    same_files(&image, &after, facts);
    after
}

/// Closes one of the recordings, and cuts that or not.
fn closed(
    open: &mut Vec<OpenRecording>,
    at: usize,
    image: Vec<u8>,
    facts: &Facts,
    counts: &mut Counts,
    random: &mut Random,
) -> Vec<u8> {
    let mut asked = open[at].recording.close(random.pick(&[8, 8, 8, 8, 3]));
    asked.slices[RECORD] = open[at].record.clone();
    let left = ask(&asked, &image);
    counts.closes[usize::from(calls::refusal(left.answer))] += 1;
    match calls::refusal(left.answer) {
        0 => {}
        // What has moved does not come back.
        30 => {
            open.remove(at);
            return image;
        }
        _ => return image,
    }
    let (after, whole) = cut(&image, left, random);
    for (other, open) in open.iter_mut().enumerate() {
        open.touched |= other != at;
    }
    if whole {
        let OpenRecording { recording, touched, .. } = open.remove(at);
        counts.between += usize::from(touched);
        reads_as_recorded(&recording, touched, &after);
    }
    same_files(&image, &after, facts);
    after
}

/// The closed file has as many bytes as came, and reads as its sectors do: those that came, where nothing came in between.
fn reads_as_recorded(recording: &Recording, touched: bool, image: &[u8]) {
    let room = vec![0x5c; recording.body.len()];
    let read = OwnedRequest::new(Call::Read)
        .with(calls::NAME, recording.name)
        .with(OUT, room);
    let left = ask(&read, image);
    assert_eq!(left.answer, (recording.body.len() as u64) << 24);
    if !touched {
        return assert!(left.out == recording.body, "other bytes than came");
    }
    // The first sector and the last are written by the close itself.
    let first = recording.body.len().min(fills(1));
    let last = match sectors_for(recording.body.len()) {
        1 => 0,
        sectors => fills(sectors - 1),
    };
    assert!(left.out[..first] == recording.body[..first] && left.out[last..] == recording.body[last..]);
}

/// The disk is accepted, and every file that was there keeps its slot and its sectors.
fn same_files(old: &[u8], new: &[u8], facts: &Facts) {
    let check = compare::ask(&Request::new(Call::Check, new), &mut Margins::default());
    assert_eq!(check.answer, 0, "the disk is refused");
    for live in &facts.live {
        let slot = slot_place(live.slot)..slot_place(live.slot) + SLOT;
        let sectors = live.sectors.iter().map(|number| number * SECTOR..(number + 1) * SECTOR);
        for range in sectors.chain([slot]) {
            assert!(old[range.clone()] == new[range], "the file in slot {} is altered", live.slot);
        }
    }
}

/// What a change leaves: mostly all of it, else the old disk with some of its first sectors. And whether it is all.
fn cut(old: &[u8], left: Returned, random: &mut Random) -> (Vec<u8>, bool) {
    let named = listed(&left);
    let Some(new) = left.image else {
        return (old.to_vec(), true);
    };
    if named.is_empty() || !random.one_in(4) {
        return (new, true);
    }
    let mut image = old.to_vec();
    for number in &named[..random.below(named.len())] {
        let sector = number * SECTOR..(number + 1) * SECTOR;
        image[sector.clone()].copy_from_slice(&new[sector]);
    }
    (image, false)
}
