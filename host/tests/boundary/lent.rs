//! Every call with every slice between closed pages, compared with `paper` as in the differential tests.

use crate::support::calls::{self, BODY, CALLS, Call, NAME, NOTHING, OUT, Request, SLICES, ask_c};
use crate::support::compare::{self, Lend};
use crate::support::damage;
use crate::support::disks;
use crate::support::facts::Facts;
use crate::support::geometry::{BITS, IMAGE, fills};
use crate::support::guarded::{Edge, Empty, Guarded};
use crate::support::random::Random;
use crate::support::readers;
use crate::support::requests::{self, OwnedRequest};
use crate::support::save_requests;
use crate::support::settings::{Round, Rounds};
use crate::support::shapes::Shape;

/// Flush with either closed page; no bytes as a closed page and as NULL.
const WAYS: [(Edge, Empty); 4] = [
    (Edge::End, Empty::Closed),
    (Edge::Front, Empty::Null),
    (Edge::End, Empty::Null),
    (Edge::Front, Empty::Closed),
];

/// Asks with the slices lent at the end of their pages and at their front; gives the answer, and the image after a change.
fn ask(request: &Request) -> (u64, Option<Vec<u8>>) {
    let empty = request.call.takes().iter().any(|&role| request.slices[role].is_empty());
    let mut given = None;
    for &(edge, empty) in if empty { &WAYS[..] } else { &WAYS[..2] } {
        let left = compare::ask(request, &mut Guarded::new(edge, empty));
        given = Some((left.answer, left.image));
    }
    given.expect("there is a way")
}

/// How often each call was accepted and refused.
#[derive(Default)]
struct Counts([[usize; 2]; CALLS.len()]);

impl Counts {
    fn every_call(&mut self, facts: &Facts, image: &[u8], random: &mut Random) {
        for call in CALLS {
            let asked = requests::draw(call, facts, random);
            let (answer, _) = ask(&asked.on(image));
            self.0[call as usize][usize::from(calls::refusal(answer) != 0)] += 1;
        }
    }

    fn print(&self, what: &str) {
        println!(
            "{what}: accepted and refused by call: {:?}",
            CALLS.iter().zip(self.0).collect::<Vec<_>>()
        );
    }
}

#[test]
fn whole_disks() {
    let mut counts = Counts::default();
    let rounds = Rounds::new(10_000_000, 80);
    for seed in rounds.seeds() {
        let _round = Round(seed);
        let random = &mut Random::new(seed);
        let disk = disks::draw(random);
        counts.every_call(&Facts::of(&disk.image), &disk.image, random);
    }
    counts.print("whole disks");
    // Check accepts every whole disk, and the next piece refuses nothing.
    let both = |call: Call| !matches!(call, Call::Check | Call::Next);
    let reached = |(call, [accepted, refused]): (Call, [usize; 2])| accepted > 0 && (refused > 0) == both(call);
    assert!(
        !rounds.enough() || CALLS.into_iter().zip(counts.0).all(reached),
        "a call was only accepted or only refused"
    );
}

#[test]
fn damaged_disks() {
    let mut counts = Counts::default();
    let all = damage::all();
    for seed in Rounds::new(11_000_000, all.len() as u64).seeds() {
        let _round = Round(seed);
        let random = &mut Random::new(seed);
        let (disk, _) = damage::one(all[seed as usize % all.len()], random);
        counts.every_call(&Facts::of(&disk.image), &disk.image, random);
    }
    counts.print("damaged disks");
}

/// Images that end anywhere, most of all in the directory: nothing behind their end may be looked at.
#[test]
fn short_images() {
    let mut counts = Counts::default();
    for seed in Rounds::new(12_000_000, 60).seeds() {
        let _round = Round(seed);
        let random = &mut Random::new(seed);
        let mut disk = disks::draw(random);
        let facts = Facts::of(&disk.image);
        let length = match random.below(6) {
            0 => random.pick(&[0, 1, 255, 256, 40_959, 40_960]),
            1 => random.pick(&[IMAGE - 1, IMAGE + 1, IMAGE - 512, IMAGE + 512]),
            2 => random.between(40_960, IMAGE - 1),
            _ => random.between(0, 40_960),
        };
        disk.image.resize(length, 16);
        counts.every_call(&facts, &disk.image, random);
    }
    counts.print("short images");
    let accepted = CALLS.into_iter().zip(counts.0).filter(|(_, [accepted, _])| *accepted > 0);
    assert!(
        accepted
            .map(|(call, _)| call)
            .filter(|call| !call.is_report())
            .eq([Call::Next]),
        "an image of a wrong length was accepted"
    );
}

/// Every file read piece by piece, each piece into pages of its own.
#[test]
fn pieces_of_files() {
    let mut pieces = 0;
    for seed in Rounds::new(17_000_000, 12).seeds() {
        let _round = Round(seed);
        let random = &mut Random::new(seed);
        let disk = disks::draw(random);
        for (file, &(edge, empty)) in disk.files.iter().zip(WAYS.iter().cycle()) {
            let Ok(mut reader) = paper::open(&disk.image, &file.name) else {
                continue;
            };
            let mut lender = Guarded::new(edge, empty);
            let mut parts = [NOTHING; SLICES];
            parts[calls::IMAGE] = lender.lend(calls::IMAGE, &disk.image, false);
            for _ in 0..40 {
                let room = readers::room(reader.left as usize, random);
                let mut out = random.bytes(room);
                parts[OUT] = lender.lend(OUT, &out, true);
                // Safety: the image is only read, and the output buffer stands alone.
                let answer = unsafe { ask_c(Call::Next, [reader.sector, reader.offset, reader.left], &parts) };
                let came = paper::next(&disk.image, &mut reader, &mut out);
                let place = u64::from(reader.sector) << 8 | u64::from(reader.offset) << 48;
                assert_eq!(answer, place | (came as u64) << 24);
                assert!(lender.bytes(OUT) == out && lender.around(OUT));
                pieces += 1;
            }
        }
    }
    println!("{pieces} pieces");
}

/// Readers at the first and the last bytes of an image, and behind them.
#[test]
fn pieces_at_the_edges_of_an_image() {
    let image = disks::draw(&mut Random::new(18_000_000)).image;
    for numbers in [
        [0, 0],
        [0, 509],
        [1_599, 0],
        [1_599, 509],
        [1_599, 510],
        [1_599, 511],
        [1_600, 0],
    ] {
        for left in [0, 1, 510, 511, 795_591] {
            for room in [0, 1, 510, 511] {
                let mut asked = OwnedRequest::new(Call::Next).with(OUT, vec![0x5c; room]);
                asked.numbers = [numbers[0], numbers[1], left];
                ask(&asked.on(&image));
            }
        }
    }
}

/// A save that takes all the room, and its body read into a buffer of exactly its length.
#[test]
fn saves_of_full_size() {
    for free in [BITS, 700, 1] {
        let random = &mut Random::new(13_000_000 + free as u64);
        let image = with_free(free, random);
        let facts = Facts::of(&image);
        let sectors = facts.save_sectors(fills(free));
        let list = vec![0x5c; 2 * sectors];
        let asked = save_requests::accepted(&facts, random)
            .with(BODY, random.bytes(fills(free)))
            .with(OUT, list);
        let (answer, new) = ask(&asked.on(&image));
        assert_eq!((calls::refusal(answer), calls::value(answer)), (0, sectors));
        let new = new.expect("accepted");
        for short in [0, 1] {
            let out = vec![0x5c; fills(free) - short];
            let read = OwnedRequest::new(Call::Read)
                .with(NAME, asked.slices[NAME].clone())
                .with(OUT, out);
            let (answer, _) = ask(&read.on(&new));
            assert_eq!(calls::refusal(answer), if short == 0 { 0 } else { 20 });
        }
    }
}

/// A disk with a free slot and so many free sectors.
fn with_free(free: usize, random: &mut Random) -> Vec<u8> {
    let files = if free == BITS { 0 } else { 30 };
    let shape = Shape::with(files, BITS - free, random);
    disks::of_shape(&shape, random).image
}
