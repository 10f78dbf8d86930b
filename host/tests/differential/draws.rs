//! Drawn disks with drawn requests, whole disks and damaged ones, and a count of which call gave which refusal.

use crate::support::calls::{CALLS, CHANGES, Call, OUT, Request, refusal, slot};
use crate::support::compare::{self, Returned};
use crate::support::damage::{self, Expected};
use crate::support::directories;
use crate::support::disks::{self, DrawnDisk};
use crate::support::facts::Facts;
use crate::support::geometry::IMAGE;
use crate::support::margins::Margins;
use crate::support::random::Random;
use crate::support::requests::{self, WRONG_LENGTHS};
use crate::support::settings::{Round, Rounds};
use crate::support::tally::Tally;
use crate::support::waste;

/// What all drawn requests go through.
#[derive(Default)]
struct Comparison {
    lender: Margins,
    tally: Tally,
    disks: usize,
}

impl Comparison {
    fn ask(&mut self, request: &Request) -> Returned {
        let left = compare::ask(request, &mut self.lender);
        self.tally.count(request.call, left.answer);
        left
    }

    /// The tree of a whole disk that is accepted: what follows from its codes.
    fn tree(&mut self, image: &[u8]) {
        let facts = Facts::of(image);
        let room = vec![0x5c; 2 * facts.live.len()];
        let left = self.ask(&Request::new(Call::Tree, image).with(OUT, &room));
        let given = (refusal(left.answer), slot(left.answer));
        match directories::refused(&facts) {
            Some(refused) => assert_eq!(given, refused, "the tree"),
            None => {
                let slots: Vec<u8> = directories::beneath(&facts, None)
                    .iter()
                    .flat_map(|&slot| (slot as u16).to_le_bytes())
                    .collect();
                assert_eq!((given, left.out), ((0, 0), slots), "the tree");
            }
        }
    }

    /// The answer of the first check. That of the check before a release follows from it.
    fn check(&mut self, image: &[u8]) -> u64 {
        self.disks += 1;
        let check = self.ask(&Request::new(Call::Check, image)).answer;
        let release = self.ask(&Request::new(Call::CheckRelease, image)).answer;
        let follows = waste::release(check, image);
        assert_eq!(
            compare::read_out(release),
            compare::read_out(follows),
            "the check before a release"
        );
        if check == 0 {
            self.tree(image);
        }
        check
    }
}

#[test]
fn every_call_answers_as_the_paper() {
    let mut run = Comparison::default();
    let parts: [fn(&mut Comparison) -> bool; 5] = [whole, damaged, much_damaged, wrong_lengths, histories];
    let enough = parts.map(|part| part(&mut run));
    let table = run.tally.table();
    println!(
        "{} disks, {} requests; how often each call gave each refusal:\n{table}",
        run.disks,
        run.tally.requests()
    );
    if let Some(file) = std::env::var_os("VARNUCHT_TABLE") {
        std::fs::write(file, table + "\n").expect("the table can be written");
    }
    let missing = run.tally.missing();
    if enough.contains(&false) {
        println!("Too few rounds to reach every pair; missing: {missing:?}");
        return;
    }
    assert!(missing.is_empty(), "never given: {missing:?}");
}

/// Disks that are accepted, several requests of every call on each.
fn whole(run: &mut Comparison) -> bool {
    let rounds = Rounds::new(1_000_000, 700);
    for seed in rounds.seeds() {
        let _round = Round(seed);
        let random = &mut Random::new(seed);
        let disk = disks::draw(random);
        assert_eq!(run.check(&disk.image), 0, "a drawn disk is refused");
        let facts = Facts::of(&disk.image);
        for call in CALLS {
            for _ in 0..3 {
                run.ask(&requests::draw(call, &facts, random).on(&disk.image));
            }
        }
    }
    rounds.enough()
}

/// One damage on each disk, every sort of damage in turn.
fn damaged(run: &mut Comparison) -> bool {
    let all = damage::all();
    let rounds = Rounds::new(2_000_000, 12 * all.len() as u64);
    for seed in rounds.seeds() {
        let _round = Round(seed);
        let random = &mut Random::new(seed);
        let damage = all[seed as usize % all.len()];
        let (disk, outcome) = damage::one(damage, random);
        on_damaged(run, &disk, outcome, damage.title, random);
    }
    rounds.enough()
}

/// Two damages or more on each disk: the order of the table decides.
fn much_damaged(run: &mut Comparison) -> bool {
    let rounds = Rounds::new(3_000_000, 400);
    for seed in rounds.seeds() {
        let _round = Round(seed);
        let random = &mut Random::new(seed);
        let (disk, outcome) = damage::several(random);
        on_damaged(run, &disk, outcome, "several damages", random);
    }
    rounds.enough()
}

/// The check says what follows from the damage; every other call that looks at the directory refuses alike.
fn on_damaged(run: &mut Comparison, disk: &DrawnDisk, outcome: Expected, title: &str, random: &mut Random) {
    let check = run.check(&disk.image);
    let given = (refusal(check), slot(check));
    match outcome {
        Expected::Open => {}
        Expected::Accepted | Expected::Ends(_) => assert_eq!(given, (0, 0), "{title}: must be accepted"),
        Expected::Refused(number, slot) => assert_eq!(given, (number, slot), "{title}: another refusal follows"),
    }
    let facts = Facts::of(&disk.image);
    for call in CALLS {
        let answer = run.ask(&requests::draw(call, &facts, random).on(&disk.image)).answer;
        assert!(
            check == 0 || call.is_raw() || call == Call::CheckRelease || answer == check,
            "{title}: {call:?} and check differ"
        );
    }
}

/// Images that are too short or too long.
fn wrong_lengths(run: &mut Comparison) -> bool {
    let rounds = Rounds::new(4_000_000, 2 * WRONG_LENGTHS.len() as u64);
    for seed in rounds.seeds() {
        let _round = Round(seed);
        let random = &mut Random::new(seed);
        let length = WRONG_LENGTHS[seed as usize % WRONG_LENGTHS.len()];
        let mut disk = disks::draw(random);
        let facts = Facts::of(&disk.image);
        disk.image.resize(length, 0);
        assert_eq!(run.check(&disk.image), 1, "{length} bytes");
        for call in CALLS {
            let answer = run.ask(&requests::draw(call, &facts, random).on(&disk.image)).answer;
            let as_it_should = call.is_report() || answer == call.answer_to_no_image();
            assert!(as_it_should, "{call:?} on {length} bytes");
        }
    }
    rounds.enough()
}

/// Change after change on one disk, each on what the one before left.
fn histories(run: &mut Comparison) -> bool {
    let rounds = Rounds::new(5_000_000, 60);
    for seed in rounds.seeds() {
        let _round = Round(seed);
        let random = &mut Random::new(seed);
        let mut image = if random.one_in(3) {
            vec![0; IMAGE]
        } else {
            disks::draw(random).image
        };
        for _ in 0..40 {
            let call = match random.below(16) {
                0..8 => Call::Save,
                8 => Call::EraseMany,
                _ => random.pick(&CHANGES),
            };
            let asked = requests::draw(call, &Facts::of(&image), random);
            let left = run.ask(&asked.on(&image));
            image = left.image.unwrap_or(image);
        }
        assert_eq!(run.check(&image), 0, "accepted changes left a disk that is refused");
    }
    rounds.enough()
}
