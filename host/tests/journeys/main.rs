//! Long journeys (document 02, M-113): from a drawn disk thousands of changes, each run to its end or cut after any number of
//! its sectors, the next on what was left. Beside the disk goes `paper`'s ledger of slots, which is made of the disk once and in
//! which exactly the changes are entered whose last sector was written. Listing, bodies, start addresses, trees, the check
//! before a release and every refusal but 20 and 30 are the ledger's. The C layer is under test.
//!
//! - `start_disks`: the disks that journeys begin with.
//! - `in_place`: a request to the C layer on the disk itself, without a copy.
//! - `drawing`: which request comes next.
//! - `journey`: the disk, the ledger beside it, and a change of each sort.
//! - `recording`: recordings, several open at once.
//! - `answers`: what the disk answers, and the ledger.
//! - `coverage`: what was accepted, cut and refused on the way.
//!
//! `VARNUCHT_SEED` and `VARNUCHT_ROUNDS` draw other journeys, or a single one again.

#[path = "../support/mod.rs"]
mod support;

mod answers;
mod coverage;
mod drawing;
mod in_place;
mod journey;
mod recording;
mod start_disks;

use coverage::Coverage;
use journey::Journey;
use support::random::Random;
use support::settings::{Round, Rounds};

/// How many requests a journey has. More than half of them are accepted.
const STEPS: usize = 4_000;

/// After so many requests all names are asked for, and the disk's own ledger is compared.
const WHOLE: usize = 40;

#[test]
fn journeys_go_as_the_ledger_says() {
    let mut coverage = Coverage::default();
    let rounds = Rounds::new(31_000_000, 4);
    for seed in rounds.seeds() {
        let _round = Round(seed);
        let random = &mut Random::new(seed);
        let mut journey = Journey::from(start_disks::draw(seed, random).image);
        for step in 1..=STEPS {
            let facts = journey.step(&mut coverage, random);
            journey.answers_as_the_ledger(step % WHOLE == 0, &facts, &mut coverage, random);
        }
        coverage.end_journey();
    }
    println!("{coverage}");
    assert!(
        !rounds.enough() || coverage.missing().is_empty(),
        "never: {:?}",
        coverage.missing()
    );
}
