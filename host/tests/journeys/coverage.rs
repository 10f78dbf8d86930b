//! What was accepted, cut and refused on the journeys.

use crate::support::calls::{CALLS, CHANGES, Call};
use crate::support::tally::Tally;
use std::fmt;

#[derive(Default)]
pub struct Coverage {
    /// How often each call gave each number.
    pub tally: Tally,
    /// Of each call how many were run to their end, cut before any sector, and cut between two.
    ends: [[usize; 3]; CALLS.len()],
    /// Closes of recordings with nothing between, and with other changes or a cut.
    pub closes: [usize; 2],
    /// The accepted changes of each journey, of which those of the last are not counted yet.
    journeys: Vec<usize>,
    /// Answers compared with the ledger's.
    pub answers: usize,
}

/// The changes that write several sectors.
const LONG: [Call; 5] = [Call::Save, Call::Gather, Call::EraseMany, Call::RecordAdd, Call::RecordClose];

/// What each change must be refused at some time; and the calls that look.
const REFUSALS: [(Call, &[u8]); 19] = [
    (Call::Save, &[12, 13, 14, 16, 18, 19, 20]),
    (Call::Erase, &[12, 15, 17, 29, 20]),
    (Call::Rename, &[12, 15, 16, 17, 20]),
    (Call::Hide, &[12, 15, 20]),
    (Call::Show, &[12, 15, 20]),
    (Call::Protect, &[12, 15, 20]),
    (Call::Release, &[12, 15, 20]),
    (Call::Gather, &[12, 13, 15, 32, 20]),
    (Call::EraseMany, &[23, 20]),
    (Call::RecordOpen, &[12, 13, 14, 16, 18, 19, 20]),
    (Call::RecordAdd, &[30, 19, 20]),
    (Call::RecordClose, &[30, 16, 20]),
    (Call::Read, &[12, 13, 15]),
    (Call::Open, &[12, 13, 15]),
    (Call::Start, &[12, 13, 14, 15]),
    (Call::Tree, &[12, 13, 15, 26, 27, 28]),
    (Call::CheckRelease, &[22]),
    (Call::List, &[]),
    (Call::Check, &[]),
];

impl Coverage {
    /// Counts an accepted change of which so many sectors were written.
    pub fn ended(&mut self, call: Call, written: usize, named: usize) {
        let place = match written {
            _ if written == named => 0,
            0 => 1,
            _ => 2,
        };
        self.ends[call as usize][place] += 1;
    }

    /// A journey is at its end.
    pub fn end_journey(&mut self) {
        let all: usize = self.ends.iter().flatten().sum();
        let before: usize = self.journeys.iter().sum();
        self.journeys.push(all - before);
    }

    /// What was never reached, in words.
    pub fn missing(&self) -> Vec<String> {
        let mut missing = Vec::new();
        let mut demand = |reached: bool, what: String| {
            if !reached {
                missing.push(what);
            }
        };
        for call in CHANGES.into_iter().chain(LONG) {
            let [whole, before, between] = self.ends[call as usize];
            demand(whole > 0, format!("{call:?} whole"));
            demand(before > 0, format!("{call:?} cut before its first sector"));
            demand(between > 0 || !LONG.contains(&call), format!("{call:?} cut between two"));
        }
        for (call, numbers) in REFUSALS {
            for &number in [0].iter().chain(numbers) {
                demand(self.tally.times(call, number) > 0, format!("{call:?} {number}"));
            }
        }
        let long = self.journeys.iter().all(|&changes| changes >= 2_000);
        demand(long, format!("thousands of changes on each disk: {:?}", self.journeys));
        demand(self.closes.iter().all(|&closes| closes >= 5), "enough closes".into());
        missing
    }
}

impl fmt::Display for Coverage {
    fn fmt(&self, f: &mut fmt::Formatter<'_>) -> fmt::Result {
        writeln!(f, "{}", self.tally.table())?;
        for call in CALLS.into_iter().filter(|&call| self.ends[call as usize] != [0; 3]) {
            let [whole, before, between] = self.ends[call as usize];
            writeln!(
                f,
                "{call:?}: {whole} whole, {before} cut before all sectors, {between} between two"
            )?;
        }
        let [joined, other] = self.closes;
        writeln!(
            f,
            "closes: {joined} with nothing between, {other} with other changes or a cut"
        )?;
        write!(f, "journeys of {:?} changes, {} answers", self.journeys, self.answers)
    }
}
