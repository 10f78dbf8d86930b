//! How often each call gave each refusal: which it must give at some time, and which it never may.

use super::calls::{CALLS, Call, refusal};
use std::fmt::Write;

pub struct Tally([[usize; 1 + MOST]; CALLS.len()]);

/// The greatest number of refusal.
const MOST: usize = 32;

/// The numbers that a call can give, by document 01's table and document 02; 0 for an accepted request. 3 is given no more.
pub fn possible(call: Call) -> Vec<u8> {
    let own: &[u8] = match call {
        Call::Check => &[],
        Call::CheckRelease => &[22],
        Call::List => &[20],
        Call::Read => &[12, 13, 15, 20],
        Call::Open => &[12, 13, 15],
        Call::Tree => &[26, 27, 28, 12, 13, 15, 20],
        Call::Next => return vec![0],
        Call::Start => &[12, 13, 14, 15],
        Call::Sector => return vec![0, 1, 21],
        Call::ReportAdd | Call::ReportJoin => return vec![0, 20, 31],
        Call::Save => &[12, 13, 14, 16, 18, 19, 20],
        Call::Erase => &[12, 15, 17, 29, 20],
        Call::EraseMany => &[23, 20],
        Call::Rename => &[12, 15, 16, 17, 20],
        Call::Hide | Call::Show | Call::Protect | Call::Release => &[12, 15, 20],
        Call::Gather => &[12, 13, 15, 32, 20],
        Call::RecordOpen => &[12, 13, 14, 16, 18, 19, 20],
        Call::RecordAdd => &[30, 19, 20],
        Call::RecordClose => &[30, 12, 13, 14, 16, 18, 19, 20],
    };
    let disk = (0..=11).filter(|&number| number != 3).chain([24, 25]);
    disk.chain(own.iter().copied()).collect()
}

impl Default for Tally {
    fn default() -> Tally {
        Tally([[0; 1 + MOST]; CALLS.len()])
    }
}

impl Tally {
    /// Counts an answer; fails where the call cannot give that number.
    pub fn count(&mut self, call: Call, answer: u64) {
        let number = refusal(answer);
        assert!(possible(call).contains(&number), "{call:?} gave {number}, which it never may");
        self.0[call as usize][usize::from(number)] += 1;
    }

    pub fn times(&self, call: Call, number: u8) -> usize {
        self.0[call as usize][usize::from(number)]
    }

    pub fn requests(&self) -> usize {
        self.0.iter().flatten().sum()
    }

    /// The pairs that did not occur.
    pub fn missing(&self) -> Vec<(Call, u8)> {
        let pairs = CALLS
            .into_iter()
            .flat_map(|call| possible(call).into_iter().map(move |number| (call, number)));
        pairs
            .filter(|&(call, number)| self.0[call as usize][usize::from(number)] == 0)
            .collect()
    }

    /// A row for each number that is given, a column for each call; a dash where the call cannot give the number.
    pub fn table(&self) -> String {
        let mut text = String::from("No.");
        for call in CALLS {
            write!(text, "{:>1$}", format!("{call:?}").to_lowercase(), width(call)).expect("a string takes all");
        }
        let given = |number: &u8| CALLS.into_iter().any(|call| possible(call).contains(number));
        for number in (0..=MOST as u8).filter(given) {
            write!(text, "\n{number:>3}").expect("a string takes all");
            for call in CALLS {
                let count = self.0[call as usize][usize::from(number)];
                let shown = if possible(call).contains(&number) {
                    count.to_string()
                } else {
                    "-".into()
                };
                write!(text, "{shown:>0$}", width(call)).expect("a string takes all");
            }
        }
        text
    }
}

/// The width of a call's column: a space, and its name or a number of seven digits.
fn width(call: Call) -> usize {
    1 + format!("{call:?}").len().max(7)
}
