//! Which seeds a test is drawn from. Round i is drawn from the first seed + i, so that a round that failed is run again alone
//! by `VARNUCHT_SEED=<its seed> VARNUCHT_ROUNDS=1`.

use std::env;
use std::ops::Range;

pub struct Rounds {
    first: u64,
    count: u64,
    usual: u64,
}

impl Rounds {
    /// `first` and `usual` hold unless `VARNUCHT_SEED` and `VARNUCHT_ROUNDS` say otherwise.
    pub fn new(first: u64, usual: u64) -> Rounds {
        Rounds {
            first: number("VARNUCHT_SEED").unwrap_or(first),
            count: number("VARNUCHT_ROUNDS").unwrap_or(usual),
            usual,
        }
    }

    pub fn seeds(&self) -> Range<u64> {
        self.first..self.first + self.count
    }

    /// Fewer rounds than usual cannot be expected to reach everything.
    pub fn enough(&self) -> bool {
        self.count >= self.usual
    }
}

fn number(variable: &str) -> Option<u64> {
    let text = env::var(variable).ok()?;
    Some(
        text.trim()
            .parse()
            .unwrap_or_else(|_| panic!("{variable} is no number: {text}")),
    )
}

/// Says which seed a round had, if the round fails.
pub struct Round(pub u64);

impl Drop for Round {
    fn drop(&mut self) {
        if std::thread::panicking() {
            eprintln!("This round alone: VARNUCHT_SEED={} VARNUCHT_ROUNDS=1", self.0);
        }
    }
}
