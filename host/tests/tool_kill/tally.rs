//! Where the kills fell.
use crate::killed_process::End;
use std::fmt;

#[derive(Default)]
pub struct Tally {
    pub rounds: usize,
    before: usize,
    pub middle: usize,
    after: usize,
    done: usize,
}

impl Tally {
    pub fn count(&mut self, end: &End, written: usize, sectors: usize) {
        self.rounds += 1;
        if !end.killed {
            assert_eq!(written, sectors, "a tool that ends by itself has written all");
            self.done += 1;
        } else if written == 0 {
            self.before += 1;
        } else if written < sectors {
            self.middle += 1;
        } else {
            self.after += 1;
        }
    }

    /// How many runs were killed before they ended.
    pub fn kills(&self) -> usize {
        self.before + self.middle + self.after
    }
}

impl fmt::Display for Tally {
    fn fmt(&self, f: &mut fmt::Formatter<'_>) -> fmt::Result {
        let Tally {
            rounds,
            before,
            middle,
            after,
            done,
        } = self;
        let kills = self.kills();
        write!(
            f,
            "{rounds} rounds, {kills} kills: {before} before the first write, {middle} in the middle, "
        )?;
        write!(f, "{after} after the last; {done} done before the kill")
    }
}
