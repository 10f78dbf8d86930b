//! How far a long command has come, on a terminal.
use std::io::{self, IsTerminal, Write};
use std::time::{Duration, Instant};

/// A line on standard error that follows the work. It appears where that takes longer than a moment, and goes away again.
pub struct Progress {
    terminal: bool,
    last: Instant,
    /// How long the longest line was that is there to be taken away; 0 for none.
    shown: usize,
}

/// How long to wait between two lines, and before the first.
const MOMENT: Duration = Duration::from_millis(200);

impl Progress {
    /// Nothing is shown yet.
    pub fn new() -> Progress {
        Progress {
            terminal: io::stderr().is_terminal(),
            last: Instant::now(),
            shown: 0,
        }
    }

    /// So many sectors are written.
    pub fn step(&mut self, written: usize, of: usize) {
        self.show(|| format!("{written} of {of} sectors written "));
    }

    /// Shows how far it has come, in words, where it is time to.
    pub fn show(&mut self, words: impl FnOnce() -> String) {
        if self.terminal && self.last.elapsed() >= MOMENT {
            let words = words();
            let _ = write!(io::stderr(), "\r{words}");
            self.last = Instant::now();
            self.shown = self.shown.max(words.len());
        }
    }

    /// Takes the line away.
    pub fn clear(&mut self) {
        if self.shown > 0 {
            let _ = write!(io::stderr(), "\r{:1$}\r", "", self.shown);
            self.shown = 0;
        }
    }
}

impl Drop for Progress {
    fn drop(&mut self) {
        self.clear();
    }
}
