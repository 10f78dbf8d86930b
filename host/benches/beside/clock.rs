//! Taking the times.

use crate::rows::Row;
use crate::sides::{Side, ours, refusal, theirs, value};
use std::hint::black_box;
use std::time::{Duration, Instant};

/// A round lasts at least this long, so that the clock's own steps do not count.
const ROUND: Duration = Duration::from_micros(100);

/// The time for works that take turns, such as both sides of a row.
const ROW: Duration = Duration::from_millis(1_200);

const FEWEST_ROUNDS: usize = 15;
const MOST_ROUNDS: usize = 2_000;

/// The best round and the middle one, in microseconds for each call.
pub struct Times {
    pub best: f64,
    pub median: f64,
}

pub struct Measured {
    pub ours: Times,
    pub theirs: Times,
    pub rounds: usize,
}

/// One lent image and one lent buffer, used by all that take turns.
struct Bench {
    image: Vec<u8>,
    buffer: Vec<u8>,
    timer: Duration,
}

/// A row and the side that does its work.
type Job<'a> = (&'a Row, &'a Side);

/// What an empty timed region takes: the middle of many.
pub fn timer_cost() -> Duration {
    let mut times: Vec<_> = (0..10_001).map(|_| Instant::now().elapsed()).collect();
    times.sort_unstable();
    times[times.len() / 2]
}

/// Compares both sides on a row, then times them in turn.
pub fn measure(row: &Row, timer: Duration) -> Measured {
    let sides = [ours(), theirs()];
    assert_equal(row, &sides[0], &sides[1]);
    let ([ours, theirs], rounds) = in_turn([(row, &sides[0]), (row, &sides[1])], timer);
    Measured { ours, theirs, rounds }
}

/// The library's times of several works on one disk, which take turns.
pub fn together<const N: usize>(rows: [&Row; N], timer: Duration) -> [Times; N] {
    let side = ours();
    in_turn(rows.map(|row| (row, &side)), timer).0
}

/// Times works on one disk, a round each in turn. Gives how many rounds too.
fn in_turn<const N: usize>(jobs: [Job; N], timer: Duration) -> ([Times; N], usize) {
    let disk = &jobs[0].0.disk.image;
    let buffer = jobs.iter().map(|(row, _)| row.buffer_bytes()).max().unwrap_or(0);
    let mut bench = Bench {
        image: disk.to_vec(),
        buffer: vec![0; buffer],
        timer,
    };
    let calls = jobs.map(|job| bench.calls_in_round(job));
    let mut rounds = [(); N].map(|()| vec![]);
    let begin = Instant::now();
    while rounds[0].len() < FEWEST_ROUNDS || (rounds[0].len() < MOST_ROUNDS && begin.elapsed() < ROW) {
        for (at, job) in jobs.into_iter().enumerate() {
            rounds[at].push(bench.round(job, calls[at]));
        }
    }
    assert!(bench.image[..] == disk[..], "the image was not put back");
    let many = rounds[0].len();
    (rounds.map(times), many)
}

/// Both sides do the work once, each on its own copy of the image and of a buffer with bytes in it.
fn assert_equal(row: &Row, ours: &Side, theirs: &Side) {
    let once = |side: &Side| {
        let (mut image, mut buffer) = (row.disk.image.to_vec(), vec![0xa5; row.buffer_bytes()]);
        let answer = row.run(side, &mut image, &mut buffer);
        (answer, image, buffer)
    };
    let (ours, theirs) = (once(ours), once(theirs));
    let title = format!("{} on {}", row.call(), row.disk.title);
    assert_eq!(refusal(theirs.0), row.refusal, "{title}: the refusal");
    assert_eq!(ours.0, theirs.0, "{title}: the answers");
    assert!(ours.1 == theirs.1, "{title}: the images");
    assert!(ours.2 == theirs.2, "{title}: the buffers");
    assert_eq!(
        theirs.1[..] != row.disk.image[..],
        row.changes(),
        "{title}: whether the image changes"
    );
}

impl Bench {
    /// The time of one call in microseconds, as the mean of a round.
    fn round(&mut self, job: Job, calls: u32) -> f64 {
        let total = if job.0.changes() {
            self.one_by_one(job, calls)
        } else {
            self.all_at_once(job, calls)
        };
        total.as_secs_f64() * 1e6 / f64::from(calls)
    }

    /// Many calls between two looks at the clock.
    fn all_at_once(&mut self, (row, side): Job, calls: u32) -> Duration {
        let begin = Instant::now();
        for _ in 0..calls {
            black_box(row.run(side, black_box(&mut self.image), black_box(&mut self.buffer)));
        }
        begin.elapsed().saturating_sub(self.timer)
    }

    /// Every call is timed alone, less the cost of an empty timed region. The image is put back after it, untimed.
    fn one_by_one(&mut self, (row, side): Job, calls: u32) -> Duration {
        let mut total = Duration::ZERO;
        for _ in 0..calls {
            let begin = Instant::now();
            let answer = black_box(row.run(side, black_box(&mut self.image), black_box(&mut self.buffer)));
            total += begin.elapsed().saturating_sub(self.timer);
            self.put_back(row, answer);
        }
        total
    }

    /// Restores the sectors that the change names.
    fn put_back(&mut self, row: &Row, answer: u64) {
        for pair in &self.buffer.as_chunks().0[..value(answer)] {
            let place = usize::from(u16::from_le_bytes(*pair)) * 512;
            self.image[place..place + 512].copy_from_slice(&row.disk.image[place..place + 512]);
        }
    }

    /// How many calls fill a round: doubled until they do.
    fn calls_in_round(&mut self, job: Job) -> u32 {
        let mut calls = 1;
        while self.round(job, calls) * f64::from(calls) < ROUND.as_secs_f64() * 1e6 {
            calls *= 2;
        }
        calls
    }
}

fn times(mut rounds: Vec<f64>) -> Times {
    rounds.sort_unstable_by(f64::total_cmp);
    Times {
        best: rounds[0],
        median: rounds[rounds.len() / 2],
    }
}
