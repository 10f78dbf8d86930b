//! Thousands of images, counted from memory on one thread and on two.

use crate::disks::BenchDisk;
use crate::sides::{Side, ours, refusal, theirs};
use paper::REPORT_BYTES;
use std::fs;
use std::hint::black_box;
use std::thread;
use std::time::Instant;

/// How many images are counted, and how many lie in memory: more than the caches hold, each taken again and again.
const IMAGES: usize = 8_192;
const IN_MEMORY: usize = 128;

const ROUNDS: usize = 5;

/// Counts the images on both sides and prints how many images a second, the best of some rounds.
pub fn measure(disks: &[&BenchDisk]) {
    let images: Vec<Vec<u8>> = (0..IN_MEMORY).map(|at| disks[at % disks.len()].image.to_vec()).collect();
    println!(
        "A shelf of {IMAGES} images, from {IN_MEMORY} in memory ({} MB), of {} sorts: images a second, best of {ROUNDS}.",
        IN_MEMORY * 819_200 / 1_000_000,
        disks.len()
    );
    let expected = count(&theirs(), &images, 1);
    for threads in [1, 2] {
        let [ours, theirs] = [ours(), theirs()].map(|side| {
            // What threads take once is in use from then on.
            count(&side, &images, threads);
            let before = resident();
            let rounds = (0..ROUNDS).map(|_| {
                let begin = Instant::now();
                let report = count(&side, &images, threads);
                let rate = IMAGES as f64 / begin.elapsed().as_secs_f64();
                assert!(report == expected, "{threads} threads count something else");
                rate
            });
            (rounds.fold(0.0, f64::max), resident().saturating_sub(before))
        });
        println!(
            "{threads} thread{}: {:.0} (paper {:.0}); {} KiB more in use after {} images.",
            if threads == 1 { " " } else { "s" },
            ours.0,
            theirs.0,
            ours.1,
            ROUNDS * IMAGES
        );
    }
}

/// The report over the images, each thread's part counted into a report of its own and then joined.
fn count(side: &Side, images: &[Vec<u8>], threads: usize) -> [u8; REPORT_BYTES] {
    let part = |first: usize| {
        let mut report = [0; REPORT_BYTES];
        for at in (first..IMAGES).step_by(threads) {
            let answer = (side.report_add)(black_box(&images[at % IN_MEMORY]), &mut report);
            assert_eq!(refusal(answer), 0, "the report is full");
        }
        report
    };
    let parts: Vec<[u8; REPORT_BYTES]> = thread::scope(|scope| {
        let others: Vec<_> = (1..threads).map(|first| scope.spawn(move || part(first))).collect();
        let own = part(0);
        let others = others.into_iter().map(|other| other.join().expect("a thread ends well"));
        others.chain([own]).collect()
    });
    let mut all = [0; REPORT_BYTES];
    for part in &parts {
        assert_eq!(refusal((side.report_join)(&mut all, part)), 0, "the report is full");
    }
    all
}

/// The memory in use, in KiB; 0 where the system does not say.
fn resident() -> u64 {
    let status = fs::read_to_string("/proc/self/status").unwrap_or_default();
    let line = status.lines().find_map(|line| line.strip_prefix("VmRSS:"));
    line.and_then(|line| line.split_whitespace().next()?.parse().ok())
        .unwrap_or(0)
}
