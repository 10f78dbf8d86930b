//! The printed table.

use crate::clock::{Measured, Times};
use crate::rows::Row;
use std::time::Duration;

pub fn print_head(timer: Duration) {
    println!("The proved library (ours) beside document 01 in plain Rust (paper), both built for release, in one process.");
    println!("Microseconds for one call; ratio: ours / paper. The sides take turns; a round is at least 100 us of calls.");
    println!("both checks, list, read, open, pieces, report and refused calls: many calls between two looks at the clock.");
    println!("pieces: a whole body by next, so many bytes to a call, laid end to end; it was opened before, untimed.");
    println!(
        "save, erase, gather and record that change a disk: every call timed alone, less {} ns, the cost of an empty timed",
        timer.as_nanos()
    );
    println!("region; the changed sectors are put back after each call, untimed.");
    println!("No buffer is cleared between calls, and both sides use the same image and buffer: the caches are warm.");
    println!(
        "read, open, erase and gather take the last file. Files have kind 19, but the last of a disk 'kind 4'. Their names have ten"
    );
    println!("bytes that differ in the first two; with 'names alike' in the last two alone, with 'names drawn' anywhere.");
    println!("'less one', 'erased': the last file was erased before, so the save takes its slot and sectors.");
    println!(
        "'old slots': behind its end the directory has old bytes. 398 and 778 files stand on 20 and 39 directory tracks."
    );
    println!(
        "tree takes the root. '678 in 100': so many files in so many directories; 'nested': each in the one before, the files"
    );
    println!(
        "in the last. gather: files of 795,591 and 900 bytes lie in a row; 'scattered', 'holes': the last file does not."
    );
    println!("erase many: so many names by one call, all that the disk has or its last alone.");
    println!(
        "record: a file of all free sectors, so many bytes to a piece; opened, added and closed, all of it timed at once."
    );
    println!();
    println!(
        "{:<14} {:<22} {:<10} {:>10} {:>10} {:>10} {:>10} {:>7} {:>7} {:>6}",
        "call", "disk", "answer", "ours best", "median", "paper best", "median", "ratio", "median", "rounds"
    );
}

pub fn print_row(row: &Row, measured: &Measured) {
    let answer = if row.refusal == 0 {
        "accepted".to_string()
    } else {
        format!("refused {}", row.refusal)
    };
    let (ours, theirs) = (&measured.ours, &measured.theirs);
    println!(
        "{:<14} {:<22} {:<10} {:>10.3} {:>10.3} {:>10.3} {:>10.3} {:>7.2} {:>7.2} {:>6}",
        row.call(),
        row.disk.title,
        answer,
        ours.best,
        ours.median,
        theirs.best,
        theirs.median,
        ours.best / theirs.best,
        ours.median / theirs.median,
        measured.rounds
    );
}

/// What the library's pieces cost beside one read without its check: a read of the same disk less a check of it.
pub fn print_pieces([_, _, row]: [&Row; 3], most: f64, [check, read, pieces]: &[Times; 3]) {
    println!(
        "{} on {}: {:.2} times one read without its check, {:.2} in the median; at most {most} is wanted.",
        row.call(),
        row.disk.title,
        pieces.best / (read.best - check.best),
        pieces.median / (read.median - check.median),
    );
}
