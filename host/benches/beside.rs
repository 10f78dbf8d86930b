//! The proved library beside document 01 in plain Rust, on the same disks and in the same process.
//!
//! Before a row is timed, both sides do its work once and must give equal answers and equal buffers. Then they take turns,
//! a round each. A round is a number of calls and gives the mean of them; the table has the best round and the middle one.

#[path = "beside/clock.rs"]
mod clock;
#[path = "beside/disks.rs"]
mod disks;
#[allow(dead_code)]
#[path = "../tests/support/geometry.rs"]
mod geometry;
#[allow(dead_code)]
#[path = "../tests/support/random.rs"]
mod random;
#[path = "beside/reports.rs"]
mod reports;
#[path = "beside/rows.rs"]
mod rows;
#[path = "beside/sides.rs"]
mod sides;
#[path = "beside/table.rs"]
mod table;

use std::time::Instant;

fn main() {
    let begin = Instant::now();
    let timer = clock::timer_cost();
    table::print_head(timer);
    let rows = rows::all();
    for row in &rows {
        table::print_row(row, &clock::measure(row, timer));
    }
    println!();
    for (row, most) in rows::pieces(&rows) {
        table::print_pieces(row, most, &clock::together(row, timer));
    }
    println!();
    reports::measure(&rows::reported(&rows));
    println!();
    println!(
        "{} rows, each equal on both sides before it was timed. {:.1} seconds.",
        rows.len(),
        begin.elapsed().as_secs_f64()
    );
}
