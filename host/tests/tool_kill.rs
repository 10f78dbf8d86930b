//! Kills the tool in the middle of saves, recordings and gathers, many times, at drawn moments. The image left is accepted each
//! time, shows the old files or the new, and takes the change again. Where it erases several files those of the sectors written
//! are gone. A journey goes over one image through all kills, beside a ledger.
//! `VARNUCHT_KILLS` is how many saves to kill, `VARNUCHT_SEED` what is drawn.
//!
//! A sector is written in one call of 512 bytes, which a kill cannot tear: the disk left is held to whole sectors.
#![cfg(unix)]
#[path = "tool_kill/disk.rs"]
mod disk;
#[path = "tool_kill/draw.rs"]
mod draw;
#[path = "tool_kill/fixture.rs"]
mod fixture;
#[path = "tool_kill/killed_process.rs"]
mod killed_process;
#[path = "tool_kill/pace.rs"]
mod pace;
#[path = "tool_kill/tally.rs"]
mod tally;

use fixture::Fixture;
use fixture::journey::Journey;
use std::env;
use std::sync::{Mutex, PoisonError};
use tally::Tally;

/// One test at a time: the moments of the kills are measured, and the folder is one.
static TURN: Mutex<()> = Mutex::new(());

/// A number from the environment, or the usual one.
fn number(name: &str, usual: usize) -> usize {
    env::var(name).map_or(usual, |text| {
        text.parse().unwrap_or_else(|_| panic!("{name} is a number and not {text}"))
    })
}

#[test]
fn a_killed_tool_leaves_the_old_files_or_the_new() {
    let _turn = TURN.lock().unwrap_or_else(PoisonError::into_inner);
    let kills = number("VARNUCHT_KILLS", 120);
    let mut fixture = Fixture::new(number("VARNUCHT_SEED", 1) as u64);
    let mut pace = fixture.measure();
    println!("at first: {}, saves of 20 to {} sectors", pace.words(), pace.most_sectors());
    let [mut saves, mut recordings, mut gathers, mut many, mut others] = [(); 5].map(|()| Tally::default());
    // How many moments fall between two writes, and how often a file is there to gather, hangs on the machine too.
    while saves.kills() < kills
        || saves.middle < kills / 5
        || recordings.middle < kills / 10
        || gathers.kills() < kills / 5
        || many.rounds < kills / 10
    {
        assert!(
            saves.rounds < 5 * kills + 20,
            "too few were killed, or between two writes: saves {saves}; recordings {recordings}; gathers {gathers}; several erased {many}"
        );
        fixture.save_round(&mut pace, &mut saves);
        if saves.rounds % 2 == 1 {
            fixture.gather_round(&mut pace, &mut gathers);
        }
        if saves.rounds % 2 == 0 {
            fixture.record_round(&mut pace, &mut recordings);
        }
        if saves.rounds % 8 == 5 {
            fixture.erase_round(&mut pace, &mut many);
        }
        if saves.rounds % 4 == 0 {
            fixture.change_round(&pace, &mut others);
        }
    }
    println!("at last: {}, saves of 20 to {} sectors", pace.words(), pace.most_sectors());
    println!("saves: {saves}");
    println!("recordings: {recordings}");
    println!("gathers: {gathers}");
    println!("several erased at once: {many}");
    println!("erase, rename, hide, show: {others}");
}

#[test]
fn a_journey_through_kills_goes_as_the_ledger_says() {
    let _turn = TURN.lock().unwrap_or_else(PoisonError::into_inner);
    let kills = number("VARNUCHT_KILLS", 120);
    let mut journey = Journey::new(number("VARNUCHT_SEED", 1) as u64);
    let (mut pace, mut changes) = (journey.measure(), Tally::default());
    while changes.kills() < kills || changes.middle < kills / 8 {
        assert!(
            changes.rounds < 5 * kills + 20,
            "too few were killed, or between two writes: {changes}"
        );
        journey.round(&mut pace, &mut changes);
        if changes.rounds % 16 == 0 {
            journey.refused_round();
        }
    }
    println!("a journey: {changes}");
}
