//! The raw sector call: every track and sector of both drives, what lies beside them, and images of wrong lengths.

use crate::support::calls::{self, Call, Request, SLICES, TWO, ask_c, ask_paper};
use crate::support::compare::{self, Lend};
use crate::support::geometry::{IMAGE, is_track, place};
use crate::support::margins::Margins;
use crate::support::random::Random;
use crate::support::requests::WRONG_LENGTHS;

const DRIVES: [u32; 9] = [0, 1, 2, 3, 255, 257, 1 << 16 | 1, 1 << 31, u32::MAX];

#[test]
fn every_drive_track_and_sector() {
    let mut random = Random::new(7_000_000);
    let (one, two) = (random.bytes(IMAGE), random.bytes(IMAGE));
    let mut lender = Margins::default();
    let mut parts = [lender.nothing(); SLICES];
    parts[calls::IMAGE] = lender.lend(calls::IMAGE, &one, false);
    parts[TWO] = lender.lend(TWO, &two, false);
    let mut places = 0;
    for drive in DRIVES {
        for track in (0..=300).chain([1 << 16, 1 << 31, u32::MAX]) {
            for sector in (0..=13).chain([255, 256, 257, 1 << 31, u32::MAX]) {
                let numbers = [drive, track, sector];
                // Safety: the parts are two copies that nobody else has, and the call only reads.
                let answer = unsafe { ask_c(Call::Sector, numbers, &parts) };
                let request = Request::new(Call::Sector, &one).with(TWO, &two).numbers(numbers);
                assert_eq!(answer, ask_paper(&request).packed, "{}", compare::describe(&request));
                assert_eq!(
                    answer,
                    expected(drive, track as usize, sector as usize),
                    "{}",
                    compare::describe(&request)
                );
                places += usize::from(calls::refusal(answer) == 0);
            }
        }
    }
    assert_eq!(places, 2 * 1_600, "two drives of 1,600 sectors");
    assert!(
        lender.bytes(calls::IMAGE) == one && lender.bytes(TWO) == two,
        "the call changed an image"
    );
}

/// By the rule of document 01.
fn expected(drive: u32, track: usize, sector: usize) -> u64 {
    let there = (1..=2).contains(&drive) && is_track(track) && (1..=10).contains(&sector);
    if there { (place(track, sector) as u64) << 24 } else { 21 }
}

/// Number 1 for either image, before 21; the contents are not looked at.
#[test]
fn images_of_wrong_lengths() {
    let mut lender = Margins::default();
    let lengths: Vec<usize> = WRONG_LENGTHS.into_iter().chain([IMAGE]).collect();
    for &one in &lengths {
        for &two in &lengths {
            for numbers in [[1, 4, 1], [2, 4, 1], [0, 4, 1], [1, 80, 1], [2, 4, 11]] {
                let (first, second) = (vec![1; one], vec![2; two]);
                let request = Request::new(Call::Sector, &first).with(TWO, &second).numbers(numbers);
                let answer = compare::ask(&request, &mut lender).answer;
                let [drive, track, sector] = numbers;
                let right = (one, two) == (IMAGE, IMAGE);
                let number = if right {
                    expected(drive, track as usize, sector as usize)
                } else {
                    1
                };
                assert_eq!(answer, number, "{}", compare::describe(&request));
            }
        }
    }
}
