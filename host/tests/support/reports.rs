//! Drawn reports, and what a report says by the rule: a third opinion, in whole numbers.

use super::calls::{Call, OUT, TWO};
use super::disks::DrawnFile;
use super::random::Random;
use super::requests::OwnedRequest;

pub const REPORT: usize = 496;
pub const NUMBERS: usize = 124;
/// The numbers that count disks; those behind the last that is counted.
pub const DISKS: usize = 33;
pub const KEPT: usize = 111;
pub const MOST: u64 = 65_535;

pub fn number(report: &[u8], at: usize) -> u32 {
    u32::from_le_bytes(report[4 * at..][..4].try_into().expect("four bytes"))
}

pub fn set(report: &mut [u8], at: usize, number: u32) {
    report[4 * at..][..4].copy_from_slice(&number.to_le_bytes());
}

/// How many disks a report holds: as many as its first numbers come to, also where that passes 2^32.
pub fn disks(report: &[u8]) -> u64 {
    (0..DISKS).map(|at| u64::from(number(report, at))).sum()
}

/// What is counted of some disks.
#[derive(Clone, PartialEq, Eq, Debug)]
pub struct ReportCounts([u64; KEPT]);

impl ReportCounts {
    pub fn none() -> ReportCounts {
        ReportCounts([0; KEPT])
    }

    /// The numbers of a report.
    pub fn of(report: &[u8]) -> ReportCounts {
        ReportCounts(std::array::from_fn(|at| number(report, at).into()))
    }

    /// An accepted disk with these files, of so many data sectors.
    pub fn accepted(files: &[DrawnFile], data: usize) -> ReportCounts {
        let mut counts = ReportCounts::none();
        counts.0[0] = 1;
        for file in files {
            let sectors = file.chain.len();
            counts.0[33 + usize::from(file.kind)] += 1;
            counts.0[97] += sectors as u64;
            counts.0[99 + class(sectors)] += 1;
        }
        counts.0[98] = data as u64 - counts.0[97];
        counts
    }

    pub fn refused(number: u8) -> ReportCounts {
        let mut counts = ReportCounts::none();
        counts.0[usize::from(number)] = 1;
        counts
    }

    /// Both together, modulo 2^32.
    pub fn and(&self, other: &ReportCounts) -> ReportCounts {
        ReportCounts(std::array::from_fn(|at| (self.0[at] + other.0[at]) % (1 << 32)))
    }
}

/// The class of a sector count, by the list of their first counts.
fn class(sectors: usize) -> usize {
    let firsts = [0, 1, 2, 4, 8, 16, 32, 64, 128, 256, 512, 1_024];
    firsts.iter().rposition(|first| *first <= sectors).expect("all are 0 or more")
}

/// A request to add a disk or to join a report.
pub fn draw(call: Call, random: &mut Random) -> OwnedRequest {
    let asked = OwnedRequest::new(call).with(OUT, buffer(random));
    match call {
        Call::ReportJoin => asked.with(TWO, buffer(random)),
        _ => asked,
    }
}

/// A report in a buffer: mostly of its length or longer, with rubbish behind; else too short.
fn buffer(random: &mut Random) -> Vec<u8> {
    let mut buffer = report(random);
    match random.below(12) {
        0 => buffer.truncate(random.pick(&[0, 1, 4, 132, 444, 492, 493, 495])),
        1 => buffer.truncate(random.below(REPORT)),
        2 => {
            let more = random.pick(&[1, 2, 3, 4, 496, 5_000]);
            buffer.extend(random.bytes(more));
        }
        _ => {}
    }
    buffer
}

/// A report: empty, of few disks, nearly full, full, or of far too many; its other numbers are 0, or rubbish.
pub fn report(random: &mut Random) -> Vec<u8> {
    let mut report = match random.below(3) {
        0 => vec![0; REPORT],
        _ => random.bytes(REPORT),
    };
    let wanted = match random.below(6) {
        0 => 0,
        1 => random.below(3) as u32,
        2 => random.pick(&[32_767, 32_768, 65_533, 65_534, 65_535]),
        3 => random.below(65_536) as u32,
        4 => random.below(33_000) as u32,
        _ => return of_too_many(report, random),
    };
    with_disks(&mut report, wanted, random);
    report
}

/// Far too many disks, some of them so many that only high bits are left.
fn of_too_many(mut report: Vec<u8>, random: &mut Random) -> Vec<u8> {
    let wanted = random.pick(&[0, 1, 7, 65_535, 65_536, 65_537, 1 << 31, u32::MAX]);
    with_disks(&mut report, wanted, random);
    for _ in 0..random.pick(&[0, 2, 4]) {
        let at = random.below(DISKS);
        let more = number(&report, at).wrapping_add(1 << 31);
        set(&mut report, at, more);
    }
    report
}

/// Gives the numbers that count disks values that come to so many.
pub fn with_disks(report: &mut [u8], wanted: u32, random: &mut Random) {
    report[..4 * DISKS].fill(0);
    let mut left = wanted;
    while left > 0 {
        let (at, part) = (random.below(DISKS), if random.coin() { left } else { left / 3 + 1 });
        let more = number(report, at) + part;
        set(report, at, more);
        left -= part;
    }
}
