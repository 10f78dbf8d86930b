//! Document 02, M-111: a shelf of disks in numbers.
//!
//! A report is 124 numbers of four bytes each, low byte first. All zero is the report over no disk. A report that other hands
//! made may hold any numbers: what is added to one of them is added modulo 2^32.

use crate::check::{Survey, survey};
use crate::geometry::{Image, whole};
use crate::refusal::{Reason, Refused};
use crate::slot::live_slots;

/// The bytes of a report.
pub const REPORT_BYTES: usize = 4 * NUMBERS;

const NUMBERS: usize = 124;

/// Number 0 counts the accepted disks, and number r, 1 to 32, those refused r.
const DISKS: usize = 33;
const ACCEPTED: usize = 0;
/// Number 33 + k counts the live files of kind k, 0 to 63.
const KINDS_AT: usize = 33;
const FILE_SECTORS_AT: usize = 97;
const FREE_SECTORS_AT: usize = 98;
/// Twelve numbers: the files by sector count.
const CLASSES_AT: usize = 99;
/// From here to the end nothing is counted, and what stands there stays.
const KEPT_AT: usize = 111;

/// A report holds no more disks than this.
const MOST_DISKS: u64 = 65_535;

type Numbers = [[u8; 4]; NUMBERS];

/// Adds a disk to a report, and answers how many it holds then.
pub fn report_add(image: &[u8], report: &mut [u8]) -> Result<usize, Refused> {
    let report = front_mut(report)?;
    let after = room(disks(report), 1)?;
    match checked(image) {
        Ok((image, survey)) => count(image, &survey, report),
        Err(refused) => more(&mut report[usize::from(refused.number)], 1),
    }
    Ok(after)
}

/// Joins another report to one, and answers how many disks that holds then.
pub fn report_join(report: &mut [u8], other: &[u8]) -> Result<usize, Refused> {
    let (report, other) = (front_mut(report)?, front(other)?);
    let after = room(disks(report), disks(other))?;
    for (number, other) in report.iter_mut().zip(other).take(KEPT_AT) {
        more(number, u32::from_le_bytes(*other));
    }
    Ok(after)
}

/// A disk that the check accepts, and what it learns of it.
fn checked(image: &[u8]) -> Result<(&Image, Survey), Refused> {
    let image = whole(image)?;
    Ok((image, survey(image)?))
}

/// Counts an accepted disk and its files.
fn count(image: &Image, survey: &Survey, report: &mut Numbers) {
    more(&mut report[ACCEPTED], 1);
    for slot in live_slots(image, survey.extent) {
        let sectors = slot.count();
        more(&mut report[KINDS_AT + usize::from(slot.kind())], 1);
        more(&mut report[FILE_SECTORS_AT], sectors as u32);
        more(&mut report[CLASSES_AT + class(sectors)], 1);
    }
    more(&mut report[FREE_SECTORS_AT], survey.free() as u32);
}

/// The class of a sector count: 0, 1, 2 to 3, 4 to 7, and so on to 1,024 and more.
fn class(sectors: usize) -> usize {
    let firsts = (0..11).map(|class| 1 << class);
    firsts.take_while(|first| *first <= sectors).count()
}

/// How many disks a report holds. A report of other hands may say that there are very many.
fn disks(report: &Numbers) -> u64 {
    let counts = report[..DISKS].iter().map(|number| u32::from_le_bytes(*number));
    counts.map(u64::from).sum()
}

/// How many disks there are with so many more, if a report can hold them.
fn room(disks: u64, more: u64) -> Result<usize, Refused> {
    match disks + more {
        after @ ..=MOST_DISKS => Ok(after as usize),
        _ => Err(Reason::ReportFull.alone()),
    }
}

fn more(number: &mut [u8; 4], by: u32) {
    *number = u32::from_le_bytes(*number).wrapping_add(by).to_le_bytes();
}

/// The report at the front of a buffer.
fn front(buffer: &[u8]) -> Result<&Numbers, Refused> {
    buffer.as_chunks().0.first_chunk().ok_or(Reason::BufferTooShort.alone())
}

fn front_mut(buffer: &mut [u8]) -> Result<&mut Numbers, Refused> {
    buffer
        .as_chunks_mut()
        .0
        .first_chunk_mut()
        .ok_or(Reason::BufferTooShort.alone())
}

#[cfg(test)]
mod tests {
    use super::*;

    #[test]
    fn classes_by_powers_of_two() {
        let firsts = [0, 1, 2, 4, 8, 16, 32, 64, 128, 256, 512, 1_024];
        let lasts = [0, 1, 3, 7, 15, 31, 63, 127, 255, 511, 1_023, 1_560];
        for (at, (first, last)) in firsts.into_iter().zip(lasts).enumerate() {
            assert!((first..=last).all(|sectors| class(sectors) == at), "{first} to {last}");
        }
    }
}
