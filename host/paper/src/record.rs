//! The record of a recording: 2,048 bytes that the caller keeps between the calls.
//!
//! It holds what a close needs and the disk does not: a save's particulars, the used map and the size of the directory at
//! opening, how many bytes came, and those of them that are in no sector yet, the first sector's and the last's.

use crate::geometry::PAYLOAD_BYTES;
use crate::map::MAP_BYTES;
use crate::save::Particulars;
use crate::slot::{HEADER_BYTES, sectors_for};

/// How many bytes a record has.
pub const RECORD_BYTES: usize = 2_048;

/// The bytes of a record, of any content.
pub type Record = [u8; RECORD_BYTES];

/// The body bytes of a first sector, behind the header.
const FIRST_BYTES: usize = PAYLOAD_BYTES - HEADER_BYTES;

const KIND_AT: usize = 0;
const PAGE_AT: usize = 1;
const OFFSET_AT: usize = 2;
const EXTRA_AT: usize = 4;
const LENGTH_AT: usize = 8;
const NAME_AT: usize = 12;
const EXEC_AT: usize = 22;
const INFO_AT: usize = 25;
const USED_AT: usize = 36;
const FIRST_AT: usize = 231;
const LAST_AT: usize = 732;
const LAST_END: usize = LAST_AT + PAYLOAD_BYTES;

/// The record of a recording that nothing came to yet. The particulars have been tested, so they fit.
pub fn new_record(file: &Particulars, extra: u8, used: &[u8; MAP_BYTES]) -> Record {
    let mut record = [0; RECORD_BYTES];
    let mut put = |at: usize, part: &[u8]| record[at..][..part.len()].copy_from_slice(part);
    put(KIND_AT, &[file.kind as u8, file.page as u8]);
    put(OFFSET_AT, &(file.offset as u16).to_le_bytes());
    put(EXTRA_AT, &[extra]);
    put(NAME_AT, &[b' '; 10]);
    put(NAME_AT, file.name);
    put(EXEC_AT, &file.exec[..file.exec.len().min(INFO_AT - EXEC_AT)]);
    put(INFO_AT, &file.info[..file.info.len().min(USED_AT - INFO_AT)]);
    put(USED_AT, used);
    record
}

/// The particulars of the file that the bytes so far would make.
pub fn particulars(record: &Record) -> Particulars<'_> {
    Particulars {
        kind: record[KIND_AT].into(),
        name: &record[NAME_AT..EXEC_AT],
        page: record[PAGE_AT].into(),
        offset: u16::from_le_bytes([record[OFFSET_AT], record[OFFSET_AT + 1]]).into(),
        exec: &record[EXEC_AT..INFO_AT],
        info: &record[INFO_AT..USED_AT],
        length: length(record),
    }
}

/// The number of directory tracks beyond four at opening.
pub fn extra(record: &Record) -> u8 {
    record[EXTRA_AT]
}

/// The used map at opening.
pub fn used(record: &Record) -> &[u8] {
    &record[USED_AT..FIRST_AT]
}

/// How many bytes came.
pub fn length(record: &Record) -> usize {
    let bytes = record[LENGTH_AT..NAME_AT].first_chunk().expect("four bytes");
    u32::from_le_bytes(*bytes) as usize
}

/// Where the body bytes of the last sector begin, for a body of this length.
pub fn last_from(length: usize) -> usize {
    (PAYLOAD_BYTES * (sectors_for(length) - 1)).saturating_sub(HEADER_BYTES)
}

/// The body bytes of the first sector.
pub fn first(record: &Record) -> &[u8] {
    &record[FIRST_AT..LAST_AT][..length(record).min(FIRST_BYTES)]
}

/// The body bytes of the last sector.
pub fn last(record: &Record) -> &[u8] {
    let length = length(record);
    &record[LAST_AT..LAST_END][..length - last_from(length)]
}

/// Adds a piece with which the body still fits a disk.
pub fn add(record: &mut Record, piece: &[u8]) {
    let before = length(record);
    let after = before + piece.len();
    if before < FIRST_BYTES {
        let room = piece.len().min(FIRST_BYTES - before);
        record[FIRST_AT + before..][..room].copy_from_slice(&piece[..room]);
    }
    let from = last_from(after);
    if sectors_for(after) > sectors_for(before) {
        record[LAST_AT..LAST_END].fill(0);
    }
    let piece = &piece[from.saturating_sub(before)..];
    record[LAST_AT + before.saturating_sub(from)..][..piece.len()].copy_from_slice(piece);
    record[LENGTH_AT..NAME_AT].copy_from_slice(&(after as u32).to_le_bytes());
}
