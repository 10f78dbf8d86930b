//! Recordings (document 02, M-109): drawn ones, the bytes of their records, and a third opinion on what each call writes.

use super::calls::{BODY, Call, EXEC, INFO, NAME, OUT, RECORD};
use super::facts::Facts;
use super::gathers;
use super::geometry::{BITS, PAYLOAD, SECTOR, address, bit_place, fills, is_data, number, sectors_for};
use super::names::{self, Name};
use super::random::Random;
use super::requests::{self, OwnedRequest};
use super::save_requests;

/// How many bytes a record has.
pub const LENGTH: usize = 2_048;

/// Where its parts stand.
pub const KIND: usize = 0;
pub const PAGE: usize = 1;
pub const OFFSET: usize = 2;
pub const EXTRA: usize = 4;
pub const CAME: usize = 8;
pub const OWN_NAME: usize = 12;
pub const EXECUTION: usize = 22;
pub const INFORMATION: usize = 25;
pub const USED: usize = 36;
pub const FIRST: usize = 231;
pub const LAST: usize = 732;
pub const REST: usize = 1_242;

/// A recording: what it was opened with, and what came since.
#[derive(Clone)]
pub struct Recording {
    /// Kind, start page and offset.
    pub numbers: [u32; 3],
    pub name: Name,
    pub exec: Vec<u8>,
    pub info: Vec<u8>,
    /// The directory tracks beyond four, and which map bits were free, at opening.
    pub extra: usize,
    pub free: Vec<bool>,
    /// The pieces, joined.
    pub body: Vec<u8>,
}

impl Recording {
    /// Opened by such a request on a disk that shows this.
    pub fn of(asked: &OwnedRequest, facts: &Facts) -> Recording {
        Recording {
            numbers: asked.numbers,
            name: names::filled(&asked.slices[NAME]),
            exec: asked.slices[EXEC].clone(),
            info: asked.slices[INFO].clone(),
            extra: facts.extra,
            free: gathers::free(facts),
            body: Vec::new(),
        }
    }

    pub fn sectors(&self) -> usize {
        sectors_for(self.body.len())
    }

    /// The map bits that it takes, as a save does: the lowest that were free, rising.
    pub fn chain(&self) -> Vec<usize> {
        let free = (0..BITS).filter(|&bit| self.free[bit]);
        free.take(self.sectors()).collect()
    }

    /// The bytes of its record.
    pub fn record(&self) -> Vec<u8> {
        let mut record = vec![0; LENGTH];
        let [kind, page, offset] = self.numbers;
        (record[KIND], record[PAGE], record[EXTRA]) = (kind as u8, page as u8, self.extra as u8);
        record[OFFSET..EXTRA].copy_from_slice(&(offset as u16).to_le_bytes());
        record[CAME..OWN_NAME].copy_from_slice(&(self.body.len() as u32).to_le_bytes());
        record[OWN_NAME..EXECUTION].copy_from_slice(&self.name);
        let mut front = |at: usize, bytes: &[u8], most: usize| {
            let many = bytes.len().min(most);
            record[at..at + many].copy_from_slice(&bytes[..many]);
        };
        front(EXECUTION, &self.exec, INFORMATION - EXECUTION);
        front(INFORMATION, &self.info, USED - INFORMATION);
        front(FIRST, &self.body, LAST - FIRST);
        let last = if self.sectors() == 1 { 0 } else { fills(self.sectors() - 1) };
        front(LAST, &self.body[last..], REST - LAST);
        // In use is what is data and not free.
        for bit in (0..BITS).filter(|&bit| is_data(bit, self.extra) && !self.free[bit]) {
            record[USED + bit / 8] |= 1 << (bit % 8);
        }
        record
    }

    /// The same with a piece more.
    pub fn with(&self, piece: &[u8]) -> Recording {
        let mut more = self.clone();
        more.body.extend(piece);
        more
    }

    /// The sectors, by their map bits, that this piece completes: each after the first that now has a byte beyond it.
    pub fn completes(&self, piece: &[u8]) -> Vec<usize> {
        let after = self.with(piece);
        let middle = |recording: &Recording| recording.sectors().saturating_sub(2);
        let chain = after.chain();
        chain[1..].iter().copied().take(middle(&after)).skip(middle(self)).collect()
    }

    /// Writes those of its sectors that stand between its first and its last.
    pub fn write_middle(&self, image: &mut [u8]) {
        let chain = self.chain();
        for at in 1..chain.len().saturating_sub(1) {
            let sector = &mut image[bit_place(chain[at])..][..SECTOR];
            sector[..PAYLOAD].copy_from_slice(&self.body[fills(at)..fills(at + 1)]);
            sector[PAYLOAD..].copy_from_slice(&address(chain[at + 1]));
        }
    }

    /// A request for a piece, with this room in the list.
    pub fn add(&self, piece: &[u8], list: usize) -> OwnedRequest {
        OwnedRequest::new(Call::RecordAdd)
            .with(BODY, piece)
            .with(RECORD, self.record())
            .with(OUT, vec![0x5c; list])
    }

    /// A request for the close, with this room in the list.
    pub fn close(&self, list: usize) -> OwnedRequest {
        OwnedRequest::new(Call::RecordClose)
            .with(RECORD, self.record())
            .with(OUT, vec![0x5c; list])
    }

    /// How many numbers a close on such a disk has.
    pub fn close_sectors(&self, facts: &Facts) -> usize {
        self.sectors().min(2) + facts.directory_sectors().len()
    }

    /// A save of the whole.
    pub fn save(&self) -> OwnedRequest {
        let mut asked = OwnedRequest::new(Call::Save)
            .with(NAME, self.name)
            .with(EXEC, &self.exec[..])
            .with(INFO, &self.info[..])
            .with(BODY, &self.body[..])
            .with(OUT, vec![0x5c; 2 * (self.sectors() + 2)]);
        asked.numbers = self.numbers;
        asked
    }
}

/// The numbers of the sectors of these map bits.
pub fn numbers(bits: &[usize]) -> Vec<usize> {
    bits.iter().map(|&bit| number(bit_place(bit))).collect()
}

/// The request that opens what a save would save.
pub fn opening(save: OwnedRequest, record: Vec<u8>) -> OwnedRequest {
    let [_, _, name, _, exec, info, ..] = save.slices;
    let mut asked = OwnedRequest::new(Call::RecordOpen)
        .with(NAME, name)
        .with(EXEC, exec)
        .with(INFO, info)
        .with(RECORD, record);
    asked.numbers = save.numbers;
    asked
}

pub fn draw_open(facts: &Facts, random: &mut Random) -> OwnedRequest {
    opening(save_requests::draw(facts, random), requests::buffer(LENGTH, random))
}

/// A recording that the disk takes if it has room. Its sectors between the first and the last are not written, so that it mostly
/// has none.
fn short(facts: &Facts, random: &mut Random) -> Recording {
    let mut recording = Recording::of(&save_requests::accepted(facts, random), facts);
    let length = match random.below(10) {
        0 => 0,
        1 => random.pick(&[1, 500, 501, 502, 1_010, 1_011]),
        2 => random.between(1_012, 3_000),
        _ => random.below(1_012),
    };
    recording.body = random.bytes(length);
    recording
}

/// Its record, with none, one or more of its parts spoilt.
fn spoilt(recording: &Recording, facts: &Facts, random: &mut Random) -> Vec<u8> {
    let mut record = recording.record();
    for _ in 0..random.pick(&[0, 0, 0, 0, 1, 1, 1, 2]) {
        match random.below(12) {
            0 => record[KIND] = save_requests::refused_kind(random) as u8,
            1 => record[PAGE] = random.between(32, 255) as u8,
            2 => record[OFFSET + 1] = random.byte(),
            3 => record[EXTRA] = random.pick(&[0, 1, 35, 36, 255]),
            4 => record[OWN_NAME + random.below(10)] = random.pick(&[0, 31, 127, 255]),
            5 => {
                let taken = requests::taken_name(facts, random).unwrap_or_else(|| recording.name.to_vec());
                record[OWN_NAME..EXECUTION].copy_from_slice(&names::filled(&taken));
            }
            6 => record[USED + random.below(195)] ^= 1 << random.below(8),
            7 => record[CAME + random.below(4)] = random.byte(),
            8 => record[CAME..OWN_NAME].copy_from_slice(&(random.number() as u32).to_le_bytes()),
            9 => record[random.between(FIRST, LENGTH - 1)] = random.byte(),
            10 => record[random.between(5, 7)] = random.byte(),
            _ => record = random.bytes(LENGTH),
        }
    }
    let length = match random.below(14) {
        0 => LENGTH - 1,
        1 => random.below(LENGTH),
        2 => LENGTH + 1 + random.below(600),
        _ => LENGTH,
    };
    let rest = random.bytes(length.saturating_sub(LENGTH));
    record.truncate(length);
    record.extend(rest);
    record
}

pub fn draw_piece(facts: &Facts, random: &mut Random) -> OwnedRequest {
    let recording = short(facts, random);
    let length = match random.below(10) {
        0 => 0,
        1 => random.pick(&[1, 501, 502, 509, 510, 511, 1_012]),
        // To the last byte of the room, and one above it.
        2 => (fills(facts.free.max(1)) + random.below(2)).saturating_sub(recording.body.len()),
        3 => fills(BITS) + random.below(2),
        _ => random.below(6_000),
    };
    let piece = random.bytes(length);
    let fits = recording.with(&piece).sectors() <= facts.free;
    let list = match if fits { recording.completes(&piece).len() } else { 0 } {
        0 => random.pick(&[0, 0, 1, 2, 7]),
        many => requests::list(many, random).len(),
    };
    OwnedRequest::new(Call::RecordAdd)
        .with(BODY, piece)
        .with(RECORD, spoilt(&recording, facts, random))
        .with(OUT, random.bytes(list))
}

pub fn draw_close(facts: &Facts, random: &mut Random) -> OwnedRequest {
    let recording = short(facts, random);
    OwnedRequest::new(Call::RecordClose)
        .with(RECORD, spoilt(&recording, facts, random))
        .with(OUT, requests::list(recording.close_sectors(facts), random))
}
