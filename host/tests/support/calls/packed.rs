//! The one number that a call answers.

use paper::Refused;

/// Slot, value and free of an accepted answer.
pub type Parts = [usize; 3];

pub fn pack(answer: Result<Parts, Refused>) -> u64 {
    match answer {
        Ok([slot, value, free]) => (slot as u64) << 8 | (value as u64) << 24 | (free as u64) << 48,
        Err(refused) => u64::from(refused.number) | u64::from(refused.slot) << 8,
    }
}

pub fn refusal(answer: u64) -> u8 {
    answer as u8
}

pub fn slot(answer: u64) -> usize {
    (answer >> 8) as u16 as usize
}

pub fn value(answer: u64) -> usize {
    (answer >> 24) as usize & 0xff_ffff
}

pub fn free(answer: u64) -> usize {
    (answer >> 48) as usize
}
