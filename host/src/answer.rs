//! What the library answers: one number for every call.
use crate::refusal::{Refusal, Refused, Slot};

/// The number that a call answers: refusal + 256 × slot + 2^24 × value + 2^48 × free.
///
/// Every number can be decoded, also those that no call gives.
#[derive(Clone, Copy, Debug, PartialEq, Eq)]
#[must_use = "a refused call has done nothing"]
pub struct Answer(u64);

/// What an accepted call answers.
#[derive(Clone, Copy, Debug, PartialEq, Eq)]
pub struct Accepted {
    /// A length, an address, a place, or how many: each call says which. Below 2^24.
    pub value: u32,
    /// The free sectors, from a listing; an offset, from the two calls that read piece by piece; 0 from every other call.
    pub free: u16,
    /// A sector's number, from the two calls that read piece by piece; 0 from every other call. It has the bits where a
    /// refusal has its slot.
    pub sector: u16,
}

impl Answer {
    /// The answer that this number is.
    pub fn from_number(number: u64) -> Answer {
        Answer(number)
    }

    /// The number, as the C layer gave it.
    pub fn number(self) -> u64 {
        self.0
    }

    /// What was answered: accepted with its values, or refused with the reason and the slot.
    ///
    /// # Errors
    ///
    /// The refusal and its slot, where the call was refused.
    ///
    /// ```
    /// use varnucht::Answer;
    ///
    /// let done = Answer::from_number(8 << 24 | 1_538 << 48).decode().unwrap();
    /// assert_eq!((done.value, done.free), (8, 1_538));
    ///
    /// let refused = Answer::from_number(10 + 256 * 3).decode().unwrap_err();
    /// assert_eq!(refused.to_string(), "refusal 10 at slot 3: the chain is broken");
    /// ```
    pub fn decode(self) -> Result<Accepted, Refused> {
        // Each cast keeps exactly the bits of its field.
        match Refusal::from_number(self.0 as u8) {
            None => Ok(Accepted {
                value: (self.0 >> 24) as u32 & 0xff_ffff,
                free: (self.0 >> 48) as u16,
                sector: (self.0 >> 8) as u16,
            }),
            Some(refusal) => Err(Refused {
                refusal,
                slot: Slot::new((self.0 >> 8) as u16),
            }),
        }
    }
}
