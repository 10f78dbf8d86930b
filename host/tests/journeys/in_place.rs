//! A request to the C layer on the disk itself, without a copy: a journey asks very often.

use crate::support::calls::{self, IMAGE, NOTHING, OUT, RawSlice, SLICES, ask_c};
use crate::support::requests::OwnedRequest;
use paper::Refused;

/// Asks the C layer. What it changes stands in the request and in the image afterwards.
pub fn ask(asked: &mut OwnedRequest, image: &mut [u8]) -> u64 {
    let mut parts = [NOTHING; SLICES];
    for &role in asked.call.takes() {
        let bytes = if role == IMAGE { &mut *image } else { &mut asked.slices[role] };
        parts[role] = RawSlice {
            front: bytes.as_mut_ptr(),
            length: bytes.len(),
        };
    }
    // Safety: every slice is a buffer of its own and may be written.
    unsafe { ask_c(asked.call, asked.numbers, &parts) }
}

/// Whether an answer refuses, and by what.
pub fn refused(answer: u64) -> Result<(), Refused> {
    match calls::refusal(answer) {
        0 => Ok(()),
        number => Err(Refused {
            number,
            slot: calls::slot(answer) as u16,
        }),
    }
}

/// The numbers in the list of an accepted change.
pub fn named(answer: u64, asked: &OwnedRequest) -> Vec<usize> {
    let pairs = asked.slices[OUT].chunks_exact(2).take(calls::value(answer));
    pairs.map(|pair| usize::from(pair[0]) + 256 * usize::from(pair[1])).collect()
}
