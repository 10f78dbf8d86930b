//! Waste sectors, and what the check before a release says of them: document 02, M-102. A third opinion, from the bytes of
//! the slots and from what the first check says.

use super::calls::{refusal, slot};
use super::facts;
use super::fields;
use super::geometry::{PAYLOAD, SLOT, extra, slot_place, slots};

/// The lowest live slot of a carried kind that could do with one sector less, whatever else is wrong with it.
pub fn lowest(image: &[u8]) -> Option<usize> {
    (1..facts::end(image).unwrap_or(slots(extra(image)) + 1)).find(|&slot| {
        let bytes = &image[slot_place(slot)..][..SLOT];
        let spare = PAYLOAD * fields::count(bytes).saturating_sub(1);
        bytes[0] != 0 && fields::is_carried(fields::kind(bytes)) && spare >= fields::HEADER + fields::length(bytes)
    })
}

/// What the release check answers where the first check answers this: 22 where that is met before it. At a slot 22 stands
/// directly after 7; 8, 9, every later slot and all chains come after it.
pub fn release(check: u64, image: &[u8]) -> u64 {
    let (number, at) = (refusal(check), slot(check));
    let Some(waste) = (!matches!(number, 1 | 24)).then(|| lowest(image)).flatten() else {
        return check;
    };
    let before = matches!(number, 2..=9) && (at < waste || at == waste && number <= 7);
    if before { check } else { 22 | (waste as u64) << 8 }
}
