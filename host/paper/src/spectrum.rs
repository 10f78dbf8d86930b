//! Document 02, M-107: Spectrum files on the same disks, kinds 1 to 4. Their length and start stand in the header alone.

use crate::geometry::{Image, sector};
use crate::slot::{HEADER_BYTES, Slot};

/// The Plus D header: nine bytes at the front of a file's first sector.
#[derive(Clone, Copy)]
pub struct PlusD([u8; HEADER_BYTES]);

impl PlusD {
    /// The header of a file whose first sector is on the disk, if the file has one of this sort.
    pub fn of(image: &Image, slot: &Slot) -> Option<PlusD> {
        let first = slot.first().number().filter(|_| matches!(slot.kind(), 1..=4))?;
        sector(image, first).first_chunk().map(|bytes| PlusD(*bytes))
    }

    /// The body's length: bytes 1 and 2, low byte first.
    pub fn length(self) -> usize {
        u16::from_le_bytes([self.0[1], self.0[2]]).into()
    }

    /// The start: bytes 3 and 4, low byte first. It is given as it stands.
    pub fn start(self) -> u32 {
        u16::from_le_bytes([self.0[3], self.0[4]]).into()
    }
}
