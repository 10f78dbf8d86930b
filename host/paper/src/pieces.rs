//! Document 02, M-100: a file's body a piece at a time.

use crate::calls::readable;
use crate::geometry::{Address, Image, MAP_BITS, PAYLOAD_BYTES, sector, whole};
use crate::refusal::Refused;
use crate::slot::HEADER_BYTES;

/// The longest body that a disk holds.
const LONGEST: usize = PAYLOAD_BYTES * MAP_BITS - HEADER_BYTES;

/// What stands for a sector where no byte follows.
const NO_SECTOR: u32 = 1_600;

/// A reader: the sector of its next byte, the offset of that byte in the sector, and how many bytes are left. It may hold any
/// numbers.
#[derive(Clone, Copy, Debug, PartialEq, Eq)]
pub struct Reader {
    pub sector: u32,
    pub offset: u32,
    pub left: u32,
}

/// A reader at the first byte of a file's body.
pub fn open(image: &[u8], name: &[u8]) -> Result<Reader, Refused> {
    let (slot, length) = readable(whole(image)?, name)?;
    let first = slot.first().number();
    Ok(Reader {
        sector: first.map_or(NO_SECTOR, |number| number as u32),
        offset: HEADER_BYTES as u32,
        left: length as u32,
    })
}

/// Fills the front of the buffer with the next bytes, as many as it holds or as are left, and answers how many came. The
/// reader goes on to the byte after them.
///
/// Nothing comes where the image or the numbers can be no reader's. Other numbers, which no call gave, lead along the links
/// from where they stand; fewer bytes come where these end.
pub fn next(image: &[u8], reader: &mut Reader, out: &mut [u8]) -> usize {
    let want = out.len().min(reader.left as usize);
    let (came, position) = match (whole(image), reader.position()) {
        (Ok(image), Some(position)) => copy(image, position, &mut out[..want]),
        _ => (0, None),
    };
    (reader.sector, reader.offset) =
        position.map_or((NO_SECTOR, 0), |position| (position.number as u32, position.offset as u32));
    reader.left -= came as u32;
    came
}

/// Where a byte of a file stands: the number of its sector, and its place among the sector's payload.
#[derive(Clone, Copy)]
struct Position {
    number: usize,
    offset: usize,
}

impl Reader {
    /// Where the next byte stands, if these can be a reader's numbers.
    fn position(self) -> Option<Position> {
        let [number, offset, left] = [self.sector, self.offset, self.left].map(|number| number as usize);
        let possible = self.sector < NO_SECTOR && offset < PAYLOAD_BYTES && left <= LONGEST;
        possible.then_some(Position { number, offset })
    }
}

impl Position {
    /// So many bytes further, at most to the end of the sector: there it is the front of the data sector that the link names.
    fn advance(self, bytes: usize, image: &Image) -> Option<Position> {
        let offset = self.offset + bytes;
        if offset < PAYLOAD_BYTES {
            return Some(Position { offset, ..self });
        }
        let link = Address::link(sector(image, self.number));
        let number = link.bit().and(link.number())?;
        Some(Position { number, offset: 0 })
    }
}

/// Fills the buffer with the bytes from this one on, or its front where the chain ends before. Answers how many came, and
/// where the next one stands.
fn copy(image: &Image, from: Position, out: &mut [u8]) -> (usize, Option<Position>) {
    let (mut came, mut here) = (0, Some(from));
    while let Some(position) = here
        && came < out.len()
    {
        let payload = &sector(image, position.number)[position.offset..PAYLOAD_BYTES];
        let run = payload.len().min(out.len() - came);
        out[came..came + run].copy_from_slice(&payload[..run]);
        came += run;
        here = position.advance(run, image);
    }
    (came, here)
}
