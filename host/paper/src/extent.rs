//! Document 02, M-106: bigger MasterDOS directories. How many tracks the directory has, and what follows from that.

use crate::geometry::{Image, MAP_BITS};
use crate::refusal::{Reason, Refused};
use std::ops::Range;

/// Byte 255 of slot 1, which is the number of directory tracks beyond four.
const EXTRA_AT: usize = 255;

/// The size of a directory: tracks 0 to 3 + n of the first side, without track 4 sector 1, which stays data. n is 0 to 35.
#[derive(Clone, Copy, Debug, PartialEq, Eq)]
pub struct Extent {
    extra: u8,
}

impl Extent {
    /// What slot 1 says, erased or unread too. SAMDOS fills unused bytes with 255, which is read as 0.
    pub fn of(image: &Image) -> Result<Extent, Refused> {
        match image[EXTRA_AT] {
            255 => Ok(Extent { extra: 0 }),
            extra @ 0..=35 => Ok(Extent { extra }),
            _ => Err(Reason::TracksOutOfRange.alone()),
        }
    }

    /// The number of tracks beyond four.
    pub fn extra(self) -> u8 {
        self.extra
    }

    /// How many slots there are: 80, else 78 + 20n.
    pub fn slots(self) -> u16 {
        match self.extra {
            0 => 80,
            n => 78 + 20 * u16::from(n),
        }
    }

    /// How many data sectors there are: 1,560, else 1,561 − 10n.
    pub fn data_sectors(self) -> usize {
        MAP_BITS - self.own_bits().len()
    }

    /// The map bits of the directory's own sectors: all of its tracks beyond four but the first, track 4 sector 1.
    pub fn own_bits(self) -> Range<usize> {
        match self.extra {
            0 => 1..1,
            n => 1..10 * usize::from(n),
        }
    }
}

#[cfg(test)]
mod tests {
    use super::*;
    use crate::geometry::{Address, IMAGE_BYTES, SECTOR_BYTES, slot_place, whole};

    /// The directory's size on a disk whose slot 1 says so.
    fn extent(byte: u8) -> Result<Extent, Refused> {
        let mut image = vec![0; IMAGE_BYTES];
        image[EXTRA_AT] = byte;
        Extent::of(whole(&image).expect("a whole image"))
    }

    #[test]
    fn the_papers_numbers() {
        for (byte, slots, data) in [
            (0, 80, 1_560),
            (255, 80, 1_560),
            (1, 98, 1_551),
            (2, 118, 1_541),
            (35, 778, 1_211),
        ] {
            let extent = extent(byte).unwrap_or_else(|refused| panic!("{byte}: {refused:?}"));
            assert_eq!((extent.slots(), extent.data_sectors()), (slots, data), "{byte}");
        }
        for byte in 36..=254 {
            assert_eq!(extent(byte), Err(Reason::TracksOutOfRange.alone()), "{byte}");
        }
    }

    /// A sector is either data or holds two slots.
    #[test]
    fn every_sector_is_data_or_directory() {
        for byte in 0..=35 {
            let extent = extent(byte).unwrap_or_else(|refused| panic!("{byte}: {refused:?}"));
            let (mut data, mut directory) = ([false; 1_600], [false; 1_600]);
            for bit in (0..MAP_BITS).filter(|bit| !extent.own_bits().contains(bit)) {
                data[Address::of_bit(bit).number().expect("a data sector")] = true;
            }
            for slot in 1..=extent.slots() {
                directory[slot_place(slot) / SECTOR_BYTES] = true;
            }
            assert!(
                data.iter().zip(&directory).all(|(data, directory)| data != directory),
                "{byte}"
            );
            assert_eq!(data.iter().filter(|data| **data).count(), extent.data_sectors());
        }
    }
}
