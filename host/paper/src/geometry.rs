//! Where things lie on the disk. Nothing here knows what the directory says.

use crate::refusal::{Reason, Refused};

pub const IMAGE_BYTES: usize = 819_200;
pub const SECTOR_BYTES: usize = 512;
pub const SLOT_BYTES: usize = 256;
/// The bits of a map, and the data sectors of a disk with four directory tracks.
pub const MAP_BITS: usize = 1_560;

/// Body and header bytes of a data sector; its last two bytes are the link.
pub const PAYLOAD_BYTES: usize = 510;

pub type Image = [u8; IMAGE_BYTES];
pub type Sector = [u8; SECTOR_BYTES];

/// The lent bytes as a disk, if they are as many as a disk has.
pub fn whole(image: &[u8]) -> Result<&Image, Refused> {
    image.try_into().map_err(|_| Reason::ImageLength.alone())
}

/// The same for a disk that may change.
pub fn whole_mut(image: &mut [u8]) -> Result<&mut Image, Refused> {
    image.try_into().map_err(|_| Reason::ImageLength.alone())
}

/// A track and a sector as the disk writes them down. Not every pair is a sector of the disk.
#[derive(Clone, Copy, Debug, PartialEq, Eq)]
pub struct Address {
    pub track: u8,
    pub sector: u8,
}

impl Address {
    /// The link of a last sector.
    pub const END: Address = Address { track: 0, sector: 0 };

    /// The sector number, 0 to 1,599, if the disk has such a sector. The image alternates sides.
    pub fn number(self) -> Option<usize> {
        let (track, sector) = (usize::from(self.track), usize::from(self.sector));
        match (track, sector) {
            (0..=79 | 128..=207, 1..=10) => Some((2 * (track % 128) + track / 128) * 10 + sector - 1),
            _ => None,
        }
    }

    /// The map bit, if this is a data sector. Bits run through the first side and then through the second.
    pub fn bit(self) -> Option<usize> {
        let (track, sector) = (usize::from(self.track), usize::from(self.sector));
        match (track, sector) {
            (4..=79, 1..=10) => Some((track - 4) * 10 + sector - 1),
            (128..=207, 1..=10) => Some(760 + (track - 128) * 10 + sector - 1),
            _ => None,
        }
    }

    /// The data sector that a map bit below 1,560 stands for.
    pub fn of_bit(bit: usize) -> Address {
        let track = if bit < 760 { 4 + bit / 10 } else { 128 + (bit - 760) / 10 };
        Address {
            track: track as u8,
            sector: (bit % 10 + 1) as u8,
        }
    }

    /// The address that the last two bytes of a sector give.
    pub fn link(sector: &Sector) -> Address {
        Address {
            track: sector[510],
            sector: sector[511],
        }
    }
}

/// The 512 bytes of a sector number below 1,600.
pub fn sector(image: &Image, number: usize) -> &Sector {
    &image.as_chunks().0[number]
}

/// The same for a disk that may change.
pub fn sector_mut(image: &mut Image, number: usize) -> &mut Sector {
    &mut image.as_chunks_mut().0[number]
}

/// Where slot 1 to 778 begins. Twenty slots fill a track of the first side; the second side's track lies between. Track 4
/// sector 1 is no part of any directory, so the slots from 81 on stand two places further.
pub fn slot_place(slot: u16) -> usize {
    let gap = if slot > 80 { 2 } else { 0 };
    let before = usize::from(slot) - 1 + gap;
    before / 20 * 10_240 + before % 20 * SLOT_BYTES
}

#[cfg(test)]
mod tests {
    use super::*;

    fn address(track: u8, sector: u8) -> Address {
        Address { track, sector }
    }

    #[test]
    fn the_papers_places_and_bits() {
        for (track, sector, bit, place) in [
            (4, 1, 0, 40_960),
            (79, 10, 759, 813_568),
            (128, 1, 760, 5_120),
            (207, 10, 1_559, 818_688),
        ] {
            let address = address(track, sector);
            assert_eq!(address.bit(), Some(bit));
            assert_eq!(address.number().map(|number| number * SECTOR_BYTES), Some(place));
            assert_eq!(Address::of_bit(bit), address);
        }
    }

    #[test]
    fn tracks_and_sectors_beside_the_data() {
        for track in [0, 3, 80, 127, 208, 255] {
            assert_eq!(address(track, 1).bit(), None);
        }
        for sector in [0, 11, 255] {
            assert_eq!(address(4, sector).bit(), None);
            assert_eq!(address(4, sector).number(), None);
        }
        assert_eq!(address(0, 1).number(), Some(0));
        assert_eq!(address(80, 1).number(), None);
        assert_eq!(address(208, 1).number(), None);
    }

    #[test]
    fn every_bit_is_one_sector_and_back() {
        let mut seen = [false; 1_600];
        for bit in 0..MAP_BITS {
            let address = Address::of_bit(bit);
            assert_eq!(address.bit(), Some(bit));
            let number = address.number().expect("a data sector is a sector");
            assert!(!std::mem::replace(&mut seen[number], true), "sector {number} twice");
        }
        let pairs = (0..=255).flat_map(|track| (0..=255).map(move |sector| address(track, sector)));
        assert_eq!(pairs.filter(|pair| pair.bit().is_some()).count(), MAP_BITS);
    }

    #[test]
    fn the_papers_slot_places() {
        for (slot, place) in [(1, 0), (20, 4_864), (21, 10_240), (80, 35_584)] {
            assert_eq!(slot_place(slot), place);
        }
    }

    /// Two slots to a sector, in the order of tracks and sectors of the first side, and none on track 4 sector 1.
    #[test]
    fn slots_run_on_past_the_gap() {
        let sectors = (0..39).flat_map(|track| (1..=10).map(move |sector| address(track, sector)));
        let places = sectors
            .filter(|address| address.bit() != Some(0))
            .map(|address| address.number().expect("a sector of the first side") * SECTOR_BYTES)
            .flat_map(|place| [place, place + SLOT_BYTES]);
        assert!(places.eq((1..=778).map(slot_place)));
        for (slot, track, sector) in [(81, 4, 2), (98, 4, 10), (99, 5, 1), (778, 38, 10)] {
            assert_eq!(
                Some(slot_place(slot) / SECTOR_BYTES),
                address(track, sector).number(),
                "{slot}"
            );
        }
    }
}
