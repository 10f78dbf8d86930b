//! Places on a disk: drives, tracks, sectors and sector numbers.
use crate::refusal::{Refusal, Refused};
use std::fmt;

/// A sector has 512 bytes.
pub const SECTOR_LENGTH: usize = 512;

/// A disk has 1,600 sectors: two sides of 80 tracks of 10.
pub const SECTORS: usize = 1_600;

/// Where the directory has four tracks, all but its 40 sectors are data; with more tracks fewer are. A map has a bit for each
/// of these.
pub const DATA_SECTORS: usize = 1_560;

/// One of the two drives.
#[derive(Clone, Copy, Debug, PartialEq, Eq, PartialOrd, Ord, Hash)]
pub enum Drive {
    /// Drive 1.
    One,
    /// Drive 2.
    Two,
}

impl Drive {
    /// The drive with this number.
    ///
    /// # Errors
    ///
    /// Refused 21 where it is neither 1 nor 2.
    pub fn new(number: u32) -> Result<Drive, Refused> {
        match number {
            1 => Ok(Drive::One),
            2 => Ok(Drive::Two),
            _ => Err(Refusal::NoSuchSector.into()),
        }
    }

    /// The drive's number, 1 or 2.
    pub fn number(self) -> u32 {
        match self {
            Drive::One => 1,
            Drive::Two => 2,
        }
    }
}

/// A track: 0 to 79 on the first side, 128 to 207 on the second.
///
/// ```
/// use varnucht::Track;
///
/// assert_eq!(Track::new(207)?.number(), 207);
/// assert!(Track::new(80).is_err());
/// assert!(Track::new(127).is_err());
/// # Ok::<(), varnucht::Refused>(())
/// ```
#[derive(Clone, Copy, Debug, PartialEq, Eq, PartialOrd, Ord, Hash)]
pub struct Track(u8);

impl Track {
    /// The track with this number.
    ///
    /// # Errors
    ///
    /// Refused 21 where there is none.
    pub fn new(number: u32) -> Result<Track, Refused> {
        match u8::try_from(number) {
            Ok(track @ (0..=79 | 128..=207)) => Ok(Track(track)),
            _ => Err(Refusal::NoSuchSector.into()),
        }
    }

    /// The track's number.
    pub fn number(self) -> u8 {
        self.0
    }
}

impl fmt::Display for Track {
    fn fmt(&self, f: &mut fmt::Formatter<'_>) -> fmt::Result {
        self.0.fmt(f)
    }
}

/// A sector of a track: 1 to 10.
#[derive(Clone, Copy, Debug, PartialEq, Eq, PartialOrd, Ord, Hash)]
pub struct Sector(u8);

impl Sector {
    /// The sector with this number.
    ///
    /// # Errors
    ///
    /// Refused 21 where there is none.
    pub fn new(number: u32) -> Result<Sector, Refused> {
        match u8::try_from(number) {
            Ok(sector @ 1..=10) => Ok(Sector(sector)),
            _ => Err(Refusal::NoSuchSector.into()),
        }
    }

    /// The sector's number.
    pub fn number(self) -> u8 {
        self.0
    }
}

impl fmt::Display for Sector {
    fn fmt(&self, f: &mut fmt::Formatter<'_>) -> fmt::Result {
        self.0.fmt(f)
    }
}

/// A sector number: 0 to 1,599, by place in the image.
///
/// ```
/// use varnucht::{Sector, SectorNumber, Track};
///
/// let number = SectorNumber::of(Track::new(128)?, Sector::new(1)?);
/// assert_eq!((number.number(), number.place()), (10, 5_120));
/// assert_eq!((number.track().number(), number.sector().number()), (128, 1));
/// # Ok::<(), varnucht::Refused>(())
/// ```
#[derive(Clone, Copy, Debug, PartialEq, Eq, PartialOrd, Ord, Hash)]
pub struct SectorNumber(u16);

impl SectorNumber {
    /// The sector with this number; none above 1,599.
    pub fn new(number: u16) -> Option<SectorNumber> {
        (usize::from(number) < SECTORS).then_some(SectorNumber(number))
    }

    /// The number of a track's sector.
    pub fn of(track: Track, sector: Sector) -> SectorNumber {
        let (track, sector) = (u16::from(track.0), u16::from(sector.0));
        SectorNumber((2 * (track % 128) + track / 128) * 10 + sector - 1)
    }

    /// The number of the sector that a bit of a map stands for; none for 1,560 and above.
    pub(crate) fn of_bit(bit: u16) -> Option<SectorNumber> {
        let track = match bit {
            0..760 => 4 + bit / 10,
            760..1_560 => 128 + (bit - 760) / 10,
            _ => return None,
        };
        Some(SectorNumber((2 * (track % 128) + track / 128) * 10 + bit % 10))
    }

    /// The bit of a map that stands for the sector; none on tracks 0 to 3.
    pub(crate) fn bit(self) -> Option<u16> {
        let (track, sector) = (u16::from(self.track().0), u16::from(self.sector().0) - 1);
        match track {
            0..4 => None,
            4..128 => Some((track - 4) * 10 + sector),
            _ => Some(760 + (track - 128) * 10 + sector),
        }
    }

    /// The number itself.
    pub fn number(self) -> u16 {
        self.0
    }

    /// The place of the sector's first byte in the image.
    pub fn place(self) -> usize {
        usize::from(self.0) * SECTOR_LENGTH
    }

    /// The track that the sector is on.
    pub fn track(self) -> Track {
        let (along, side) = (self.0 / 20, self.0 / 10 % 2);
        // Both are below 80 and 2, so the sum is at most 207.
        Track((along + 128 * side) as u8)
    }

    /// Which sector of its track it is.
    pub fn sector(self) -> Sector {
        Sector((self.0 % 10) as u8 + 1)
    }
}

impl fmt::Display for SectorNumber {
    fn fmt(&self, f: &mut fmt::Formatter<'_>) -> fmt::Result {
        self.0.fmt(f)
    }
}
