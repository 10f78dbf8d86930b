//! What a disk says of itself in slot 1: how large its directory is, and its name.
use crate::escape::escape;
use crate::name::NAME_LENGTH;
use crate::place::{DATA_SECTORS, SECTOR_LENGTH, SECTORS, SectorNumber};
use crate::refusal::{Refusal, Refused, Slot};
use std::fmt;

/// Where slot 1 has the disk's name, and the number of its directory tracks beyond four.
const NAME_AT: usize = 210;
const MORE_AT: usize = 255;

/// How large a directory is: 4 to 39 tracks of the first side, from track 0 on. MasterDOS makes those above four.
///
/// Track 4 sector 1 is never the directory's. So there are 80 slots for four tracks, and for more 20 to a track less two;
/// and the sectors that are not the directory's are data.
///
/// ```
/// use varnucht::Directory;
///
/// let usual = Directory::default();
/// assert_eq!((usual.tracks(), usual.slots(), usual.data_sectors()), (4, 80, 1_560));
/// let large = Directory::new(39).unwrap();
/// assert_eq!((large.tracks(), large.slots(), large.data_sectors()), (39, 778, 1_211));
/// assert_eq!((Directory::new(3), Directory::new(40)), (None, None));
/// ```
#[derive(Clone, Copy, Debug, PartialEq, Eq, PartialOrd, Ord, Hash)]
pub struct Directory {
    tracks: u8,
}

impl Default for Directory {
    /// Four tracks.
    fn default() -> Directory {
        Directory { tracks: 4 }
    }
}

impl Directory {
    /// A directory of so many tracks; none outside 4 to 39.
    pub fn new(tracks: u32) -> Option<Directory> {
        let tracks = u8::try_from(tracks).ok().filter(|tracks| (4..=39).contains(tracks))?;
        Some(Directory { tracks })
    }

    /// The directory of an image, as slot 1 says, whether a file is there or not. Refused 24 where that is no size.
    pub(crate) fn of(image: &[u8; SECTORS * SECTOR_LENGTH]) -> Result<Directory, Refused> {
        // SAMDOS fills unused bytes with 255.
        let more = match image[MORE_AT] {
            255 => 0,
            more => more,
        };
        Directory::new(4 + u32::from(more)).ok_or(Refusal::DirectoryTracks.into())
    }

    /// Writes it to an image without a file.
    pub(crate) fn put(self, image: &mut [u8; SECTORS * SECTOR_LENGTH]) {
        image[MORE_AT] = self.tracks - 4;
    }

    /// How many tracks it has.
    pub fn tracks(self) -> u8 {
        self.tracks
    }

    /// How many slots it has: 80 to 778.
    pub fn slots(self) -> usize {
        2 * self.sectors()
    }

    /// How many sectors it has.
    pub fn sectors(self) -> usize {
        SECTORS - self.data_sectors()
    }

    /// How many data sectors it leaves: 1,560 to 1,211.
    pub fn data_sectors(self) -> usize {
        match usize::from(self.tracks) {
            4 => DATA_SECTORS,
            tracks => SECTORS + 1 - 10 * tracks,
        }
    }

    /// Its slots, by rising number, each with the place of its 256 bytes in an image. There are two to a sector.
    ///
    /// ```
    /// use varnucht::Directory;
    ///
    /// let places: Vec<_> = Directory::new(5).unwrap().places().map(|(slot, place)| (slot.number(), place)).collect();
    /// assert_eq!(places[..3], [(1, 0), (2, 256), (3, 512)]);
    /// assert_eq!(places[80], (81, 41_472)); // track 4, sector 2
    /// assert_eq!(places.len(), 98);
    /// ```
    pub fn places(self) -> impl Iterator<Item = (Slot, usize)> {
        let sectors = (0..SECTORS as u16).filter_map(SectorNumber::new);
        let places = sectors.filter(move |number| self.holds(*number)).map(SectorNumber::place);
        let halves = places.flat_map(|place| [place, place + SECTOR_LENGTH / 2]);
        (1..).filter_map(Slot::new).zip(halves)
    }

    /// Whether a sector is one of its own.
    pub fn holds(self, number: SectorNumber) -> bool {
        let (track, sector) = (number.track().number(), number.sector().number());
        track < self.tracks && (track, sector) != (4, 1)
    }
}

/// The name of a disk, which MasterDOS gives it: ten bytes of slot 1.
///
/// Bit 7 of the first is no part of the name. The spaces and zeros at the end are left out. As text it is printed with the
/// escapes of [`escape`](mod@crate::escape), since it may hold any bytes.
///
/// ```
/// use varnucht::Image;
///
/// let mut image = Image::blank();
/// assert_eq!(image.name(), None);
/// image.as_bytes_mut()[210..220].copy_from_slice(b"\xcdY TUNES  ");
/// assert_eq!(image.name().unwrap().to_string(), "MY TUNES");
/// ```
#[derive(Clone, Copy, PartialEq, Eq, Hash)]
pub struct DiskName {
    bytes: [u8; NAME_LENGTH],
    length: usize,
}

impl DiskName {
    /// The name of the disk in an image; none where its first byte is 0, or 255 as SAMDOS fills it, or nothing but spaces is
    /// there.
    pub(crate) fn of(image: &[u8; SECTORS * SECTOR_LENGTH]) -> Option<DiskName> {
        let mut bytes = [0; NAME_LENGTH];
        bytes.copy_from_slice(&image[NAME_AT..NAME_AT + NAME_LENGTH]);
        bytes[0] &= 127;
        let last = bytes.iter().rposition(|byte| !matches!(byte, b' ' | 0))?;
        let named = !matches!(bytes[0], 0 | 127);
        named.then_some(DiskName { bytes, length: last + 1 })
    }

    /// Its bytes, 1 to 10 of them.
    pub fn as_bytes(&self) -> &[u8] {
        &self.bytes[..self.length]
    }
}

impl fmt::Display for DiskName {
    fn fmt(&self, f: &mut fmt::Formatter<'_>) -> fmt::Result {
        f.pad(&escape(self.as_bytes()))
    }
}

impl fmt::Debug for DiskName {
    fn fmt(&self, f: &mut fmt::Formatter<'_>) -> fmt::Result {
        write!(f, "DiskName({self})")
    }
}
