//! Images: 819,200 bytes of any content.
use crate::calls;
use crate::directory::{Directory, DiskName};
use crate::place::{Drive, SECTOR_LENGTH, Sector, SectorNumber, Track};
use crate::refusal::{Refusal, Refused};
use std::error::Error;
use std::fmt;

/// A disk image has 819,200 bytes.
pub const IMAGE_LENGTH: usize = 819_200;

/// The image of a disk: exactly 819,200 bytes, of any content. It owns them.
///
/// A clone copies them all.
#[derive(Clone, PartialEq, Eq)]
pub struct Image(Box<[u8; IMAGE_LENGTH]>);

impl Image {
    /// A new image, all bytes zero: an accepted disk without a file, with four directory tracks.
    pub fn blank() -> Image {
        // By way of a vector, since an array made here would lie on the stack first.
        Image(vec![0; IMAGE_LENGTH].try_into().expect("the vector has this length"))
    }

    /// A new image with a directory of this size: an accepted disk without a file. All bytes are zero but that which says the
    /// size.
    ///
    /// ```
    /// use varnucht::{Directory, Disk, Image};
    ///
    /// let disk = Disk::open(Image::blank_with(Directory::new(39).unwrap()))?;
    /// assert_eq!((disk.listing().free_slots(), disk.listing().free()), (778, 1_211));
    /// # Ok::<(), varnucht::NotAccepted>(())
    /// ```
    pub fn blank_with(directory: Directory) -> Image {
        let mut image = Image::blank();
        directory.put(image.as_bytes_mut());
        image
    }

    /// The image with these bytes, which are not copied where the vector has no more room than it needs.
    ///
    /// # Errors
    ///
    /// Refused 1 where they are not 819,200; the error hands the bytes back.
    ///
    /// ```
    /// use varnucht::Image;
    ///
    /// let wrong = Image::from_bytes(vec![1, 2, 3]).unwrap_err();
    /// assert_eq!(wrong.to_string(), "refusal 1: the image is not 819,200 bytes: it has 3");
    /// assert_eq!(wrong.into_bytes(), [1, 2, 3]);
    /// ```
    pub fn from_bytes(bytes: Vec<u8>) -> Result<Image, WrongLength> {
        bytes.try_into().map(Image).map_err(|bytes| WrongLength { bytes })
    }

    /// All its bytes.
    pub fn as_bytes(&self) -> &[u8; IMAGE_LENGTH] {
        &self.0
    }

    /// All its bytes, to change. An image may hold any bytes; only a [`Disk`](crate::Disk) may not.
    pub fn as_bytes_mut(&mut self) -> &mut [u8; IMAGE_LENGTH] {
        &mut self.0
    }

    /// Its bytes as a vector, not copied.
    pub fn into_bytes(self) -> Vec<u8> {
        let bytes: Box<[u8]> = self.0;
        bytes.into_vec()
    }

    /// How large its directory is, as slot 1 says, whatever else the image holds.
    ///
    /// # Errors
    ///
    /// Refused 24 where that is no size.
    pub fn directory(&self) -> Result<Directory, Refused> {
        Directory::of(self.as_bytes())
    }

    /// The disk's name, as slot 1 says, whatever else the image holds; none where it has none. A save keeps it.
    pub fn name(&self) -> Option<DiskName> {
        DiskName::of(self.as_bytes())
    }

    /// Whether the image is an accepted disk. [`Disk::open`](crate::Disk::open) asks the same and keeps the answer in the
    /// type. Every slot before the directory's end is looked at, and every sector of every file.
    ///
    /// # Errors
    ///
    /// Refused 24, or 2 to 11 and 25 with the slot.
    pub fn check(&self) -> Result<(), Refused> {
        calls::check(self.as_bytes()).decode().map(|_| ())
    }

    /// Whether the image is an accepted disk without waste sectors, before it goes out.
    ///
    /// # Errors
    ///
    /// Refused as [`check`](Image::check) is, and 22 with the slot where a file of a carried kind has more sectors than its
    /// length needs. Every other call accepts such a disk.
    pub fn check_release(&self) -> Result<(), Refused> {
        calls::check_release(self.as_bytes()).decode().map(|_| ())
    }

    /// One raw sector, not copied. No directory is checked, so any image will do.
    ///
    /// # Errors
    ///
    /// Its types rule out every refusal; the answer is the library's all the same.
    ///
    /// ```
    /// use varnucht::{Image, Sector, Track};
    ///
    /// let mut image = Image::blank();
    /// image.as_bytes_mut()[5_120] = 7;
    /// let bytes: &[u8; 512] = image.sector(Track::new(128)?, Sector::new(1)?)?;
    /// assert_eq!(bytes[0], 7);
    /// # Ok::<(), varnucht::Refused>(())
    /// ```
    pub fn sector(&self, track: Track, sector: Sector) -> Result<&[u8; SECTOR_LENGTH], Refused> {
        sector_of(self, self, Drive::One, track, sector)
    }

    /// The bytes of the sector with this number.
    pub fn at(&self, number: SectorNumber) -> &[u8; SECTOR_LENGTH] {
        // A sector number is below 1,600, and the image has as many sectors.
        &self.0.as_chunks().0[usize::from(number.number())]
    }
}

/// One raw sector of the image in the chosen one of two drives, not copied. No directory is checked.
pub(crate) fn sector_of<'a>(
    one: &'a Image,
    two: &'a Image,
    drive: Drive,
    track: Track,
    sector: Sector,
) -> Result<&'a [u8; SECTOR_LENGTH], Refused> {
    let (one, two) = (one.as_bytes(), two.as_bytes());
    let (track, sector) = (u32::from(track.number()), u32::from(sector.number()));
    let found = calls::sector(one, two, drive.number(), track, sector).decode()?;
    let chosen = match drive {
        Drive::One => one,
        Drive::Two => two,
    };
    // A place outside the image is no sector's.
    let place = usize::try_from(found.value).unwrap_or(usize::MAX);
    chosen
        .get(place..)
        .and_then(<[u8]>::first_chunk)
        .ok_or(Refusal::NoSuchSector.into())
}

impl fmt::Debug for Image {
    fn fmt(&self, f: &mut fmt::Formatter<'_>) -> fmt::Result {
        f.debug_struct("Image").finish_non_exhaustive()
    }
}

/// Bytes that are no image, since they are not 819,200: refusal 1. It holds the bytes.
#[derive(Clone, PartialEq, Eq)]
pub struct WrongLength {
    bytes: Vec<u8>,
}

impl WrongLength {
    /// The bytes that were given, as they were.
    pub fn into_bytes(self) -> Vec<u8> {
        self.bytes
    }
}

impl From<WrongLength> for Refused {
    fn from(_: WrongLength) -> Refused {
        Refusal::ImageLength.into()
    }
}

impl fmt::Debug for WrongLength {
    fn fmt(&self, f: &mut fmt::Formatter<'_>) -> fmt::Result {
        write!(f, "WrongLength {{ {} bytes }}", self.bytes.len())
    }
}

impl fmt::Display for WrongLength {
    fn fmt(&self, f: &mut fmt::Formatter<'_>) -> fmt::Result {
        write!(f, "{}: it has {}", Refused::from(Refusal::ImageLength), self.bytes.len())
    }
}

impl Error for WrongLength {}
