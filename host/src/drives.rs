//! The raw sector call over two drives.
use crate::image::{Image, sector_of};
use crate::place::{Drive, SECTOR_LENGTH, Sector, Track};
use crate::refusal::Refused;

/// Two drives with an image in each.
///
/// ```
/// use varnucht::{Drive, Drives, Image, Sector, Track};
///
/// let (one, mut two) = (Image::blank(), Image::blank());
/// two.as_bytes_mut()[0] = 9;
/// let drives = Drives { one: &one, two: &two };
/// assert_eq!(drives.sector(Drive::Two, Track::new(0)?, Sector::new(1)?)?[0], 9);
/// # Ok::<(), varnucht::Refused>(())
/// ```
#[derive(Clone, Copy, Debug)]
pub struct Drives<'a> {
    /// The image in drive 1.
    pub one: &'a Image,
    /// The image in drive 2.
    pub two: &'a Image,
}

impl<'a> Drives<'a> {
    /// One raw sector of the chosen drive's image, not copied. No directory is checked.
    ///
    /// # Errors
    ///
    /// Its types rule out every refusal; the answer is the library's all the same.
    pub fn sector(self, drive: Drive, track: Track, sector: Sector) -> Result<&'a [u8; SECTOR_LENGTH], Refused> {
        sector_of(self.one, self.two, drive, track, sector)
    }
}
