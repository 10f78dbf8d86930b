//! A file's body, a piece at a time.
use crate::calls;
use crate::image::Image;
use crate::name::Name;
use crate::refusal::Refused;
use std::fmt;
use std::io::{self, Read};

/// A reader of a file's body: it gives the next bytes, as many as a buffer holds, until the body ends.
///
/// The pieces joined are the body that [`Disk::read`](crate::Disk::read) gives, whatever the buffers are. A piece fills its
/// buffer, but where the body ends. Reading never fails. A clone stands at the same byte and goes its own way from there.
///
/// ```
/// use std::io::Read;
/// use varnucht::{CarriedKind, Disk, Image, Name, NewFile, NewName, Start};
///
/// let mut disk = Disk::open(Image::blank())?;
/// let file = NewFile::new(CarriedKind::Code, NewName::new("TUNES")?, Start::new(1, 32_768)?, b"la la la");
/// let _ = disk.save(&file)?;
///
/// let mut tune = disk.reader(&Name::new("TUNES")?)?;
/// let mut piece = [b'.'; 6];
/// assert_eq!((tune.left(), tune.read(&mut piece)?, &piece), (8, 6, b"la la "));
/// assert_eq!((tune.left(), tune.read(&mut piece)?, &piece), (2, 2, b"la la ")); // what isn't filled stays
/// assert_eq!((tune.left(), tune.read(&mut piece)?), (0, 0));
/// # Ok::<(), Box<dyn std::error::Error>>(())
/// ```
///
/// It borrows the disk. So a disk that is being read cannot be changed until the reader is given up, and this does not
/// compile:
///
/// ```compile_fail,E0502
/// # use std::io::Read;
/// # use varnucht::{Disk, Name};
/// fn change_while_reading(disk: &mut Disk, name: &Name) -> Result<(), Box<dyn std::error::Error>> {
///     let mut tune = disk.reader(name)?;
///     let hidden = disk.hide(name)?.into_numbers();
///     tune.read(&mut [0; 512])?;
///     Ok(())
/// }
/// ```
///
/// With the reader given up first it does:
///
/// ```
/// # use std::io::Read;
/// # use varnucht::{Disk, Name};
/// fn change_after_reading(disk: &mut Disk, name: &Name) -> Result<(), Box<dyn std::error::Error>> {
///     let mut tune = disk.reader(name)?;
///     tune.read(&mut [0; 512])?;
///     let hidden = disk.hide(name)?.into_numbers();
///     Ok(())
/// }
/// ```
#[derive(Clone)]
pub struct Reader<'d> {
    image: &'d Image,
    sector: u16,
    offset: u16,
    left: u32,
}

impl<'d> Reader<'d> {
    /// A reader at the first byte of the file of this name.
    pub(crate) fn open(image: &'d Image, name: &Name) -> Result<Reader<'d>, Refused> {
        let found = calls::open(image.as_bytes(), name.as_bytes()).decode()?;
        Ok(Reader {
            image,
            sector: found.sector,
            offset: found.free,
            left: found.value,
        })
    }

    /// How many bytes of the body are still to come: exactly so many.
    pub fn left(&self) -> usize {
        self.left as usize
    }
}

impl Read for Reader<'_> {
    /// Puts the next bytes to the front of the buffer: as many as it holds, or all that are left. This does not fail.
    fn read(&mut self, out: &mut [u8]) -> io::Result<usize> {
        let image = self.image.as_bytes();
        let answer = calls::next(image, self.sector.into(), self.offset.into(), self.left, out);
        let piece = answer.decode().map_err(io::Error::other)?;
        (self.sector, self.offset) = (piece.sector, piece.free);
        self.left = self.left.saturating_sub(piece.value);
        Ok(out.len().min(piece.value as usize))
    }
}

impl fmt::Debug for Reader<'_> {
    fn fmt(&self, f: &mut fmt::Formatter<'_>) -> fmt::Result {
        f.debug_struct("Reader").field("left", &self.left).finish_non_exhaustive()
    }
}
