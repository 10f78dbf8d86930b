//! The sectors that a change altered, in the order of writing.
use crate::image::Image;
use crate::place::{DATA_SECTORS, SECTOR_LENGTH, SectorNumber};
use crate::store::{Store, WriteError};

/// The longest body that a disk can hold: 510 bytes in each of the 1,560 data sectors that it has with four directory tracks,
/// less the nine header bytes.
pub const LONGEST_BODY: usize = 510 * DATA_SECTORS - 9;

/// The bytes of a list with room for every change: 1,560 data sectors and two of the directory, two bytes to a number.
pub(crate) const LIST_LENGTH: usize = 2 * (DATA_SECTORS + 2);

/// The sectors that a change altered, in the order in which they are to be written, with the bytes that they hold now.
///
/// The change is made in memory. A copy of the disk elsewhere follows when these sectors are written there, in this order:
/// cut short anywhere, that copy is still the old disk to every call until the last one is written. Those of many files
/// erased at once ([`Disk::erase_many`](crate::Disk::erase_many)) are a change of their own each, and those of a recording's
/// piece ([`Disk::add_piece`](crate::Disk::add_piece)) change nothing that is seen. As long as this value is kept,
/// the disk can take no other change. Whoever writes with [`iter`](Sectors::iter) must leave out no change: the sectors of the
/// next build on it. [`write_to`](Sectors::write_to) sees to that.
///
/// ```
/// use varnucht::{CarriedKind, Disk, Image, NewFile, NewName, Start};
///
/// let mut copy = Image::blank();
/// let mut disk = Disk::open(Image::blank())?;
/// let file = NewFile::new(CarriedKind::Code, NewName::new("A")?, Start::new(1, 32_768)?, &[7; 1_000]);
/// let sectors = disk.save(&file)?;
/// for (number, bytes) in sectors.iter() {
///     copy.as_bytes_mut()[number.place()..][..512].copy_from_slice(bytes);
/// }
/// assert_eq!(&copy, disk.image());
/// # Ok::<(), varnucht::Refused>(())
/// ```
///
/// It is hard to forget. The compiler warns where the sectors are dropped unseen (here it is told to stop):
///
/// ```compile_fail
/// #![deny(unused_must_use)]
/// # use varnucht::{Disk, Image, Name, Refused};
/// fn forget(disk: &mut Disk, name: &Name) -> Result<(), Refused> {
///     disk.hide(name)?;
///     Ok(())
/// }
/// ```
///
/// And no other change can be made before they are done with:
///
/// ```compile_fail,E0499
/// # use varnucht::{Disk, Image, Name, Refused};
/// fn overtake(disk: &mut Disk, name: &Name) -> Result<(), Refused> {
///     let hidden = disk.hide(name)?;
///     let protected = disk.protect(name)?;
///     println!("{} {}", hidden.numbers().len(), protected.numbers().len());
///     Ok(())
/// }
/// ```
#[derive(Debug)]
#[must_use = "the change is in memory alone until its sectors are written"]
pub struct Sectors<'d> {
    image: &'d Image,
    numbers: Vec<SectorNumber>,
    written: &'d mut bool,
    skipped: bool,
    unit: WriteUnit,
}

/// What a sector is to the disk that is stored.
#[derive(Clone, Copy, Debug)]
enum WriteUnit {
    /// The last one makes the change.
    WholeChange,
    /// Each is a change of its own.
    EachSector,
    /// None changes anything that is seen.
    Invisible,
}

impl<'d> Sectors<'d> {
    /// The first `many` numbers of a list that a change filled. The library names no number above 1,599; such a one would
    /// be no sector of the image and is left out.
    ///
    /// `written` says whether all changes of the disk before this one were written, and from now on whether this one is too.
    pub(crate) fn new(image: &'d Image, written: &'d mut bool, list: &[u8], many: u32) -> Sectors<'d> {
        let many = usize::try_from(many).unwrap_or(usize::MAX);
        let pairs = list.as_chunks().0.iter().take(many);
        let numbers: Vec<SectorNumber> = pairs
            .filter_map(|pair| SectorNumber::new(u16::from_le_bytes(*pair)))
            .collect();
        let skipped = !*written;
        // A change that alters no sector leaves nothing to write.
        *written &= numbers.is_empty();
        Sectors {
            image,
            numbers,
            written,
            skipped,
            unit: WriteUnit::WholeChange,
        }
    }

    /// The same of a change whose every sector is a change of its own.
    pub(crate) fn each_sector(self) -> Sectors<'d> {
        Sectors {
            unit: WriteUnit::EachSector,
            ..self
        }
    }

    /// The same of a piece of a recording, whose sectors were free and still are.
    pub(crate) fn invisible(self) -> Sectors<'d> {
        Sectors {
            unit: WriteUnit::Invisible,
            ..self
        }
    }

    /// The sector numbers, in the order of writing. No number occurs twice.
    pub fn numbers(&self) -> &[SectorNumber] {
        &self.numbers
    }

    /// The sector numbers alone. The disk is free again.
    pub fn into_numbers(self) -> Vec<SectorNumber> {
        self.numbers
    }

    /// Each sector with its bytes, in the order of writing.
    pub fn iter(&self) -> impl ExactSizeIterator<Item = (SectorNumber, &'d [u8; SECTOR_LENGTH])> + '_ {
        self.numbers.iter().map(|number| (*number, self.image.at(*number)))
    }

    /// Writes each sector, in order, and waits until it is stored before it goes on to the next. After each it calls
    /// `progress` with how many are written and how many there are.
    ///
    /// A file is a [`Store`]. It must hold the disk as it was before the change; lock it, so that nobody else writes there.
    ///
    /// # Errors
    ///
    /// Where a write fails the rest is not tried: the error says how far it came and what that means. It may be tried again.
    /// [`WriteError::Skipped`] where an earlier change of this disk was not written whole, by this function: then nothing is
    /// written, since the store does not hold the disk that this change was made on, and its sectors alone could make it one
    /// that no call accepts.
    ///
    /// ```
    /// use varnucht::{Change, Disk, Image, WriteError};
    /// # use varnucht::{CarriedKind, NewFile, NewName, SECTOR_LENGTH, SectorNumber, Start, Store};
    /// # struct Nowhere;
    /// # impl Store for Nowhere {
    /// #     fn write_sector(&mut self, _: SectorNumber, _: &[u8; SECTOR_LENGTH]) -> std::io::Result<()> {
    /// #         panic!("it is not asked to")
    /// #     }
    /// # }
    /// # let mut store = Nowhere;
    /// # let mut disk = Disk::open(Image::blank())?;
    /// # let name = NewName::new("TUNES")?;
    /// # let file = NewFile::new(CarriedKind::Code, name, Start::new(1, 32_768)?, b"la la la");
    /// let _ = disk.save(&file)?; // in memory alone
    /// let error = disk.hide(&name.name())?.write_to(&mut store, |_, _| {}).unwrap_err();
    /// assert!(matches!(error, WriteError::Skipped));
    ///
    /// // A disk opened anew counts as stored: here its whole image would have to be.
    /// let disk = Disk::open(disk.into_image())?;
    /// # let _ = disk;
    /// # Ok::<(), Box<dyn std::error::Error>>(())
    /// ```
    pub fn write_to(&mut self, store: &mut impl Store, mut progress: impl FnMut(usize, usize)) -> Result<(), WriteError> {
        if self.skipped {
            return Err(WriteError::Skipped);
        }
        let of = self.numbers.len();
        for (written, (number, bytes)) in self.iter().enumerate() {
            store.write_sector(number, bytes).map_err(|error| match self.unit {
                WriteUnit::WholeChange => WriteError::Stopped { written, of, error },
                WriteUnit::EachSector => WriteError::Partly { written, of, error },
                WriteUnit::Invisible => WriteError::Piece { written, of, error },
            })?;
            progress(written + 1, of);
        }
        *self.written = true;
        Ok(())
    }
}
