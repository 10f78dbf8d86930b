//! Accepted disks.
use crate::calls;
use crate::chain;
use crate::change::{Change, NewFile};
use crate::directory::{Directory, DiskName};
use crate::entry::Entry;
use crate::erase_many::{self, Erased};
use crate::image::Image;
use crate::listing::Listing;
use crate::name::{Name, NewName};
use crate::place::SectorNumber;
use crate::reader::Reader;
use crate::refusal::{Refusal, Refused};
use crate::sectors::{LIST_LENGTH, Sectors};
use crate::tree::Tree;
use std::error::Error;
use std::fmt;

/// A disk that the library has accepted, with its listing.
///
/// Every change of an accepted disk leaves an accepted disk, which is proved. So no call here is refused 1 to 11, 24
/// or 25.
///
/// Two disks are equal where their images are. A clone copies the image: 819,200 bytes.
#[derive(Clone, Debug)]
pub struct Disk {
    image: Image,
    listing: Listing,
    /// Whether every change since it was opened was written by [`Sectors::write_to`].
    written: bool,
}

impl PartialEq for Disk {
    fn eq(&self, other: &Disk) -> bool {
        self.image == other.image
    }
}

impl Eq for Disk {}

impl Disk {
    /// Opens a disk: checks the image and lists it.
    ///
    /// Every slot before the directory's end is looked at, and every sector of every file. The image is not copied.
    ///
    /// # Errors
    ///
    /// Refused 24, or 2 to 11 and 25 with the slot; the error hands the image back.
    ///
    /// ```
    /// use varnucht::{Disk, Image};
    ///
    /// let mut image = Image::blank();
    /// image.as_bytes_mut()[..2].copy_from_slice(&[13, b'A']); // a file of no known kind in slot 1
    /// let not_accepted = Disk::open(image).unwrap_err();
    /// assert_eq!(not_accepted.to_string(), "refusal 2 at slot 1: the kind is not known");
    /// let image = not_accepted.image; // nothing is lost
    /// # let _ = image;
    /// ```
    pub fn open(image: Image) -> Result<Disk, NotAccepted> {
        match Listing::of(&image) {
            Ok(listing) => Ok(Disk {
                image,
                listing,
                written: true,
            }),
            Err(refused) => Err(NotAccepted { image, refused }),
        }
    }

    /// The image as it is now.
    pub fn image(&self) -> &Image {
        &self.image
    }

    /// The image, given up as a disk.
    pub fn into_image(self) -> Image {
        self.image
    }

    /// The files and the free sectors. It is kept with the disk and costs nothing.
    pub fn listing(&self) -> &Listing {
        &self.listing
    }

    /// How large the directory is: its tracks, its slots and the data sectors that it leaves. No change alters that.
    pub fn directory(&self) -> Directory {
        self.listing.directory()
    }

    /// The disk's name; none where it has none. No change alters it.
    pub fn name(&self) -> Option<DiskName> {
        self.image.name()
    }

    /// Whether no file of a carried kind has more sectors than its length needs ([`Entry::least_sectors`]), which is where
    /// old texts hide. No other call asks that.
    ///
    /// # Errors
    ///
    /// Refused 22 with the lowest such slot.
    ///
    /// ```
    /// use varnucht::{CarriedKind, Disk, Image, NewFile, NewName, Start};
    ///
    /// let mut disk = Disk::open(Image::blank())?;
    /// let file = NewFile::new(CarriedKind::Code, NewName::new("TEXT")?, Start::new(1, 32_768)?, &[65; 1_000]);
    /// let _ = disk.save(&file)?;
    /// disk.check_release()?; // a save takes no more sectors than it needs
    ///
    /// // The same file with a length of 100 in its slot and in its header: its second sector is waste.
    /// let mut image = disk.into_image();
    /// for place in [240, 40_961] {
    ///     image.as_bytes_mut()[place..place + 2].copy_from_slice(&[100, 0]);
    /// }
    /// let disk = Disk::open(image)?;
    /// let refused = disk.check_release().unwrap_err();
    /// assert_eq!((refused.refusal.number(), refused.slot.map(|slot| slot.number())), (22, Some(1)));
    /// let entry = &disk.listing().entries()[0];
    /// assert_eq!((entry.sector_count(), entry.least_sectors()), (2, Some(1)));
    /// # Ok::<(), varnucht::Refused>(())
    /// ```
    pub fn check_release(&self) -> Result<(), Refused> {
        self.image.check_release()
    }

    /// A file's body.
    ///
    /// The whole disk is looked at, and the body is copied into a new vector of its length.
    ///
    /// # Errors
    ///
    /// Refused 15 where there is no such file, 13 with the slot where its kind cannot be read: it is neither carried nor
    /// [one of the Spectrum's](crate::Kind::is_spectrum).
    pub fn read(&self, name: &Name) -> Result<Vec<u8>, Refused> {
        // The listing gives the room that is needed, but for kinds that have their length elsewhere.
        let listed = self.listing.find(name).and_then(Entry::length);
        let room = listed.map_or_else(|| self.length(name), Ok)?;
        let mut body = vec![0; room as usize];
        let done = calls::read(self.image.as_bytes(), name.as_bytes(), &mut body).decode()?;
        body.truncate(done.value as usize);
        Ok(body)
    }

    /// A reader of a file's body, at its first byte.
    ///
    /// The whole disk is looked at, once; a piece then costs no more than its own bytes.
    ///
    /// # Errors
    ///
    /// Refused as [`read`](Disk::read) is.
    pub fn reader(&self, name: &Name) -> Result<Reader<'_>, Refused> {
        Reader::open(&self.image, name)
    }

    /// The length of a file's body, of every kind that can be read. [`Entry::length`] gives it too, but not for the kinds of
    /// the Spectrum, whose length stands in the file itself.
    ///
    /// # Errors
    ///
    /// Refused as [`read`](Disk::read) is.
    pub fn length(&self, name: &Name) -> Result<u32, Refused> {
        let found = calls::open(self.image.as_bytes(), name.as_bytes()).decode()?;
        Ok(found.value)
    }

    /// A file's start address; of a Spectrum kind, 1 to 4, the start in its header as it stands, 0 to 65,535.
    ///
    /// # Errors
    ///
    /// Refused 15 where there is no such file; with the slot 13 where its kind cannot be read, and 14 where a carried kind's
    /// offset is out of range.
    pub fn start(&self, name: &Name) -> Result<u32, Refused> {
        calls::start(self.image.as_bytes(), name.as_bytes())
            .decode()
            .map(|done| done.value)
    }

    /// A file's sectors in the order in which its bytes lie in them, 510 to a sector; none of a directory.
    ///
    /// # Errors
    ///
    /// Refused 15 where there is no such file.
    pub fn chain(&self, name: &Name) -> Result<Vec<SectorNumber>, Refused> {
        let found = self.listing.find(name).ok_or(Refusal::NotFound)?;
        Ok(chain::chain(&self.image, found))
    }

    /// Whether a file lies scattered: its sectors are not those of consecutive map bits, in rising order.
    /// [`gather`](Disk::gather) moves such a file and leaves any other.
    ///
    /// # Errors
    ///
    /// Refused 15 where there is no such file.
    pub fn is_scattered(&self, name: &Name) -> Result<bool, Refused> {
        Ok(!chain::is_run(&self.chain(name)?))
    }

    /// What lies beneath a directory, or beneath the root where no name is given: the files and directories in it, those in
    /// these, and so on.
    ///
    /// # Errors
    ///
    /// Refused with the slot 26, 27 and 28 where the directories of the disk do not fit together, and 13 where the name is
    /// that of a file; and 15 where there is no such name.
    ///
    /// ```
    /// use varnucht::{Disk, Image, Name};
    ///
    /// // A directory GAMES with code 7, and in it a directory ARCADE with code 8.
    /// let mut image = Image::blank();
    /// for (slot, name, code, parent) in [(0, "GAMES", 7, 0), (1, "ARCADE", 8, 7)] {
    ///     let bytes = &mut image.as_bytes_mut()[256 * slot..][..256];
    ///     bytes[..11].copy_from_slice(format!("\x15{name:<10}").as_bytes());
    ///     (bytes[250], bytes[254]) = (code, parent);
    /// }
    /// let disk = Disk::open(image)?;
    /// let root = disk.tree(None)?;
    /// let games = root.branches().next().unwrap();
    /// assert_eq!(games.entry().name().to_string(), "GAMES");
    /// assert_eq!(games.branches().next().unwrap().entry().name().to_string(), "ARCADE");
    /// assert_eq!((root.len(), disk.tree(Some(&Name::new("games")?))?.len()), (2, 1));
    /// # Ok::<(), varnucht::Refused>(())
    /// ```
    pub fn tree(&self, directory: Option<&Name>) -> Result<Tree, Refused> {
        Tree::of(&self.image, &self.listing, directory)
    }

    /// Makes a change in memory and gives the sectors that are to be written.
    ///
    /// The disk is looked at twice: once to make the change, once to list it anew.
    ///
    /// # Errors
    ///
    /// Refused as the [`Change`] says; then nothing has changed.
    pub fn change(&mut self, change: &Change) -> Result<Sectors<'_>, Refused> {
        let mut list = [0; LIST_LENGTH];
        let done = change.make(&mut self.image, &mut list).decode()?;
        self.change_sectors(&list, done.value)
    }

    /// Lists the disk anew after a change, and gives the first `many` sectors of its list.
    pub(crate) fn change_sectors(&mut self, list: &[u8], many: u32) -> Result<Sectors<'_>, Refused> {
        // An accepted change leaves an accepted disk, so this is not refused. If it were, nothing would be written anywhere,
        // and every later call would be refused by the library.
        self.listing = Listing::of(&self.image)?;
        Ok(Sectors::new(&self.image, &mut self.written, list, many))
    }

    /// The same after a piece of a recording, which changes nothing that is seen.
    pub(crate) fn piece_sectors(&mut self, list: &[u8], many: u32) -> Sectors<'_> {
        Sectors::new(&self.image, &mut self.written, list, many).invisible()
    }

    /// The image, for a change that the library makes.
    pub(crate) fn image_mut(&mut self) -> &mut Image {
        &mut self.image
    }

    /// Makes a change on a copy, and tells which sectors it would write. This disk stays as it is. The image is copied.
    ///
    /// # Errors
    ///
    /// Refused as the [`Change`] says.
    ///
    /// ```
    /// use varnucht::{Change, Disk, Image, Name};
    ///
    /// let disk = Disk::open(Image::blank())?;
    /// let refused = disk.try_change(&Change::Erase(Name::new("TUNES")?)).unwrap_err();
    /// assert_eq!(refused.refusal.number(), 15);
    /// # Ok::<(), Box<dyn std::error::Error>>(())
    /// ```
    pub fn try_change(&self, change: &Change) -> Result<Vec<SectorNumber>, Refused> {
        Ok(self.clone().change(change)?.into_numbers())
    }

    /// Saves a file: [`Change::Save`].
    ///
    /// # Errors
    ///
    /// Refused 16 with the slot that has the name, 18 and 19.
    pub fn save(&mut self, file: &NewFile) -> Result<Sectors<'_>, Refused> {
        self.change(&Change::Save(*file))
    }

    /// Erases a file, or a directory that nothing is in: [`Change::Erase`].
    ///
    /// # Errors
    ///
    /// Refused 15, and 17 and 29 with the slot.
    pub fn erase(&mut self, name: &Name) -> Result<Sectors<'_>, Refused> {
        self.change(&Change::Erase(*name))
    }

    /// Erases the files of these names, one after the other, by one call: for each it answers whether it is done or why not,
    /// 15, 17 or 29, as [`erase`](Disk::erase) does; what is refused refuses nothing of the rest. The same name again is not
    /// there (15), and a directory that the names before it emptied is erased too. The disk is looked at twice, however many
    /// they are.
    ///
    /// The directory's sectors that changed are named once each, rising, and each is a change of its own: cut short, the
    /// files erased in the sectors written are gone, and all others are still there. Where a directory stands in one of
    /// them, and what was in it in a later one, [`tree`](Disk::tree) refuses what is left (27); the same names again do the
    /// rest.
    ///
    /// # Errors
    ///
    /// No name refuses the whole, and the types rule out the rest; the answer is the library's all the same.
    ///
    /// ```
    /// use varnucht::{CarriedKind, Disk, Image, Name, NewFile, NewName, Refusal, Start};
    ///
    /// let mut disk = Disk::open(Image::blank())?;
    /// for name in ["ONE", "TWO", "THREE", "FOUR"] {
    ///     let file = NewFile::new(CarriedKind::Code, NewName::new(name)?, Start::new(1, 32_768)?, b"la la la");
    ///     let _ = disk.save(&file)?;
    /// }
    /// let names = [Name::new("four")?, Name::new("FIVE")?, Name::new("ONE")?, Name::new("TWO")?];
    /// let erased = disk.erase_many(&names)?;
    /// assert_eq!(erased.answers, [Ok(()), Err(Refusal::NotFound), Ok(()), Ok(())]);
    /// assert_eq!(erased.sectors.numbers().len(), 2); // ONE and TWO share a sector of the directory
    /// assert_eq!(disk.listing().entries()[0].name().to_string(), "THREE");
    /// # Ok::<(), varnucht::Refused>(())
    /// ```
    pub fn erase_many(&mut self, names: &[Name]) -> Result<Erased<'_>, Refused> {
        let erased = erase_many::erase_many(&mut self.image, names)?;
        Ok(Erased {
            answers: erased.answers,
            sectors: self.change_sectors(&erased.list, erased.many)?.each_sector(),
        })
    }

    /// Gives a file another name: [`Change::Rename`].
    ///
    /// # Errors
    ///
    /// Refused 15, and 16 and 17 with the slot.
    ///
    /// ```
    /// use varnucht::{CarriedKind, Disk, Image, Name, NewFile, NewName, Start};
    ///
    /// let mut disk = Disk::open(Image::blank())?;
    /// let (old, new) = (NewName::new("TUNES")?, NewName::new("Tunes")?);
    /// let _ = disk.save(&NewFile::new(CarriedKind::Code, old, Start::new(1, 32_768)?, b"la la la"))?;
    /// let _ = disk.rename(&Name::new("tunes")?, &new)?; // the case of its own name alone
    /// assert_eq!(disk.listing().entries()[0].name().to_string(), "Tunes");
    /// assert_eq!(disk.rename(&old.name(), &new).unwrap_err().refusal.number(), 16); // it has those bytes already
    /// # Ok::<(), varnucht::Refused>(())
    /// ```
    pub fn rename(&mut self, name: &Name, new: &NewName) -> Result<Sectors<'_>, Refused> {
        self.change(&Change::Rename(*name, *new))
    }

    /// Hides a file: [`Change::Hide`].
    ///
    /// # Errors
    ///
    /// Refused 15 where there is no such file.
    pub fn hide(&mut self, name: &Name) -> Result<Sectors<'_>, Refused> {
        self.change(&Change::Hide(*name))
    }

    /// Shows a hidden file: [`Change::Show`].
    ///
    /// # Errors
    ///
    /// Refused 15 where there is no such file.
    pub fn show(&mut self, name: &Name) -> Result<Sectors<'_>, Refused> {
        self.change(&Change::Show(*name))
    }

    /// Protects a file: [`Change::Protect`].
    ///
    /// # Errors
    ///
    /// Refused 15 where there is no such file.
    pub fn protect(&mut self, name: &Name) -> Result<Sectors<'_>, Refused> {
        self.change(&Change::Protect(*name))
    }

    /// Takes a file's protection away: [`Change::Release`].
    ///
    /// # Errors
    ///
    /// Refused 15 where there is no such file.
    pub fn release(&mut self, name: &Name) -> Result<Sectors<'_>, Refused> {
        self.change(&Change::Release(*name))
    }

    /// Gathers a scattered file: [`Change::Gather`]. Its body, its start address and all that its entry says stay, but where
    /// its sectors are. What it leaves is free.
    ///
    /// # Errors
    ///
    /// Refused 15, 13 with the slot where it is a directory, and 32.
    ///
    /// ```
    /// use varnucht::{CarriedKind, Disk, Image, NewFile, NewName, Start};
    ///
    /// let mut disk = Disk::open(Image::blank())?;
    /// let file = |name, body| Ok::<_, varnucht::Refused>(NewFile::new(CarriedKind::Code, name, Start::new(1, 32_768)?, body));
    /// let (gap, tune) = (NewName::new("GAP")?, NewName::new("TUNES")?);
    /// let _ = disk.save(&file(gap, b"")?)?;
    /// let _ = disk.save(&file(NewName::new("WALL")?, b"")?)?;
    /// let _ = disk.erase(&gap.name())?;
    /// let _ = disk.save(&file(tune, &[7; 1_000])?)?; // in the gap, and behind the wall
    /// assert!(disk.is_scattered(&tune.name())?);
    ///
    /// assert_eq!(disk.gather(&tune.name())?.numbers().len(), 3); // two of data, and then the directory's
    /// assert!(!disk.is_scattered(&tune.name())?);
    /// assert_eq!(disk.read(&tune.name())?, [7; 1_000]);
    /// assert!(disk.gather(&tune.name())?.numbers().is_empty()); // it lies so already
    /// # Ok::<(), varnucht::Refused>(())
    /// ```
    pub fn gather(&mut self, name: &Name) -> Result<Sectors<'_>, Refused> {
        self.change(&Change::Gather(*name))
    }
}

/// An image that is no accepted disk, and why.
#[derive(Clone, Debug, PartialEq, Eq)]
pub struct NotAccepted {
    /// The image, as it was.
    pub image: Image,
    /// The first refusal of the check, and its slot.
    pub refused: Refused,
}

impl From<NotAccepted> for Refused {
    fn from(not_accepted: NotAccepted) -> Refused {
        not_accepted.refused
    }
}

impl fmt::Display for NotAccepted {
    fn fmt(&self, f: &mut fmt::Formatter<'_>) -> fmt::Result {
        self.refused.fmt(f)
    }
}

impl Error for NotAccepted {}
