//! A disk and the file that it is in, kept together.
use crate::change::{Change, NewFile};
use crate::disk::Disk;
use crate::image::{IMAGE_LENGTH, Image};
use crate::name::{Name, NewName};
use crate::refusal::{Refusal, Refused};
use crate::sectors::Sectors;
use crate::store::WriteError;
use std::error::Error;
use std::fmt;
use std::fs::{File, TryLockError};
use std::io::{self, ErrorKind, Read, Seek};
use std::path::Path;

/// An accepted disk in an image file, which is open and locked for this process alone as long as this value lives.
///
/// Every change is made in memory and then written, sector by sector, each flushed to the disk before the next: when it
/// returns, the change is stored for good. Cut short anywhere, the file holds the old disk until the last sector is written.
/// The lock is heeded by all who ask for it, as the tool does; it keeps nobody else from writing.
///
/// ```
/// use varnucht::{CarriedKind, DiskFile, NewFile, Start};
///
/// # let path = std::env::temp_dir().join(format!("varnucht-doc-file-{}.mgt", std::process::id()));
/// # std::fs::write(&path, varnucht::Image::blank())?;
/// let tune = NewFile::new(CarriedKind::Code, "TUNES".parse()?, Start::new(1, 32_768)?, b"la la la");
/// DiskFile::open(&path)?.save(&tune)?;
///
/// let mut file = DiskFile::open(&path)?;
/// assert_eq!(file.disk().read(&"tunes".parse()?)?, b"la la la");
/// file.hide(&"TUNES".parse()?)?;
/// # assert!(std::fs::read(&path)? == file.disk().image().as_bytes());
/// # std::fs::remove_file(&path)?;
/// # Ok::<(), Box<dyn std::error::Error>>(())
/// ```
#[derive(Debug)]
pub struct DiskFile {
    file: File,
    disk: Disk,
}

impl DiskFile {
    /// Opens the file at a path, waits until no other program has locked it, and checks the disk in it.
    ///
    /// # Errors
    ///
    /// [`FileError::Io`] where the file cannot be opened for reading and writing, locked or read, or is no plain file;
    /// [`FileError::Refused`] 1, 24, and 2 to 11 and 25 with the slot, where it holds no accepted disk.
    pub fn open(path: impl AsRef<Path>) -> Result<DiskFile, FileError> {
        let file = open_plain(path.as_ref())?;
        file.lock()?;
        DiskFile::locked(file)
    }

    /// The same, but where another program has locked the file this does not wait.
    ///
    /// # Errors
    ///
    /// As [`DiskFile::open`], and [`ErrorKind::WouldBlock`] where another program has locked it.
    pub fn try_open(path: impl AsRef<Path>) -> Result<DiskFile, FileError> {
        let file = open_plain(path.as_ref())?;
        match file.try_lock() {
            Ok(()) => DiskFile::locked(file),
            Err(TryLockError::WouldBlock) => Err(io::Error::from(ErrorKind::WouldBlock).into()),
            Err(TryLockError::Error(error)) => Err(error.into()),
        }
    }

    /// The disk in a file that is locked.
    fn locked(mut file: File) -> Result<DiskFile, FileError> {
        let disk = read_disk(&mut file)?;
        Ok(DiskFile { file, disk })
    }

    /// The disk, as it is in memory: to read, to list and to try changes on.
    pub fn disk(&self) -> &Disk {
        &self.disk
    }

    /// The disk alone. The file is closed, and its lock is given up.
    pub fn into_disk(self) -> Disk {
        self.disk
    }

    /// Reads the disk anew from the file. After a write that failed this is the way back: what is in memory is ahead of the
    /// file then, and no change is written.
    ///
    /// # Errors
    ///
    /// As [`DiskFile::open`]; then the disk in memory stays.
    pub fn reload(&mut self) -> Result<(), FileError> {
        self.disk = read_disk(&mut self.file)?;
        Ok(())
    }

    /// Makes a change and writes it. Gives how many sectors were written.
    ///
    /// # Errors
    ///
    /// [`FileError::Refused`] as the [`Change`] says: then nothing has changed. [`FileError::Write`] where a sector could not
    /// be written, or an earlier change was not: then the disk in memory is ahead of the file, and [`DiskFile::reload`] reads
    /// it anew.
    pub fn change(&mut self, change: &Change) -> Result<usize, FileError> {
        write_sectors(&mut self.file, self.disk.change(change)?)
    }

    /// Saves a file: [`Change::Save`].
    ///
    /// # Errors
    ///
    /// As [`DiskFile::change`]; refused 16, 18 and 19.
    pub fn save(&mut self, file: &NewFile) -> Result<usize, FileError> {
        self.change(&Change::Save(*file))
    }

    /// Erases a file: [`Change::Erase`].
    ///
    /// # Errors
    ///
    /// As [`DiskFile::change`]; refused 15, 17 and 29.
    pub fn erase(&mut self, name: &Name) -> Result<usize, FileError> {
        self.change(&Change::Erase(*name))
    }

    /// Erases the files of several names: [`Disk::erase_many`]. Gives an answer for each.
    ///
    /// # Errors
    ///
    /// [`FileError::Write`], where what was written before is done: [`WriteError::Partly`].
    pub fn erase_many(&mut self, names: &[Name]) -> Result<Vec<Result<(), Refusal>>, FileError> {
        let erased = self.disk.erase_many(names)?;
        write_sectors(&mut self.file, erased.sectors)?;
        Ok(erased.answers)
    }

    /// Gives a file another name: [`Change::Rename`].
    ///
    /// # Errors
    ///
    /// As [`DiskFile::change`]; refused 15, 16 and 17.
    pub fn rename(&mut self, name: &Name, new: &NewName) -> Result<usize, FileError> {
        self.change(&Change::Rename(*name, *new))
    }

    /// Hides a file: [`Change::Hide`].
    ///
    /// # Errors
    ///
    /// As [`DiskFile::change`]; refused 15.
    pub fn hide(&mut self, name: &Name) -> Result<usize, FileError> {
        self.change(&Change::Hide(*name))
    }

    /// Shows a hidden file: [`Change::Show`].
    ///
    /// # Errors
    ///
    /// As [`DiskFile::change`]; refused 15.
    pub fn show(&mut self, name: &Name) -> Result<usize, FileError> {
        self.change(&Change::Show(*name))
    }

    /// Protects a file: [`Change::Protect`].
    ///
    /// # Errors
    ///
    /// As [`DiskFile::change`]; refused 15.
    pub fn protect(&mut self, name: &Name) -> Result<usize, FileError> {
        self.change(&Change::Protect(*name))
    }

    /// Takes a file's protection away: [`Change::Release`].
    ///
    /// # Errors
    ///
    /// As [`DiskFile::change`]; refused 15.
    pub fn release(&mut self, name: &Name) -> Result<usize, FileError> {
        self.change(&Change::Release(*name))
    }

    /// Gathers a scattered file: [`Change::Gather`].
    ///
    /// # Errors
    ///
    /// As [`DiskFile::change`]; refused 15, 13 and 32.
    pub fn gather(&mut self, name: &Name) -> Result<usize, FileError> {
        self.change(&Change::Gather(*name))
    }
}

/// Opens a file for reading and writing. A pipe holds no disk, and reading it could wait for ever.
fn open_plain(path: &Path) -> io::Result<File> {
    let file = File::options().read(true).write(true).open(path)?;
    match file.metadata()?.is_file() {
        true => Ok(file),
        false => Err(io::Error::other("it is not a plain file")),
    }
}

/// The disk in a file. Of a longer file no more is read than shows that it is too long.
fn read_disk(file: &mut File) -> Result<Disk, FileError> {
    file.rewind()?;
    let mut bytes = Vec::with_capacity(IMAGE_LENGTH + 1);
    file.take(IMAGE_LENGTH as u64 + 1).read_to_end(&mut bytes)?;
    let image = Image::from_bytes(bytes).map_err(Refused::from)?;
    Ok(Disk::open(image).map_err(Refused::from)?)
}

/// Writes the sectors of a change. Gives how many they are.
fn write_sectors(file: &mut File, mut sectors: Sectors) -> Result<usize, FileError> {
    sectors.write_to(file, |_, _| {})?;
    Ok(sectors.numbers().len())
}

/// Why a file was not opened, or a change not made or not written.
#[derive(Debug)]
#[non_exhaustive]
pub enum FileError {
    /// The file could not be opened, locked or read.
    Io(io::Error),
    /// The library refused the disk or the change. Nothing has changed.
    Refused(Refused),
    /// The change was made in memory, and its sectors are not all written.
    Write(WriteError),
}

impl fmt::Display for FileError {
    fn fmt(&self, f: &mut fmt::Formatter<'_>) -> fmt::Result {
        match self {
            FileError::Io(error) => error.fmt(f),
            FileError::Refused(refused) => refused.fmt(f),
            FileError::Write(error) => error.fmt(f),
        }
    }
}

impl Error for FileError {
    fn source(&self) -> Option<&(dyn Error + 'static)> {
        match self {
            FileError::Io(error) => Some(error),
            FileError::Refused(refused) => Some(refused),
            FileError::Write(error) => Some(error),
        }
    }
}

impl From<io::Error> for FileError {
    fn from(error: io::Error) -> FileError {
        FileError::Io(error)
    }
}

impl From<Refused> for FileError {
    fn from(refused: Refused) -> FileError {
        FileError::Refused(refused)
    }
}

impl From<WriteError> for FileError {
    fn from(error: WriteError) -> FileError {
        FileError::Write(error)
    }
}
