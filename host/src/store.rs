//! Where the sectors of a change are written.
use crate::place::{SECTOR_LENGTH, SectorNumber};
use std::error::Error;
use std::ffi::c_int;
use std::fmt;
use std::fs::File;
use std::io::{self, ErrorKind, Seek, SeekFrom, Write};
use std::os::fd::AsRawFd;

/// Something that holds a disk image and takes one sector at a time.
pub trait Store {
    /// Writes the 512 bytes of one sector, whole, at its number × 512, and returns when they are stored for good: the order
    /// of writing is what keeps the old disk readable.
    ///
    /// # Errors
    ///
    /// Whatever keeps the sector from being stored. It may be written then or not.
    fn write_sector(&mut self, number: SectorNumber, bytes: &[u8; SECTOR_LENGTH]) -> io::Result<()>;
}

/// A file that holds an image, open for writing. Each sector is flushed to the disk. A file of 819,200 bytes keeps its length.
///
/// One that is open to append takes every write at its end, wherever it is meant to go. Then this fails with
/// [`ErrorKind::InvalidInput`], and nothing is written.
impl Store for File {
    fn write_sector(&mut self, number: SectorNumber, bytes: &[u8; SECTOR_LENGTH]) -> io::Result<()> {
        if appends(self)? {
            let words = "the file is open to append, and a sector has its place";
            return Err(io::Error::new(ErrorKind::InvalidInput, words));
        }
        self.seek(SeekFrom::Start(number.place() as u64))?;
        self.write_all(bytes)?;
        self.sync_data()
    }
}

unsafe extern "C" {
    fn fcntl(file: c_int, command: c_int, ...) -> c_int;
}

/// The question how a file is open, and the mark for appending in the answer. Linux alone.
const HOW_OPEN: c_int = 3;
const APPENDS: c_int = 0o2000;

/// Whether a file is open to append.
fn appends(file: &File) -> io::Result<bool> {
    // SAFETY: the file is open, and this question takes nothing else.
    match unsafe { fcntl(file.as_raw_fd(), HOW_OPEN) } {
        -1 => Err(io::Error::last_os_error()),
        how => Ok(how & APPENDS != 0),
    }
}

/// A change whose sectors are not all written.
///
/// Then the disk in memory is ahead of the store. Write the same sectors again, or open the disk anew from the store; a later
/// change of this disk would name sectors that build on what is missing there, and [`write_to`](crate::Sectors::write_to)
/// does not write it.
#[derive(Debug)]
pub enum WriteError {
    /// A sector could not be written, and the rest was not tried.
    Stopped {
        /// How many were written before the one that failed.
        written: usize,
        /// How many there are.
        of: usize,
        /// Why the next could not be written.
        error: io::Error,
    },
    /// The same where each sector is a change of its own, as of [`Disk::erase_many`](crate::Disk::erase_many): what the sectors
    /// before it changed is done.
    Partly {
        /// How many were written before the one that failed.
        written: usize,
        /// How many there are.
        of: usize,
        /// Why the next could not be written.
        error: io::Error,
    },
    /// The same of a piece of a [`Recording`](crate::Recording), whose sectors were free: nothing that is seen has changed.
    Piece {
        /// How many were written before the one that failed.
        written: usize,
        /// How many there are.
        of: usize,
        /// Why the next could not be written.
        error: io::Error,
    },
    /// Nothing was written, because the sectors of an earlier change of this disk were not.
    Skipped,
}

impl WriteError {
    /// Whether the sector that failed was the last of a change. Before it only free sectors were written, or slots behind the
    /// directory's end, so the old disk is as it was. The last one holds the directory: where it failed it may have been
    /// written or not. Where each sector is a change of its own, each is the last.
    pub fn at_last(&self) -> bool {
        match self {
            WriteError::Stopped { written, of, .. } => written + 1 >= *of,
            WriteError::Partly { .. } => true,
            WriteError::Piece { .. } | WriteError::Skipped => false,
        }
    }

    /// How many sectors were written, how many there are, and why the next could not be.
    fn stopped(&self) -> Option<(usize, usize, &io::Error)> {
        match self {
            WriteError::Stopped { written, of, error }
            | WriteError::Partly { written, of, error }
            | WriteError::Piece { written, of, error } => Some((*written, *of, error)),
            WriteError::Skipped => None,
        }
    }
}

impl fmt::Display for WriteError {
    fn fmt(&self, f: &mut fmt::Formatter<'_>) -> fmt::Result {
        if let Some((written, of, error)) = self.stopped() {
            write!(f, "{written} of {of} sectors were written, and then: {error}. ")?;
        }
        f.write_str(match self {
            WriteError::Stopped { .. } if !self.at_last() => "The old disk is still there and reads as before",
            WriteError::Piece { .. } => "All files are there as before; the recording cannot go on",
            WriteError::Stopped { .. } => {
                "The directory's sector was the one that failed, and may hold the old bytes or the new: check the disk"
            }
            WriteError::Partly { .. } => {
                "The files erased in those are gone, and all others are still there; but the sector that failed may hold the \
                 old bytes or the new: check the disk"
            }
            WriteError::Skipped => {
                "nothing was written, because an earlier change of this disk was not written whole. \
                 Open the disk anew from where it is stored"
            }
        })
    }
}

impl Error for WriteError {
    fn source(&self) -> Option<&(dyn Error + 'static)> {
        self.stopped().map(|(_, _, error)| error as _)
    }
}
