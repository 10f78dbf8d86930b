//! Image files: opened, locked and read.
use crate::tool::command_line::arguments::Arguments;
use crate::tool::failure::{Failure, Outcome, Reason};
use crate::tool::files::input::{STANDARD, read_at_most, standard_input};
use crate::tool::files::signatures;
use crate::tool::output;
use crate::tool::printable::printable_path;
use crate::tool::system;
use std::ffi::{OsStr, OsString};
use std::fs::{self, File, TryLockError};
use std::io::{self, ErrorKind, Seek};
use std::os::unix::fs::MetadataExt;
use varnucht::{Disk, IMAGE_LENGTH, Image, Refusal, SECTOR_LENGTH, SectorNumber, Store, WrongLength};

/// The image in the file at the first place.
pub fn image(arguments: &Arguments) -> Result<Image, Failure> {
    image_at(arguments, arguments.word(0))
}

/// The image in this file of the command line.
pub fn image_at(arguments: &Arguments, path: &OsStr) -> Result<Image, Failure> {
    open(path, &LockPolicy::new(arguments, &output::say), |file| read(file, path))
}

/// What a command does where another program has locked a file: it waits, and says so, unless it shall not wait.
pub struct LockPolicy<'a> {
    no_wait: bool,
    say: &'a dyn Fn(&str),
}

impl<'a> LockPolicy<'a> {
    /// As the command line asks for.
    pub fn new(arguments: &Arguments, say: &'a dyn Fn(&str)) -> LockPolicy<'a> {
        LockPolicy {
            no_wait: arguments.has("--no-wait"),
            say,
        }
    }
}

/// Opens the file at a path, or standard input for `-`, and reads it. The file is locked meanwhile, so that no change of
/// another program comes in between.
pub fn open<T>(path: &OsStr, wait: &LockPolicy, read: impl FnOnce(&mut File) -> Result<T, Failure>) -> Result<T, Failure> {
    if path == STANDARD {
        // A lock on standard input would be that of whoever opened it, so the file is opened anew for the lock.
        let anew = File::open("/dev/stdin");
        if let Ok(file) = &anew {
            share(file, path, wait)?;
        }
        return read(&mut *standard_input()?);
    }
    let mut file = File::open(path).map_err(|error| Failure::io(path, error))?;
    share(&file, path, wait)?;
    read(&mut file)
}

/// Locks a file that is read. What cannot be locked can be read all the same.
fn share(file: &File, path: &OsStr, wait: &LockPolicy) -> Outcome {
    match lock(file, path, wait, false) {
        Err(Failure::Io(_, error)) if error.kind() != ErrorKind::WouldBlock => Ok(()),
        locked => locked,
    }
}

/// The disk in the file at the first place.
pub fn disk(arguments: &Arguments) -> Result<Disk, Failure> {
    disk_at(arguments, arguments.word(0))
}

/// The disk in this file of the command line.
pub fn disk_at(arguments: &Arguments, path: &OsStr) -> Result<Disk, Failure> {
    Disk::open(image_at(arguments, path)?).map_err(|error| Failure::not_accepted(path, error))
}

/// The disk in the file at the first place, to be changed. The file is locked for this process alone as long as it is held.
pub fn open_for_change(arguments: &Arguments) -> Result<(LockedImage, Disk), Failure> {
    let path = arguments.word(0);
    let failed = |error| Failure::io(path, error);
    let mut locked = LockedImage {
        file: open_to_change(path).map_err(failed)?,
        path: path.into(),
    };
    let whole = locked.length().map_err(failed)? == WHOLE;
    lock(&locked.file, path, &LockPolicy::new(arguments, &output::say), true)?;
    let image = read(&mut locked.file, path);
    // A file that was no image from the start is refused as one.
    if whole { locked.still_whole() } else { locked.still_there() }.map_err(failed)?;
    let disk = Disk::open(image?).map_err(|error| Failure::not_accepted(path, error))?;
    Ok((locked, disk))
}

/// An image's file, open and locked to be changed, and the path that led to it.
pub struct LockedImage {
    file: File,
    path: OsString,
}

impl LockedImage {
    /// Whether the path still leads to this file, and the file has an image's length: else what is written to it is lost.
    pub fn still_whole(&self) -> io::Result<()> {
        self.still_there()?;
        match self.length()? {
            WHOLE => Ok(()),
            length => Err(io::Error::other(format!("it has {length} bytes now{NOT_SAVED}"))),
        }
    }

    /// Whether the file holds this image and no other bytes. A cut, and a sector written behind it, bring the length back.
    pub fn holds(&mut self, image: &Image) -> io::Result<()> {
        self.file.rewind()?;
        match read_at_most(&mut self.file, IMAGE_LENGTH)? == image.as_bytes() {
            true => Ok(()),
            false => Err(io::Error::other(
                "it holds other bytes than were written: another program changed it meanwhile, so check it",
            )),
        }
    }

    /// Whether the path still leads to this file.
    fn still_there(&self) -> io::Result<()> {
        let place = |found: fs::Metadata| (found.dev(), found.ino());
        match fs::metadata(&self.path).map(place) {
            Ok(found) if found == place(self.file.metadata()?) => Ok(()),
            Ok(_) => Err(io::Error::other(format!(
                "another file has taken its place meanwhile{NOT_SAVED}"
            ))),
            Err(error) if error.kind() == ErrorKind::NotFound => {
                Err(io::Error::other(format!("it was removed meanwhile{NOT_SAVED}")))
            }
            Err(error) => Err(error),
        }
    }

    /// How many bytes the file has.
    fn length(&self) -> io::Result<u64> {
        Ok(self.file.metadata()?.len())
    }
}

/// An image's length, as files give theirs.
const WHOLE: u64 = IMAGE_LENGTH as u64;

/// What follows when the file is not there as it was.
const NOT_SAVED: &str = ": the change is not saved";

/// A sector is written where the file is still there as it was, and no signal came. The file is asked for again when all are
/// written.
impl Store for LockedImage {
    fn write_sector(&mut self, number: SectorNumber, bytes: &[u8; SECTOR_LENGTH]) -> io::Result<()> {
        system::check_signals()?;
        self.still_whole()?;
        self.file.write_sector(number, bytes)
    }
}

/// Opens a file for reading and writing. A pipe or a terminal holds no disk, and reading it could wait for ever.
fn open_to_change(path: &OsStr) -> io::Result<File> {
    let file = File::options().read(true).write(true).open(path)?;
    match file.metadata()?.is_file() {
        true => Ok(file),
        false => Err(io::Error::other("it is not a file, so it cannot be changed")),
    }
}

/// Locks a file, alone or shared. Where another program holds it this waits, and says so, unless it shall not.
fn lock(file: &File, path: &OsStr, wait: &LockPolicy, alone: bool) -> Result<(), Failure> {
    let tried = if alone { file.try_lock() } else { file.try_lock_shared() };
    match tried {
        Ok(()) => Ok(()),
        Err(TryLockError::Error(error)) => Err(Failure::io(path, error)),
        Err(TryLockError::WouldBlock) if wait.no_wait => Err(Failure::io(
            path,
            io::Error::new(ErrorKind::WouldBlock, "another program has locked it"),
        )),
        Err(TryLockError::WouldBlock) => {
            (wait.say)(&format!(
                "{}: waiting for another program that has locked it",
                printable_path(path)
            ));
            let waited = if alone { file.lock() } else { file.lock_shared() };
            waited.map_err(|error| Failure::io(path, error))
        }
    }
}

/// The image that a file holds. Of a longer file no more is read than shows that it is too long.
fn read(file: &mut File, path: &OsStr) -> Result<Image, Failure> {
    let bytes = read_at_most(file, IMAGE_LENGTH).map_err(|error| Failure::io(path, error))?;
    Image::from_bytes(bytes).map_err(|wrong| Failure::not_accepted(path, no_image(file, wrong)))
}

/// Refusal 1, how long the file is, and what it looks like, where that is known.
fn no_image(file: &File, wrong: WrongLength) -> Reason {
    let bytes = wrong.into_bytes();
    let length = match (bytes.len() > IMAGE_LENGTH, file.metadata()) {
        (false, _) => bytes.len().to_string(),
        (true, Ok(found)) if found.is_file() => found.len().to_string(),
        (true, _) => "more".into(),
    };
    let looks = signatures::recognized(&bytes).map_or(String::new(), |words| format!("\n{words}"));
    Reason {
        refused: Refusal::ImageLength.into(),
        more: Some(format!("it has {length}{looks}")),
    }
}
