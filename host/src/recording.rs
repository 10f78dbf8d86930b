//! Save while recording: a save whose body comes in pieces.
use crate::calls::{self, SaveRequest};
use crate::change::{NO_EXECUTION, NewFile};
use crate::disk::Disk;
use crate::kind::CarriedKind;
use crate::name::NewName;
use crate::refusal::{Refusal, Refused};
use crate::sectors::Sectors;
use crate::start::Start;
use crate::store::{Store, WriteError};
use std::error::Error;
use std::fmt;
use std::io::{self, ErrorKind, Write};

/// A record has 2,048 bytes.
const RECORD_LENGTH: usize = 2_048;

/// The bytes of a list with room for every piece: all data sectors but the first and the last, two bytes to a number.
const PIECE_LIST_LENGTH: usize = 2 * 1_558;

/// The same for a close: the last sector, the first, and two of the directory.
const CLOSE_LIST_LENGTH: usize = 2 * 4;

/// A file to record: all that a save asks for but its body.
#[derive(Clone, Copy, Debug)]
pub struct Particulars {
    /// Its kind.
    pub kind: CarriedKind,
    /// Its name.
    pub name: NewName,
    /// Where it starts in memory.
    pub start: Start,
    /// For code the page and the offset to begin at, for BASIC the line.
    pub execution: [u8; 3],
    /// Eleven bytes whose meaning hangs on the kind.
    pub information: [u8; 11],
}

impl Particulars {
    /// A file that does not run when it is loaded, with kind information of zeros.
    pub fn new(kind: CarriedKind, name: NewName, start: Start) -> Particulars {
        Particulars {
            kind,
            name,
            start,
            execution: NO_EXECUTION,
            information: [0; 11],
        }
    }

    /// The file to save with this body.
    pub fn with_body<'a>(&self, body: &'a [u8]) -> NewFile<'a> {
        NewFile {
            kind: self.kind,
            name: self.name,
            start: self.start,
            execution: self.execution,
            information: self.information,
            body,
        }
    }
}

/// What is kept of a recording between its pieces: 2,048 bytes, however long it is. [`Disk::open_record`] gives it.
///
/// It holds no disk. So the disk may be changed between the pieces, and two recordings may be open at once; where that leaves
/// no recording to go on with, the next call is refused 30. A [`Recording`] keeps it together with a disk and a store.
#[derive(Clone, PartialEq, Eq)]
pub struct Record([u8; RECORD_LENGTH]);

impl fmt::Debug for Record {
    fn fmt(&self, f: &mut fmt::Formatter<'_>) -> fmt::Result {
        f.debug_struct("Record").finish_non_exhaustive()
    }
}

/// Save while recording, with a [`Record`] and with what each call gives to write. [`record`](Disk::record) does both.
impl Disk {
    /// Opens a recording of this file. Nothing is changed.
    ///
    /// # Errors
    ///
    /// Refused as a save with an empty body is: 16 with the slot that has the name, 18 and 19.
    pub fn open_record(&self, file: &Particulars) -> Result<Record, Refused> {
        let mut record = [0; RECORD_LENGTH];
        calls::record_open(self.image().as_bytes(), &request(file), &mut record).decode()?;
        Ok(Record(record))
    }

    /// Adds a piece, of any length, to a recording. Each of its sectors after the first is to be written when a byte beyond it
    /// has come, so that often there is none. Nothing that is seen of the disk changes, whether they are written or not.
    ///
    /// A piece costs its own bytes, a look at the disk, and one at each link that the recording has so far.
    ///
    /// # Errors
    ///
    /// Refused 30 where the disk is not the one that was recorded on: its used sectors or its directory tracks are not what
    /// they were at opening, or a sector that the pieces have written leads elsewhere. Refused 19 where the pieces do not fit.
    /// Then the record is as before.
    pub fn add_piece(&mut self, record: &mut Record, piece: &[u8]) -> Result<Sectors<'_>, Refused> {
        let mut list = [0; PIECE_LIST_LENGTH];
        let image = self.image_mut().as_bytes_mut();
        let done = calls::record_add(image, piece, &mut record.0, &mut list).decode()?;
        Ok(self.piece_sectors(&list, done.value))
    }

    /// Makes a recording a file: its last sector, its first and the directory's are to be written, in this order, and until
    /// the last of them is, all files are as before. The record stays as it is, so that this can be asked again.
    ///
    /// Where nothing else changed the disk since the recording was opened, it is now as one save of the joined pieces would
    /// have left it, byte for byte. Else the file reads as its sectors do, and no other file is altered.
    ///
    /// # Errors
    ///
    /// Refused 30 as [`add_piece`](Disk::add_piece) is, 16 with the slot where a file got the name since, and 18 where the last
    /// slot was taken since.
    pub fn close_record(&mut self, record: &Record) -> Result<Sectors<'_>, Refused> {
        let mut list = [0; CLOSE_LIST_LENGTH];
        let done = calls::record_close(self.image_mut().as_bytes_mut(), &record.0, &mut list).decode()?;
        self.change_sectors(&list, done.value)
    }

    /// Opens a recording of this file that writes to a store, which holds this disk, as its pieces come.
    ///
    /// # Errors
    ///
    /// Refused as [`open_record`](Disk::open_record) is.
    pub fn record<'d, S: Store>(&'d mut self, file: &Particulars, store: &'d mut S) -> Result<Recording<'d, S>, Refused> {
        let record = self.open_record(file)?;
        Ok(Recording::resume(self, store, record, 0))
    }
}

/// A file to record, as the library is asked for it.
fn request(file: &Particulars) -> SaveRequest<'_> {
    SaveRequest {
        kind: file.kind.number().into(),
        name: file.name.as_bytes(),
        page: file.start.page().into(),
        offset: file.start.offset().into(),
        execution: &file.execution,
        information: &file.information,
        body: &[],
    }
}

/// A file that is saved while it is recorded: what is written to it is stored as it comes, as with any
/// [`Write`](std::io::Write), and nobody needs to know before how long it will be.
///
/// Each sector is written and flushed as soon as a byte beyond it has come. All of them were free, so nothing is seen of the
/// recording until it is closed: given up, or cut short anywhere, it leaves the store with all files as they were. The closed
/// disk is the one that a single save of the whole leaves, byte for byte.
///
/// ```
/// use std::io::Write;
/// use varnucht::{CarriedKind, Disk, Image, NewName, Particulars, Start};
/// # use varnucht::{SECTOR_LENGTH, SectorNumber, Store};
/// # struct Memory(Image);
/// # impl Store for Memory {
/// #     fn write_sector(&mut self, number: SectorNumber, bytes: &[u8; SECTOR_LENGTH]) -> std::io::Result<()> {
/// #         self.0.as_bytes_mut()[number.place()..][..SECTOR_LENGTH].copy_from_slice(bytes);
/// #         Ok(())
/// #     }
/// # }
/// # let mut store = Memory(Image::blank());
///
/// let mut disk = Disk::open(Image::blank())?;
/// let file = Particulars::new(CarriedKind::Code, NewName::new("TUNE")?, Start::new(1, 32_768)?);
/// let mut recording = disk.record(&file, &mut store)?;
/// for _ in 0..1_000 {
///     recording.write_all(b"la ")?;
/// }
/// recording.close()?;
///
/// assert_eq!(disk.read(&file.name.name())?, b"la ".repeat(1_000));
/// assert_eq!(&store.0, disk.image());
/// # Ok::<(), Box<dyn std::error::Error>>(())
/// ```
///
/// It borrows the disk and the store. To change the disk in between, take the record, and go on with it later:
///
/// ```
/// # use std::io::Write;
/// use varnucht::{Disk, Name, Particulars, Recording, Store};
///
/// fn hide_meanwhile(
///     disk: &mut Disk,
///     store: &mut impl Store,
///     file: &Particulars,
///     other: &Name,
/// ) -> Result<(), Box<dyn std::error::Error>> {
///     let mut recording = disk.record(file, store)?;
///     recording.write_all(b"la la")?;
///     let (record, bytes) = recording.pause();
///     disk.hide(other)?.write_to(store, |_, _| {})?;
///     let mut recording = Recording::resume(disk, store, record, bytes);
///     recording.write_all(b" la")?;
///     recording.close()?;
///     Ok(())
/// }
/// ```
#[must_use = "a recording that is not closed leaves no file"]
pub struct Recording<'d, S> {
    disk: &'d mut Disk,
    store: &'d mut S,
    record: Record,
    bytes: u64,
}

impl<'d, S: Store> Recording<'d, S> {
    /// Goes on with a recording that [`pause`](Recording::pause) interrupted, so many bytes long. Where the disk is not the one
    /// that was recorded on, the next piece is refused 30.
    pub fn resume(disk: &'d mut Disk, store: &'d mut S, record: Record, bytes: u64) -> Recording<'d, S> {
        Recording {
            disk,
            store,
            record,
            bytes,
        }
    }

    /// Gives disk and store free, and what is kept of the recording, with how many bytes came.
    pub fn pause(self) -> (Record, u64) {
        (self.record, self.bytes)
    }

    /// How many bytes came.
    pub fn bytes(&self) -> u64 {
        self.bytes
    }

    /// Adds a piece and writes the sectors that it completes. Gives how many they are. [`Write`](std::io::Write) does the same.
    ///
    /// # Errors
    ///
    /// Where the piece is refused, [19 or 30](Disk::add_piece), the recording is as before. Where a sector cannot be written
    /// it cannot go on: every later piece and the close fail with [`WriteError::Skipped`].
    pub fn add(&mut self, piece: &[u8]) -> Result<usize, RecordError> {
        let mut sectors = self.disk.add_piece(&mut self.record, piece)?;
        sectors.write_to(self.store, |_, _| {})?;
        let many = sectors.numbers().len();
        self.bytes += piece.len() as u64;
        Ok(many)
    }

    /// Makes the recording a file, and writes its last sectors. Gives how many they are.
    ///
    /// # Errors
    ///
    /// Refused as [`close_record`](Disk::close_record) is; or a sector cannot be written, and then all files are as before until the
    /// last one is.
    pub fn close(self) -> Result<usize, RecordError> {
        let mut sectors = self.disk.close_record(&self.record)?;
        sectors.write_to(self.store, |_, _| {})?;
        Ok(sectors.numbers().len())
    }
}

impl<S: Store> Write for Recording<'_, S> {
    /// Adds all bytes or none. Where they do not fit the kind of the error is [`ErrorKind::StorageFull`]; inside it is a
    /// [`RecordError`].
    fn write(&mut self, piece: &[u8]) -> io::Result<usize> {
        self.add(piece)?;
        Ok(piece.len())
    }

    /// Every sector is flushed when it is written. The first and the last are written by [`close`](Recording::close), and this
    /// does nothing.
    fn flush(&mut self) -> io::Result<()> {
        Ok(())
    }
}

impl<S> fmt::Debug for Recording<'_, S> {
    fn fmt(&self, f: &mut fmt::Formatter<'_>) -> fmt::Result {
        f.debug_struct("Recording")
            .field("bytes", &self.bytes)
            .finish_non_exhaustive()
    }
}

/// Why a recording does not go on.
#[derive(Debug)]
pub enum RecordError {
    /// The library refused the piece or the close.
    Refused(Refused),
    /// A sector could not be written.
    Unwritten(WriteError),
}

impl From<Refused> for RecordError {
    fn from(refused: Refused) -> RecordError {
        RecordError::Refused(refused)
    }
}

impl From<WriteError> for RecordError {
    fn from(error: WriteError) -> RecordError {
        RecordError::Unwritten(error)
    }
}

impl From<RecordError> for io::Error {
    fn from(error: RecordError) -> io::Error {
        let kind = match &error {
            RecordError::Refused(refused) if refused.refusal == Refusal::NoRoom => ErrorKind::StorageFull,
            // Not the kind of the write's own error: one that was interrupted must not be tried again with the same bytes.
            _ => ErrorKind::Other,
        };
        io::Error::new(kind, error)
    }
}

impl fmt::Display for RecordError {
    fn fmt(&self, f: &mut fmt::Formatter<'_>) -> fmt::Result {
        match self {
            RecordError::Refused(refused) => refused.fmt(f),
            RecordError::Unwritten(error) => error.fmt(f),
        }
    }
}

impl Error for RecordError {
    fn source(&self) -> Option<&(dyn Error + 'static)> {
        match self {
            RecordError::Refused(refused) => Some(refused),
            RecordError::Unwritten(error) => Some(error),
        }
    }
}
