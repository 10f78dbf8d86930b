//! Refusals: the numbers of documents 01 and 02, and their words for them.
use std::error::Error;
use std::fmt;
use std::num::NonZeroU16;

/// Why a call was refused: a row of document 01's table, or one that document 02 adds to it.
#[derive(Clone, Copy, Debug, PartialEq, Eq, Hash)]
#[non_exhaustive]
pub enum Refusal {
    /// 1: the image is not 819,200 bytes.
    ImageLength,
    /// 2: the kind is not known.
    UnknownKind,
    /// 3: the first name byte is 0. It is given no more, since the directory ends there, and the number stays reserved.
    NoFirstNameByte,
    /// 4: the count is not 1 to the number of data sectors, or a directory's is not 0.
    Count,
    /// 5: the map's set bits are not as many as the count.
    MapCount,
    /// 6: the first address is not a data sector, or its bit is clear, or the map has a bit inside the directory.
    FirstAddress,
    /// 7: carried kind, and its sectors are too few for its length.
    TooFewSectors,
    /// 8: the map shares a bit with an earlier live slot.
    SharedSector,
    /// 9: the name is an earlier live slot's, capitals or not.
    SharedName,
    /// 10: the chain is broken.
    BrokenChain,
    /// 11: carried kind, and the header differs from the slot.
    Header,
    /// 12: the name is not usable.
    UnusableName,
    /// 13: the kind asked for or found is not one that this call takes.
    WrongKind,
    /// 14: start page above 31, or offset outside 32,768 to 49,151.
    StartOutside,
    /// 15: no live slot has the name, capitals or not.
    NotFound,
    /// 16: a live slot has the new name, capitals or not. A rename may alter the capitals of the file's own name; it is
    /// refused where another file has the name, or the file itself has it byte for byte.
    NameTaken,
    /// 17: the file is protected.
    Protected,
    /// 18: no slot is free: none before the directory's end is erased, and it has no end.
    NoFreeSlot,
    /// 19: fewer free sectors than the save takes.
    NoRoom,
    /// 20: a lent output buffer is too short.
    ShortBuffer,
    /// 21: no such drive, track or sector.
    NoSuchSector,
    /// 22: carried kind, and the file has more sectors than its length needs. The check before a release alone gives it.
    WasteSectors,
    /// 23: the names are not a whole number of tens. [`calls::erase_many`](crate::calls::erase_many) alone gives it; the types of
    /// [`Disk::erase_many`](crate::Disk::erase_many) rule it out.
    NamesNotTens,
    /// 24: slot 1 says a number of directory tracks that no disk has.
    DirectoryTracks,
    /// 25: a kind of the Spectrum, 1 to 4, and its sectors are too few for the length in its header.
    BodyTooLong,
    /// 26: a directory has code 0, or an earlier directory's code. [`Disk::tree`](crate::Disk::tree) alone gives it.
    CodeNotOwn,
    /// 27: the directory that a file or a directory is in is not there. [`Disk::tree`](crate::Disk::tree) alone gives it.
    DirectoryMissing,
    /// 28: a directory lies inside itself. [`Disk::tree`](crate::Disk::tree) alone gives it.
    DirectoryInItself,
    /// 29: a directory that something is in cannot be erased.
    DirectoryNotEmpty,
    /// 30: the disk is not the one that was recorded on: its used map or its directory tracks are not what they were at
    /// opening, or a sector of the recording lacks its link. A [`Recording`](crate::Recording) alone gives it.
    RecordingMoved,
    /// 31: a report that would pass 65,535 disks.
    ReportFull,
    /// 32: the file must move, and no run of consecutive free map bits is as long as it is.
    /// [`Disk::gather`](crate::Disk::gather) alone gives it.
    NoRun,
    /// A number that this table does not have. No call of today's library gives one.
    Unlisted(u8),
}

/// The table of document 01 with the rows that document 02 adds, by rising number.
const TABLE: [(u8, Refusal, &str); 32] = [
    (1, Refusal::ImageLength, "the image is not 819,200 bytes"),
    (2, Refusal::UnknownKind, "the kind is not known"),
    (3, Refusal::NoFirstNameByte, "the first name byte is 0 (given no more)"),
    (
        4,
        Refusal::Count,
        "the count is not 1 to the number of data sectors, or a directory's is not 0",
    ),
    (5, Refusal::MapCount, "the map's set bits are not as many as the count"),
    (
        6,
        Refusal::FirstAddress,
        "the first address is not a data sector, or its bit is clear, or the map has a bit inside the directory",
    ),
    (7, Refusal::TooFewSectors, "carried kind, and 510 × count is below 9 + length"),
    (8, Refusal::SharedSector, "the map shares a bit with an earlier live slot"),
    (9, Refusal::SharedName, "the name is an earlier live slot's, capitals or not"),
    (10, Refusal::BrokenChain, "the chain is broken"),
    (
        11,
        Refusal::Header,
        "carried kind, and the header's first byte (whole), remainder (mod 16,384) or pages differ from the slot's kind, \
         remainder, pages",
    ),
    (12, Refusal::UnusableName, "the name is not usable"),
    (
        13,
        Refusal::WrongKind,
        "the kind asked for (save) or found (read, start address, tree, gather) is not one that this call takes",
    ),
    (
        14,
        Refusal::StartOutside,
        "start page above 31, or offset outside 32,768 to 49,151 (save, start address)",
    ),
    (15, Refusal::NotFound, "no live slot has the name, capitals or not"),
    (16, Refusal::NameTaken, "a live slot has the new name, capitals or not"),
    (17, Refusal::Protected, "protected (erase, rename)"),
    (
        18,
        Refusal::NoFreeSlot,
        "no slot before the end is erased and there is no end (save)",
    ),
    (19, Refusal::NoRoom, "fewer free sectors than the save takes"),
    (20, Refusal::ShortBuffer, "a lent output buffer is too short"),
    (21, Refusal::NoSuchSector, "no such drive, track or sector"),
    (
        22,
        Refusal::WasteSectors,
        "carried kind, and the count is above the least that its length needs (waste sectors behind the file)",
    ),
    (
        23,
        Refusal::NamesNotTens,
        "the names are not a whole number of tens (erase many)",
    ),
    (
        24,
        Refusal::DirectoryTracks,
        "the number of directory tracks beyond four, byte 255 of slot 1, is 36 to 254",
    ),
    (
        25,
        Refusal::BodyTooLong,
        "kind 1 to 4, and 510 × count is below 9 + the length in the header",
    ),
    (
        26,
        Refusal::CodeNotOwn,
        "a directory with code 0 or an earlier directory's code (tree)",
    ),
    (
        27,
        Refusal::DirectoryMissing,
        "a live slot's byte 254 is not 0 and no directory's code (tree)",
    ),
    (
        28,
        Refusal::DirectoryInItself,
        "a directory lies inside itself at some depth (tree)",
    ),
    (
        29,
        Refusal::DirectoryNotEmpty,
        "a directory whose code, not 0, is another live slot's byte 254 (erase)",
    ),
    (
        30,
        Refusal::RecordingMoved,
        "the used map or n is not what it was at opening or a sector that its pieces listed lacks its link (recording)",
    ),
    (31, Refusal::ReportFull, "a disk or join that would pass 65,535 disks"),
    (
        32,
        Refusal::NoRun,
        "the file must move and no run of consecutive free map bits has its length (gather)",
    ),
];

impl Refusal {
    /// The refusal with this number; none for 0, which stands for "accepted".
    pub fn from_number(number: u8) -> Option<Refusal> {
        let row = TABLE.iter().find(|(listed, _, _)| *listed == number);
        (number != 0).then(|| row.map_or(Refusal::Unlisted(number), |(_, refusal, _)| *refusal))
    }

    /// The number of this refusal.
    ///
    /// ```
    /// assert_eq!(varnucht::Refusal::NotFound.number(), 15);
    /// ```
    pub fn number(self) -> u8 {
        match self {
            Refusal::Unlisted(number) => number,
            listed => listed.row().map_or(0, |(number, _, _)| *number),
        }
    }

    /// The papers' words: when this refusal is given.
    ///
    /// ```
    /// assert_eq!(varnucht::Refusal::NotFound.words(), "no live slot has the name, capitals or not");
    /// ```
    pub fn words(self) -> &'static str {
        self.row().map_or("a refusal that is not in the table", |(_, _, words)| words)
    }

    /// Its row of the table.
    fn row(self) -> Option<&'static (u8, Refusal, &'static str)> {
        TABLE.iter().find(|(_, refusal, _)| *refusal == self)
    }
}

/// The number of a slot of the directory, 1 to 778.
#[derive(Clone, Copy, Debug, PartialEq, Eq, PartialOrd, Ord, Hash)]
pub struct Slot(NonZeroU16);

impl Slot {
    /// The slot of this number; none for 0, which stands for "no slot".
    pub(crate) fn new(number: u16) -> Option<Slot> {
        NonZeroU16::new(number).map(Slot)
    }

    /// The slot's number.
    pub fn number(self) -> u16 {
        self.0.get()
    }
}

impl fmt::Display for Slot {
    fn fmt(&self, f: &mut fmt::Formatter<'_>) -> fmt::Result {
        self.0.fmt(f)
    }
}

/// A refused request: the reason, and the slot that it was found at.
///
/// Nothing that the request was about has changed.
///
/// ```
/// use varnucht::{Disk, Image, Name};
///
/// let disk = Disk::open(Image::blank())?;
/// let refused = disk.read(&Name::new("TUNES")?).unwrap_err();
/// assert_eq!(refused.refusal.number(), 15);
/// assert_eq!(refused.slot, None);
/// assert_eq!(refused.to_string(), "refusal 15: no live slot has the name, capitals or not");
/// # Ok::<(), Box<dyn std::error::Error>>(())
/// ```
#[derive(Clone, Copy, Debug, PartialEq, Eq, Hash)]
pub struct Refused {
    /// The reason.
    pub refusal: Refusal,
    /// The slot that the reason was found at; none where the reason is not in a slot.
    pub slot: Option<Slot>,
}

impl From<Refusal> for Refused {
    /// Refused for a reason that is in no slot.
    fn from(refusal: Refusal) -> Refused {
        Refused { refusal, slot: None }
    }
}

impl fmt::Display for Refused {
    fn fmt(&self, f: &mut fmt::Formatter<'_>) -> fmt::Result {
        write!(f, "refusal {}", self.refusal.number())?;
        if let Some(slot) = self.slot {
            write!(f, " at slot {slot}")?;
        }
        write!(f, ": {}", self.refusal.words())
    }
}

impl Error for Refused {}
