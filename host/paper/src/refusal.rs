//! The numbers of refusal, each under a name.

/// Why a call was refused, by the paper's number, and the slot where it was found (0: none).
#[derive(Clone, Copy, Debug, PartialEq, Eq)]
pub struct Refused {
    pub number: u8,
    pub slot: u16,
}

/// The rows of the paper's table. The value of a case is its number.
#[derive(Clone, Copy, Debug, PartialEq, Eq)]
#[repr(u8)]
pub enum Reason {
    ImageLength = 1,
    KindUnknown = 2,
    // 3 is given no more: the directory ends at a slot whose first name byte is 0.
    CountOutOfRange = 4,
    MapUnlikeCount = 5,
    FirstNotInMap = 6,
    TooFewSectors = 7,
    MapShared = 8,
    NameTwice = 9,
    ChainBroken = 10,
    HeaderDiffers = 11,
    NameNotUsable = 12,
    WrongKind = 13,
    AddressOutOfRange = 14,
    NoSuchName = 15,
    NameTaken = 16,
    Protected = 17,
    NoFreeSlot = 18,
    DiskFull = 19,
    BufferTooShort = 20,
    NoSuchSector = 21,
    WasteSectors = 22,
    NamesNotTens = 23,
    TracksOutOfRange = 24,
    BodyTooLong = 25,
    CodeNotOwn = 26,
    NoSuchDirectory = 27,
    InsideItself = 28,
    NotEmpty = 29,
    RecordingMoved = 30,
    ReportFull = 31,
    NoRun = 32,
}

impl Reason {
    /// The refusal found at a slot.
    pub fn at(self, slot: u16) -> Refused {
        Refused {
            number: self as u8,
            slot,
        }
    }

    /// The refusal that belongs to no slot.
    pub fn alone(self) -> Refused {
        self.at(0)
    }
}
