//! Kinds of files.
use crate::refusal::{Refusal, Refused};
use std::fmt;

/// The kind of a file on a disk.
///
/// It prints as the manual's word for it, or as `kind N` where the manual has none.
///
/// ```
/// use varnucht::{CarriedKind, Kind};
///
/// assert_eq!(Kind::from(CarriedKind::Screen).to_string(), "screen");
/// assert_eq!(Kind::new(5).to_string(), "ZX snapshot 48K");
/// assert_eq!(Kind::new(13).to_string(), "kind 13");
/// ```
#[derive(Clone, Copy, Debug, PartialEq, Eq, PartialOrd, Ord, Hash)]
pub struct Kind(u8);

/// The SAMDOS types of the SAM Coupé Technical Manual, with those of MasterDOS and later systems.
const WORDS: [(u8, &str); 20] = [
    (1, "ZX BASIC"),
    (2, "ZX numeric array"),
    (3, "ZX string array"),
    (4, "ZX generic"),
    (5, "ZX snapshot 48K"),
    (6, "microdrive"),
    (7, "ZX screen"),
    (8, "special"),
    (9, "ZX snapshot 128K"),
    (10, "opentype"),
    (11, "execute"),
    (12, "ZX directory"),
    (16, "BASIC"),
    (17, "numeric array"),
    (18, "string array"),
    (19, "code"),
    (20, "screen"),
    (21, "directory"),
    (22, "DRiVER application"),
    (23, "DRiVER boot"),
];

impl Kind {
    /// A directory of MasterDOS.
    pub const DIRECTORY: Kind = Kind(21);

    /// The kind with this number.
    pub fn new(number: u8) -> Kind {
        Kind(number)
    }

    /// The kind's number. On an accepted disk it is 1 to 12 or 16 to 23.
    pub fn number(self) -> u8 {
        self.0
    }

    /// The manual's word for it; none where it has none.
    pub fn words(self) -> Option<&'static str> {
        WORDS.iter().find(|(number, _)| *number == self.0).map(|(_, words)| *words)
    }

    /// Whether it is a Spectrum file with a header of the Plus D, 1 to 4. It can be read and not saved. Its length and its
    /// start stand in that header: [`Disk::length`](crate::Disk::length) and [`Disk::start`](crate::Disk::start) give them.
    pub fn is_spectrum(self) -> bool {
        matches!(self.0, 1..=4)
    }

    /// Whether it is a directory of MasterDOS, 21. It takes a slot and no sectors: [`Disk::tree`](crate::Disk::tree) gives
    /// what lies beneath it.
    pub fn is_directory(self) -> bool {
        self == Kind::DIRECTORY
    }

    /// The carried kind that it is; none for the others, which the library does not save. Of those it reads
    /// [those of the Spectrum](Kind::is_spectrum) alone.
    pub fn carried(self) -> Option<CarriedKind> {
        CarriedKind::ALL.into_iter().find(|kind| kind.number() == self.0)
    }
}

impl fmt::Display for Kind {
    fn fmt(&self, f: &mut fmt::Formatter<'_>) -> fmt::Result {
        match self.words() {
            Some(words) => f.pad(words),
            None => f.pad(&format!("kind {}", self.0)),
        }
    }
}

impl From<CarriedKind> for Kind {
    fn from(kind: CarriedKind) -> Kind {
        Kind(kind.number())
    }
}

/// The kinds that the library saves. It reads them, and kinds 1 to 4 beside them: [`Kind::is_spectrum`].
#[derive(Clone, Copy, Debug, PartialEq, Eq, PartialOrd, Ord, Hash)]
#[repr(u8)]
pub enum CarriedKind {
    /// 16: a SAM BASIC program.
    Basic = 16,
    /// 17: an array of numbers.
    NumericArray = 17,
    /// 18: an array of strings.
    StringArray = 18,
    /// 19: machine code or other bytes.
    Code = 19,
    /// 20: a screen.
    Screen = 20,
}

impl CarriedKind {
    /// All five, rising.
    pub const ALL: [CarriedKind; 5] = [
        CarriedKind::Basic,
        CarriedKind::NumericArray,
        CarriedKind::StringArray,
        CarriedKind::Code,
        CarriedKind::Screen,
    ];

    /// The carried kind with this number.
    ///
    /// # Errors
    ///
    /// Refused 13 outside 16 to 20.
    ///
    /// ```
    /// use varnucht::CarriedKind;
    ///
    /// assert_eq!(CarriedKind::from_number(19)?, CarriedKind::Code);
    /// assert_eq!(CarriedKind::from_number(21).unwrap_err().refusal.number(), 13);
    /// # Ok::<(), varnucht::Refused>(())
    /// ```
    pub fn from_number(number: u32) -> Result<CarriedKind, Refused> {
        CarriedKind::ALL
            .into_iter()
            .find(|kind| u32::from(kind.number()) == number)
            .ok_or(Refusal::WrongKind.into())
    }

    /// The kind's number, 16 to 20.
    pub fn number(self) -> u8 {
        self as u8
    }
}

impl fmt::Display for CarriedKind {
    fn fmt(&self, f: &mut fmt::Formatter<'_>) -> fmt::Result {
        Kind::from(*self).fmt(f)
    }
}
