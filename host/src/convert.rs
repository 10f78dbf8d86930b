//! The usual conversions of the standard library, each by the function that it stands for.
use crate::directory::Directory;
use crate::disk::{Disk, NotAccepted};
use crate::entry::Entry;
use crate::escape::{BadEscape, unescape};
use crate::image::{IMAGE_LENGTH, Image, WrongLength};
use crate::kind::{CarriedKind, Kind};
use crate::listing::Listing;
use crate::name::{NAME_LENGTH, Name, NewName, Unusable};
use crate::place::{SECTOR_LENGTH, SectorNumber};
use crate::refusal::{Refusal, Refused};
use crate::sectors::Sectors;
use std::error::Error;
use std::fmt;
use std::str::FromStr;

/// Why a text is no name: it has a backslash that begins no escape, or the bytes that it stands for are no usable name.
#[derive(Clone, Copy, Debug, PartialEq, Eq)]
#[non_exhaustive]
pub enum BadName {
    /// A backslash begins no escape.
    Escape(BadEscape),
    /// The bytes are no usable name: refusal 12.
    Unusable(Unusable),
}

impl fmt::Display for BadName {
    fn fmt(&self, f: &mut fmt::Formatter<'_>) -> fmt::Result {
        match self {
            BadName::Escape(bad) => bad.fmt(f),
            BadName::Unusable(why) => write!(f, "{}: it {why}", Refused::from(Refusal::UnusableName)),
        }
    }
}

impl Error for BadName {}

/// The bytes that a text stands for, where they are usable.
fn bytes_of(text: &str, unusable: fn(&[u8]) -> Option<Unusable>) -> Result<Vec<u8>, BadName> {
    let bytes = unescape(text.as_bytes()).map_err(BadName::Escape)?;
    match unusable(&bytes) {
        Some(why) => Err(BadName::Unusable(why)),
        None => Ok(bytes),
    }
}

/// A name is read as it is printed, with the escapes of [`escape`](mod@crate::escape).
///
/// ```
/// use varnucht::Name;
///
/// let name: Name = r"A\x2fB\\".parse()?;
/// assert_eq!(name, Name::new(b"A/B\\")?);
/// assert_eq!(name.to_string().parse::<Name>()?, name);
/// let bad = "ELEVEN BYTE".parse::<Name>().unwrap_err();
/// assert_eq!(bad.to_string(), "refusal 12: the name is not usable: it has 11 bytes, and a name has 1 to 10");
/// # Ok::<(), Box<dyn std::error::Error>>(())
/// ```
impl FromStr for Name {
    type Err = BadName;

    fn from_str(text: &str) -> Result<Name, BadName> {
        let bytes = bytes_of(text, |bytes| Name::unusable(bytes))?;
        // It is usable, so this is not refused.
        Name::new(bytes).map_err(|_| BadName::Unusable(Unusable::Empty))
    }
}

/// A new name is read as it is printed, likewise.
impl FromStr for NewName {
    type Err = BadName;

    fn from_str(text: &str) -> Result<NewName, BadName> {
        let bytes = bytes_of(text, |bytes| NewName::unusable(bytes))?;
        // It is usable, so this is not refused.
        NewName::new(bytes).map_err(|_| BadName::Unusable(Unusable::Empty))
    }
}

/// [`Name::new`]: the bytes as they are, without escapes.
impl TryFrom<&[u8]> for Name {
    type Error = Refused;

    fn try_from(bytes: &[u8]) -> Result<Name, Refused> {
        Name::new(bytes)
    }
}

/// [`Name::new`] of the ten bytes of a stored name.
impl TryFrom<[u8; NAME_LENGTH]> for Name {
    type Error = Refused;

    fn try_from(bytes: [u8; NAME_LENGTH]) -> Result<Name, Refused> {
        Name::new(bytes)
    }
}

/// [`NewName::new`]: the bytes as they are, without escapes.
impl TryFrom<&[u8]> for NewName {
    type Error = Refused;

    fn try_from(bytes: &[u8]) -> Result<NewName, Refused> {
        NewName::new(bytes)
    }
}

/// A name of the disk may be given to a file where its bytes allow it.
impl TryFrom<Name> for NewName {
    type Error = Refused;

    fn try_from(name: Name) -> Result<NewName, Refused> {
        NewName::new(name.trimmed())
    }
}

impl From<u8> for Kind {
    fn from(number: u8) -> Kind {
        Kind::new(number)
    }
}

/// A kind is read as it is printed, capitals or not, or as its number; a dash may stand for a space. Refused 2 where it is
/// neither.
///
/// ```
/// use varnucht::{CarriedKind, Kind};
///
/// for text in ["numeric array", "Numeric-Array", "17", "kind 17"] {
///     assert_eq!(text.parse::<Kind>()?.number(), 17);
///     assert_eq!(text.parse::<CarriedKind>()?, CarriedKind::NumericArray);
/// }
/// assert_eq!("tune".parse::<Kind>().unwrap_err().refusal.number(), 2);
/// assert_eq!("directory".parse::<CarriedKind>().unwrap_err().refusal.number(), 13);
/// # Ok::<(), varnucht::Refused>(())
/// ```
impl FromStr for Kind {
    type Err = Refused;

    fn from_str(text: &str) -> Result<Kind, Refused> {
        let plain = text.replace('-', " ");
        let digits = plain.strip_prefix("kind ").unwrap_or(&plain);
        let is_it = |kind: &Kind| kind.words().is_some_and(|words| words.eq_ignore_ascii_case(&plain));
        let named = (0..=u8::MAX).map(Kind::new).find(is_it);
        let all_digits = digits.bytes().all(|digit| digit.is_ascii_digit());
        let numbered = digits.parse().ok().filter(|_| all_digits).map(Kind::new);
        named.or(numbered).ok_or(Refusal::UnknownKind.into())
    }
}

/// The same of the kinds that can be saved. Refused 2 where it is no kind, and 13 where it is one that cannot be saved.
impl FromStr for CarriedKind {
    type Err = Refused;

    fn from_str(text: &str) -> Result<CarriedKind, Refused> {
        text.parse::<Kind>()?.try_into()
    }
}

/// [`CarriedKind::from_number`].
impl TryFrom<u8> for CarriedKind {
    type Error = Refused;

    fn try_from(number: u8) -> Result<CarriedKind, Refused> {
        CarriedKind::from_number(number.into())
    }
}

/// The same of a kind.
impl TryFrom<Kind> for CarriedKind {
    type Error = Refused;

    fn try_from(kind: Kind) -> Result<CarriedKind, Refused> {
        kind.number().try_into()
    }
}

/// [`Image::from_bytes`].
impl TryFrom<Vec<u8>> for Image {
    type Error = WrongLength;

    fn try_from(bytes: Vec<u8>) -> Result<Image, WrongLength> {
        Image::from_bytes(bytes)
    }
}

/// The image with a copy of these bytes. Refused 1 where they are not 819,200; then nothing is copied.
impl TryFrom<&[u8]> for Image {
    type Error = Refused;

    fn try_from(bytes: &[u8]) -> Result<Image, Refused> {
        match bytes.len() {
            IMAGE_LENGTH => Ok(Image::from_bytes(bytes.to_vec())?),
            _ => Err(Refusal::ImageLength.into()),
        }
    }
}

impl AsRef<[u8]> for Image {
    fn as_ref(&self) -> &[u8] {
        self.as_bytes()
    }
}

/// [`Disk::open`].
impl TryFrom<Image> for Disk {
    type Error = NotAccepted;

    fn try_from(image: Image) -> Result<Disk, NotAccepted> {
        Disk::open(image)
    }
}

impl Disk {
    /// A new disk without a file, with four directory tracks.
    ///
    /// ```
    /// use varnucht::Disk;
    ///
    /// assert_eq!(Disk::blank().listing().free(), 1_560);
    /// ```
    pub fn blank() -> Disk {
        Disk::blank_with(Directory::default())
    }

    /// A new disk without a file, with a directory of this size.
    pub fn blank_with(directory: Directory) -> Disk {
        Disk::open(Image::blank_with(directory)).expect("the library accepts a blank disk")
    }
}

/// The files, by rising slot.
impl<'l> IntoIterator for &'l Listing {
    type Item = &'l Entry;
    type IntoIter = std::slice::Iter<'l, Entry>;

    fn into_iter(self) -> Self::IntoIter {
        self.entries().iter()
    }
}

/// Each sector with its bytes, in the order of writing.
///
/// ```
/// use varnucht::{CarriedKind, Disk, NewFile, Start};
///
/// let mut disk = Disk::blank();
/// let sectors = disk.save(&NewFile::new(CarriedKind::Code, "TUNES".parse()?, Start::new(1, 32_768)?, b"la la la"))?;
/// for (number, bytes) in &sectors {
///     println!("write {} bytes at {}", bytes.len(), number.place());
/// }
/// for entry in disk.listing() {
///     println!("{}", entry.name());
/// }
/// # Ok::<(), Box<dyn std::error::Error>>(())
/// ```
impl<'d> IntoIterator for &Sectors<'d> {
    type Item = (SectorNumber, &'d [u8; SECTOR_LENGTH]);
    type IntoIter = std::vec::IntoIter<Self::Item>;

    fn into_iter(self) -> Self::IntoIter {
        self.iter().collect::<Vec<_>>().into_iter()
    }
}
