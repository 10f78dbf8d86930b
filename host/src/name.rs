//! Names of files: those that can be asked for, and those that a file can be given.
use crate::escape::escape;
use crate::refusal::{Refusal, Refused};
use std::cmp::Ordering;
use std::fmt;
use std::hash::{Hash, Hasher};

/// A stored name has ten bytes.
pub const NAME_LENGTH: usize = 10;

/// A name that can be asked for: 1 to 10 bytes, the first not 0, filled with spaces to ten.
///
/// Two names are equal when those ten bytes are, where a to z count as A to Z: then they find the same file. The bytes stay
/// as they were given. As text it is printed without the spaces that fill it, and with the escapes of
/// [`escape`](mod@crate::escape), so that every name can be typed back.
///
/// ```
/// use varnucht::Name;
///
/// let name = Name::new("TUNES")?;
/// assert_eq!(name, Name::new("TUNES  ")?);
/// assert_eq!(name.as_bytes(), b"TUNES     ");
/// assert_eq!(name.to_string(), "TUNES");
/// assert_eq!(name, Name::new("tunes")?); // capitals or not, it is the same name
/// assert_eq!(Name::new("tunes")?.to_string(), "tunes");
/// assert_eq!(Name::new([65, 0, 255])?.to_string(), r"A\x00\xff");
/// assert_eq!(Name::new("").unwrap_err().refusal.number(), 12);
/// # Ok::<(), varnucht::Refused>(())
/// ```
#[derive(Clone, Copy)]
pub struct Name([u8; NAME_LENGTH]);

impl Name {
    /// The name with these bytes.
    ///
    /// # Errors
    ///
    /// Refused 12 where there is none or are more than ten, or the first is 0.
    pub fn new(bytes: impl AsRef<[u8]>) -> Result<Name, Refused> {
        let given = bytes.as_ref();
        if Name::unusable(given).is_some() {
            return Err(Refusal::UnusableName.into());
        }
        let mut filled = [b' '; NAME_LENGTH];
        filled[..given.len()].copy_from_slice(given);
        Ok(Name(filled))
    }

    /// Why these bytes cannot be asked for as a name; none where they can.
    ///
    /// ```
    /// use varnucht::Name;
    ///
    /// let why = Name::unusable("ELEVEN BYTE").unwrap();
    /// assert_eq!(format!("it {why}"), "it has 11 bytes, and a name has 1 to 10");
    /// assert_eq!(Name::unusable("TUNES"), None);
    /// ```
    pub fn unusable(bytes: impl AsRef<[u8]>) -> Option<Unusable> {
        match bytes.as_ref() {
            [] => Some(Unusable::Empty),
            given if given.len() > NAME_LENGTH => Some(Unusable::TooLong(given.len())),
            [0, ..] => Some(Unusable::FirstZero),
            _ => None,
        }
    }

    /// The name that a slot of an accepted disk holds.
    pub(crate) fn stored(bytes: [u8; NAME_LENGTH]) -> Name {
        Name(bytes)
    }

    /// All ten bytes, as they are stored.
    pub fn as_bytes(&self) -> &[u8; NAME_LENGTH] {
        &self.0
    }

    /// The ten bytes that names are compared by: A to Z for a to z, and every other byte as it is.
    fn folded(&self) -> [u8; NAME_LENGTH] {
        self.0.map(|byte| byte.to_ascii_uppercase())
    }

    /// The bytes without the spaces that fill the name; the first byte always stays.
    pub fn trimmed(&self) -> &[u8] {
        let last = self.0.iter().rposition(|byte| *byte != b' ').unwrap_or(0);
        &self.0[..=last]
    }
}

impl PartialEq for Name {
    fn eq(&self, other: &Name) -> bool {
        self.folded() == other.folded()
    }
}

impl Eq for Name {}

impl Ord for Name {
    fn cmp(&self, other: &Name) -> Ordering {
        self.folded().cmp(&other.folded())
    }
}

impl PartialOrd for Name {
    fn partial_cmp(&self, other: &Name) -> Option<Ordering> {
        Some(self.cmp(other))
    }
}

impl Hash for Name {
    fn hash<H: Hasher>(&self, state: &mut H) {
        self.folded().hash(state);
    }
}

impl fmt::Display for Name {
    fn fmt(&self, f: &mut fmt::Formatter<'_>) -> fmt::Result {
        f.pad(&escape(self.trimmed()))
    }
}

impl fmt::Debug for Name {
    fn fmt(&self, f: &mut fmt::Formatter<'_>) -> fmt::Result {
        write!(f, "Name({self})")
    }
}

/// A name that a file can be given: a [`Name`] whose bytes are 32 to 126, the first not 32.
///
/// ```
/// use varnucht::{Name, NewName};
///
/// assert_eq!(NewName::new("MY TUNES")?.name(), Name::new("MY TUNES")?);
/// assert!(NewName::new(" TUNES").is_err());
/// assert!(NewName::new("TUNES\n").is_err());
/// # Ok::<(), varnucht::Refused>(())
/// ```
#[derive(Clone, Copy, PartialEq, Eq, PartialOrd, Ord, Hash)]
pub struct NewName(Name);

impl NewName {
    /// The new name with these bytes.
    ///
    /// # Errors
    ///
    /// Refused 12 where [`Name::new`] refuses them, where one is outside 32 to 126, and where the first is a space.
    pub fn new(bytes: impl AsRef<[u8]>) -> Result<NewName, Refused> {
        match NewName::unusable(&bytes) {
            Some(_) => Err(Refusal::UnusableName.into()),
            None => Name::new(bytes).map(NewName),
        }
    }

    /// Why these bytes cannot be a new name; none where they can.
    pub fn unusable(bytes: impl AsRef<[u8]>) -> Option<Unusable> {
        let given = bytes.as_ref();
        let outside = || given.iter().position(|byte| !(32..=126).contains(byte));
        let unprinted = |place: usize| Unusable::Unprinted {
            place,
            byte: given[place],
        };
        Name::unusable(given)
            .or_else(|| given.starts_with(b" ").then_some(Unusable::FirstSpace))
            .or_else(|| outside().map(unprinted))
    }

    /// The name, to ask for the file by.
    pub fn name(self) -> Name {
        self.0
    }

    /// All ten bytes, as they are stored.
    pub fn as_bytes(&self) -> &[u8; NAME_LENGTH] {
        self.0.as_bytes()
    }
}

impl From<NewName> for Name {
    fn from(new: NewName) -> Name {
        new.name()
    }
}

impl fmt::Display for NewName {
    fn fmt(&self, f: &mut fmt::Formatter<'_>) -> fmt::Result {
        self.0.fmt(f)
    }
}

impl fmt::Debug for NewName {
    fn fmt(&self, f: &mut fmt::Formatter<'_>) -> fmt::Result {
        write!(f, "NewName({self})")
    }
}

/// Why bytes are no usable name: more than refusal 12 tells. As text it is said of the name: `has 11 bytes, ..`.
#[derive(Clone, Copy, Debug, PartialEq, Eq)]
#[non_exhaustive]
pub enum Unusable {
    /// There is no byte.
    Empty,
    /// There are so many bytes, more than ten.
    TooLong(usize),
    /// The first byte is 0.
    FirstZero,
    /// The first byte of a new name is a space.
    FirstSpace,
    /// A byte of a new name is outside 32 to 126.
    Unprinted {
        /// Its place, from 0.
        place: usize,
        /// The byte.
        byte: u8,
    },
}

impl fmt::Display for Unusable {
    fn fmt(&self, f: &mut fmt::Formatter<'_>) -> fmt::Result {
        match self {
            Unusable::Empty => f.write_str("has no byte, and a name has 1 to 10"),
            Unusable::TooLong(length) => write!(f, "has {length} bytes, and a name has 1 to 10"),
            Unusable::FirstZero => f.write_str("begins with the byte 0"),
            Unusable::FirstSpace => f.write_str("begins with a space"),
            Unusable::Unprinted { place, byte } => {
                let number = place + 1;
                write!(f, "has {byte} as byte {number}, and a new name has bytes 32 to 126 alone")
            }
        }
    }
}
