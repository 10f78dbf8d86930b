//! One file of a listing.
use crate::kind::Kind;
use crate::name::Name;
use crate::place::SectorNumber;
use crate::refusal::Slot;
use crate::start::Start;

/// A live slot: a file as the directory describes it, or a subdirectory.
///
/// It holds the slot's number and its 256 bytes; all else is read from those.
#[derive(Clone, Copy, PartialEq, Eq)]
pub struct Entry {
    slot: Slot,
    bytes: [u8; 256],
}

impl Entry {
    /// How many bytes a listing has for each file.
    pub(crate) const LISTED_LENGTH: usize = 258;

    /// The entry that 258 bytes of a listing describe; none where they name no slot.
    pub(crate) fn from_listed(listed: &[u8; Entry::LISTED_LENGTH]) -> Option<Entry> {
        let (number, bytes) = listed.split_first_chunk()?;
        Some(Entry {
            slot: Slot::new(u16::from_le_bytes(*number))?,
            bytes: *bytes.first_chunk()?,
        })
    }

    /// The slot's number.
    pub fn slot(&self) -> Slot {
        self.slot
    }

    /// The slot's 256 bytes.
    pub fn as_bytes(&self) -> &[u8; 256] {
        &self.bytes
    }

    /// Whether the file is hidden.
    pub fn hidden(&self) -> bool {
        self.bytes[0] & 0x80 != 0
    }

    /// Whether the file is protected, so that it can be neither erased nor renamed.
    pub fn protected(&self) -> bool {
        self.bytes[0] & 0x40 != 0
    }

    /// The file's kind.
    pub fn kind(&self) -> Kind {
        Kind::new(self.bytes[0] & 0x3f)
    }

    /// The file's name.
    pub fn name(&self) -> Name {
        Name::stored(self.name_bytes())
    }

    /// Its code, where it is a directory: [`Entry::parent_code`] of what is in it. None for a file.
    pub fn code(&self) -> Option<u8> {
        self.kind().is_directory().then_some(self.bytes[250])
    }

    /// The code of the directory that it is in, 0 for the root. [`Listing::within`](crate::Listing::within) finds that
    /// directory.
    pub fn parent_code(&self) -> u8 {
        self.bytes[254]
    }

    /// How many sectors the file takes. A directory takes none.
    pub fn sector_count(&self) -> u16 {
        u16::from_be_bytes([self.bytes[11], self.bytes[12]])
    }

    /// The sectors of the file's own map, in the order of the map. They are as many as [`Entry::sector_count`] says; the
    /// order in which the body lies in them is the chain's, and can be another.
    pub fn sectors(&self) -> impl Iterator<Item = SectorNumber> + '_ {
        let set = |bit: &u16| self.bytes[15 + usize::from(bit / 8)] >> (bit % 8) & 1 != 0;
        (0..1_560).filter(set).filter_map(SectorNumber::of_bit)
    }

    /// The length of the file's body; none for a kind that is not carried. That of a Spectrum kind, 1 to 4, stands not here
    /// but in the file's header: [`Disk::length`](crate::Disk::length) gives it.
    pub fn length(&self) -> Option<u32> {
        self.kind().carried()?;
        let remainder = u16::from_le_bytes([self.bytes[240], self.bytes[241]]) & 0x3fff;
        Some(u32::from(self.bytes[239]) * 16_384 + u32::from(remainder))
    }

    /// The least number of sectors that the body and its nine header bytes need, at 510 bytes to a sector; none for a kind
    /// that is not carried. Where [`Entry::sector_count`] is above it the rest are waste sectors.
    pub fn least_sectors(&self) -> Option<u16> {
        let sectors = (9 + self.length()?).div_ceil(510);
        // On an accepted disk they are no more than the count.
        u16::try_from(sectors).ok()
    }

    /// Where the file starts in memory; none for a kind that is not carried, and where the offset is out of its range. That
    /// of a Spectrum kind stands in the file's header: [`Disk::start`](crate::Disk::start) gives it.
    pub fn start(&self) -> Option<Start> {
        self.kind().carried()?;
        let offset = u16::from_le_bytes([self.bytes[237], self.bytes[238]]);
        Start::new(u32::from(self.bytes[236] & 0x1f), offset.into()).ok()
    }

    /// The execution bytes: for code the page and the offset to begin at, for BASIC the line.
    pub fn execution(&self) -> [u8; 3] {
        [self.bytes[242], self.bytes[243], self.bytes[244]]
    }

    /// The kind information, eleven bytes whose meaning hangs on the kind.
    pub fn information(&self) -> [u8; 11] {
        let mut information = [0; 11];
        information.copy_from_slice(&self.bytes[221..232]);
        information
    }

    /// The ten name bytes.
    fn name_bytes(&self) -> [u8; 10] {
        let mut name = [0; 10];
        name.copy_from_slice(&self.bytes[1..11]);
        name
    }
}

impl std::fmt::Debug for Entry {
    fn fmt(&self, f: &mut std::fmt::Formatter<'_>) -> std::fmt::Result {
        write!(f, "Entry {{ slot {}, {}, {} }}", self.slot, self.name(), self.kind())
    }
}
