//! A shelf of disks in numbers.
use crate::calls;
use crate::kind::Kind;
use crate::refusal::{Refusal, Refused};
use std::fmt;
use std::ops::Range;

/// A report has 496 bytes: 124 numbers of four bytes each, low byte first.
pub const REPORT_LENGTH: usize = 496;

/// A report holds at most 65,535 disks.
pub const MOST_DISKS: u32 = 65_535;

/// Where the numbers stand: disks accepted and disks refused by number; files by kind; the sectors; files by class.
const ACCEPTED: usize = 0;
const DISKS: Range<usize> = 0..33;
const KINDS: Range<usize> = 33..97;
const FILE_SECTORS: usize = 97;
const FREE_SECTORS: usize = 98;
const CLASSES: Range<usize> = 99..111;

/// A shelf of disks in numbers: how many are accepted and how many refused, by number; and of the accepted ones their files
/// by kind, the sectors of these files, the free sectors, and the files by sector count.
///
/// Disks are added one at a time. Two reports join to the report over the disks of both, in whichever order, so a shelf can be
/// counted in parts, on several threads or on several days. A report takes 496 bytes, however many disks are in it, and holds
/// at most 65,535.
///
/// ```
/// use varnucht::{CarriedKind, Disk, Image, NewFile, NewName, Refusal, Report, Start};
///
/// let mut disk = Disk::open(Image::blank())?;
/// let name = NewName::new("TUNES")?;
/// let _ = disk.save(&NewFile::new(CarriedKind::Code, name, Start::new(1, 32_768)?, &[7; 1_000]))?;
///
/// let mut report = Report::new();
/// report.add(disk.image().as_bytes())?;
/// report.add(b"no disk")?; // a refused disk is counted too
/// assert_eq!((report.disks(), report.accepted(), report.refused(Refusal::ImageLength)), (2, 1, 1));
/// assert_eq!((report.file_sectors(), report.free_sectors()), (2, 1_558));
///
/// let mut other = Report::new();
/// other.add(Image::blank().as_bytes())?;
/// report.join(&other)?;
/// assert_eq!((report.disks(), report.files(), report.free_sectors()), (3, 1, 3_118));
///
/// for (kind, files) in report.kinds() {
///     assert_eq!((kind.to_string(), files), ("code".into(), 1));
/// }
/// for (class, files) in report.classes() {
///     assert_eq!(files, u32::from(class.to_string() == "2 to 3"));
/// }
/// # Ok::<(), varnucht::Refused>(())
/// ```
#[derive(Clone, Copy, PartialEq, Eq, Hash)]
pub struct Report([u8; REPORT_LENGTH]);

impl Report {
    /// The report over no disk.
    pub fn new() -> Report {
        Report([0; REPORT_LENGTH])
    }

    /// The report with these bytes, as [`as_bytes`](Report::as_bytes) gave them.
    ///
    /// Of bytes that no report had it is only promised that every call answers: what is added to a number is added modulo
    /// 2^32.
    pub fn from_bytes(bytes: [u8; REPORT_LENGTH]) -> Report {
        Report(bytes)
    }

    /// Its bytes, to be kept.
    pub fn as_bytes(&self) -> &[u8; REPORT_LENGTH] {
        &self.0
    }

    /// Adds a disk, accepted or refused: bytes of any length and any content. Gives how many disks the report holds then.
    ///
    /// The disk is checked once: every slot up to the directory's end is looked at, and every sector of every file. Nothing
    /// is copied.
    ///
    /// # Errors
    ///
    /// Refused 31 where it holds 65,535 already, and nothing has changed.
    pub fn add(&mut self, image: &[u8]) -> Result<u32, Refused> {
        calls::report_add(image, &mut self.0).decode().map(|done| done.value)
    }

    /// Joins another report to this one, which is then the report over the disks of both. Gives how many disks it holds
    /// then.
    ///
    /// # Errors
    ///
    /// Refused 31 where these are more than 65,535, and nothing has changed.
    pub fn join(&mut self, other: &Report) -> Result<u32, Refused> {
        calls::report_join(&mut self.0, &other.0).decode().map(|done| done.value)
    }

    /// How many disks there are, accepted and refused.
    pub fn disks(&self) -> u32 {
        self.sum(DISKS)
    }

    /// How many disks are accepted.
    pub fn accepted(&self) -> u32 {
        self.number(ACCEPTED)
    }

    /// How many disks are refused for this reason.
    pub fn refused(&self, refusal: Refusal) -> u32 {
        match usize::from(refusal.number()) {
            number if number != ACCEPTED && DISKS.contains(&number) => self.number(number),
            _ => 0,
        }
    }

    /// The refusals that disks got, by rising number, with how many disks got each.
    pub fn refusals(&self) -> impl Iterator<Item = (Refusal, u32)> + '_ {
        let all = (1..DISKS.end as u8).filter_map(Refusal::from_number);
        all.map(|refusal| (refusal, self.refused(refusal)))
            .filter(|(_, disks)| *disks > 0)
    }

    /// How many files the accepted disks have, hidden ones too.
    pub fn files(&self) -> u32 {
        self.sum(KINDS)
    }

    /// How many of these files have this kind.
    pub fn of_kind(&self, kind: Kind) -> u32 {
        let number = KINDS.start + usize::from(kind.number());
        if KINDS.contains(&number) { self.number(number) } else { 0 }
    }

    /// The kinds that files have, by rising number, with how many files have each.
    pub fn kinds(&self) -> impl Iterator<Item = (Kind, u32)> + '_ {
        let all = (0..KINDS.len() as u8).map(Kind::new);
        all.map(|kind| (kind, self.of_kind(kind))).filter(|(_, files)| *files > 0)
    }

    /// How many sectors the files have.
    pub fn file_sectors(&self) -> u32 {
        self.number(FILE_SECTORS)
    }

    /// How many sectors of the accepted disks are free.
    pub fn free_sectors(&self) -> u32 {
        self.number(FREE_SECTORS)
    }

    /// The twelve classes of sector counts, rising, with how many files are in each. They add up to the files.
    pub fn classes(&self) -> impl ExactSizeIterator<Item = (SectorClass, u32)> + '_ {
        let class = |at: usize| (SectorClass(at as u8), self.number(CLASSES.start + at));
        (0..CLASSES.len()).map(class)
    }

    /// The number at this place.
    fn number(&self, at: usize) -> u32 {
        u32::from_le_bytes(self.0.as_chunks().0[at])
    }

    /// The sum of the numbers at these places. No report of the library's own making comes near to the greatest.
    fn sum(&self, places: Range<usize>) -> u32 {
        places.map(|at| self.number(at)).fold(0, u32::saturating_add)
    }
}

impl Default for Report {
    fn default() -> Report {
        Report::new()
    }
}

impl fmt::Debug for Report {
    fn fmt(&self, f: &mut fmt::Formatter<'_>) -> fmt::Result {
        let (disks, accepted, files) = (self.disks(), self.accepted(), self.files());
        f.debug_struct("Report")
            .field("disks", &disks)
            .field("accepted", &accepted)
            .field("files", &files)
            .finish_non_exhaustive()
    }
}

/// A class of files by how many sectors they have: 0, 1, 2 to 3, 4 to 7, and so on to 1,024 and more.
#[derive(Clone, Copy, Debug, PartialEq, Eq, PartialOrd, Ord, Hash)]
pub struct SectorClass(u8);

impl SectorClass {
    /// The fewest sectors in it.
    pub fn first(self) -> u16 {
        match self.0 {
            0 => 0,
            class => 1 << (class - 1),
        }
    }

    /// The most sectors in it; none for the last class, which has no end.
    pub fn last(self) -> Option<u16> {
        let next = SectorClass(self.0 + 1);
        (usize::from(next.0) < CLASSES.len()).then(|| next.first() - 1)
    }
}

impl fmt::Display for SectorClass {
    fn fmt(&self, f: &mut fmt::Formatter<'_>) -> fmt::Result {
        let first = self.first();
        match self.last() {
            None => f.pad(&format!("{first} and more")),
            Some(last) if last == first => f.pad(&format!("{first}")),
            Some(last) => f.pad(&format!("{first} to {last}")),
        }
    }
}
