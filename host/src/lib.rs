//! Disk images of the SAM Coupé: check, list, read, save, record, erase, rename, hide, show, protect, release and gather.
//!
//! The work is done by a library that is proved correct, for every image and every request. This crate puts types over it:
//!
//! | type | what its values have already passed |
//! |---|---|
//! | [`Image`] | it is 819,200 bytes: refusal 1 is ruled out |
//! | [`Disk`] | the library has accepted it: refusals 1 to 11, 24 and 25 are ruled out |
//! | [`Name`], [`NewName`] | usable as a name asked for, as a new name: refusals 12 and 23 are ruled out |
//! | [`CarriedKind`], [`Start`] | a save takes them: refusals 13 and 14 of a save are ruled out |
//! | [`Drive`], [`Track`], [`Sector`] | they are there: refusal 21 is ruled out |
//!
//! Buffers are made as long as they must be, so refusal 20 is ruled out too. What is left is what only the disk itself can
//! tell: is there a file of that name (15), is the new name free (16), is the file protected (17), is there a slot (18), are
//! there sectors (19), does the file have a body (13) and a start address (14), do its directories fit together (26 to 28),
//! is a directory empty (29), is the disk the one that was recorded on (30), is there a run of free sectors for a scattered
//! file (32).
//!
//! The types are a convenience. They refuse by the library's own numbers, and tests show that each draws the line where the
//! library does; what a type lets through still goes to the library, and what it answers is what counts.
//!
//! So these do not compile. An image that was not checked cannot be read:
//!
//! ```compile_fail,E0599
//! # use varnucht::{Disk, Image, Name};
//! let body = Image::blank().read(&Name::new("TUNES").unwrap());
//! ```
//!
//! The image of a disk that was accepted cannot be changed behind its back:
//!
//! ```compile_fail,E0596
//! # use varnucht::{Disk, Image};
//! let disk = Disk::open(Image::blank()).unwrap();
//! disk.image().as_bytes_mut()[0] = 1;
//! ```
//!
//! A name that may only be asked for cannot be given to a file:
//!
//! ```compile_fail,E0308
//! # use varnucht::{Change, Name};
//! let change = Change::Rename(Name::new("TUNES").unwrap(), Name::new("SONGS").unwrap());
//! ```
//!
//! # A disk in memory
//!
//! ```
//! use varnucht::{CarriedKind, Disk, Image, Name, NewFile, NewName, Start};
//!
//! let mut disk = Disk::open(Image::blank())?;
//! let file = NewFile::new(CarriedKind::Code, NewName::new("TUNES")?, Start::new(1, 32_768)?, b"la la la");
//! let sectors = disk.save(&file)?;
//! assert_eq!(sectors.numbers().len(), 2); // one of data, and then the directory's
//!
//! let name = Name::new("TUNES")?;
//! assert_eq!(disk.read(&name)?, b"la la la");
//! assert_eq!(disk.start(&name)?, 32_768);
//! assert_eq!(disk.listing().free(), 1_559);
//!
//! let refused = disk.save(&file).unwrap_err();
//! assert_eq!(refused.to_string(), "refusal 16 at slot 1: a live slot has the new name, capitals or not");
//! # Ok::<(), Box<dyn std::error::Error>>(())
//! ```
//!
//! # A file piece by piece
//!
//! A [`Reader`] gives a file's body a few bytes at a time, as any [`Read`](std::io::Read) does, so that a tune can be played
//! before it has loaded. It borrows the disk, which cannot be changed until the reader is given up.
//!
//! ```
//! use std::io::Read;
//! # use varnucht::{CarriedKind, Disk, Image, Name, NewFile, NewName, Start};
//! # let mut disk = Disk::open(Image::blank())?;
//! # let file = NewFile::new(CarriedKind::Code, NewName::new("TUNES")?, Start::new(1, 32_768)?, b"la la la");
//! # let _ = disk.save(&file)?;
//!
//! let mut tune = disk.reader(&Name::new("TUNES")?)?;
//! let mut piece = [0; 3];
//! while tune.left() > 0 {
//!     let came = tune.read(&mut piece)?;
//!     println!("play {:?}", &piece[..came]);
//! }
//! # Ok::<(), Box<dyn std::error::Error>>(())
//! ```
//!
//! # Spectrum files
//!
//! The same disks hold files of the Spectrum. Those of kinds 1 to 4 have a header of the Plus D, and can be read whole or
//! piece by piece; they cannot be saved. Their length and start stand in that header and not in the listing:
//! [`Disk::length`] and [`Disk::start`] give them.
//!
//! # Bigger directories, and the disk's name
//!
//! MasterDOS makes disks whose [`Directory`] has up to 39 tracks, with up to 778 slots, and gives a disk a name.
//! [`Disk::directory`] and [`Disk::name`] tell both, and [`Image::blank_with`] makes such a disk. They stand in slot 1, beside
//! whatever file is there, and no change alters them.
//!
//! ```
//! use varnucht::{CarriedKind, Directory, Disk, Image, NewFile, NewName, Start};
//!
//! let mut image = Image::blank_with(Directory::new(20).unwrap());
//! image.as_bytes_mut()[210..220].copy_from_slice(b"MAGAZINE 7");
//! let mut disk = Disk::open(image)?;
//! let _ = disk.save(&NewFile::new(CarriedKind::Code, NewName::new("TUNES")?, Start::new(1, 32_768)?, b"la la la"))?;
//! assert_eq!(disk.name().unwrap().to_string(), "MAGAZINE 7");
//! assert_eq!((disk.directory().tracks(), disk.directory().slots()), (20, 398));
//! assert_eq!(disk.listing().free_slots(), 397);
//! # Ok::<(), varnucht::Refused>(())
//! ```
//!
//! # Subdirectories
//!
//! MasterDOS keeps files in directories, and directories in each other. A [`Listing`] has them all side by side, and
//! [`Listing::within`] tells which directory a file is in; [`Disk::tree`] gives what lies beneath a directory, or beneath the
//! root, as a [`Tree`]. A name is unique over the whole disk, so every call finds a file whatever directory it is in. A
//! save goes to the root.
//!
//! ```
//! # use varnucht::{Disk, Image};
//! # let mut image = Image::blank();
//! # for (slot, name, code, parent) in [(0, "GAMES", 7, 0), (1, "ARCADE", 8, 7), (2, "MUSIC", 9, 0)] {
//! #     let bytes = &mut image.as_bytes_mut()[256 * slot..][..256];
//! #     bytes[..11].copy_from_slice(format!("\x15{name:<10}").as_bytes());
//! #     (bytes[250], bytes[254]) = (code, parent);
//! # }
//! # let disk = Disk::open(image)?;
//! for branch in disk.tree(None)?.all() {
//!     println!("{}{}", "  ".repeat(branch.depth()), branch.entry().name());
//! }
//! # let depths: Vec<_> = disk.tree(None)?.all().map(|branch| branch.depth()).collect();
//! # assert_eq!(depths, [0, 1, 0]);
//! # Ok::<(), varnucht::Refused>(())
//! ```
//!
//! # Scattered files
//!
//! A save takes the lowest free sectors, one by one, so that a file can lie scattered, and a drive clicks through it.
//! [`Disk::is_scattered`] tells that of a file, and [`Disk::gather`] moves it to the lowest run of free sectors that is as long
//! as it is.
//!
//! # Save while recording
//!
//! A recorder has no length until the user stops. A [`Recording`] takes the bytes as they come, as any
//! [`Write`](std::io::Write) does, and stores each sector as soon as it is full. It becomes a file when it is closed: given up,
//! or cut short, it leaves all files as they were.
//!
//! # Many files at once
//!
//! [`Disk::erase_many`] erases the files of several names by one call, and answers for each of them. Each sector that it names
//! is a change of its own: cut short, the files of the sectors written are gone, and the others are still there.
//!
//! # Before a compilation goes out
//!
//! A file may have more sectors than its length needs, and old texts hide in them. Every call accepts such a disk but
//! [`Disk::check_release`] and [`Image::check_release`], which refuse it (22) with the slot.
//!
//! # A shelf of disks
//!
//! A [`Report`] is a shelf in numbers: disks accepted and refused, files by kind and by size, sectors. Disks are added to it
//! one at a time, and two reports join.
//!
//! # A disk in a file
//!
//! A [`DiskFile`] is a disk and the file that it is in, open and locked: it opens by a path, and what it changes is stored for
//! good when the call returns. Below it stands what it is made of, for other stores than files.
//!
//! A change answers with the [`Sectors`] that it altered, in the order in which they are to be written. Wherever that
//! writing is cut short, the file holds the old disk until the last sector is written, and the new one from then on (of
//! many files erased at once that holds of each sector): [`Sectors::write_to`] does it, and waits for each sector to
//! reach the disk before it goes on to the next. If a write fails, the disk in memory is ahead of the file: write the same
//! sectors again, or open the disk anew from the file. A later change is not written before that.
//!
//! ```
//! use std::fs::File;
//! use std::io::{Read, Write};
//! use varnucht::{Disk, Image, Name};
//!
//! # let path = std::env::temp_dir().join(format!("varnucht-doc-{}.mgt", std::process::id()));
//! # let mut made = Disk::open(Image::blank())?;
//! # let new = varnucht::NewName::new("TUNES")?;
//! # let start = varnucht::Start::new(1, 32_768)?;
//! # let _ = made.save(&varnucht::NewFile::new(varnucht::CarriedKind::Code, new, start, b"la"))?;
//! # File::create(&path)?.write_all(made.image().as_bytes())?;
//! let mut file = File::options().read(true).write(true).open(&path)?;
//! file.lock()?;
//! let mut bytes = Vec::new();
//! file.read_to_end(&mut bytes)?;
//!
//! let mut disk = Disk::open(Image::from_bytes(bytes)?)?;
//! disk.hide(&Name::new("TUNES")?)?.write_to(&mut file, |written, of| println!("{written} of {of}"))?;
//! # assert_eq!(&std::fs::read(&path)?[..], &disk.image().as_bytes()[..]);
//! # std::fs::remove_file(&path)?;
//! # Ok::<(), Box<dyn std::error::Error>>(())
//! ```
//!
//! # Words
//!
//! "Document 01" and "the paper" are the rules that the library is proved against. A refusal prints their words. The
//! directory's end is its first slot whose first name byte is 0: that slot and all later ones are free, and what stands there
//! is no file and is not looked at; a save clears the old name that would come back when it takes that slot. Below the
//! types stand [`calls`], the twenty-three calls on byte slices, and [`raw`], the C layer itself.
#![warn(missing_docs, clippy::missing_errors_doc)]

mod answer;
pub mod calls;
mod chain;
mod change;
mod convert;
mod directory;
mod disk;
mod drives;
mod entry;
mod erase_many;
pub mod escape;
mod file;
mod image;
mod kind;
mod listing;
mod name;
mod place;
#[allow(missing_docs)]
pub mod raw;
mod reader;
mod recording;
mod refusal;
mod report;
mod sectors;
mod start;
mod store;
mod tree;

pub use answer::{Accepted, Answer};
pub use change::{Change, NO_EXECUTION, NewFile};
pub use convert::BadName;
pub use directory::{Directory, DiskName};
pub use disk::{Disk, NotAccepted};
pub use drives::Drives;
pub use entry::Entry;
pub use erase_many::Erased;
pub use file::{DiskFile, FileError};
pub use image::{IMAGE_LENGTH, Image, WrongLength};
pub use kind::{CarriedKind, Kind};
pub use listing::Listing;
pub use name::{NAME_LENGTH, Name, NewName, Unusable};
pub use place::{DATA_SECTORS, Drive, SECTOR_LENGTH, SECTORS, Sector, SectorNumber, Track};
pub use reader::Reader;
pub use recording::{Particulars, Record, RecordError, Recording};
pub use refusal::{Refusal, Refused, Slot};
pub use report::{MOST_DISKS, REPORT_LENGTH, Report, SectorClass};
pub use sectors::{LONGEST_BODY, Sectors};
pub use start::Start;
pub use store::{Store, WriteError};
pub use tree::{Branch, Tree, Within};

/// The README's example in Rust, compiled and run with the other examples.
#[cfg(doctest)]
#[doc = include_str!("../../README.md")]
struct Readme;
