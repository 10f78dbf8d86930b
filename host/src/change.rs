//! The eight changes, as values.
use crate::answer::Answer;
use crate::calls::{self, SaveRequest};
use crate::image::Image;
use crate::kind::CarriedKind;
use crate::name::{Name, NewName};
use crate::start::Start;

/// Execution bytes that say: do not run the file when it is loaded. The system's value for "none" is 255.
pub const NO_EXECUTION: [u8; 3] = [255; 3];

/// A file to save.
#[derive(Clone, Copy, Debug)]
pub struct NewFile<'a> {
    /// Its kind.
    pub kind: CarriedKind,
    /// Its name.
    pub name: NewName,
    /// Where it starts in memory.
    pub start: Start,
    /// For code the page and the offset to begin at, for BASIC the line.
    pub execution: [u8; 3],
    /// Eleven bytes whose meaning hangs on the kind.
    pub information: [u8; 11],
    /// Its body.
    pub body: &'a [u8],
}

impl<'a> NewFile<'a> {
    /// A file that does not run when it is loaded, with kind information of zeros.
    pub fn new(kind: CarriedKind, name: NewName, start: Start, body: &'a [u8]) -> NewFile<'a> {
        NewFile {
            kind,
            name,
            start,
            execution: NO_EXECUTION,
            information: [0; 11],
            body,
        }
    }
}

/// A change of a disk, not made yet. [`Disk::change`](crate::Disk::change) makes it, and
/// [`Disk::try_change`](crate::Disk::try_change) tells what it would do. Many files erased at once are none of these:
/// [`Disk::erase_many`](crate::Disk::erase_many) answers for each of them.
#[derive(Clone, Copy, Debug)]
pub enum Change<'a> {
    /// Save a file under a new name. Refused 16 (the name is taken), 18 (no slot) and 19 (too few sectors).
    Save(NewFile<'a>),
    /// Erase a file, or a directory that nothing is in. Refused 15 (no such file), 17 (protected) and 29 (a directory that
    /// something is in).
    Erase(Name),
    /// Give a file another name, or the same with other capitals. Refused 15, 16 (another file has the name, or the file
    /// itself has it byte for byte) and 17.
    Rename(Name, NewName),
    /// Hide a file. Refused 15. One that is hidden already stays so.
    Hide(Name),
    /// Show a hidden file. Refused 15.
    Show(Name),
    /// Protect a file from erasing and renaming. Refused 15.
    Protect(Name),
    /// Take the protection away. Refused 15.
    Release(Name),
    /// Move a file to the lowest run of consecutive free sectors that is as long as it is, its chain rising. One that lies so
    /// already, wherever that is, stays: then no sector is to be written. Refused 15, 13 (a directory, which has no sectors)
    /// and 32 (it must move, and there is no such run).
    Gather(Name),
}

impl Change<'_> {
    /// Makes the change in the image and fills the list with its sectors: the library does both.
    pub(crate) fn make(&self, image: &mut Image, list: &mut [u8]) -> Answer {
        let image = &mut image.as_bytes_mut()[..];
        match self {
            Change::Save(file) => calls::save(image, &request(file), list),
            Change::Erase(name) => calls::erase(image, name.as_bytes(), list),
            Change::Rename(name, new) => calls::rename(image, name.as_bytes(), new.as_bytes(), list),
            Change::Hide(name) => calls::hide(image, name.as_bytes(), list),
            Change::Show(name) => calls::show(image, name.as_bytes(), list),
            Change::Protect(name) => calls::protect(image, name.as_bytes(), list),
            Change::Release(name) => calls::release(image, name.as_bytes(), list),
            Change::Gather(name) => calls::gather(image, name.as_bytes(), list),
        }
    }
}

/// A file to save, as the library is asked for it.
fn request<'a>(file: &'a NewFile) -> SaveRequest<'a> {
    SaveRequest {
        kind: file.kind.number().into(),
        name: file.name.as_bytes(),
        page: file.start.page().into(),
        offset: file.start.offset().into(),
        execution: &file.execution,
        information: &file.information,
        body: file.body,
    }
}
