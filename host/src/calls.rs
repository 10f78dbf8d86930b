//! The twenty-three calls on byte slices: safe, and total on every input, but without types that rule anything out.
//!
//! Each function hands its slices to the C layer and gives back the [`Answer`]. Nothing is decided here. A refused call
//! changes no byte of anything lent. In the changes, `list` takes the numbers of the sectors to write, two bytes to a number,
//! low byte first; 3,124 bytes are enough for every change.
//!
//! All unsafe code of the crate stands in this file, but for one question to the system in `store`.
use crate::answer::Answer;
use crate::raw;

/// Whether the image is an accepted disk. Value: 0.
pub fn check(image: &[u8]) -> Answer {
    // SAFETY: the pointer and the length are those of a slice that is only read.
    Answer::from_number(unsafe { raw::varnucht_check(image.as_ptr(), image.len()) })
}

/// Whether the image is an accepted disk without waste sectors. Value: 0.
pub fn check_release(image: &[u8]) -> Answer {
    // SAFETY: the pointer and the length are those of a slice that is only read.
    Answer::from_number(unsafe { raw::varnucht_check_release(image.as_ptr(), image.len()) })
}

/// The listing: 258 bytes for each live slot, its number and its 256 bytes. Value: how many; free: the free sectors.
pub fn list(image: &[u8], out: &mut [u8]) -> Answer {
    // SAFETY: pointers and lengths are those of slices, and `out` is borrowed alone.
    Answer::from_number(unsafe { raw::varnucht_list(image.as_ptr(), image.len(), out.as_mut_ptr(), out.len()) })
}

/// A file's body, copied to the front of `out`. Value: its length.
pub fn read(image: &[u8], name: &[u8], out: &mut [u8]) -> Answer {
    // SAFETY: pointers and lengths are those of slices, and `out` is borrowed alone.
    Answer::from_number(unsafe {
        raw::varnucht_read(
            image.as_ptr(),
            image.len(),
            name.as_ptr(),
            name.len(),
            out.as_mut_ptr(),
            out.len(),
        )
    })
}

/// Finds a file to read piece by piece. Value: the length of its body; slot and free: the sector of its first byte, and the
/// offset there.
pub fn open(image: &[u8], name: &[u8]) -> Answer {
    // SAFETY: pointers and lengths are those of slices that are only read.
    Answer::from_number(unsafe { raw::varnucht_open(image.as_ptr(), image.len(), name.as_ptr(), name.len()) })
}

/// The next bytes of a body, copied to the front of `out`: from this byte of this sector on, as many as `out` holds or as are
/// left. Value: how many came; slot and free: the sector and the offset of the byte after them. It refuses nothing, whatever
/// the numbers, and the disk is not checked.
pub fn next(image: &[u8], sector: u32, offset: u32, left: u32, out: &mut [u8]) -> Answer {
    // SAFETY: pointers and lengths are those of slices, and `out` is borrowed alone.
    Answer::from_number(unsafe {
        raw::varnucht_next(image.as_ptr(), image.len(), sector, offset, left, out.as_mut_ptr(), out.len())
    })
}

/// The slots beneath a directory, or beneath the root where `name` is empty, to the front of `slots`: two bytes to a number,
/// low byte first. A directory is directly followed by what lies beneath it. Value: how many; 1,556 bytes are always enough.
pub fn tree(image: &[u8], name: &[u8], slots: &mut [u8]) -> Answer {
    // SAFETY: pointers and lengths are those of slices, and `slots` is borrowed alone.
    Answer::from_number(unsafe {
        raw::varnucht_tree(
            image.as_ptr(),
            image.len(),
            name.as_ptr(),
            name.len(),
            slots.as_mut_ptr(),
            slots.len(),
        )
    })
}

/// A file's start address. Value: the address.
pub fn start(image: &[u8], name: &[u8]) -> Answer {
    // SAFETY: pointers and lengths are those of slices that are only read.
    Answer::from_number(unsafe { raw::varnucht_start(image.as_ptr(), image.len(), name.as_ptr(), name.len()) })
}

/// A raw sector of the image of drive 1 or 2; no directory is checked. Value: the place of its 512 bytes in that image.
pub fn sector(one: &[u8], two: &[u8], drive: u32, track: u32, sector: u32) -> Answer {
    // SAFETY: pointers and lengths are those of slices that are only read.
    Answer::from_number(unsafe {
        raw::varnucht_sector(one.as_ptr(), one.len(), two.as_ptr(), two.len(), drive, track, sector)
    })
}

/// Adds a disk, accepted or refused, to the report at the front of `report`. Value: how many disks it holds then.
pub fn report_add(image: &[u8], report: &mut [u8]) -> Answer {
    // SAFETY: pointers and lengths are those of slices, and `report` is borrowed alone.
    Answer::from_number(unsafe { raw::varnucht_report_add(image.as_ptr(), image.len(), report.as_mut_ptr(), report.len()) })
}

/// Joins the report at the front of `other` to the one at the front of `report`. Value: how many disks that holds then.
pub fn report_join(report: &mut [u8], other: &[u8]) -> Answer {
    // SAFETY: pointers and lengths are those of slices, and `report` is borrowed alone.
    Answer::from_number(unsafe { raw::varnucht_report_join(report.as_mut_ptr(), report.len(), other.as_ptr(), other.len()) })
}

/// What a save is asked for.
#[derive(Clone, Copy, Debug)]
pub struct SaveRequest<'a> {
    /// The kind; a save takes 16 to 20.
    pub kind: u32,
    /// The new name.
    pub name: &'a [u8],
    /// The start page, 0 to 31.
    pub page: u32,
    /// The offset in the page, 32,768 to 49,151.
    pub offset: u32,
    /// The execution bytes: three; fewer are filled with 0, any beyond are ignored.
    pub execution: &'a [u8],
    /// The kind information: eleven bytes; fewer are filled with 0, any beyond are ignored.
    pub information: &'a [u8],
    /// The body.
    pub body: &'a [u8],
}

/// Saves a file. Value: how many sectors are to be written.
pub fn save(image: &mut [u8], request: &SaveRequest, list: &mut [u8]) -> Answer {
    // SAFETY: pointers and lengths are those of slices; `image` and `list` are borrowed alone.
    Answer::from_number(unsafe {
        raw::varnucht_save(
            image.as_mut_ptr(),
            image.len(),
            request.kind,
            request.name.as_ptr(),
            request.name.len(),
            request.page,
            request.offset,
            request.execution.as_ptr(),
            request.execution.len(),
            request.information.as_ptr(),
            request.information.len(),
            request.body.as_ptr(),
            request.body.len(),
            list.as_mut_ptr(),
            list.len(),
        )
    })
}

/// Erases the files of these names, ten bytes to each, laid end to end, one after the other. `answers` gets a byte for each: 0,
/// or the number that refuses it, 12, 15, 17 or 29, which refuses nothing of the rest. Value: how many sectors are to be
/// written; 778 bytes are always enough for their list.
pub fn erase_many(image: &mut [u8], names: &[u8], answers: &mut [u8], list: &mut [u8]) -> Answer {
    // SAFETY: pointers and lengths are those of slices; `image`, `answers` and `list` are borrowed alone.
    Answer::from_number(unsafe {
        raw::varnucht_erase_many(
            image.as_mut_ptr(),
            image.len(),
            names.as_ptr(),
            names.len(),
            answers.as_mut_ptr(),
            answers.len(),
            list.as_mut_ptr(),
            list.len(),
        )
    })
}

/// Gives a file a new name. Value: how many sectors are to be written.
pub fn rename(image: &mut [u8], name: &[u8], new: &[u8], list: &mut [u8]) -> Answer {
    // SAFETY: pointers and lengths are those of slices; `image` and `list` are borrowed alone.
    Answer::from_number(unsafe {
        raw::varnucht_rename(
            image.as_mut_ptr(),
            image.len(),
            name.as_ptr(),
            name.len(),
            new.as_ptr(),
            new.len(),
            list.as_mut_ptr(),
            list.len(),
        )
    })
}

/// A call of the C layer that takes an image to change, a name or a record that is only read, and a list.
type OnName = unsafe extern "C" fn(*mut u8, usize, *const u8, usize, *mut u8, usize) -> u64;

/// Hands the slices to a call that takes a name, or a record, alone.
fn on_name(call: OnName, image: &mut [u8], name: &[u8], list: &mut [u8]) -> Answer {
    // SAFETY: pointers and lengths are those of slices; `image` and `list` are borrowed alone.
    Answer::from_number(unsafe {
        call(
            image.as_mut_ptr(),
            image.len(),
            name.as_ptr(),
            name.len(),
            list.as_mut_ptr(),
            list.len(),
        )
    })
}

/// Erases a file. Value: how many sectors are to be written.
pub fn erase(image: &mut [u8], name: &[u8], list: &mut [u8]) -> Answer {
    on_name(raw::varnucht_erase, image, name, list)
}

/// Marks a file as hidden. Value: how many sectors are to be written.
pub fn hide(image: &mut [u8], name: &[u8], list: &mut [u8]) -> Answer {
    on_name(raw::varnucht_hide, image, name, list)
}

/// Takes a file's hidden mark away. Value: how many sectors are to be written.
pub fn show(image: &mut [u8], name: &[u8], list: &mut [u8]) -> Answer {
    on_name(raw::varnucht_show, image, name, list)
}

/// Marks a file as protected. Value: how many sectors are to be written.
pub fn protect(image: &mut [u8], name: &[u8], list: &mut [u8]) -> Answer {
    on_name(raw::varnucht_protect, image, name, list)
}

/// Takes a file's protected mark away. Value: how many sectors are to be written.
pub fn release(image: &mut [u8], name: &[u8], list: &mut [u8]) -> Answer {
    on_name(raw::varnucht_release, image, name, list)
}

/// Moves a file to the lowest run of consecutive free sectors that is as long as it is. Value: how many sectors are to be
/// written, 0 where it lies so already. 1,562 bytes are always enough for its list.
pub fn gather(image: &mut [u8], name: &[u8], list: &mut [u8]) -> Answer {
    on_name(raw::varnucht_gather, image, name, list)
}

/// Opens a recording with a save's particulars: its record, 2,048 bytes, comes to the front of `record`. The request's body is not
/// looked at. Value: 0.
pub fn record_open(image: &[u8], request: &SaveRequest, record: &mut [u8]) -> Answer {
    // SAFETY: pointers and lengths are those of slices, and `record` is borrowed alone.
    Answer::from_number(unsafe {
        raw::varnucht_record_open(
            image.as_ptr(),
            image.len(),
            request.kind,
            request.name.as_ptr(),
            request.name.len(),
            request.page,
            request.offset,
            request.execution.as_ptr(),
            request.execution.len(),
            request.information.as_ptr(),
            request.information.len(),
            record.as_mut_ptr(),
            record.len(),
        )
    })
}

/// Adds a piece to a recording. Value: how many sectors are to be written; 3,116 bytes are always enough for their list.
pub fn record_add(image: &mut [u8], piece: &[u8], record: &mut [u8], list: &mut [u8]) -> Answer {
    // SAFETY: pointers and lengths are those of slices; `image`, `record` and `list` are borrowed alone.
    Answer::from_number(unsafe {
        raw::varnucht_record_add(
            image.as_mut_ptr(),
            image.len(),
            piece.as_ptr(),
            piece.len(),
            record.as_mut_ptr(),
            record.len(),
            list.as_mut_ptr(),
            list.len(),
        )
    })
}

/// Makes a recording a file; its record stays as it is. Value: how many sectors are to be written; 8 bytes are always enough
/// for their list.
pub fn record_close(image: &mut [u8], record: &[u8], list: &mut [u8]) -> Answer {
    on_name(raw::varnucht_record_close, image, record, list)
}
