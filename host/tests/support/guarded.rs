//! Buffers lent to the C layer in pages of their own, with pages on both sides that nobody may read or write. A buffer stands
//! flush with one of the two, so that a single byte too far is a fault there. A buffer that the call only reads stands in
//! pages that cannot be written during the call.
//!
//! A fault is not caught: it ends the test program by a signal, and that fails the test. Linux on x86-64 alone.

use super::calls::{NOTHING, RawSlice, SLICES};
use super::compare::Lend;
use std::ffi::{c_int, c_void};
use std::ptr;

unsafe extern "C" {
    fn mmap(at: *mut c_void, length: usize, access: c_int, flags: c_int, file: c_int, offset: i64) -> *mut c_void;
    fn mprotect(at: *mut c_void, length: usize, access: c_int) -> c_int;
    fn munmap(at: *mut c_void, length: usize) -> c_int;
}

const NO_ACCESS: c_int = 0;
const READ: c_int = 1;
const READ_AND_WRITE: c_int = 3;
/// MAP_PRIVATE, MAP_ANONYMOUS, MAP_NORESERVE.
const FLAGS: c_int = 0x2 | 0x20 | 0x4000;

pub const PAGE: usize = 4_096;
const CANARY: u8 = 0xa7;

/// Which of the two closed pages a buffer touches.
#[derive(Clone, Copy, Debug, PartialEq, Eq)]
pub enum Edge {
    Front,
    End,
}

/// What is lent for no bytes.
#[derive(Clone, Copy, Debug, PartialEq, Eq)]
pub enum Empty {
    /// The address of a closed page.
    Closed,
    Null,
}

/// Pages between two closed ones.
pub struct Pages {
    base: *mut u8,
    /// Bytes between the two closed pages.
    open: usize,
}

impl Pages {
    /// Room for at least so many bytes, all 0.
    pub fn new(length: usize) -> Pages {
        let open = length.div_ceil(PAGE) * PAGE;
        // Safety: new pages at an address that the system chooses touch nothing that exists.
        let base = unsafe { mmap(ptr::null_mut(), open + 2 * PAGE, NO_ACCESS, FLAGS, -1, 0) };
        assert!(base as isize != -1, "no memory for {open} bytes");
        let pages = Pages { base: base.cast(), open };
        pages.access(READ_AND_WRITE);
        pages
    }

    pub fn close_to_writing(&self) {
        self.access(READ);
    }

    fn access(&self, access: c_int) {
        // Safety: these are pages of this mapping, and no reference into them is alive.
        let done = unsafe { mprotect(self.front().cast(), self.open, access) };
        assert!(self.open == 0 || done == 0, "the access of pages cannot be set");
    }

    /// The first open byte.
    pub fn front(&self) -> *mut u8 {
        // Safety: the mapping is two pages longer than what is open.
        unsafe { self.base.add(PAGE) }
    }

    /// Where a buffer of this length stands.
    pub fn part(&self, length: usize, edge: Edge) -> RawSlice {
        let from = if edge == Edge::End { self.open - length } else { 0 };
        // Safety: it lies between the closed pages.
        RawSlice {
            front: unsafe { self.front().add(from) },
            length,
        }
    }

    fn open(&self) -> &[u8] {
        // Safety: these pages can be read, and nothing writes them while the reference lives.
        unsafe { std::slice::from_raw_parts(self.front(), self.open) }
    }
}

impl Drop for Pages {
    fn drop(&mut self) {
        // Safety: the mapping is this value's own.
        let done = unsafe { munmap(self.base.cast(), self.open + 2 * PAGE) };
        assert!(done == 0, "pages cannot be given back");
    }
}

/// Lends every slice of a request in this way.
pub struct Guarded {
    edge: Edge,
    empty: Empty,
    lent: [Option<(Pages, usize)>; SLICES],
}

impl Guarded {
    pub fn new(edge: Edge, empty: Empty) -> Guarded {
        Guarded {
            edge,
            empty,
            lent: Default::default(),
        }
    }

    /// Where the slice stands among the open bytes.
    fn from(&self, pages: &Pages, length: usize) -> usize {
        pages.part(length, self.edge).front as usize - pages.front() as usize
    }
}

impl Lend for Guarded {
    fn lend(&mut self, role: usize, bytes: &[u8], may_change: bool) -> RawSlice {
        self.lent[role] = None;
        if bytes.is_empty() && self.empty == Empty::Null {
            return NOTHING;
        }
        let pages = Pages::new(bytes.len());
        let part = pages.part(bytes.len(), self.edge);
        // Safety: the open pages can be written, and the slice lies inside.
        unsafe {
            ptr::write_bytes(pages.front(), CANARY, part.front as usize - pages.front() as usize);
            ptr::copy_nonoverlapping(bytes.as_ptr(), part.front, bytes.len());
            let behind = part.front.add(bytes.len());
            ptr::write_bytes(behind, CANARY, pages.front() as usize + pages.open - behind as usize);
        }
        if !may_change {
            pages.close_to_writing();
        }
        self.lent[role] = Some((pages, bytes.len()));
        part
    }

    fn bytes(&self, role: usize) -> &[u8] {
        match &self.lent[role] {
            Some((pages, length)) => &pages.open()[self.from(pages, *length)..][..*length],
            None => &[],
        }
    }

    fn around(&self, role: usize) -> bool {
        let Some((pages, length)) = &self.lent[role] else {
            return true;
        };
        let (before, rest) = pages.open().split_at(self.from(pages, *length));
        before.iter().chain(&rest[*length..]).all(|&byte| byte == CANARY)
    }

    fn nothing(&self) -> RawSlice {
        NOTHING
    }
}
