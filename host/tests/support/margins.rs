//! Buffers lent to the C layer at an odd address, with known bytes on both sides that must stay.

use super::calls::{NOTHING, RawSlice, SLICES};
use super::compare::Lend;

const MARGIN: usize = 48;
const CANARY: u8 = 0xa7;

/// One buffer for each role of a request, used again and again.
#[derive(Default)]
pub struct Margins {
    buffers: [Buffer; SLICES],
    turn: usize,
}

#[derive(Default)]
struct Buffer {
    store: Vec<u8>,
    from: usize,
    length: usize,
}

impl Lend for Margins {
    fn lend(&mut self, role: usize, bytes: &[u8], _may_change: bool) -> RawSlice {
        self.turn += 1;
        self.buffers[role].lend(bytes, self.turn % 8 * 2 + 1)
    }

    fn bytes(&self, role: usize) -> &[u8] {
        let buffer = &self.buffers[role];
        &buffer.store[buffer.from..][..buffer.length]
    }

    fn around(&self, role: usize) -> bool {
        let buffer = &self.buffers[role];
        let (before, rest) = buffer.store.split_at(buffer.from);
        before.iter().chain(&rest[buffer.length..]).all(|&byte| byte == CANARY)
    }

    fn nothing(&self) -> RawSlice {
        NOTHING
    }
}

impl Buffer {
    /// Puts the bytes at an address that is `odd` mod 16.
    fn lend(&mut self, bytes: &[u8], odd: usize) -> RawSlice {
        let size = bytes.len() + 2 * MARGIN + 16;
        self.store.clear();
        self.store.reserve(size);
        let front = self.store.as_ptr() as usize + MARGIN;
        self.from = MARGIN + (odd + 16 - front % 16) % 16;
        self.length = bytes.len();
        self.store.resize(self.from, CANARY);
        self.store.extend_from_slice(bytes);
        self.store.resize(size, CANARY);
        let front = self.store[self.from..].as_mut_ptr();
        assert_eq!(front as usize % 16, odd, "the buffer does not stand where it should");
        RawSlice {
            front,
            length: bytes.len(),
        }
    }
}
