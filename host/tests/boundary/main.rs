//! The boundary of the C layer: every slice lent in pages of its own between two closed pages, once flush with the one behind
//! it and once flush with the one before it. A slice that a call only reads stands in pages that cannot be written during the
//! call. So one byte read or written outside of what was lent, or written where nothing may be written, is a fault.
//!
//! A fault is not caught. It ends this test program by a signal, and that fails the test; the last line then names no test,
//! and `--test-threads=1 --nocapture` shows which one it was.
//!
//! - `closed`: the closed pages do end a program that touches them.
//! - `lent`: every call, on whole, damaged and short images, with slices of every length.
//! - `overlaps`: slices that are only read may overlap.
//! - `wide`: slices longer than 32 bits can count.
//! - `huge`: lengths of 2^63 and more, which no slice has.
//!
//! `VARNUCHT_SEED` and `VARNUCHT_ROUNDS` draw other tests, or a single one again.

#[path = "../support/mod.rs"]
mod support;

mod closed;
mod huge;
mod lent;
mod overlaps;
mod wide;
