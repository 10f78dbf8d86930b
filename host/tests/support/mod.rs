//! What the tests of the C layer share. Everything here is written from documents 01 and 02 alone: neither the library nor the
//! crate `paper` is used to draw a disk, so that a drawn disk is a third opinion.
//!
//! - `random`, `settings`: numbers from a seed; which seeds and how many rounds.
//! - `geometry`, `fields`: where sectors and slots stand in an image; where the fields of a slot stand.
//! - `names`, `disks`, `shapes`: drawn disks that the rules accept.
//! - `waste`: sectors behind a file that its length does not need, and what the check before a release says of them.
//! - `damage`: one fault put into a drawn disk, with the refusal that follows from it, or none where the directory ends before.
//! - `calls`: one request, asked of the C layer and of `paper`.
//! - `compare`: the same request to both, with every buffer compared at return.
//! - `margins`, `guarded`: two ways to lend the buffers to the C layer.
//! - `directories`: codes of directories, and what lies beneath them.
//! - `gathers`: where a scattered file goes.
//! - `erase_many`: names that are erased at once, and what becomes of them.
//! - `facts`, `requests`, `save_requests`, `readers`: drawn requests that fit a disk.
//! - `recordings`: drawn recordings, their records, and what each call writes.
//! - `reports`: drawn reports, and what is counted of a disk.
//! - `tally`: how often each call gave each refusal.

// Every test program takes this whole folder and uses a part of it.
#![allow(dead_code)]

pub mod calls;
pub mod compare;
pub mod damage;
pub mod directories;
pub mod disks;
pub mod erase_many;
pub mod facts;
pub mod fields;
pub mod gathers;
pub mod geometry;
pub mod guarded;
pub mod margins;
pub mod names;
pub mod random;
pub mod readers;
pub mod recordings;
pub mod reports;
pub mod requests;
pub mod save_requests;
pub mod settings;
pub mod shapes;
pub mod tally;
pub mod waste;
