//! Document 01 in plain Rust, with those requests of document 02 that have landed, written from the papers alone. The tests
//! and the benchmark compare the proved library with it.
//!
//! Every call takes any bytes and any numbers. A refused call changes no byte of anything lent.
//!
//! - `geometry`: sides, tracks, sectors, map bits, slot places
//! - `extent`: how many tracks the directory has
//! - `map`: the 1,560 bits of a slot's map or of the used map
//! - `name`: names asked for and new names, and when two are the same
//! - `names`: many names, none twice
//! - `slot`: what the 256 bytes of a directory slot say, and where the directory ends
//! - `spectrum`: the header of kinds 1 to 4
//! - `check`: refusals 24, 2, 4 to 11 and 25, and 22 before a release
//! - `calls`: the two checks, list, read, start address, raw sector
//! - `pieces`: a file's body a piece at a time
//! - `tree`: subdirectories
//! - `save`: the change that takes slots and sectors
//! - `changes`: the changes of one directory byte or name
//! - `erase_many`: many files erased at once
//! - `gather`: a scattered file moved to consecutive sectors
//! - `record`: the bytes that are kept of a recording
//! - `recording`: save while recording
//! - `report`: a shelf of disks in numbers
//! - `ledger`: a plain ledger of slots, in which changes are entered
//! - `refusal`: the numbers of refusal

mod calls;
mod changes;
mod check;
mod erase_many;
mod extent;
mod gather;
mod geometry;
mod ledger;
mod map;
mod name;
mod names;
mod pieces;
mod record;
mod recording;
mod refusal;
mod report;
mod save;
mod slot;
mod spectrum;
mod tree;

pub use calls::{Listed, check, check_release, list, read, sector, start};
pub use changes::{erase, hide, protect, release, rename, show};
pub use erase_many::erase_many;
pub use gather::gather;
pub use ledger::{Change, Ledger, Mark};
pub use pieces::{Reader, next, open};
pub use record::RECORD_BYTES;
pub use recording::{record_add, record_close, record_open};
pub use refusal::Refused;
pub use report::{REPORT_BYTES, report_add, report_join};
pub use save::{SaveRequest, save};
pub use tree::tree;
