//! Every call of the C layer against the independent implementation of document 01 (`paper`): the same request to both, with
//! equal copies of all buffers, and the answer and every buffer compared at return.
//!
//! - `draws`: drawn disks, whole and damaged, with drawn requests; counts which call gave which refusal.
//! - `drawn`: the answers on a drawn disk are what was drawn, whatever `paper` says.
//! - `edges`: each argument of each call and each field of a slot at, below and above its boundaries, one after the other.
//! - `sectors`: every drive, track and sector of the raw sector call.
//! - `gathers`: every file of drawn disks gathered, alone and one after the other.
//! - `pieces`: readers, however the asking is cut, and readers of any three numbers.
//! - `erase_many`: names erased at once, and one after the other.
//! - `recordings`: saves whose body comes in pieces, alone and among other changes.
//! - `reports`: disks in numbers, and reports of any bytes.
//! - `mark_order`: marks in either order, marks of two phones merged, and renames taken back.
//!
//! `VARNUCHT_SEED` and `VARNUCHT_ROUNDS` draw other tests, or a single one again. `VARNUCHT_TABLE` names a file for the table
//! of counts, which `--nocapture` shows too.

#[path = "../support/mod.rs"]
mod support;

mod drawn;
mod draws;
mod edges;
mod erase_many;
mod gathers;
mod mark_order;
mod pieces;
mod recordings;
mod reports;
mod sectors;
