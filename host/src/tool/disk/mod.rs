//! What several commands do with a disk: change it, look for its faults, and print something of one file.
pub mod changes;
pub mod faults;
pub mod named_file;
