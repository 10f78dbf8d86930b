//! `start`: a file's start address.
use crate::tool::command_line::arguments::Arguments;
use crate::tool::disk::named_file;
use crate::tool::failure::Outcome;

/// Prints the start address of the file named.
pub fn run(arguments: &Arguments) -> Outcome {
    named_file::print(arguments, |disk, name| Ok(format!("{}\n", disk.start(name)?)))
}
