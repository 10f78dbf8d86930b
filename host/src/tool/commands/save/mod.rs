//! `save`: a file or standard input, under a new name.
mod replace;

use crate::tool::command_line::arguments::Arguments;
use crate::tool::command_line::file_options::FileOptions;
use crate::tool::command_line::values::NameArgument;
use crate::tool::disk::changes::perform;
use crate::tool::failure::Outcome;
use crate::tool::files::input::{self, STANDARD, body};
use varnucht::Change;

/// Saves the body under the name.
pub fn run(arguments: &Arguments) -> Outcome {
    let name = NameArgument::at(arguments, 1)?;
    let options = FileOptions::read(arguments)?;
    match arguments.has("--dry-run") {
        false => input::not_standard(arguments)?,
        true if arguments.word(0) == STANDARD && arguments.word(2) == STANDARD => {
            return Err(arguments.usage("IMAGE and FILE cannot both be standard input"));
        }
        true => {}
    }
    // The body comes first, since standard input can take its time; the image is not locked meanwhile.
    let body = body(arguments.word(2))?;
    let file = || Ok(options.file(&name)?.with_body(&body));
    match arguments.has("--replace") {
        true => replace::perform(arguments, &name.to_string(), file),
        false => perform(arguments, "saved", &name.to_string(), || file().map(Change::Save)),
    }
}
