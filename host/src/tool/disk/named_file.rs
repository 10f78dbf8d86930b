//! Commands that print something of the file of one name.
use crate::tool::command_line::arguments::Arguments;
use crate::tool::command_line::values::NameArgument;
use crate::tool::failure::{Failure, Outcome};
use crate::tool::files::image_file;
use crate::tool::output;
use varnucht::{Disk, Name, Refused};

/// Prints what is said of the file of a name.
pub fn print(arguments: &Arguments, text: impl FnOnce(&Disk, &Name) -> Result<String, Refused>) -> Outcome {
    let asked = NameArgument::at(arguments, 1)?;
    let disk = image_file::disk(arguments)?;
    let text = asked.name("it").and_then(|name| Ok(text(&disk, &name)?));
    output::print(text.map_err(|reason| Failure::refused(arguments.word(0), &asked.to_string(), reason))?)
}
