//! `rename`: another name for a file.
use crate::tool::command_line::arguments::Arguments;
use crate::tool::command_line::values::NameArgument;
use crate::tool::disk::changes::perform;
use crate::tool::failure::Outcome;
use varnucht::Change;

/// Gives a file another name.
pub fn run(arguments: &Arguments) -> Outcome {
    let (name, new) = (NameArgument::at(arguments, 1)?, NameArgument::at(arguments, 2)?);
    let change = || Ok(Change::Rename(name.name("the old one")?, new.new_name("the new one")?));
    perform(arguments, "renamed", &format!("{name} to {new}"), change)
}
