//! `hide`, `show`, `protect` and `release`: the two marks of a file.
use crate::tool::command_line::arguments::Arguments;
use crate::tool::disk::changes::on_name;
use crate::tool::failure::Outcome;
use varnucht::Change;

/// Hides a file.
pub fn hide(arguments: &Arguments) -> Outcome {
    on_name(arguments, "hid", Change::Hide)
}

/// Shows a hidden file.
pub fn show(arguments: &Arguments) -> Outcome {
    on_name(arguments, "showed", Change::Show)
}

/// Protects a file.
pub fn protect(arguments: &Arguments) -> Outcome {
    on_name(arguments, "protected", Change::Protect)
}

/// Takes a file's protection away.
pub fn release(arguments: &Arguments) -> Outcome {
    on_name(arguments, "released", Change::Release)
}
