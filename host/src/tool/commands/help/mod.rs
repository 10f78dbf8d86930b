//! `help`: what the tool does, and what each command does. It stands in no table, and is handed the whole one.
mod completions;
mod man_page;
mod text;

use crate::tool::command_line::command::{Command, CommandTable};
use crate::tool::command_line::suggestions;
use crate::tool::failure::{Failure, Outcome};
use crate::tool::output;
use crate::tool::printable::printable;
use std::ffi::{OsStr, OsString};

/// Prints the help on a command, or on all.
pub fn run(table: &CommandTable, words: Vec<OsString>) -> Outcome {
    match words.as_slice() {
        [] => output::print(text::all(table)),
        [word] if word == "help" => output::print(text::all(table)),
        [word] if let Some(page) = word.to_str().and_then(|name| page(table, name)) => output::print(page),
        [word] => match word.to_str().and_then(|name| table.find(name)) {
            Some(command) => print(table, command),
            None => Err(no_command(table, word)),
        },
        _ => Err(Failure::usage("`help` takes one command", None)),
    }
}

/// There is no command of this name; the nearest is named.
pub fn no_command(table: &CommandTable, word: &OsStr) -> Failure {
    let others = table.aliases.iter().map(|(alias, _)| *alias).chain(["help"]);
    let known = table.commands.iter().map(|command| command.name).chain(others);
    let hint = suggestions::hint(&word.to_string_lossy(), known);
    Failure::usage(format!("there is no command `{}`{hint}", printable(word)), None)
}

/// Prints the help on a command.
pub fn print(table: &CommandTable, command: &Command) -> Outcome {
    output::print(text::one(table, command))
}

/// The man page or the completions of this name; none where there is no such form.
fn page(table: &CommandTable, name: &str) -> Option<String> {
    match name {
        "--man" => Some(man_page::man(table)),
        "--bash" => Some(completions::bash(table)),
        "--zsh" => Some(completions::zsh(table)),
        "--fish" => Some(completions::fish(table)),
        _ => None,
    }
}
