//! The tool: one command for each thing that the library does, and those that are made of several: `map`, `salvage`,
//! `extract`, `add`, `blank` and `help`.
//!
//! From the top down, and no file needs one above it: this file picks the command; `table` is the table of commands;
//! `commands` has a file for each command; `disk`, `files`, `command_line` and `output` are what commands share. What a
//! command cannot do is a `Failure`, which knows its words and its exit status.
mod command_line;
mod commands;
mod disk;
mod failure;
mod files;
mod output;
mod printable;
mod system;
mod table;

use command_line::parser;
use commands::help;
use failure::{Failure, Outcome};
use std::ffi::OsString;
use std::process::ExitCode;
use table::TABLE;

/// Runs the tool with the words of its command line, and says what went wrong.
pub fn run(words: Vec<OsString>) -> ExitCode {
    let outcome = dispatch(words);
    if let Err(failure) = &outcome
        && let Some(words) = failure.words()
    {
        output::say(&words);
    }
    system::raise_deferred_signal();
    outcome.map_or_else(|failure| ExitCode::from(failure.status()), |()| ExitCode::SUCCESS)
}

/// Finds the command and runs it.
fn dispatch(words: Vec<OsString>) -> Outcome {
    let mut words = words.into_iter();
    let Some(first) = words.next() else {
        return Err(Failure::usage("no command is given", None));
    };
    match first.to_str() {
        Some("help" | "--help" | "-h") => help::run(&TABLE, words.collect()),
        Some("--version" | "-V") => output::print(concat!("varnucht ", env!("CARGO_PKG_VERSION"), "\n")),
        Some(name) if let Some(command) = TABLE.find(name) => match parser::parse(command, words.collect())? {
            Some(arguments) => (command.run)(&arguments),
            None => help::print(&TABLE, command),
        },
        _ => Err(help::no_command(&TABLE, &first)),
    }
}
