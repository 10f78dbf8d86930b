//! The command line: the shape of the table of commands, what a command was given, and the values in it.
pub mod arguments;
pub mod command;
pub mod file_options;
pub mod parser;
pub mod pattern;
pub mod suggestions;
pub mod values;
