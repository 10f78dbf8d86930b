//! `read`: a file's body, to standard output or to a file.
use crate::tool::command_line::arguments::Arguments;
use crate::tool::command_line::values::NameArgument;
use crate::tool::failure::{Failure, Outcome};
use crate::tool::files::atomic_write::write_file;
use crate::tool::files::image_file;
use crate::tool::files::input::same_file;
use crate::tool::output;
use std::io::{self, BufReader, IsTerminal, Read};

/// Gives the body of the file named, a piece at a time: no copy of the whole is made in memory.
pub fn run(arguments: &Arguments) -> Outcome {
    let name = NameArgument::at(arguments, 1)?;
    let file = arguments.value("-o").filter(|file| *file != "-");
    if arguments.has("--force") && file.is_none() {
        return Err(arguments.usage("`--force` goes with `-o FILE`"));
    }
    if file.is_some_and(|file| same_file(file, arguments.word(0))) {
        return Err(arguments.usage("FILE is IMAGE itself, which would be lost"));
    }
    let disk = image_file::disk(arguments)?;
    let body = name.name("it").and_then(|name| Ok(disk.reader(&name)?));
    let body = body.map_err(|reason| Failure::refused(arguments.word(0), &name.to_string(), reason))?;
    match file {
        Some(file) => write_file(file, body, arguments.has("--force")),
        None if !arguments.has("-o") && io::stdout().is_terminal() && is_raw(body.clone()) => Err(arguments.usage(format!(
            "{name} holds bytes that give orders to a terminal. `dump` shows them, `-o FILE` writes them to a file, and \
             `-o -` prints them all the same"
        ))),
        None => output::pour(body),
    }
}

/// Whether a body holds bytes that are neither letters nor the ends of lines.
fn is_raw(body: impl Read) -> bool {
    let plain = |byte: io::Result<u8>| matches!(byte, Ok(b'\t' | b'\n' | b'\r' | 32..=126));
    !BufReader::new(body).bytes().all(plain)
}
