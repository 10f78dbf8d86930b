//! `dump`: a file's body in hexadecimal.
use crate::tool::command_line::arguments::Arguments;
use crate::tool::disk::named_file;
use crate::tool::failure::Outcome;
use crate::tool::output::counts::counted;
use crate::tool::output::hex_dump;

/// Prints the body of the file named.
pub fn run(arguments: &Arguments) -> Outcome {
    named_file::print(arguments, |disk, name| {
        let body = disk.read(name)?;
        let kind = disk
            .listing()
            .find(name)
            .map_or(String::new(), |entry| format!("{}, ", entry.kind()));
        let start = disk.start(name).map_or(String::new(), |start| format!(", start {start}"));
        let length = counted(body.len(), "byte");
        Ok(format!("{name}: {kind}{length}{start}\n{}", hex_dump::lines(&body, 5)))
    })
}
