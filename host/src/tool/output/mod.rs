//! What the tool prints on standard output and on standard error. The files beside are the forms of it.
pub mod colour;
pub mod counts;
pub mod hex_dump;
pub mod json;
pub mod progress;

use crate::tool::failure::{Failure, Outcome};
use crate::tool::system;
use std::io::{self, ErrorKind, Read, Write};

/// Prints to standard output. That nobody reads it any more is no error to speak of.
pub fn print(text: impl AsRef<[u8]>) -> Outcome {
    pour(text.as_ref())
}

/// Prints all that a source gives, likewise, a piece at a time.
pub fn pour(mut source: impl Read) -> Outcome {
    let out = system::standard(system::OUTPUT);
    match out.and_then(|mut out| io::copy(&mut source, &mut *out)) {
        Ok(_) => Ok(()),
        Err(error) if error.kind() == ErrorKind::BrokenPipe => Err(Failure::Closed),
        Err(error) => Err(Failure::Io("standard output".into(), error)),
    }
}

/// Says that something was done. Where it cannot be said it was done all the same.
pub fn confirm(words: &str) {
    let _ = print(format!("{words}\n"));
}

/// Says something on standard error. Nothing can be done where that is closed.
pub fn say(words: &str) {
    let _ = writeln!(io::stderr(), "varnucht: {words}");
}
