//! What is read: files that the command line names, and standard input.
use crate::tool::command_line::arguments::Arguments;
use crate::tool::failure::{Failure, Outcome};
use crate::tool::system;
use std::ffi::{OsStr, OsString};
use std::fs::{self, File};
use std::io::{self, Read};
use std::mem::ManuallyDrop;
use varnucht::LONGEST_BODY;

/// Stands for standard input in the place of a file.
pub const STANDARD: &str = "-";

/// Standard input.
pub fn standard_input() -> Result<ManuallyDrop<File>, Failure> {
    system::standard(system::INPUT).map_err(|error| Failure::io(STANDARD.as_ref(), error))
}

/// Fails where standard input is asked for twice, by the words and by the value of an option.
pub fn standard_once(arguments: &Arguments, value: Option<&OsStr>) -> Outcome {
    let words = arguments.words().iter().map(OsString::as_os_str).chain(value);
    match words.filter(|word| *word == STANDARD).count() {
        0 | 1 => Ok(()),
        _ => Err(arguments.usage("standard input can be read once: `-` is given twice")),
    }
}

/// Fails where the image is standard input and the command writes to it.
pub fn not_standard(arguments: &Arguments) -> Outcome {
    match arguments.word(0) == STANDARD {
        true => Err(arguments.usage("IMAGE is written to, and `-` is standard input: write `./-` for a file of that name")),
        false => Ok(()),
    }
}

/// All bytes that a source gives, where they are no more than `most`; else one more than `most` of them.
pub fn read_at_most(source: &mut impl Read, most: usize) -> io::Result<Vec<u8>> {
    let mut bytes = Vec::with_capacity(most + 1);
    source.take(most as u64 + 1).read_to_end(&mut bytes)?;
    Ok(bytes)
}

/// The bytes of a file, or of standard input for `-`. No more is read than shows that the body fits on no disk: the library
/// refuses such a body just as it refuses a longer one.
pub fn body(path: &OsStr) -> Result<Vec<u8>, Failure> {
    let front = match path == STANDARD {
        true => read_at_most(&mut *standard_input()?, LONGEST_BODY),
        false => File::open(path).and_then(|mut file| read_at_most(&mut file, LONGEST_BODY)),
    };
    front.map_err(|error| Failure::io(path, error))
}

/// Whether a file's path and an image's lead to one file.
pub fn same_file(file: &OsStr, image: &OsStr) -> bool {
    let image = if image == STANDARD { "/dev/stdin".as_ref() } else { image };
    match (fs::canonicalize(file), fs::canonicalize(image)) {
        (Ok(file), Ok(image)) => file == image,
        _ => false,
    }
}
