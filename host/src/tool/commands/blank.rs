//! `blank`: a new image.
use crate::tool::command_line::arguments::Arguments;
use crate::tool::command_line::values::number;
use crate::tool::failure::{Failure, Outcome};
use crate::tool::files::atomic_write::write_file;
use crate::tool::files::input;
use crate::tool::output;
use crate::tool::output::counts::tracks;
use crate::tool::printable::printable;
use varnucht::{Directory, Image};

/// Makes an image of a disk without a file, where there is none yet.
pub fn run(arguments: &Arguments) -> Outcome {
    input::not_standard(arguments)?;
    let directory = directory(arguments)?;
    write_file(arguments.word(0), &Image::blank_with(directory).as_bytes()[..], false)?;
    output::confirm(&format!(
        "made {}: no file, {} sectors free, {}",
        printable(arguments.word(0)),
        directory.data_sectors(),
        tracks(directory),
    ));
    Ok(())
}

/// The directory of as many tracks as `--tracks` asks for, else of four.
fn directory(arguments: &Arguments) -> Result<Directory, Failure> {
    let Some(word) = arguments.value("--tracks") else {
        return Ok(Directory::default());
    };
    let wrong = || arguments.usage(format!("`--tracks` takes 4 to 39, and not `{}`", printable(word)));
    Directory::new(number(arguments, word)?).ok_or_else(wrong)
}
