//! Commands that take several images and print something of each.
use crate::tool::command_line::arguments::Arguments;
use crate::tool::failure::{Failure, Outcome};
use crate::tool::files::input;
use crate::tool::output;
use std::ffi::OsStr;
use std::os::unix::ffi::OsStrExt;

/// Prints what `text` gives of each image, in their order, with its status. Of one that fails that is said, the others go on,
/// and the greatest status is given.
pub fn print(arguments: &Arguments, text: impl Fn(&OsStr) -> Result<(Vec<u8>, u8), Failure>) -> Outcome {
    input::standard_once(arguments, None)?;
    let one = arguments.words().len() == 1;
    let mut worst = 0;
    for path in arguments.words() {
        match text(path) {
            Ok((text, status)) => {
                output::print(text)?;
                worst = worst.max(status);
            }
            Err(failure) if one => return Err(failure),
            Err(failure) => {
                worst = worst.max(failure.status());
                failure.words().iter().for_each(|words| output::say(words));
            }
        }
    }
    if worst == 0 { Ok(()) } else { Err(Failure::Said(worst)) }
}

/// A path as it was given, and a byte 0 behind it.
pub fn nul_terminated(path: &OsStr) -> Vec<u8> {
    [path.as_bytes(), b"\0"].concat()
}

/// Fails where two forms are asked for at once.
pub fn one_format(arguments: &Arguments) -> Outcome {
    match arguments.has("--json") && arguments.has("-0") {
        true => Err(arguments.usage("`--json` and `-0` are two forms, and one is printed")),
        false => Ok(()),
    }
}
