//! The words of a command line, read as the table of commands says.
use crate::tool::command_line::arguments::Arguments;
use crate::tool::command_line::command::{Command, CommandOption};
use crate::tool::command_line::suggestions;
use crate::tool::failure::Failure;
use crate::tool::printable::printable;
use std::ffi::{OsStr, OsString};
use std::os::unix::ffi::OsStrExt;

/// Reads the words after the command's name. None: help was asked for.
pub fn parse(command: &'static Command, words: Vec<OsString>) -> Result<Option<Arguments>, Failure> {
    let mut arguments = Arguments {
        command: command.name,
        places: Vec::new(),
        options: Vec::new(),
    };
    let mut words = words.into_iter();
    let mut plain = false;
    while let Some(word) = words.next() {
        let dashed = word.as_encoded_bytes().starts_with(b"-") && word != "-";
        match word.to_str() {
            _ if plain || !dashed => arguments.places.push(word),
            Some("--") => plain = true,
            Some("--help" | "-h") => return Ok(None),
            _ => read_option(command, &mut arguments, &word, &mut words)?,
        }
    }
    counted(command, arguments).map(Some)
}

/// Reads one option, and its value from the same word or from the next.
fn read_option(
    command: &Command,
    arguments: &mut Arguments,
    word: &OsStr,
    words: &mut impl Iterator<Item = OsString>,
) -> Result<(), Failure> {
    let (name, after) = split(word);
    let Some(option) = command.options.iter().find(|option| option.names.contains(&name)) else {
        let known = command.options.iter().flat_map(|option| option.names).copied();
        let hint = suggestions::hint(name, known.filter(|known| known.starts_with("--")));
        let words = format!("`{}` has no option `{}`{hint}", command.name, printable(word));
        return Err(arguments.usage(words));
    };
    if arguments.has(option.names[0]) {
        return Err(arguments.usage(format!("`{name}` is given twice")));
    }
    let value = valued(arguments, option, name, after, words)?;
    arguments.options.push((option.names[0], value));
    Ok(())
}

/// The name in a word that begins with a dash, and the value in it, which may have any bytes: `--name=value`, `-nvalue`. A
/// name that is no text is none.
fn split(word: &OsStr) -> (&str, Option<&OsStr>) {
    let bytes = word.as_bytes();
    let (name, after) = match bytes.starts_with(b"--") {
        true => match bytes.iter().position(|byte| *byte == b'=') {
            Some(place) => (&bytes[..place], Some(&bytes[place + 1..])),
            None => (bytes, None),
        },
        false => match bytes.split_at(bytes.len().min(2)) {
            (name, []) => (name, None),
            (name, [b'=', after @ ..] | after) => (name, Some(after)),
        },
    };
    (str::from_utf8(name).unwrap_or_default(), after.map(OsStr::from_bytes))
}

/// The value of an option; an empty one for an option that takes none.
fn valued(
    arguments: &Arguments,
    option: &CommandOption,
    name: &str,
    after: Option<&OsStr>,
    words: &mut impl Iterator<Item = OsString>,
) -> Result<OsString, Failure> {
    match (option.value, after) {
        (None, None) => Ok(OsString::new()),
        (None, Some(_)) => Err(arguments.usage(format!("`{name}` takes no value"))),
        (Some(_), Some(after)) => Ok(after.into()),
        (Some(what), None) => words.next().ok_or_else(|| arguments.usage(format!("`{name}` takes {what}"))),
    }
}

/// What was given, where it is as many words as the command takes: one for each place, but for a last one that takes more.
fn counted(command: &Command, arguments: Arguments) -> Result<Arguments, Failure> {
    let (takes, has) = (command.places, arguments.places.len());
    let last = takes.last().copied().unwrap_or_default();
    let least = takes.len() - usize::from(last.starts_with('['));
    let most = if last.contains("...") { usize::MAX } else { takes.len() };
    if (least..=most).contains(&has) {
        return Ok(arguments);
    }
    let words = match takes.get(has) {
        Some(missing) => {
            let missing = missing.trim_end_matches("...");
            format!("`{}` takes {}: {missing} is missing", command.name, takes.join(" "))
        }
        None => format!(
            "`{}` takes {}: `{}` is one too many",
            command.name,
            takes.join(" "),
            printable(&arguments.places[takes.len()])
        ),
    };
    Err(arguments.usage(words))
}
