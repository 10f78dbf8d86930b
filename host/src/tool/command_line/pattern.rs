//! Names of the command line that stand for several: `*` for any bytes, `?` for one.
use crate::tool::command_line::arguments::Arguments;
use crate::tool::command_line::values::NameArgument;
use crate::tool::failure::{Failure, Reason};
use std::os::unix::ffi::OsStrExt;
use varnucht::escape::unescape;
use varnucht::{Entry, Listing, Refusal, Refused};

/// A name, or a pattern of names.
pub enum Pattern {
    Name(NameArgument),
    Many(Vec<Part>),
}

/// A part of a pattern.
pub enum Part {
    Bytes(Vec<u8>),
    One,
    Any,
}

impl Pattern {
    /// The pattern at a place of the command line. Without `*` and `?` it is a name; as escapes these stand for themselves.
    pub fn at(arguments: &Arguments, place: usize) -> Result<Pattern, Failure> {
        let word = arguments.word(place).as_bytes();
        // A wrong escape is refused as in a name.
        let name = NameArgument::at(arguments, place)?;
        if !word.iter().any(|byte| matches!(byte, b'*' | b'?')) {
            return Ok(Pattern::Name(name));
        }
        // No escape holds one of the two, so none is cut through.
        let parts = word
            .split_inclusive(|byte| matches!(byte, b'*' | b'?'))
            .flat_map(|part| match part {
                [front @ .., b'*'] => [Part::bytes(front), Part::Any],
                [front @ .., b'?'] => [Part::bytes(front), Part::One],
                front => [Part::bytes(front), Part::Bytes(Vec::new())],
            });
        Ok(Pattern::Many(parts.collect()))
    }

    /// The files that it stands for, by rising slot. Refused 15 where there are none; of a pattern directories are none.
    pub fn find<'l>(&self, listing: &'l Listing) -> Result<Vec<&'l Entry>, Reason> {
        let found: Vec<&Entry> = match self {
            Pattern::Name(name) => listing.find(&name.name("it")?).into_iter().collect(),
            Pattern::Many(parts) => {
                let files = listing.entries().iter().filter(|entry| !entry.kind().is_directory());
                files.filter(|entry| matches(parts, entry.name().trimmed())).collect()
            }
        };
        if found.is_empty() {
            Err(Refused::from(Refusal::NotFound).into())
        } else {
            Ok(found)
        }
    }
}

impl Part {
    /// Bytes with their escapes undone.
    fn bytes(text: &[u8]) -> Part {
        Part::Bytes(unescape(text).unwrap_or_default())
    }
}

/// Whether parts fit the bytes of a name from the front to the end, capitals or not.
fn matches(parts: &[Part], name: &[u8]) -> bool {
    match parts {
        [] => name.is_empty(),
        [Part::Bytes(bytes), rest @ ..] => match name.split_at_checked(bytes.len()) {
            Some((front, after)) => front.eq_ignore_ascii_case(bytes) && matches(rest, after),
            None => false,
        },
        [Part::One, rest @ ..] => name.split_first().is_some_and(|(_, after)| matches(rest, after)),
        // A name has ten bytes at most, so trying every end is no work.
        [Part::Any, rest @ ..] => (0..=name.len()).any(|end| matches(rest, &name[end..])),
    }
}
