//! JSON: an object on a line of its own. The names of fields stay as they are from version to version.
use crate::tool::failure::{Failure, Reason};
use std::ffi::OsStr;
use varnucht::Name;

/// A field of an object: its name and its value, as JSON.
pub type Field = (&'static str, String);

/// An object with these fields.
pub fn object(fields: impl IntoIterator<Item = Field>) -> String {
    let fields = fields.into_iter().map(|(name, value)| format!("{}:{value}", quoted(name)));
    format!("{{{}}}", fields.collect::<Vec<_>>().join(","))
}

/// Values as an array.
pub fn listed(values: impl Iterator<Item = String>) -> String {
    format!("[{}]", values.collect::<Vec<_>>().join(","))
}

/// Words as a string.
pub fn quoted(words: &str) -> String {
    let letter = |letter: char| match letter {
        '"' | '\\' => format!("\\{letter}"),
        _ if letter.is_control() => format!("\\u{:04x}", u32::from(letter)),
        _ => letter.to_string(),
    };
    format!("\"{}\"", words.chars().map(letter).collect::<String>())
}

/// Bytes as an array of numbers.
pub fn bytes(bytes: &[u8]) -> String {
    listed(bytes.iter().map(u8::to_string))
}

/// A number, or null.
pub fn or_null(number: Option<impl ToString>) -> String {
    number.map_or("null".to_string(), |number| number.to_string())
}

/// The name of a file: with escapes, as every command takes it, and its ten bytes.
pub fn named(name: &Name) -> [Field; 2] {
    [("name", quoted(&name.to_string())), ("name_bytes", bytes(name.as_bytes()))]
}

/// The front of every object: the image, as it was named, and whether it is an accepted disk.
pub fn front(path: &OsStr, accepted: bool) -> [Field; 2] {
    [("image", quoted(&path.to_string_lossy())), ("accepted", accepted.to_string())]
}

/// A line with the object of an image, and its status: of one that is refused what refuses it. Other failures stay.
pub fn line(path: &OsStr, fields: Result<Vec<Field>, Failure>) -> Result<(Vec<u8>, u8), Failure> {
    let (accepted, fields, status) = match fields {
        Ok(fields) => (true, fields, 0),
        Err(Failure::Refused(_, reason)) => (false, refused(&reason).into(), 1),
        Err(failure) => return Err(failure),
    };
    let object = object(front(path, accepted).into_iter().chain(fields));
    Ok((format!("{object}\n").into(), status))
}

/// What refuses something: its number, its slot and its words, and what more is known.
pub fn refused(reason: &Reason) -> [Field; 4] {
    let Reason { refused, more } = reason;
    [
        ("refusal", refused.refusal.number().to_string()),
        ("slot", or_null(refused.slot)),
        ("words", quoted(refused.refusal.words())),
        ("more", more.as_ref().map_or("null".to_string(), |more| quoted(more))),
    ]
}
