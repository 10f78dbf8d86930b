//! Values of the command line: names, numbers, kinds and hexadecimal bytes.
use crate::tool::command_line::arguments::Arguments;
use crate::tool::failure::{Failure, Reason};
use crate::tool::output::colour;
use crate::tool::printable::printable;
use std::ffi::OsStr;
use std::fmt;
use varnucht::escape::{escape, unescape};
use varnucht::{CarriedKind, Name, NewName, Refused, Unusable};

/// The bytes of a name of the command line, with its escapes undone. Whether it is usable as a name is not asked yet.
pub struct NameArgument(Vec<u8>);

impl NameArgument {
    /// The name at a place of the command line.
    pub fn at(arguments: &Arguments, place: usize) -> Result<NameArgument, Failure> {
        let word = arguments.word(place);
        let bytes = unescape(word.as_encoded_bytes());
        bytes
            .map(NameArgument)
            .map_err(|bad| arguments.usage(format!("`{}`: {bad}", printable(word))))
    }

    /// The name with these bytes, whatever they are.
    pub fn of(bytes: Vec<u8>) -> NameArgument {
        NameArgument(bytes)
    }

    /// Whether no byte of a name is given.
    pub fn is_empty(&self) -> bool {
        self.0.is_empty()
    }

    /// The name to ask for. Where it is not usable the reason says why, of `who`.
    pub fn name(&self, who: &str) -> Result<Name, Reason> {
        Name::new(&self.0).map_err(|refused| unusable(refused, who, Name::unusable(&self.0)))
    }

    /// The name to give to a file, likewise.
    pub fn new_name(&self, who: &str) -> Result<NewName, Reason> {
        NewName::new(&self.0).map_err(|refused| unusable(refused, who, NewName::unusable(&self.0)))
    }
}

/// The refusal of a name, and why.
fn unusable(refused: Refused, who: &str, why: Option<Unusable>) -> Reason {
    Reason {
        refused,
        more: why.map(|why| format!("{who} {why}")),
    }
}

impl fmt::Display for NameArgument {
    /// With escapes, as `list` prints names.
    fn fmt(&self, f: &mut fmt::Formatter<'_>) -> fmt::Result {
        f.write_str(&escape(&self.0))
    }
}

/// A number, decimal or after `0x` hexadecimal. One too large for 32 bits counts as the largest: it is out of every range
/// that a number is asked for, just the same. So a message shows the word and not the number.
pub fn number(arguments: &Arguments, word: &OsStr) -> Result<u32, Failure> {
    let text = word.to_str().unwrap_or_default();
    let (digits, base) = text.strip_prefix("0x").map_or((text, 10), |hex| (hex, 16));
    if digits.is_empty() || !digits.chars().all(|digit| digit.is_digit(base)) {
        return Err(arguments.usage(format!("`{}` is not a number", printable(word))));
    }
    Ok(u32::from_str_radix(digits, base).unwrap_or(u32::MAX))
}

/// The number of an option, or its usual value.
pub fn number_or(arguments: &Arguments, option: &str, usual: u32) -> Result<u32, Failure> {
    arguments.value(option).map_or(Ok(usual), |word| number(arguments, word))
}

/// The words for kinds.
const KINDS: [(&str, CarriedKind); 7] = [
    ("basic", CarriedKind::Basic),
    ("numeric-array", CarriedKind::NumericArray),
    ("numeric", CarriedKind::NumericArray),
    ("string-array", CarriedKind::StringArray),
    ("string", CarriedKind::StringArray),
    ("code", CarriedKind::Code),
    ("screen", CarriedKind::Screen),
];

/// The number of a kind, by its word or by a number, whatever that is.
pub fn kind(arguments: &Arguments, word: &OsStr) -> Result<u32, Failure> {
    let text = word.to_str().unwrap_or_default();
    match KINDS.iter().find(|(name, _)| name.eq_ignore_ascii_case(text)) {
        Some((_, kind)) => Ok(kind.number().into()),
        None => number(arguments, word).map_err(|_| arguments.usage(format!("`{}` is not a kind", printable(word)))),
    }
}

/// The hexadecimal bytes of an option put over the front of the usual ones, if they are given: then the rest is 0.
pub fn bytes_or<const N: usize>(arguments: &Arguments, option: &str, usual: [u8; N]) -> Result<[u8; N], Failure> {
    let Some(word) = arguments.value(option) else {
        return Ok(usual);
    };
    let wrong = || {
        arguments.usage(format!(
            "`{}` is not up to {N} bytes, each two hexadecimal digits",
            printable(word)
        ))
    };
    let text = word
        .to_str()
        .filter(|text| text.is_ascii() && text.len() % 2 == 0 && text.len() <= 2 * N)
        .ok_or_else(wrong)?;
    let mut bytes = [0; N];
    for (byte, digits) in bytes.iter_mut().zip(text.as_bytes().chunks(2)) {
        let value = |digit: u8| char::from(digit).to_digit(16);
        let (high, low) = (value(digits[0]).ok_or_else(wrong)?, value(digits[1]).ok_or_else(wrong)?);
        *byte = (high * 16 + low) as u8;
    }
    Ok(bytes)
}

/// Whether to print in colour: as `--color` says, else where standard output is a terminal and the environment allows it.
pub fn colour(arguments: &Arguments) -> Result<bool, Failure> {
    match arguments.value("--color").map(|word| word.to_str()) {
        None | Some(Some("auto")) => Ok(colour::is_usual()),
        Some(Some("always")) => Ok(true),
        Some(Some("never")) => Ok(false),
        Some(_) => {
            let word = printable(arguments.value("--color").unwrap_or_default());
            Err(arguments.usage(format!("`--color` takes always, never or auto, and not `{word}`")))
        }
    }
}
