//! Names as text: bytes that cannot be printed are written as escapes, and can be typed back.
//!
//! `\xHH` stands for the byte with that hexadecimal number, `\\` for a backslash. Every other byte stands for itself.
use std::error::Error;
use std::fmt;

/// The bytes as text: bytes outside 32 to 126 as `\xHH`, a backslash as `\\`, and a space at the front as `\x20`, so that it
/// is seen. [`unescape`] gives the same bytes back.
///
/// ```
/// assert_eq!(varnucht::escape::escape(b"A\\B\x07"), r"A\\B\x07");
/// ```
pub fn escape(bytes: &[u8]) -> String {
    let mut text = String::new();
    for (place, &byte) in bytes.iter().enumerate() {
        match byte {
            b'\\' => text.push_str(r"\\"),
            b' ' if place > 0 => text.push(' '),
            33..=126 => text.push(char::from(byte)),
            _ => text.push_str(&format!(r"\x{byte:02x}")),
        }
    }
    text
}

/// The bytes that a text with escapes stands for. The text is bytes too, since an argument of a command need not be Unicode.
///
/// # Errors
///
/// The place of a backslash that begins no escape.
///
/// ```
/// use varnucht::escape::unescape;
///
/// assert_eq!(unescape(br"A\\B\x07").unwrap(), b"A\\B\x07");
/// assert!(unescape(br"A\q").is_err());
/// ```
pub fn unescape(text: &[u8]) -> Result<Vec<u8>, BadEscape> {
    let mut bytes = Vec::new();
    let mut rest = text;
    while let Some((&first, after)) = rest.split_first() {
        let (byte, left) = match first {
            b'\\' => escaped(after).ok_or(BadEscape {
                at: text.len() - rest.len(),
            })?,
            plain => (plain, after),
        };
        bytes.push(byte);
        rest = left;
    }
    Ok(bytes)
}

/// The byte that stands after a backslash, and what follows it.
fn escaped(after: &[u8]) -> Option<(u8, &[u8])> {
    match after {
        [b'\\', left @ ..] => Some((b'\\', left)),
        [b'x', high, low, left @ ..] => Some((digit(*high)? * 16 + digit(*low)?, left)),
        _ => None,
    }
}

/// The value of a hexadecimal digit.
fn digit(byte: u8) -> Option<u8> {
    char::from(byte).to_digit(16).and_then(|value| u8::try_from(value).ok())
}

/// A backslash that begins no escape.
#[derive(Clone, Copy, Debug, PartialEq, Eq)]
pub struct BadEscape {
    /// The place of the backslash in the text, from 0.
    pub at: usize,
}

impl fmt::Display for BadEscape {
    fn fmt(&self, f: &mut fmt::Formatter<'_>) -> fmt::Result {
        write!(
            f,
            r"a backslash begins `\\` or `\xHH`, and the one at place {} begins neither",
            self.at + 1
        )
    }
}

impl Error for BadEscape {}
