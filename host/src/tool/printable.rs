//! Words and paths of the command line as messages show them.
use std::ffi::OsStr;

/// A word of the command line as a message shows it: control characters, which could upset a terminal, as escapes.
pub fn printable(word: &OsStr) -> String {
    let show = |letter: char| match letter.is_control() {
        true => format!(r"\x{:02x}", u32::from(letter)),
        false => letter.to_string(),
    };
    word.to_string_lossy().chars().map(show).collect()
}

/// A file of the command line as a message shows it.
pub fn printable_path(path: &OsStr) -> String {
    if path == "-" {
        "standard input".into()
    } else {
        printable(path)
    }
}
