//! Counts in words: `1 file`, `2 files`.
use varnucht::Directory;

/// So many of something.
pub fn counted(many: usize, one: &str) -> String {
    if many == 1 {
        format!("1 {one}")
    } else {
        format!("{many} {one}s")
    }
}

/// How many tracks a directory has.
pub fn tracks(directory: Directory) -> String {
    counted(directory.tracks().into(), "directory track")
}

/// So many directories.
pub fn directories(many: usize) -> String {
    match many {
        1 => "1 directory".to_string(),
        _ => format!("{many} directories"),
    }
}
