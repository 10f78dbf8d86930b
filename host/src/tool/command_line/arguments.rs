//! What a command was given: the words of its command line, and its options.
use crate::tool::failure::Failure;
use std::ffi::{OsStr, OsString};

/// What a command was given.
pub struct Arguments {
    /// The command's name.
    pub(super) command: &'static str,
    /// A word for each place.
    pub(super) places: Vec<OsString>,
    /// The options, each by its first name and with its value; an empty one for an option that takes none.
    pub(super) options: Vec<(&'static str, OsString)>,
}

impl Arguments {
    /// The word at this place. There are as many as the command takes.
    pub fn word(&self, place: usize) -> &OsStr {
        &self.places[place]
    }

    /// All words, for a command that takes any number of them.
    pub fn words(&self) -> &[OsString] {
        &self.places
    }

    /// The value of the option of this name, if it was given.
    pub fn value(&self, name: &str) -> Option<&OsStr> {
        self.options
            .iter()
            .find(|(given, _)| *given == name)
            .map(|(_, value)| value.as_os_str())
    }

    /// Whether the option of this name was given.
    pub fn has(&self, name: &str) -> bool {
        self.value(name).is_some()
    }

    /// A word of the command line was not understood.
    pub fn usage(&self, words: impl Into<String>) -> Failure {
        Failure::usage(words, Some(self.command))
    }
}
