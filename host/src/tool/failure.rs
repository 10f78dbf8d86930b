//! What a command could not do: its words and its exit status.
use crate::tool::printable::printable_path;
use std::ffi::OsStr;
use std::io::{self, ErrorKind};
use varnucht::{NotAccepted, Refusal, Refused, WriteError};

/// What a command gives back.
pub type Outcome = Result<(), Failure>;

/// A refusal, and what more the tool knows of it.
#[derive(Debug)]
pub struct Reason {
    pub refused: Refused,
    pub more: Option<String>,
}

impl From<Refused> for Reason {
    fn from(refused: Refused) -> Reason {
        Reason { refused, more: None }
    }
}

impl From<NotAccepted> for Reason {
    fn from(not_accepted: NotAccepted) -> Reason {
        not_accepted.refused.into()
    }
}

/// Why a command was not done.
#[derive(Debug)]
pub enum Failure {
    /// The library refused it. Status 1.
    Refused(String, Reason),
    /// The command line was not understood. Status 2. The command, if it was found, is named for its help.
    Usage(String, Option<&'static str>),
    /// Something could not be read or written. Status 3.
    Io(String, io::Error),
    /// The sectors of a change could not all be written. Status 3.
    Write(String, WriteError),
    /// All was done but with what could not be read, which was named before. Status 3.
    Unread(String),
    /// Nobody reads standard output any more. Status 3, and nothing is said.
    Closed,
    /// Something of several failed, and was said when it did. The greatest status of all.
    Said(u8),
}

impl Failure {
    /// The library refused the disk in this file.
    pub fn not_accepted(path: &OsStr, reason: impl Into<Reason>) -> Failure {
        Failure::Refused(printable_path(path), reason.into())
    }

    /// The library refused a request on the disk in this file; `what` says on which of its files.
    pub fn refused(path: &OsStr, what: &str, reason: impl Into<Reason>) -> Failure {
        Failure::Refused(format!("{}: {what}", printable_path(path)), reason.into())
    }

    /// The command line was not understood.
    pub fn usage(words: impl Into<String>, command: Option<&'static str>) -> Failure {
        Failure::Usage(words.into(), command)
    }

    /// This file could not be read or written.
    pub fn io(path: &OsStr, error: io::Error) -> Failure {
        Failure::Io(printable_path(path), error)
    }

    /// The sectors of a change could not all be written to this file. A signal stops between two of them: then the next was
    /// not tried, even if it was the last.
    pub fn write(path: &OsStr, error: WriteError) -> Failure {
        match error {
            WriteError::Stopped { written, of, error } if error.kind() == ErrorKind::Interrupted => {
                let words = format!(
                    "{written} of {of} sectors were written when {error}. The old disk is still there and reads as before."
                );
                Failure::io(path, io::Error::other(words))
            }
            WriteError::Partly { written, of, error } if error.kind() == ErrorKind::Interrupted => {
                let words = format!(
                    "{written} of {of} sectors were written when {error}. The files erased in those are gone, and all others \
                     are still there."
                );
                Failure::io(path, io::Error::other(words))
            }
            WriteError::Piece { error, .. } if error.kind() == ErrorKind::Interrupted => Failure::given_up(path, error),
            error => Failure::Write(printable_path(path), error),
        }
    }

    /// A signal came while something was recorded to this file.
    pub fn given_up(path: &OsStr, error: io::Error) -> Failure {
        let words = format!("{error}: the recording is given up. The old disk is still there and reads as before.");
        Failure::io(path, io::Error::other(words))
    }

    /// Whether the library refused it for this reason.
    pub fn is(&self, refusal: Refusal) -> bool {
        matches!(self, Failure::Refused(_, reason) if reason.refused.refusal == refusal)
    }

    /// The exit status.
    pub fn status(&self) -> u8 {
        match self {
            Failure::Refused(..) => 1,
            Failure::Usage(..) => 2,
            Failure::Io(..) | Failure::Write(..) | Failure::Unread(_) | Failure::Closed => 3,
            Failure::Said(status) => *status,
        }
    }

    /// What to say of it, if anything.
    pub fn words(&self) -> Option<String> {
        match self {
            Failure::Refused(what, Reason { refused, more }) => {
                let more = more.as_ref().map_or(String::new(), |more| format!(": {more}"));
                Some(format!("{what}: {refused}{more}"))
            }
            Failure::Usage(words, None) => Some(format!("{words}\nTry `varnucht help`.")),
            Failure::Usage(words, Some(command)) => Some(format!("{words}\nTry `varnucht help {command}`.")),
            Failure::Io(what, error) => Some(format!("{what}: {error}")),
            Failure::Write(what, error) => Some(format!("{what}: {error}.")),
            Failure::Unread(words) => Some(words.clone()),
            Failure::Closed | Failure::Said(_) => None,
        }
    }
}
