//! The options that the table gives to commands.
use crate::tool::command_line::command::CommandOption;

/// An option that takes a value.
const fn valued(names: &'static [&'static str], value: &'static str, says: &'static str) -> CommandOption {
    CommandOption {
        names,
        value: Some(value),
        says,
    }
}

/// An option that is there or not.
const fn flag(names: &'static [&'static str], says: &'static str) -> CommandOption {
    CommandOption {
        names,
        value: None,
        says,
    }
}

// Where an option has a usual value, it stands in brackets. No line of the help is longer than 80 letters.
pub const NO_WAIT: CommandOption = flag(
    &["--no-wait"],
    "where another program has locked IMAGE, give up
(status 3) and do not wait",
);
pub const DRY_RUN: CommandOption = flag(
    &["--dry-run"],
    "print the sectors that would be written, in their
order, and write nothing; then IMAGE may be `-`,
standard input",
);
pub const RELEASE: CommandOption = flag(
    &["--release"],
    "refuse waste sectors too: more sectors behind a file
than its length needs (kinds 16 to 20)",
);
pub const EVERY: CommandOption = flag(&["--all"], "name every fault of a refused disk, not the first");
pub const COPY: CommandOption = valued(&["-o", "--output"], "NEW", "write the copy to NEW (`-`: standard output)");
pub const KEEP: CommandOption = valued(
    &["--keep"],
    "SLOTS",
    "of two that do not go together keep the one in this
slot, and leave the other out; several by commas",
);
pub const FORCE_NEW: CommandOption = flag(&["--force"], "let NEW take the place of an older file");
pub const ALL: CommandOption = flag(&["--all"], "gather each file in turn, the lowest slot first");
pub const COLOR: CommandOption = valued(
    &["--color"],
    "WHEN",
    "always, never or auto: on a terminal, where NO_COLOR
is not set (auto)",
);
pub const OUTPUT: CommandOption = valued(
    &["-o", "--output"],
    "FILE",
    "write the body to FILE and not to standard output",
);
pub const FORCE: CommandOption = flag(
    &["--force"],
    "let FILE take the place of an older one, with its
permissions; other hard links keep the older bytes",
);
pub const SVG: CommandOption = valued(
    &["--svg"],
    "FILE",
    "write the picture to FILE as SVG (`-`: standard
output)",
);
pub const FORCE_SVG: CommandOption = flag(&["--force"], "let FILE take the place of an older file");
pub const FORCE_ALL: CommandOption = flag(&["--force"], "let the files take the place of older ones");
pub const KIND: CommandOption = valued(
    &["--kind"],
    "KIND",
    "basic, numeric-array, string-array, code or screen,
or its number, 16 to 20 (code)",
);
pub const PAGE: CommandOption = valued(&["--page"], "N", "the start page, 0 to 31 (1)");
pub const OFFSET: CommandOption = valued(&["--offset"], "N", "the offset in the page, 32768 to 49151 (32768)");
pub const EXEC: CommandOption = valued(
    &["--exec"],
    "HEX",
    "up to 3 execution bytes (ffffff: it does not run when
it is loaded)",
);
pub const FILES_FROM: CommandOption = valued(
    &["--files-from"],
    "LIST",
    "take also the images and folders that the file LIST
names, one to a line; `-` is standard input",
);
pub const JSON: CommandOption = flag(&["--json"], "print one JSON object, on one line");
pub const JSONS: CommandOption = flag(&["--json"], "print a JSON object for each image, on one line");
pub const NUL_IMAGES: CommandOption = flag(
    &["-0", "--null"],
    "print the images that are accepted, with a byte 0
behind each, for `xargs -0`",
);
pub const NUL_NAMES: CommandOption = flag(
    &["-0", "--null"],
    "print the names alone, with a byte 0 behind each, for
`xargs -0`; of several images IMAGE, 0, NAME, 0",
);
pub const THREADS: CommandOption = valued(
    &["--threads"],
    "N",
    "how many threads read, 1 to 64 (as many as can run at
once, at most 16)",
);
pub const TRACKS: CommandOption = valued(
    &["--tracks"],
    "N",
    "how many tracks the directory has, 4 to 39 (4); more
than 4 are for MasterDOS",
);
pub const REPLACE: CommandOption = flag(
    &["--replace"],
    "where a file has that name, let the new one take its
place; it has no marks then, and lies in the root",
);
pub const INFO: CommandOption = valued(&["--info"], "HEX", "up to 11 bytes of kind information (all zero)");
