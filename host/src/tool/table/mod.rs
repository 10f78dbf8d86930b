//! The table of commands: what each is called, what it takes, what help says of it, and what does it.
mod options;
mod paragraphs;

use crate::tool::command_line::arguments::Arguments;
use crate::tool::command_line::command::{Command, CommandTable};
use crate::tool::commands::{
    add, attributes, blank, check, dump, erase, extract, gather, list, map, read, record, rename, report, salvage, save,
    sector, start, tree,
};
use crate::tool::failure::Outcome;
use options::{
    ALL, COLOR, COPY, DRY_RUN, EVERY, EXEC, FILES_FROM, FORCE, FORCE_ALL, FORCE_NEW, FORCE_SVG, INFO, JSON, JSONS, KEEP,
    KIND, NO_WAIT, NUL_IMAGES, NUL_NAMES, OFFSET, OUTPUT, PAGE, RELEASE, REPLACE, SVG, THREADS, TRACKS,
};
use paragraphs::{
    ADD, ADD_MARKS, CHECK_FIELDS, ERASE_MANY, FAULTS, FIELDS, FOLDERS, GATHER, GATHER_ALL, INDEX, LEFT_OUT, LIST_FIELDS,
    LISTS, MAP_FIELDS, NAMES, NUMBERS, PATTERNS, PIPE, RECORD, RECORD_LOCK, REFUSED_FIELDS, REPLACED, REPLACED_CUT, SAFE,
    SAFE_NAMES, SALVAGE, SALVAGE_TREE, SHELF, SLOT, START, TERMINAL, UNREAD, WHOLE,
};

/// All commands, as the command line is read by them and as help prints them.
pub const TABLE: CommandTable = CommandTable {
    commands: COMMANDS,
    aliases: ALIASES,
};

/// A command that changes the file of one name.
const fn on_name(name: &'static str, brief: &'static str, run: fn(&Arguments) -> Outcome) -> Command {
    Command {
        name,
        places: &["IMAGE", "NAME"],
        options: &[&DRY_RUN, &NO_WAIT],
        brief,
        more: &[SAFE, NAMES],
        run,
    }
}

/// All commands but `help`.
const COMMANDS: &[Command] = &[
    Command {
        name: "check",
        places: &["IMAGE..."],
        options: &[&RELEASE, &EVERY, &JSONS, &NUL_IMAGES, &NO_WAIT],
        brief: "say whether a disk is accepted, and fit to go out",
        more: &[
            "Prints `accepted` and how many tracks the directory has, or says which slot is
wrong and why. Of several images each gets its line, with its name in front,
and the greatest status is given.",
            "The directory ends at its first slot without a name, and what stands behind is
not looked at.",
            FAULTS,
            CHECK_FIELDS,
            REFUSED_FIELDS,
            PIPE,
        ],
        run: check::run,
    },
    Command {
        name: "salvage",
        places: &["IMAGE"],
        options: &[&COPY, &KEEP, &FORCE_NEW, &NO_WAIT],
        brief: "copy what is accepted of a disk that is refused",
        more: &[SALVAGE, LEFT_OUT, SALVAGE_TREE, PIPE],
        run: salvage::run,
    },
    Command {
        name: "list",
        places: &["IMAGE..."],
        options: &[&JSONS, &NUL_NAMES, &NO_WAIT],
        brief: "list the files, hidden ones too",
        more: &[
            "The disk's name stands above the files, where it has one; how many tracks the
directory has, and how many of its slots are free, below them.",
            "Marks: `h` hidden, `p` protected. Length and start address are given for the
kinds that have them: 16 to 20, and 1 to 4 of the Spectrum, which can be read
and not saved. Where the disk has directories the last column says which one a
file is in; those in the root have none there.",
            "Of several images each is named above its table; one that fails is named on
standard error, the others go on, and the greatest status is given.",
            LIST_FIELDS,
            REFUSED_FIELDS,
            PIPE,
        ],
        run: list::run,
    },
    Command {
        name: "tree",
        places: &["IMAGE", "[NAME]"],
        options: &[&NO_WAIT],
        brief: "draw the directories and what lies beneath them",
        more: &[
            "With NAME the directory of that name, and what lies beneath it; else all of the
disk. At each level files and directories stand by rising slot. Where the
directories do not fit together (26 to 28) no tree can be drawn: `list` shows
the files all the same, and which directory each is in.",
            PIPE,
            NAMES,
        ],
        run: tree::run,
    },
    Command {
        name: "map",
        places: &["IMAGE"],
        options: &[&COLOR, &JSONS, &SVG, &FORCE_SVG, &NO_WAIT],
        brief: "draw the 1,600 sectors and whose they are",
        more: &[
            "A column is a track and a row a sector, 1 to 10; the first side is above the
second. Each file has a sign, and the signs are named below. There are 80:
with more files they come again, in other colours. Files whose sectors do not
follow each other in the order of their bytes are named once more, as
scattered: `gather` puts a file's sectors in a row.",
            MAP_FIELDS,
            REFUSED_FIELDS,
            PIPE,
        ],
        run: map::run,
    },
    Command {
        name: "read",
        places: &["IMAGE", "NAME"],
        options: &[&OUTPUT, &FORCE, &NO_WAIT],
        brief: "give a file's body",
        more: &[TERMINAL, WHOLE, PIPE, NAMES],
        run: read::run,
    },
    Command {
        name: "dump",
        places: &["IMAGE", "NAME"],
        options: &[&NO_WAIT],
        brief: "dump a file's body in hexadecimal",
        more: &[
            "Above the bytes stand the file's kind, length and start address.",
            PIPE,
            NAMES,
        ],
        run: dump::run,
    },
    Command {
        name: "start",
        places: &["IMAGE", "NAME"],
        options: &[&NO_WAIT],
        brief: "print a file's start address",
        more: &[
            "Of a Spectrum file, kind 1 to 4, it is the start that its header says.",
            PIPE,
            NAMES,
        ],
        run: start::run,
    },
    Command {
        name: "extract",
        places: &["IMAGE", "DIR", "[NAME...]"],
        options: &[&FORCE_ALL, &NO_WAIT],
        brief: "write files to a folder, with an index",
        more: &[PATTERNS, SAFE_NAMES, INDEX, PIPE, NAMES],
        run: extract::run,
    },
    Command {
        name: "add",
        places: &["IMAGE", "FILE..."],
        options: &[&KIND, &PAGE, &OFFSET, &EXEC, &INFO, &DRY_RUN, &NO_WAIT],
        brief: "save files under their own names, or by an index",
        more: &[ADD, ADD_MARKS, START, NUMBERS, SAFE],
        run: add::run,
    },
    Command {
        name: "save",
        places: &["IMAGE", "NAME", "FILE"],
        options: &[&KIND, &PAGE, &OFFSET, &EXEC, &INFO, &REPLACE, &DRY_RUN, &NO_WAIT],
        brief: "save FILE (`-`: standard input) under a new name",
        more: &[START, NUMBERS, SLOT, REPLACED, REPLACED_CUT, SAFE, NAMES],
        run: save::run,
    },
    Command {
        name: "record",
        places: &["IMAGE", "NAME"],
        options: &[&KIND, &PAGE, &OFFSET, &EXEC, &INFO, &NO_WAIT],
        brief: "save standard input as it comes under a new name",
        more: &[RECORD, RECORD_LOCK, START, NUMBERS, SLOT, NAMES],
        run: record::run,
    },
    Command {
        name: "erase",
        places: &["IMAGE", "NAME..."],
        options: &[&DRY_RUN, &NO_WAIT],
        brief: "erase a file, or several",
        more: &[SAFE, ERASE_MANY, NAMES],
        run: erase::run,
    },
    Command {
        name: "rename",
        places: &["IMAGE", "NAME", "NEW"],
        options: &[&DRY_RUN, &NO_WAIT],
        brief: "give a file another name",
        more: &["NEW may be the old name with other capitals.", SAFE, NAMES],
        run: rename::run,
    },
    on_name("hide", "hide a file", attributes::hide),
    on_name("show", "show a hidden file", attributes::show),
    on_name("protect", "protect a file from erasing and renaming", attributes::protect),
    on_name("release", "take a file's protection away", attributes::release),
    Command {
        name: "gather",
        places: &["IMAGE", "[NAME]"],
        options: &[&ALL, &DRY_RUN, &NO_WAIT],
        brief: "move a scattered file to sectors in a row",
        more: &[GATHER, GATHER_ALL, SAFE, NAMES],
        run: gather::run,
    },
    Command {
        name: "sector",
        places: &["IMAGE", "TRACK", "SECTOR"],
        options: &[&NO_WAIT],
        brief: "dump one raw sector; no directory is checked",
        more: &["Tracks are 0 to 79 and 128 to 207, sectors 1 to 10.", NUMBERS, PIPE],
        run: sector::run,
    },
    Command {
        name: "report",
        places: &["[IMAGE...]"],
        options: &[&FILES_FROM, &JSON, &THREADS, &COLOR, &NO_WAIT],
        brief: "count a shelf of images: disks, files, sectors",
        more: &[SHELF, FOLDERS, LISTS, UNREAD, FIELDS, PIPE],
        run: report::run,
    },
    Command {
        name: "blank",
        places: &["IMAGE"],
        options: &[&TRACKS],
        brief: "make a new image, a disk without a file",
        more: &[
            "IMAGE has 819,200 bytes, all zero but the one that says how many tracks the
directory has. One that is there already stays as it is (status 3).",
            "4 tracks have 80 slots and leave 1,560 sectors for files. Each of N above 4
gives 20 slots more, but the fifth 18, and takes 10 sectors, but the fifth 9:
39 have 778 slots and leave 1,211 sectors.",
            NUMBERS,
        ],
        run: blank::run,
    },
];

/// What some commands are called too, by those who come from elsewhere.
const ALIASES: &[(&str, &str)] = &[
    ("ls", "list"),
    ("cat", "read"),
    ("get", "read"),
    ("rm", "erase"),
    ("mv", "rename"),
];
