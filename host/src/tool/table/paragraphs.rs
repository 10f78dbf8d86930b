//! What help says of commands, by paragraphs. No line is longer than 80 letters.

/// What is said of names wherever a command takes one.
pub const NAMES: &str = r"A name has 1 to 10 bytes; capitals or not, it is the same name. `\xHH` stands
for the byte with that hexadecimal number and `\\` for a backslash, as `list`
prints them. Before a name that begins with `-` write `--`.";

/// What is said of every change.
pub const SAFE: &str = "The sectors are written in the order that keeps the disk accepted, each
flushed to the disk before the next: cut short anywhere, IMAGE holds the old
disk until the last one is written. IMAGE is locked meanwhile; where it is
removed, replaced or cut short all the same, the change fails (status 3).";

/// What is said of files that are made.
pub const WHOLE: &str = "FILE gets its name when it is whole: a failure or a signal leaves an older one
as it was. Setuid, setgid and sticky are not kept.";

/// What is said of bodies on a terminal.
pub const TERMINAL: &str = "To a terminal no body goes that holds other bytes than letters, tabs and ends of
lines, since they give orders to it, unless `-o -` asks for that.";

/// What is said of IMAGE where it is only read.
pub const PIPE: &str = "IMAGE may be a pipe, read to its end: one that nobody writes to is waited for.
`-` is standard input.";

/// What is said of every fault of a disk.
pub const FAULTS: &str = "With --all every slot is tried by itself, on a copy in which it is the only
live one, and two slots together where they share a sector or a name (8, 9):
both are doubtful then. The check of the library judges each copy. Where slot 1
does not say how large the directory is (24), that is the one fault.";

/// What is said of a rescue: what the copy is, what is left out, and what becomes of directories.
pub const SALVAGE: &str = "Makes NEW, a copy of IMAGE in which byte 0 of each bad slot is 0, so that the
slot is free. Nothing else of the disk is changed, and IMAGE is never written.
NEW is made only where the library accepts it. A file of a wrong length (1), or
a disk that does not say how large its directory is (24), cannot be salvaged.";
pub const LEFT_OUT: &str = "What is left out is named with its refusal, and the status is then 1. Of two
that share a sector or a name both are named, and the later slot is left out,
unless --keep asks for it. `check --all` says the same beforehand, and `sector`
shows what a bad file's sectors hold.";
pub const SALVAGE_TREE: &str = "Where a directory is left out what was in it stays, is named, and is found by
every command but `tree`, which refuses the copy (27).";

/// What is said of files that go to a folder and come back from there.
pub const PATTERNS: &str = r"In a NAME `*` stands for any bytes and `?` for one; `\x2a` and `\x3f` are these
two themselves. Without a NAME all files are extracted. DIR is made where it is
not there. Directories have no body, and all files go to DIR itself.";
pub const SAFE_NAMES: &str = r"On the host a file is called as `list` prints its name, with a slash as `\x2f`
and a dot at the front as `\x2e`: it is never a path. Where a file is there
already nothing is extracted (status 3), unless --force is given. A file that
cannot be read from the disk (13) is named, the rest is done, and the status
is 1.";
pub const INDEX: &str = "DIR/varnucht.index has a line for each file, with its names on the host and on
the disk, kind, page, offset, execution bytes, kind information and marks, by
tabs. Lines of files that were extracted there before stay. `add` takes them.";
pub const ADD: &str = r"Saves each FILE in turn, a change of its own. Where `varnucht.index` in its
folder has a line for it, it gets the name, the kind, the start, the other
bytes and the marks that stand there; else the name that it has on the host,
in which `\xHH` stands for a byte. An option goes before the index, and the
index itself is passed over. What is refused or cannot be read is named, the
others go on, and the greatest status is given.";
pub const ADD_MARKS: &str = "A mark is set after the file is saved, by a change of its own: cut short in
between, the file is there without it. All files go to the root. A save writes
no date.";

/// What is said of a report: what it counts; what is taken in folders and lists; what cannot be read; the names in JSON.
pub const SHELF: &str = "Prints how many disks are accepted and how many refused, by number; and of the
accepted ones the files by kind, the sectors of the files, the free sectors,
and the files by how many sectors they have, with a bar for each class. A disk
that is refused is counted as such, and is no failure. At most 65,535 disks
are in a report: more are refused, 31 (status 1).";
pub const FOLDERS: &str = "An IMAGE that is a folder is searched, and the folders in it. Taken there are
files whose names end in .mgt, .dsk or .img, capitals or not, and files of
819,200 bytes, whatever their names. Names that begin with a dot are passed
over. Links are followed; each file and each folder is taken once, however
many paths lead to it.";
pub const LISTS: &str = "In LIST empty lines are passed over, and a line `-` is a file of that name.";
pub const UNREAD: &str = "What cannot be read is named on standard error, in the order in which it was
met, and counted apart; the rest is done, the report is printed, and the
status is 3.";
pub const FIELDS: &str = "JSON: disks, accepted, refused (an array of number, words, disks), not_read,
files, kinds (of kind, words, files), file_sectors, free_sectors, classes (of
from, to, files; the last `to` is null).";

/// The names in JSON of a check, of a list and of a map, and where an image is refused.
pub const CHECK_FIELDS: &str = "JSON: image, accepted, directory_tracks; with --all faults (an array of slot,
with, name, name_bytes, refusal, words): `with` is the earlier slot that it does
not go together with, or null.";
pub const LIST_FIELDS: &str = "JSON: image, accepted, name, name_bytes (of the disk; null for none),
directory_tracks, slots, free_slots, free_sectors, room, files (an array of
slot, name, name_bytes, kind, kind_words, hidden, protected, sectors, length,
start, execution, information, code, in, in_code). `name` has escapes, and
`name_bytes` is an array of numbers.";
pub const MAP_FIELDS: &str = "JSON: image, accepted, directory and free (arrays of sector numbers), files (an
array of slot, name, name_bytes, scattered, sectors, in the file's order).";
pub const REFUSED_FIELDS: &str = "JSON of an image that is refused: image, accepted, refusal, slot, words, more.";

/// What is said of a save.
pub const START: &str = "The usual start, page 1 and offset 32768, is address 32768.";

/// What is said of the slot that a save takes.
pub const SLOT: &str = "It takes the lowest free slot. Where that is the directory's end and an old
name stands in the next slot, that name is cleared with it.";

/// What is said of a recording.
pub const RECORD: &str = "Reads standard input to its end and saves it as it comes: each sector is
written and flushed as soon as it is full. When the input ends the file is
there, and the disk is the same as after `save`. Until then all of it lies in
free sectors: cut short anywhere, by a signal too, IMAGE holds the old disk and
nothing of the recording. So it does where the disk gets full (19).";
pub const RECORD_LOCK: &str = "IMAGE is locked from the first byte to the last; where it is removed, replaced
or cut short all the same, the recording fails (status 3).";

/// What is said of a file that takes the place of another.
pub const REPLACED: &str = "With --replace the new file is saved under a free name, NEW~1 or the next that
is free; then the older one is erased, and then the new one is renamed: three
changes, all of them tried in memory before the first is written. It is refused
where there is no room for both (18, 19), where the older one is protected (17)
or a directory (13).";
pub const REPLACED_CUT: &str = "Cut short anywhere, the older file or the new one is there, whole. Where `list`
shows a file NEW~1 that is the new one: `rename IMAGE NEW~1 NAME` ends the work
if NAME is gone, and `erase IMAGE NEW~1` takes it back if NAME is there.";

/// What is said of scattered files, and of gathering them all.
pub const GATHER: &str = "Moves the file to the lowest run of free sectors that is as long as the file,
in the order of the disk's own map: by tracks, the first side before the
second. A file that lies in a row already, wherever that is, stays as it is.
Where there is no such run the file cannot move (32). Its name, its body and
its start address stay.";
pub const GATHER_ALL: &str = "With --all each file is a change of its own, made and written before the next.
The files that cannot move are named, and the status is 1. A file that moves
leaves free sectors, so that another run may move more of them.";

/// What is said of several names that are erased at once.
pub const ERASE_MANY: &str = "Several files are erased in the order of their names: one that is named twice
is not there the second time, and a directory goes if the names before it have
emptied it. Of each that is refused a line is printed, the rest is done, and
the status is 1. Each of their sectors is then a change of its own: cut short,
IMAGE has lost the files whose sector was written, and holds all others.";

/// What is said of numbers.
pub const NUMBERS: &str = "A number may be written as 0x and hexadecimal digits.";
