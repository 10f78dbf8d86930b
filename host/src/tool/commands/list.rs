//! `list`: a table of the files, or JSON, or their names for a script.
use crate::tool::command_line::arguments::Arguments;
use crate::tool::failure::Outcome;
use crate::tool::files::each_image;
use crate::tool::files::image_file;
use crate::tool::output::counts::{counted, directories, tracks};
use crate::tool::output::json::{self, Field, or_null, quoted};
use crate::tool::printable::printable_path;
use std::ffi::OsStr;
use varnucht::{Disk, Entry, Listing, Within};

/// Prints the table of each image; or its line as JSON, or its names for a script.
pub fn run(arguments: &Arguments) -> Outcome {
    each_image::one_format(arguments)?;
    let one = arguments.words().len() == 1;
    each_image::print(arguments, |path| {
        let disk = image_file::disk_at(arguments, path);
        if arguments.has("--json") {
            return json::line(path, disk.map(|disk| fields(&disk)));
        }
        let disk = disk?;
        let text = match (arguments.has("-0"), one) {
            (true, _) => names(&disk, path, one),
            (false, true) => table(&disk).into(),
            (false, false) => format!("{}:\n{}\n", printable_path(path), table(&disk)).into(),
        };
        Ok((text, 0))
    })
}

/// The names, as every command takes them, each with a 0 behind it; of several images each behind its image's.
fn names(disk: &Disk, path: &OsStr, one: bool) -> Vec<u8> {
    let image = if one { Vec::new() } else { each_image::nul_terminated(path) };
    let name = |entry: &Entry| [&image[..], entry.name().to_string().as_bytes(), b"\0"].concat();
    disk.listing().entries().iter().flat_map(name).collect()
}

/// What JSON says of a disk.
fn fields(disk: &Disk) -> Vec<Field> {
    let listing = disk.listing();
    let name = disk.name();
    vec![
        ("name", name.map_or("null".to_string(), |name| quoted(&name.to_string()))),
        (
            "name_bytes",
            name.map_or("null".to_string(), |name| json::bytes(name.as_bytes())),
        ),
        ("directory_tracks", listing.directory().tracks().to_string()),
        ("slots", listing.directory().slots().to_string()),
        ("free_slots", listing.free_slots().to_string()),
        ("free_sectors", listing.free().to_string()),
        ("room", or_null(listing.room())),
        ("files", json::listed(listing.entries().iter().map(|entry| file(disk, entry)))),
    ]
}

/// What JSON says of a file or of a directory.
fn file(disk: &Disk, entry: &Entry) -> String {
    let (length, start) = length_and_start(disk, entry);
    let within = match disk.listing().within(entry) {
        Within::Directory(directory) if disk.listing().has_directories() => quoted(&directory.name().to_string()),
        _ => "null".to_string(),
    };
    let fields = [
        ("kind", entry.kind().number().to_string()),
        ("kind_words", quoted(&entry.kind().to_string())),
        ("hidden", entry.hidden().to_string()),
        ("protected", entry.protected().to_string()),
        ("sectors", entry.sector_count().to_string()),
        ("length", or_null(length)),
        ("start", or_null(start)),
        ("execution", json::bytes(&entry.execution())),
        ("information", json::bytes(&entry.information())),
        ("code", or_null(entry.code())),
        ("in", within),
        ("in_code", entry.parent_code().to_string()),
    ];
    let slot = [("slot", entry.slot().to_string())];
    json::object(slot.into_iter().chain(json::named(&entry.name())).chain(fields))
}

/// The length of a file's body and its start address. Those of a Spectrum file stand in the file itself.
fn length_and_start(disk: &Disk, entry: &Entry) -> (Option<u32>, Option<u32>) {
    let name = entry.name();
    match entry.kind().is_spectrum() {
        true => (disk.length(&name).ok(), disk.start(&name).ok()),
        false => (entry.length(), entry.start().map(|start| start.address())),
    }
}

/// The columns, and whether each holds numbers.
const COLUMNS: [(&str, bool); 8] = [
    ("slot", true),
    ("marks", false),
    ("name", false),
    ("kind", false),
    ("sectors", true),
    ("length", true),
    ("start", true),
    ("in", false),
];

/// The table: the disk's name, if it has one; a header, a line for each file, and what is free. The last column is empty where
/// the disk has no subdirectories.
fn table(disk: &Disk) -> String {
    let listing = disk.listing();
    let header = COLUMNS.map(|(name, _)| name.to_string());
    let files = listing.entries().iter().map(|entry| row(disk, entry));
    let mut rows: Vec<_> = std::iter::once(header).chain(files).collect();
    if !listing.has_directories() {
        rows.iter_mut().for_each(|[.., within]| within.clear());
    }
    let widths: [usize; 8] = std::array::from_fn(|column| rows.iter().map(|row| row[column].len()).max().unwrap_or(0));
    let name = disk.name().map_or(String::new(), |name| format!("disk {name}\n"));
    let lines: String = rows.iter().map(|row| line(row, &widths)).collect();
    name + &lines + &summary(listing) + &directory(listing)
}

/// What the table says of a file.
fn row(disk: &Disk, entry: &Entry) -> [String; 8] {
    let name = entry.name();
    let (length, start) = length_and_start(disk, entry);
    let or_none = |number: Option<u32>| number.map_or("-".to_string(), |number| number.to_string());
    let mark = |set: bool, letter: char| if set { letter } else { '-' };
    [
        entry.slot().to_string(),
        String::from_iter([mark(entry.hidden(), 'h'), mark(entry.protected(), 'p')]),
        name.to_string(),
        entry.kind().to_string(),
        entry.sector_count().to_string(),
        or_none(length),
        or_none(start),
        within(disk, entry),
    ]
}

/// Which directory a file is in; nothing is said of one in the root. Other words than a name are longer than a name is.
fn within(disk: &Disk, entry: &Entry) -> String {
    match disk.listing().within(entry) {
        Within::Root => String::new(),
        Within::Directory(directory) => directory.name().to_string(),
        Within::Nowhere(code) => format!("no directory (code {code})"),
    }
}

/// A line of the table: numbers to the right, words to the left, no spaces at the end.
fn line(row: &[String; 8], widths: &[usize; 8]) -> String {
    let cell = |column: usize| match COLUMNS[column].1 {
        true => format!("{:>1$}", row[column], widths[column]),
        false => format!("{:<1$}", row[column], widths[column]),
    };
    let cells: [String; 8] = std::array::from_fn(cell);
    format!("{}\n", cells.join("  ").trim_end())
}

/// How many files and subdirectories there are, and what is free.
fn summary(listing: &Listing) -> String {
    let found = listing.entries().iter().filter(|entry| entry.kind().is_directory()).count();
    let files = match (counted(listing.entries().len() - found, "file"), found) {
        (files, 0) => files,
        (files, _) => format!("{files}, {}", directories(found)),
    };
    let free = counted(listing.free().into(), "sector");
    match listing.room() {
        Some(room) => format!("{files}, {free} free: room for a file of {room} bytes\n"),
        None if listing.free_slots() == 0 => format!("{files}, {free} free, but no slot: no room for a file\n"),
        None => format!("{files}, no sector free: no room for a file\n"),
    }
}

/// How large the directory is, and how many of its slots are free.
fn directory(listing: &Listing) -> String {
    let (tracks, slots) = (tracks(listing.directory()), listing.directory().slots());
    format!("{tracks}: {slots} slots, {} free\n", listing.free_slots())
}
