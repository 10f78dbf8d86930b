//! `map`: a picture of the 1,600 sectors.
mod svg;

use crate::tool::command_line::arguments::Arguments;
use crate::tool::command_line::values;
use crate::tool::failure::Outcome;
use crate::tool::files::atomic_write::write_file;
use crate::tool::files::each_image;
use crate::tool::files::image_file;
use crate::tool::files::input::STANDARD;
use crate::tool::output;
use crate::tool::output::colour::{Style, StyledText};
use crate::tool::output::counts::counted;
use crate::tool::output::json::{self, Field};
use std::ffi::OsStr;
use varnucht::{Disk, Entry, Listing, SECTORS, SectorNumber};

/// Prints the picture, or whose the sectors are as JSON.
pub fn run(arguments: &Arguments) -> Outcome {
    let colour = values::colour(arguments)?;
    match arguments.value("--svg") {
        Some(file) if !arguments.has("--force") || file != STANDARD => return draw(arguments, file),
        _ if arguments.has("--force") => return Err(arguments.usage("`--force` goes with `--svg FILE`")),
        _ => {}
    }
    each_image::print(arguments, |path| {
        let disk = image_file::disk_at(arguments, path);
        match arguments.has("--json") {
            true => json::line(path, disk.map(|disk| fields(&disk))),
            false => Ok((picture(&disk?, colour).into(), 0)),
        }
    })
}

/// Writes the picture as SVG, to a file or to standard output.
fn draw(arguments: &Arguments, file: &OsStr) -> Outcome {
    if arguments.has("--json") {
        return Err(arguments.usage("`--json` and `--svg` are two forms, and one is printed"));
    }
    let picture = svg::picture(&image_file::disk(arguments)?);
    match file == STANDARD {
        true => output::print(picture),
        false => write_file(file, picture.as_bytes(), arguments.has("--force")),
    }
}

/// What JSON says of the sectors: the numbers of those of the directory, of the free ones, and of each file's in the order of
/// its bytes.
fn fields(disk: &Disk) -> Vec<Field> {
    let owners = owners(disk.listing());
    let numbers = |owner: Symbol| {
        let owned = (0..).zip(&owners).filter(move |(_, sign)| **sign == owner);
        json::listed(owned.map(|(number, _): (usize, _)| number.to_string()))
    };
    let file = |entry: &Entry| {
        let chain = disk.chain(&entry.name()).unwrap_or_default();
        let scattered = disk.is_scattered(&entry.name()) == Ok(true);
        let fields = [
            ("scattered", scattered.to_string()),
            ("sectors", json::listed(chain.iter().map(SectorNumber::to_string))),
        ];
        let slot = [("slot", entry.slot().to_string())];
        json::object(slot.into_iter().chain(json::named(&entry.name())).chain(fields))
    };
    vec![
        ("directory", numbers(DIRECTORY)),
        ("free", numbers(FREE)),
        ("files", json::listed(files(disk.listing()).map(file))),
    ]
}

/// A sector's sign and its colour.
type Symbol = (char, Style);

const FREE: Symbol = ('.', Style::Faint);
const DIRECTORY: Symbol = ('#', Style::Bold);

/// The signs of files: 80 of them, one for each slot that a directory of four tracks has. With more files they come again.
const SIGNS: &str = "ABCDEFGHIJKLMNOPQRSTUVWXYZabcdefghijklmnopqrstuvwxyz0123456789!$%&*+-/:;<=>?@^_~";

/// The sign of the file that comes at this place of all files.
fn sign(place: usize) -> Symbol {
    (char::from(SIGNS.as_bytes()[place % SIGNS.len()]), Style::Hue(place))
}

/// The files: a subdirectory has no sectors.
fn files(listing: &Listing) -> impl Iterator<Item = &Entry> {
    listing.entries().iter().filter(|entry| !entry.kind().is_directory())
}

/// Whose each sector is, by sector number.
fn owners(listing: &Listing) -> Vec<Symbol> {
    let directory = |number: SectorNumber| listing.directory().holds(number);
    let mut owners: Vec<Symbol> = (0..SECTORS as u16)
        .filter_map(SectorNumber::new)
        .map(|number| if directory(number) { DIRECTORY } else { FREE })
        .collect();
    for (place, entry) in files(listing).enumerate() {
        for number in entry.sectors() {
            owners[usize::from(number.number())] = sign(place);
        }
    }
    owners
}

/// The whole picture: a side above the other, and what the signs mean.
fn picture(disk: &Disk, colour: bool) -> String {
    let owners = owners(disk.listing());
    let mut text = StyledText::new(colour);
    for (side, first_track) in [(0, 0), (1, 128)] {
        let last = first_track + 79;
        text.add(
            Style::Plain,
            &format!(
                "side {}: tracks {first_track} to {last} across, sectors 1 to 10 down\n",
                side + 1
            ),
        );
        text.add(Style::Plain, &scale(first_track));
        for sector in 0..10 {
            for track in 0..80 {
                let (sign, style) = owners[(2 * track + side) * 10 + sector];
                text.add(style, &sign.to_string());
            }
            text.add(Style::Plain, "\n");
        }
    }
    legend(&mut text, disk);
    text.finish()
}

/// The track numbers over a side: every tenth, at its column.
fn scale(first_track: usize) -> String {
    let marks: String = (0..8).map(|ten| format!("{:<10}", first_track + 10 * ten)).collect();
    format!("{}\n", marks.trim_end())
}

/// What the signs mean, and once more those of the scattered files.
fn legend(text: &mut StyledText, disk: &Disk) {
    let listing = disk.listing();
    text.add(DIRECTORY.1, "#");
    text.add(Style::Plain, &format!(" directory ({})  ", listing.directory().sectors()));
    text.add(FREE.1, ".");
    text.add(Style::Plain, &format!(" free ({})\n", listing.free()));
    let all: Vec<(usize, &Entry)> = files(listing).enumerate().collect();
    columns(text, &all);
    let scattered = |(_, entry): &(usize, &Entry)| disk.is_scattered(&entry.name()) == Ok(true);
    let scattered: Vec<(usize, &Entry)> = all.into_iter().filter(scattered).collect();
    if !scattered.is_empty() {
        text.add(Style::Plain, &format!("{} scattered:\n", counted(scattered.len(), "file")));
        columns(text, &scattered);
    }
}

/// The slot and the name of each of these files, by their places among all files, in columns.
fn columns(text: &mut StyledText, files: &[(usize, &Entry)]) {
    let digits = files.last().map_or(0, |(_, last)| last.slot().to_string().len()).max(2);
    let all: Vec<String> = files.iter().map(|(_, entry)| meaning(entry, digits)).collect();
    let width = all.iter().map(String::len).max().unwrap_or(0);
    // A cell is the sign, a space, the words and two spaces; a line has 80.
    let across = (82 / (width + 4)).max(1);
    for (cell, (words, (place, _))) in all.iter().zip(files).enumerate() {
        let (sign, style) = sign(*place);
        let ends = (cell + 1) % across == 0 || cell + 1 == all.len();
        text.add(style, &sign.to_string());
        let after = if ends {
            format!(" {words}\n")
        } else {
            format!(" {words:<width$}  ")
        };
        text.add(Style::Plain, &after);
    }
}

/// The slot, the name and the number of sectors of a file. The slot's number has as many digits as the greatest.
fn meaning(entry: &Entry, digits: usize) -> String {
    format!(
        "{:>digits$} {} ({})",
        entry.slot().number(),
        entry.name(),
        entry.sector_count()
    )
}
