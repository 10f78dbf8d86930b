//! The map as a picture in SVG: a square for each sector, with whose it is.
use varnucht::{Disk, Entry, SectorNumber};

/// How wide a square is, where the first one stands, and how far the second side is below the first.
const SIDE: usize = 12;
const LEFT: usize = 40;
const TOP: usize = 40;
const APART: usize = 10 * SIDE + 50;

/// The whole picture.
pub fn picture(disk: &Disk) -> String {
    let listing = disk.listing();
    let files: Vec<&Entry> = listing
        .entries()
        .iter()
        .filter(|entry| !entry.kind().is_directory())
        .collect();
    let mut owners: Vec<Option<usize>> = vec![None; 1_600];
    for (place, entry) in files.iter().enumerate() {
        entry
            .sectors()
            .for_each(|number| owners[usize::from(number.number())] = Some(place));
    }
    let squares: String = (0..1_600)
        .filter_map(SectorNumber::new)
        .map(|number| {
            let (fill, whose) = match owners[usize::from(number.number())] {
                Some(place) => (hue(place), named(files[place])),
                None if listing.directory().holds(number) => ("#555".to_string(), "directory".to_string()),
                None => ("#eee".to_string(), "free".to_string()),
            };
            square(number, &fill, &whose)
        })
        .collect();
    let below = TOP + 2 * APART;
    let legend: String = files
        .iter()
        .enumerate()
        .map(|(place, entry)| legend(place, entry, below))
        .collect();
    let (width, height) = (LEFT + 80 * SIDE + 20, below + 20 * files.len().div_ceil(4) + 20);
    let name = disk.name().map_or("a disk".to_string(), |name| name.to_string());
    format!(
        "<svg xmlns=\"http://www.w3.org/2000/svg\" width=\"{width}\" height=\"{height}\" viewBox=\"0 0 {width} {height}\" \
         font-family=\"monospace\" font-size=\"12\">\n<title>{}</title>\n<rect width=\"100%\" height=\"100%\" fill=\"#fff\"/>\n\
         {}{}{squares}{legend}</svg>\n",
        text(&name),
        heading(0, "side 1: tracks 0 to 79 across, sectors 1 to 10 down"),
        heading(1, "side 2: tracks 128 to 207 across, sectors 1 to 10 down"),
    )
}

/// The words above a side.
fn heading(side: usize, words: &str) -> String {
    format!("<text x=\"{LEFT}\" y=\"{}\">{words}</text>\n", TOP + side * APART - 8)
}

/// A sector's square, in a column for its track and a row for its number.
fn square(number: SectorNumber, fill: &str, whose: &str) -> String {
    let (track, sector) = (number.track(), number.sector());
    let (side, column) = (usize::from(track.number() / 128), usize::from(track.number() % 128));
    let (x, y) = (
        LEFT + SIDE * column,
        TOP + side * APART + SIDE * usize::from(sector.number() - 1),
    );
    format!(
        "<rect x=\"{x}\" y=\"{y}\" width=\"{0}\" height=\"{0}\" fill=\"{fill}\"><title>track {track}, sector {sector}: {1}</title></rect>\n",
        SIDE - 1,
        text(whose)
    )
}

/// A file's colour and name below the sides, four to a line.
fn legend(place: usize, entry: &Entry, below: usize) -> String {
    let (x, y) = (LEFT + 240 * (place % 4), below + 20 * (place / 4));
    format!(
        "<rect x=\"{x}\" y=\"{y}\" width=\"11\" height=\"11\" fill=\"{}\"/><text x=\"{}\" y=\"{}\">{}</text>\n",
        hue(place),
        x + 18,
        y + 10,
        text(&named(entry))
    )
}

/// The slot, the name and the number of sectors of a file.
fn named(entry: &Entry) -> String {
    format!("{} {} ({})", entry.slot(), entry.name(), entry.sector_count())
}

/// The colour of the file at a place: neighbours are far apart on the wheel.
fn hue(place: usize) -> String {
    format!("hsl({},70%,{}%)", place * 137 % 360, 45 + place % 3 * 10)
}

/// Words in SVG: what would be read as a mark stands as its name.
fn text(words: &str) -> String {
    words
        .replace('&', "&amp;")
        .replace('<', "&lt;")
        .replace('>', "&gt;")
        .replace('"', "&quot;")
}
