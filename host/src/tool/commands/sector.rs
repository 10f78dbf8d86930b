//! `sector`: one raw sector in hexadecimal.
use crate::tool::command_line::arguments::Arguments;
use crate::tool::command_line::values;
use crate::tool::failure::{Failure, Outcome};
use crate::tool::files::image_file;
use crate::tool::output;
use crate::tool::output::hex_dump;
use crate::tool::printable::printable;
use varnucht::{Image, Refused, Sector, SectorNumber, Track};

/// Prints the sector.
pub fn run(arguments: &Arguments) -> Outcome {
    let track = values::number(arguments, arguments.word(1))?;
    let sector = values::number(arguments, arguments.word(2))?;
    let image = image_file::image(arguments)?;
    let text = dump(&image, track, sector);
    // The words as they were typed: a number that is too large counts as another.
    let what = format!(
        "track {}, sector {}",
        printable(arguments.word(1)),
        printable(arguments.word(2))
    );
    output::print(text.map_err(|refused| Failure::refused(arguments.word(0), &what, refused))?)
}

/// Where the sector is, and its bytes, sixteen to a line.
fn dump(image: &Image, track: u32, sector: u32) -> Result<String, Refused> {
    let (track, sector) = (Track::new(track)?, Sector::new(sector)?);
    let bytes = image.sector(track, sector)?;
    let number = SectorNumber::of(track, sector);
    let head = format!(
        "track {track}, sector {sector}: number {number}, byte {} of the image\n",
        number.place()
    );
    Ok(head + &hex_dump::lines(bytes, 3))
}
