//! `check`: whether disks are accepted, and fit to go out.
use crate::tool::command_line::arguments::Arguments;
use crate::tool::disk::faults::{self, Faults};
use crate::tool::failure::{Failure, Outcome, Reason};
use crate::tool::files::each_image;
use crate::tool::files::image_file;
use crate::tool::output::counts::{counted, tracks};
use crate::tool::output::json;
use crate::tool::printable::printable_path;
use std::ffi::OsStr;
use varnucht::{Directory, Disk, Image, Refusal, Refused};

/// Prints `accepted`, or fails with the refusal. Of several images each gets its line, and the worst status is given.
pub fn run(arguments: &Arguments) -> Outcome {
    each_image::one_format(arguments)?;
    let one = arguments.words().len() == 1;
    each_image::print(arguments, |path| {
        if arguments.has("--json") {
            return object(arguments, path);
        }
        let directory = check(arguments, path)?;
        let accepted = format!("accepted, {}\n", tracks(directory));
        let text = match (arguments.has("-0"), one) {
            (true, _) => each_image::nul_terminated(path),
            (false, true) => accepted.into(),
            (false, false) => format!("{}: {accepted}", printable_path(path)).into(),
        };
        Ok((text, 0))
    })
}

/// Checks one image, by the check that is asked for. Gives how large the directory of an accepted one is.
fn check(arguments: &Arguments, path: &OsStr) -> Result<Directory, Failure> {
    let image = image_file::image_at(arguments, path)?;
    checked(arguments, &image).map_err(|refused| match arguments.has("--all") {
        true => all(arguments, path, image, refused),
        false => Failure::not_accepted(path, explained(image, refused)),
    })
}

/// What the check that is asked for answers.
fn checked(arguments: &Arguments, image: &Image) -> Result<Directory, Refused> {
    match arguments.has("--release") {
        true => image.check_release()?,
        false => image.check()?,
    }
    image.directory()
}

/// Says every fault of a disk that is refused, and not the first alone. Where its slots cannot be found that is its fault.
fn all(arguments: &Arguments, path: &OsStr, image: Image, refused: Refused) -> Failure {
    let faults = Faults::of(&image).ok();
    let said = faults.and_then(|faults| faults::say(path, &faults, arguments.has("--release")));
    said.unwrap_or_else(|| Failure::not_accepted(path, explained(image, refused)))
}

/// The line of an image as JSON, with all its faults where they are asked for.
fn object(arguments: &Arguments, path: &OsStr) -> Result<(Vec<u8>, u8), Failure> {
    let image = match image_file::image_at(arguments, path) {
        Err(failure) => return json::line(path, Err(failure)),
        Ok(image) => image,
    };
    let (accepted, mut fields, status) = match checked(arguments, &image) {
        Ok(directory) => (true, vec![("directory_tracks", directory.tracks().to_string())], 0),
        Err(refused) => (false, json::refused(&explained(image.clone(), refused)).into(), 1),
    };
    if arguments.has("--all") {
        let faults = Faults::of(&image).ok();
        let faults = faults.map_or("[]".to_string(), |faults| faults.json(arguments.has("--release")));
        fields.push(("faults", faults));
    }
    let object = json::object(json::front(path, accepted).into_iter().chain(fields));
    Ok((format!("{object}\n").into(), status))
}

/// A refusal; of waste sectors it says too whose they are, where the disk can be listed.
fn explained(image: Image, refused: Refused) -> Reason {
    let more = match refused.refusal {
        Refusal::WasteSectors => Disk::open(image).ok().and_then(|disk| wasted(&disk, refused)),
        _ => None,
    };
    Reason { refused, more }
}

/// How many sectors the refused file has, and how many it needs.
fn wasted(disk: &Disk, refused: Refused) -> Option<String> {
    let entry = disk
        .listing()
        .entries()
        .iter()
        .find(|entry| Some(entry.slot()) == refused.slot)?;
    let has = counted(entry.sector_count().into(), "sector");
    Some(format!("{} has {has} and needs {}", entry.name(), entry.least_sectors()?))
}
