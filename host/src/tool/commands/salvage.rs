//! `salvage`: a copy of a disk without its bad slots.
use crate::tool::command_line::arguments::Arguments;
use crate::tool::command_line::values;
use crate::tool::disk::faults::{Faults, LiveSlot};
use crate::tool::failure::{Failure, Outcome, Reason};
use crate::tool::files::atomic_write::write_file;
use crate::tool::files::image_file;
use crate::tool::files::input::{STANDARD, same_file};
use crate::tool::output;
use crate::tool::printable::{printable, printable_path};
use std::ffi::OsStr;
use varnucht::{Disk, Image, Refused, Within};

/// Makes the copy, and names what is not in it.
pub fn run(arguments: &Arguments) -> Outcome {
    let new = arguments
        .value("-o")
        .ok_or_else(|| arguments.usage("`salvage` takes `-o NEW`, where the copy goes"))?;
    let file = (new != STANDARD).then_some(new);
    if arguments.has("--force") && file.is_none() {
        return Err(arguments.usage("`--force` goes with `-o NEW`"));
    }
    if file.is_some_and(|file| same_file(file, arguments.word(0))) {
        return Err(arguments.usage("NEW is IMAGE itself, which is never written"));
    }
    let asked = asked(arguments)?;
    let image = image_file::image(arguments).map_err(nothing)?;
    let faults = Faults::of(&image).map_err(|refused| nothing(Failure::not_accepted(arguments.word(0), refused)))?;
    let kept = kept(arguments, &faults, &asked)?;
    let disk = copy(arguments, image, &faults, &kept)?;
    say_left_out(arguments.word(0), &faults, &kept);
    say_orphans(arguments.word(0), &disk, &faults, &kept);
    match file {
        Some(file) => {
            write_file(file, &disk.image().as_bytes()[..], arguments.has("--force"))?;
            output::confirm(&made(file, &kept));
        }
        None => output::print(disk.image().as_bytes())?,
    }
    if faults.none() { Ok(()) } else { Err(Failure::Said(1)) }
}

/// A refusal of the whole disk.
fn nothing(failure: Failure) -> Failure {
    match failure {
        Failure::Refused(what, Reason { refused, more }) => {
            let more = more.map_or(String::new(), |more| format!(": {more}"));
            let more = Some(format!("nothing can be salvaged{more}"));
            Failure::Refused(what, Reason { refused, more })
        }
        other => other,
    }
}

/// The numbers of the slots that `--keep` asks for.
fn asked(arguments: &Arguments) -> Result<Vec<u32>, Failure> {
    let Some(word) = arguments.value("--keep") else {
        return Ok(Vec::new());
    };
    let wrong = || {
        arguments.usage(format!(
            "`--keep` takes slots, as `3` or `3,7`, and not `{}`",
            printable(word)
        ))
    };
    let parts = word.to_str().ok_or_else(wrong)?.split(',');
    parts
        .map(|part| values::number(arguments, part.as_ref()).map_err(|_| wrong()))
        .collect()
}

/// Whether each slot that was found is kept. Those that are asked for come first, and then the others by rising slot; what
/// does not go with one before it is left out.
fn kept(arguments: &Arguments, faults: &Faults, asked: &[u32]) -> Result<Vec<bool>, Failure> {
    let mut kept = vec![false; faults.found.len()];
    for number in asked {
        let is_it = |found: &LiveSlot| u32::from(found.slot.number()) == *number;
        let Some(place) = faults.found.iter().position(is_it) else {
            return Err(arguments.usage(format!("`--keep` asks for slot {number}, which is not live")));
        };
        let impossible = |what: &str, refused: Refused, more: &str| {
            let more = Some(more.to_string());
            Err(Failure::refused(arguments.word(0), what, Reason { refused, more }))
        };
        let words = faults.found[place].words();
        if let Some(refused) = faults.found[place].alone {
            return impossible(&words, refused, "`--keep` cannot keep it");
        }
        if let Some((other, refused)) = faults.against(place, &kept).next() {
            let what = format!("{} and {words}", other.words());
            return impossible(&what, refused, "`--keep` asks for both");
        }
        kept[place] = true;
    }
    for place in 0..kept.len() {
        kept[place] |= faults.found[place].alone.is_none() && faults.against(place, &kept).next().is_none();
    }
    Ok(kept)
}

/// The copy, which the library must accept.
fn copy(arguments: &Arguments, mut image: Image, faults: &Faults, kept: &[bool]) -> Result<Disk, Failure> {
    let failed = |refused| Failure::not_accepted(arguments.word(0), refused);
    let places: Vec<_> = image.directory().map_err(failed)?.places().collect();
    for (found, _) in faults.found.iter().zip(kept).filter(|(_, kept)| !**kept) {
        let (_, place) = places[usize::from(found.slot.number()) - 1];
        image.as_bytes_mut()[place] = 0;
    }
    Disk::open(image).map_err(|error| nothing(failed(error.refused)))
}

/// Names each slot that is left out, with its refusal, and those that are kept in its place.
fn say_left_out(path: &OsStr, faults: &Faults, kept: &[bool]) {
    let say = |found: &LiveSlot, refused: Refused, more: Option<String>| {
        let what = format!("{} is left out", found.words());
        let failure = Failure::refused(path, &what, Reason { refused, more });
        failure.words().iter().for_each(|words| output::say(words));
    };
    for (place, found) in faults.found.iter().enumerate().filter(|(place, _)| !kept[*place]) {
        match found.alone {
            Some(refused) => say(found, refused, None),
            None => faults.against(place, kept).for_each(|(other, refused)| {
                let more = format!(
                    "{} is kept, and as doubtful; `--keep {}` keeps this",
                    other.words(),
                    found.slot
                );
                say(found, refused, Some(more));
            }),
        }
    }
}

/// Names what was in a directory that is left out. It stays, and only the tree is refused.
fn say_orphans(path: &OsStr, disk: &Disk, faults: &Faults, kept: &[bool]) {
    let out = faults
        .found
        .iter()
        .zip(kept)
        .filter(|(_, kept)| !**kept)
        .map(|(found, _)| found);
    let gone: Vec<u8> = out
        .filter(|found| found.kind().is_directory())
        .map(|found| found.bytes[250])
        .collect();
    let orphans = disk
        .listing()
        .entries()
        .iter()
        .filter(|entry| match disk.listing().within(entry) {
            Within::Nowhere(code) => gone.contains(&code),
            _ => false,
        });
    let mut any = false;
    for entry in orphans {
        let (slot, name) = (entry.slot(), entry.name());
        output::say(&format!(
            "{}: slot {slot} {name} stays, and its directory is left out",
            printable_path(path)
        ));
        any = true;
    }
    if let Some(refused) = disk.tree(None).err().filter(|_| any) {
        output::say(&format!("{}: `tree` refuses the copy: {refused}", printable_path(path)));
    }
}

/// What is said of a copy that was made.
fn made(file: &OsStr, kept: &[bool]) -> String {
    let (all, whole) = (kept.len(), kept.iter().filter(|kept| **kept).count());
    let file = printable(file);
    match all - whole {
        0 => format!("made {file}: nothing is left out, and every byte is the same"),
        out => format!("made {file}: {whole} of {all} live slots are kept, {out} left out"),
    }
}
