//! `save --replace`: a file saved over an older one, in an order that loses neither before the other is there.
use crate::tool::command_line::arguments::Arguments;
use crate::tool::disk::changes::{self, planned, written};
use crate::tool::failure::{Failure, Outcome, Reason};
use crate::tool::files::image_file;
use crate::tool::files::input;
use crate::tool::output;
use crate::tool::output::counts::counted;
use varnucht::{Change, Disk, NewFile, NewName, Refusal, Refused, SectorNumber};

/// Saves the file under a free name, erases the older one and gives the new one its name: three changes, all of them tried in
/// memory before the first is written. Where there is no older one it is a save.
pub fn perform<'a>(arguments: &Arguments, what: &str, file: impl FnOnce() -> Result<NewFile<'a>, Reason>) -> Outcome {
    let refused = |reason| Failure::refused(arguments.word(0), what, reason);
    if arguments.has("--dry-run") {
        let disk = image_file::disk(arguments)?;
        let (_, numbers) = file().and_then(|file| tried(&disk, file)).map_err(refused)?;
        return output::print(planned(&numbers));
    }
    input::not_standard(arguments)?;
    let (mut locked, mut disk) = image_file::open_for_change(arguments)?;
    let (changes, _) = file().and_then(|file| tried(&disk, file)).map_err(refused)?;
    let mut many = 0;
    for (place, change) in changes.iter().enumerate() {
        many += changes::apply(arguments, &mut locked, &mut disk, what, change)
            .inspect_err(|_| left(&changes, place).iter().for_each(|words| output::say(words)))?;
    }
    output::confirm(&match changes.len() {
        1 => written("saved", what, many),
        _ => format!("replaced {what}: {} written", counted(many, "sector")),
    });
    Ok(())
}

/// The changes, and the sectors that they write, by trying them on a copy.
fn tried<'a>(disk: &Disk, file: NewFile<'a>) -> Result<(Vec<Change<'a>>, Vec<SectorNumber>), Reason> {
    let changes = changes(disk, file)?;
    let mut copy = disk.clone();
    let mut numbers = Vec::new();
    for change in &changes {
        let sectors = copy.change(change).map_err(|refused| explained(refused, changes.len()))?;
        numbers.extend(sectors.into_numbers());
    }
    Ok((changes, numbers))
}

/// The changes that it takes. Refused 13 where the older one is a directory, and 17 where it is protected.
fn changes<'a>(disk: &Disk, file: NewFile<'a>) -> Result<Vec<Change<'a>>, Reason> {
    let name = file.name.name();
    let Some(old) = disk.listing().find(&name) else {
        return Ok(vec![Change::Save(file)]);
    };
    if old.kind().is_directory() {
        let (refusal, slot) = (Refusal::WrongKind, Some(old.slot()));
        return Err(Reason {
            refused: Refused { refusal, slot },
            more: Some("it is a directory, and none is replaced".to_string()),
        });
    }
    disk.try_change(&Change::Erase(name))?;
    let beside = free_name(disk)?;
    let new = NewFile { name: beside, ..file };
    Ok(vec![
        Change::Save(new),
        Change::Erase(name),
        Change::Rename(beside.name(), file.name),
    ])
}

/// A name that no file has. There are more of these than a disk has slots.
fn free_name(disk: &Disk) -> Result<NewName, Refused> {
    let names = (1..1_000).filter_map(|number| NewName::new(format!("NEW~{number}")).ok());
    let mut free = names.filter(|name| disk.listing().find(&name.name()).is_none());
    free.next().ok_or(Refusal::NameTaken.into())
}

/// A refusal; where there is no room it says for what.
fn explained(refused: Refused, changes: usize) -> Reason {
    let full = matches!(refused.refusal, Refusal::NoFreeSlot | Refusal::NoRoom);
    let more =
        (full && changes > 1).then(|| "the older file stays until the new one is there, so both need room".to_string());
    Reason { refused, more }
}

/// Where the files are when one of the changes could not be written.
fn left(changes: &[Change], failed: usize) -> Option<String> {
    let [Change::Save(new), Change::Erase(old), Change::Rename(..)] = changes else {
        return None;
    };
    Some(match failed {
        0 => format!("the older {old} is there as it was"),
        1 => format!(
            "the new file is there as {}, and the older {old} may be there still",
            new.name
        ),
        _ => format!("the new file is there as {} or as {old}, and the older one is gone", new.name),
    })
}
