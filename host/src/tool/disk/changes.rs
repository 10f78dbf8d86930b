//! The changes: made on a copy for `--dry-run`, else in the file.
use crate::tool::command_line::arguments::Arguments;
use crate::tool::command_line::values::NameArgument;
use crate::tool::failure::{Failure, Outcome, Reason};
use crate::tool::files::image_file::{self, LockedImage};
use crate::tool::files::input;
use crate::tool::output;
use crate::tool::output::counts::counted;
use crate::tool::output::progress::Progress;
use crate::tool::system::SignalGuard;
use varnucht::{Change, Disk, Name, Refusal, Refused, SectorNumber, Sectors};

/// Makes the change that `change` gives, or prints what it would write. The disk is opened before the change is asked for,
/// so that refusals come in the order of document 01: the disk's first.
///
/// `done` and `what` say what was done and to what.
pub fn perform<'a>(
    arguments: &Arguments,
    done: &str,
    what: &str,
    change: impl FnOnce() -> Result<Change<'a>, Reason>,
) -> Outcome {
    let refused = |reason| Failure::refused(arguments.word(0), what, reason);
    if arguments.has("--dry-run") {
        let disk = image_file::disk(arguments)?;
        let numbers = change().and_then(|change| disk.try_change(&change).map_err(explained));
        return output::print(planned(&numbers.map_err(refused)?));
    }
    input::not_standard(arguments)?;
    let (mut locked, mut disk) = image_file::open_for_change(arguments)?;
    let change = change().map_err(refused)?;
    let many = apply(arguments, &mut locked, &mut disk, what, &change)?;
    output::confirm(&written(done, what, many));
    Ok(())
}

/// Makes a change of the disk in the file that is held, and writes its sectors there. Gives how many they were.
pub fn apply(
    arguments: &Arguments,
    locked: &mut LockedImage,
    disk: &mut Disk,
    what: &str,
    change: &Change,
) -> Result<usize, Failure> {
    let refused = |refused| Failure::refused(arguments.word(0), what, explained(refused));
    let sectors = disk.change(change).map_err(refused)?;
    let many = write_sectors(arguments, locked, sectors)?;
    locked
        .holds(disk.image())
        .map_err(|error| Failure::io(arguments.word(0), error))?;
    Ok(many)
}

/// Writes the sectors of a change to the file that is held. Gives how many they were.
pub fn write_sectors(arguments: &Arguments, locked: &mut LockedImage, mut sectors: Sectors) -> Result<usize, Failure> {
    let (guard, mut progress) = (SignalGuard::new(), Progress::new());
    let written = sectors.write_to(locked, |written, of| progress.step(written, of));
    drop((progress, guard));
    locked.still_whole().map_err(|error| Failure::io(arguments.word(0), error))?;
    written.map_err(|error| Failure::write(arguments.word(0), error))?;
    Ok(sectors.numbers().len())
}

/// What is said of a change that was made. A file that is gathered and lies in a row already has nothing to be written.
pub fn written(done: &str, what: &str, many: usize) -> String {
    match many {
        0 => format!("{what} is not scattered: nothing is written"),
        _ => format!("{done} {what}: {} written", counted(many, "sector")),
    }
}

/// A refusal; of a directory that is not empty it says too how to see what is in it.
pub fn explained(refused: Refused) -> Reason {
    let not_empty = refused.refusal == Refusal::DirectoryNotEmpty;
    let more = not_empty.then(|| "it is not empty, and `tree` shows what is in it".to_string());
    Reason { refused, more }
}

/// The sectors that would be written, in their order.
pub fn planned(numbers: &[SectorNumber]) -> String {
    let row = |number: &SectorNumber| format!("{number:>6}  {:>5}  {:>6}\n", number.track(), number.sector());
    let rows: String = numbers.iter().map(row).collect();
    let many = counted(numbers.len(), "sector");
    format!("number  track  sector\n{rows}{many} would be written, in this order; nothing is written\n")
}

/// Makes a change that takes a name alone.
pub fn on_name(arguments: &Arguments, done: &str, change: fn(Name) -> Change<'static>) -> Outcome {
    let name = NameArgument::at(arguments, 1)?;
    perform(arguments, done, &name.to_string(), || name.name("it").map(change))
}
