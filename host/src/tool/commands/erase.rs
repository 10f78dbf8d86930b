//! `erase`: one file, or many at once.
use crate::tool::command_line::arguments::Arguments;
use crate::tool::command_line::values::NameArgument;
use crate::tool::disk::changes::{explained, on_name, planned, write_sectors};
use crate::tool::failure::{Failure, Outcome, Reason};
use crate::tool::files::image_file;
use crate::tool::files::input;
use crate::tool::output;
use crate::tool::output::counts::counted;
use varnucht::{Change, Disk, Erased, Name, Refusal, Sectors};

/// Erases the files of these names.
pub fn run(arguments: &Arguments) -> Outcome {
    match arguments.words() {
        // Of one name the slot is told too, where it is refused.
        [_, _] => on_name(arguments, "erased", Change::Erase),
        _ => erase_many(arguments),
    }
}

/// Erases several files by one call, or prints what that would write. A line is said of each that is refused.
fn erase_many(arguments: &Arguments) -> Outcome {
    let names = (1..arguments.words().len()).map(|place| NameArgument::at(arguments, place));
    let names = names.collect::<Result<Vec<_>, _>>()?;
    if arguments.has("--dry-run") {
        let mut disk = image_file::disk(arguments)?;
        let (sectors, refused) = erase(arguments, &mut disk, &names)?;
        output::print(planned(sectors.numbers()))?;
        return ended(refused);
    }
    input::not_standard(arguments)?;
    let (mut locked, mut disk) = image_file::open_for_change(arguments)?;
    let (sectors, refused) = erase(arguments, &mut disk, &names)?;
    let many = write_sectors(arguments, &mut locked, sectors)?;
    locked
        .holds(disk.image())
        .map_err(|error| Failure::io(arguments.word(0), error))?;
    let (done, all) = (names.len() - refused, names.len());
    output::confirm(&format!("erased {done} of {all}: {} written", counted(many, "sector")));
    ended(refused)
}

/// Erases them in memory, and says which were refused. Gives the sectors, and how many were refused.
fn erase<'d>(arguments: &Arguments, disk: &'d mut Disk, names: &[NameArgument]) -> Result<(Sectors<'d>, usize), Failure> {
    let asked: Vec<Result<Name, Reason>> = names.iter().map(|name| name.name("it")).collect();
    // What is no name at all cannot be asked for, and refuses nothing of the rest.
    let usable: Vec<Name> = asked.iter().flatten().copied().collect();
    let erased = disk.erase_many(&usable);
    let Erased { answers, sectors } = erased.map_err(|refused| Failure::not_accepted(arguments.word(0), refused))?;
    let mut answers = answers.into_iter();
    let mut refused = 0;
    for (name, asked) in names.iter().zip(asked) {
        // There is an answer for each usable name.
        let answer = asked.and_then(|_| answers.next().unwrap_or(Ok(())).map_err(because));
        if let Err(reason) = answer {
            let failure = Failure::refused(arguments.word(0), &name.to_string(), reason);
            failure.words().iter().for_each(|words| output::say(words));
            refused += 1;
        }
    }
    Ok((sectors, refused))
}

fn because(refusal: Refusal) -> Reason {
    explained(refusal.into())
}

/// Where any was refused that was said, and the rest is done.
fn ended(refused: usize) -> Outcome {
    match refused {
        0 => Ok(()),
        _ => Err(Failure::Said(1)),
    }
}
