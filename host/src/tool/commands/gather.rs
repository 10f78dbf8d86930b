//! `gather`: a scattered file moved to sectors in a row, or every one in turn.
use crate::tool::command_line::arguments::Arguments;
use crate::tool::command_line::values::NameArgument;
use crate::tool::disk::changes::{self, planned, written};
use crate::tool::failure::{Failure, Outcome};
use crate::tool::files::image_file;
use crate::tool::files::input;
use crate::tool::output;
use crate::tool::output::counts::counted;
use varnucht::{Change, Disk, Name, Refusal};

/// Gathers the file of a name, or with `--all` each file.
pub fn run(arguments: &Arguments) -> Outcome {
    match (arguments.words().len(), arguments.has("--all")) {
        (2, false) => {
            let name = NameArgument::at(arguments, 1)?;
            changes::perform(arguments, "gathered", &name.to_string(), || {
                name.name("it").map(Change::Gather)
            })
        }
        (1, true) => all(arguments),
        _ => Err(arguments.usage("`gather` takes NAME or `--all`, and not both")),
    }
}

/// Gathers each file in turn, the lowest slot first. One that cannot move is named, and the others go on.
fn all(arguments: &Arguments) -> Outcome {
    if arguments.has("--dry-run") {
        return dry_run(arguments);
    }
    input::not_standard(arguments)?;
    let (mut locked, mut disk) = image_file::open_for_change(arguments)?;
    let mut count = Count::default();
    for name in names(&disk) {
        let what = name.to_string();
        let many = changes::apply(arguments, &mut locked, &mut disk, &what, &Change::Gather(name));
        if let Some(many) = count.moved(many, |many| *many)? {
            output::confirm(&written("gathered", &what, many));
        }
    }
    output::confirm(&count.words("gathered"));
    count.outcome()
}

/// The same in memory alone: prints what would be written for each.
fn dry_run(arguments: &Arguments) -> Outcome {
    let mut disk = image_file::disk(arguments)?;
    let mut count = Count::default();
    for name in names(&disk) {
        let refused = |refused| Failure::refused(arguments.word(0), &name.to_string(), refused);
        let sectors = disk.change(&Change::Gather(name)).map_err(refused);
        let numbers = sectors.map(|sectors| sectors.into_numbers());
        if let Some(numbers) = count.moved(numbers, Vec::len)? {
            output::print(format!("{name}\n{}", planned(&numbers)))?;
        }
    }
    output::print(count.words("would be gathered") + "\n")?;
    count.outcome()
}

/// The names of the files, by rising slot. A subdirectory has no sectors to gather.
fn names(disk: &Disk) -> Vec<Name> {
    let files = disk.listing().entries().iter().filter(|entry| !entry.kind().is_directory());
    files.map(|entry| entry.name()).collect()
}

/// How many files moved, lay in a row already, and could not move.
#[derive(Default)]
struct Count {
    moved: usize,
    left: usize,
    stuck: usize,
}

impl Count {
    /// Counts a file. What was done is given back where it moved; where there is no room for it, that is said. Anything else
    /// ends the command.
    fn moved<T>(&mut self, done: Result<T, Failure>, many: impl Fn(&T) -> usize) -> Result<Option<T>, Failure> {
        match done {
            Ok(done) if many(&done) > 0 => {
                self.moved += 1;
                Ok(Some(done))
            }
            Ok(_) => {
                self.left += 1;
                Ok(None)
            }
            Err(failure) if failure.is(Refusal::NoRun) => {
                self.stuck += 1;
                failure.words().iter().for_each(|words| output::say(words));
                Ok(None)
            }
            Err(failure) => Err(failure),
        }
    }

    /// How many there were of each.
    fn words(&self, gathered: &str) -> String {
        let stuck = match self.stuck {
            0 => String::new(),
            stuck => format!(", {stuck} could not move"),
        };
        let moved = counted(self.moved, "file");
        format!("{moved} {gathered}, {} left in place{stuck}", self.left)
    }

    /// With a file that could not move the status is that of a refusal.
    fn outcome(self) -> Outcome {
        if self.stuck == 0 { Ok(()) } else { Err(Failure::Said(1)) }
    }
}
