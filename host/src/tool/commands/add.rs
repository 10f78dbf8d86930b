//! `add`: several files saved one after the other, as an index or the options say.
use crate::tool::command_line::arguments::Arguments;
use crate::tool::command_line::values::{self, NameArgument};
use crate::tool::disk::changes::{self, explained, planned, written};
use crate::tool::failure::{Failure, Outcome, Reason};
use crate::tool::files::folder_index::FolderIndex;
use crate::tool::files::image_file::{self, LockedImage};
use crate::tool::files::input::{self, STANDARD, body};
use crate::tool::output;
use crate::tool::output::counts::counted;
use std::ffi::{OsStr, OsString};
use std::os::unix::ffi::OsStrExt;
use std::path::Path;
use varnucht::escape::unescape;
use varnucht::{CarriedKind, Change, Disk, NO_EXECUTION, NewFile, Start};

/// Saves each file in turn. What is refused or cannot be read is named, and the others go on.
pub fn run(arguments: &Arguments) -> Outcome {
    let files = &arguments.words()[1..];
    if files.iter().any(|file| file == STANDARD) {
        return Err(arguments.usage("`add` takes files, whose names they get: `save` takes standard input"));
    }
    let files_to_add = files
        .iter()
        .filter(|file| !FolderIndex::is(file))
        .map(|file| FileToAdd::new(arguments, file));
    let files_to_add = files_to_add.collect::<Result<Vec<_>, _>>()?;
    let mut to = Target::open(arguments)?;
    let (mut added, mut worst) = (0, 0);
    for file in &files_to_add {
        match file.save(arguments, &mut to) {
            Ok(()) => added += 1,
            Err(AddFailure::Here(failure)) => {
                worst = worst.max(failure.status());
                failure.words().iter().for_each(|words| output::say(words));
            }
            Err(AddFailure::Everywhere(failure)) => return Err(failure),
        }
    }
    let would = if arguments.has("--dry-run") { "would be " } else { "" };
    output::confirm(&format!("{added} of {} {would}added", counted(files_to_add.len(), "file")));
    if worst == 0 { Ok(()) } else { Err(Failure::Said(worst)) }
}

/// Where the files go: to the image in a file, or to a copy in memory.
enum Target {
    File(LockedImage, Disk),
    Copy(Disk),
}

impl Target {
    fn open(arguments: &Arguments) -> Result<Target, Failure> {
        if arguments.has("--dry-run") {
            return Ok(Target::Copy(image_file::disk(arguments)?));
        }
        input::not_standard(arguments)?;
        let (locked, disk) = image_file::open_for_change(arguments)?;
        Ok(Target::File(locked, disk))
    }
}

/// Why a file was not saved: for a reason of its own, or one that stops all.
enum AddFailure {
    Here(Failure),
    Everywhere(Failure),
}

/// A file of the host and what it is to be on the disk.
struct FileToAdd {
    file: OsString,
    name: NameArgument,
    kind: u32,
    page: u32,
    offset: u32,
    execution: [u8; 3],
    information: [u8; 11],
    hidden: bool,
    protected: bool,
}

impl FileToAdd {
    /// As the index of its folder says, where it has a line there; what an option says goes before that.
    fn new(arguments: &Arguments, file: &OsStr) -> Result<FileToAdd, Failure> {
        let path = Path::new(file);
        let called = path.file_name().unwrap_or_default();
        let folder = path.parent().filter(|folder| *folder != "").unwrap_or(Path::new("."));
        let index = FolderIndex::read(folder)?;
        let line = index.find(called);
        let kind = line.map_or(CarriedKind::Code.number(), |line| line.kind).into();
        // A name that is no text with escapes stands as it is.
        let name = line.map_or_else(
            || unescape(called.as_bytes()).unwrap_or_else(|_| called.as_bytes().to_vec()),
            |line| line.name.clone(),
        );
        Ok(FileToAdd {
            file: file.into(),
            name: NameArgument::of(name),
            kind: arguments
                .value("--kind")
                .map_or(Ok(kind), |word| values::kind(arguments, word))?,
            page: values::number_or(arguments, "--page", line.map_or(1, |line| line.page.unwrap_or(1).into()))?,
            offset: values::number_or(arguments, "--offset", line.map_or(32_768, |line| line.offset))?,
            execution: values::bytes_or(arguments, "--exec", line.map_or(NO_EXECUTION, |line| line.execution))?,
            information: values::bytes_or(arguments, "--info", line.map_or([0; 11], |line| line.information))?,
            hidden: line.is_some_and(|line| line.hidden),
            protected: line.is_some_and(|line| line.protected),
        })
    }

    /// Saves the file and sets its marks, each a change of its own; on a copy it prints what would be written.
    fn save(&self, arguments: &Arguments, to: &mut Target) -> Result<(), AddFailure> {
        let body = body(&self.file).map_err(AddFailure::Here)?;
        let what = self.name.to_string();
        let refused = |reason| AddFailure::Here(Failure::refused(arguments.word(0), &what, reason));
        let changes = self.changes(&body).map_err(refused)?;
        let mut many = 0;
        let mut numbers = Vec::new();
        for change in &changes {
            match to {
                Target::Copy(disk) => {
                    let sectors = disk.change(change).map_err(|reason| refused(explained(reason)))?;
                    numbers.extend(sectors.into_numbers());
                }
                Target::File(locked, disk) => {
                    many += changes::apply(arguments, locked, disk, &what, change).map_err(|failure| match failure {
                        Failure::Refused(..) => AddFailure::Here(failure),
                        failure => AddFailure::Everywhere(failure),
                    })?;
                }
            }
        }
        match to {
            Target::Copy(_) => output::print(format!("{what}\n{}", planned(&numbers))).map_err(AddFailure::Everywhere)?,
            Target::File(..) => output::confirm(&written("saved", &what, many)),
        }
        Ok(())
    }

    /// The changes that it takes, or why it cannot be saved, in the order of the refusals: 12, 13, 14.
    fn changes<'b>(&self, body: &'b [u8]) -> Result<Vec<Change<'b>>, Reason> {
        let (name, kind) = (self.name.new_name("it")?, CarriedKind::from_number(self.kind)?);
        let file = NewFile {
            execution: self.execution,
            information: self.information,
            ..NewFile::new(kind, name, Start::new(self.page, self.offset)?, body)
        };
        let hide = self.hidden.then_some(Change::Hide(name.name()));
        let protect = self.protected.then_some(Change::Protect(name.name()));
        Ok([Change::Save(file)].into_iter().chain(hide).chain(protect).collect())
    }
}
