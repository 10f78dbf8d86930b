//! `extract`: files of a disk, to a folder, with an index of what their bytes do not tell.
use crate::tool::command_line::arguments::Arguments;
use crate::tool::command_line::pattern::Pattern;
use crate::tool::failure::{Failure, Outcome, Reason};
use crate::tool::files::atomic_write::write_file;
use crate::tool::files::folder_index::{FolderIndex, IndexLine, host_name};
use crate::tool::files::image_file;
use crate::tool::output;
use crate::tool::output::counts::counted;
use crate::tool::printable::printable;
use std::fs;
use std::io::{self, ErrorKind};
use std::path::{Path, PathBuf};
use varnucht::{Disk, Entry, Name};

/// Extracts the files that are named, or all. What is refused is named, and the rest is done.
pub fn run(arguments: &Arguments) -> Outcome {
    let patterns = (2..arguments.words().len()).map(|place| Pattern::at(arguments, place));
    let patterns = patterns.collect::<Result<Vec<_>, _>>()?;
    let disk = image_file::disk(arguments)?;
    let folder = Path::new(arguments.word(1));
    let (files, refused) = chosen(arguments, &disk, &patterns);
    let mut index = FolderIndex::read(folder)?;
    free(arguments, folder, &files)?;
    if !files.is_empty() {
        made(folder).map_err(|error| Failure::io(folder.as_os_str(), error))?;
    }
    for entry in &files {
        let refused = |reason| Failure::refused(arguments.word(0), &entry.name().to_string(), reason);
        let body = disk.reader(&entry.name()).map_err(|reason| refused(Reason::from(reason)))?;
        write_file(target(folder, &entry.name()).as_os_str(), body, arguments.has("--force"))?;
    }
    if !files.is_empty() {
        index.take(files.iter().map(|entry| IndexLine::of(&disk, entry)).collect());
        write_file(FolderIndex::path(folder).as_os_str(), index.text().as_bytes(), true)?;
    }
    output::confirm(&format!(
        "extracted {} to {}",
        counted(files.len(), "file"),
        printable(arguments.word(1))
    ));
    if refused == 0 { Ok(()) } else { Err(Failure::Said(1)) }
}

/// The files that are to be extracted, by rising slot and each once, and how many were refused, which is said. Where all are
/// asked for directories are passed over: they have no body.
fn chosen<'d>(arguments: &Arguments, disk: &'d Disk, patterns: &[Pattern]) -> (Vec<&'d Entry>, usize) {
    let mut refused = 0;
    let mut say = |what: &str, reason: Reason| {
        let failure = Failure::refused(arguments.word(0), what, reason);
        failure.words().iter().for_each(|words| output::say(words));
        refused += 1;
    };
    let entries = disk.listing().entries();
    let mut files: Vec<&Entry> = Vec::new();
    for (place, pattern) in (2..).zip(patterns) {
        match pattern.find(disk.listing()) {
            Ok(found) => files.extend(found),
            Err(reason) => say(&printable(arguments.word(place)), reason),
        }
    }
    if patterns.is_empty() {
        files.extend(entries.iter().filter(|entry| !entry.kind().is_directory()));
    }
    files.sort_by_key(|entry| entry.slot());
    files.dedup_by_key(|entry| entry.slot());
    files.retain(|entry| match disk.length(&entry.name()) {
        Ok(_) => true,
        Err(reason) => {
            say(&entry.name().to_string(), reason.into());
            false
        }
    });
    (files, refused)
}

/// Where a file goes.
fn target(folder: &Path, name: &Name) -> PathBuf {
    folder.join(host_name(name))
}

/// Fails where a file is there already, before any is made: unless they may be replaced.
fn free(arguments: &Arguments, folder: &Path, files: &[&Entry]) -> Outcome {
    let targets = files.iter().map(|entry| target(folder, &entry.name()));
    let taken: Vec<PathBuf> = targets.filter(|path| path.symlink_metadata().is_ok()).collect();
    if taken.is_empty() || arguments.has("--force") {
        return Ok(());
    }
    for path in taken {
        let failure = Failure::io(
            path.as_os_str(),
            io::Error::other("it is there already: nothing is extracted"),
        );
        failure.words().iter().for_each(|words| output::say(words));
    }
    Err(Failure::Said(3))
}

/// Makes the folder, where it is not there.
fn made(folder: &Path) -> io::Result<()> {
    match fs::create_dir(folder) {
        Err(error) if error.kind() == ErrorKind::AlreadyExists && folder.is_dir() => Ok(()),
        made => made,
    }
}
