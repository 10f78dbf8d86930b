//! Files that the tool makes: there whole, or not at all.
use crate::tool::failure::{Failure, Outcome};
use crate::tool::output;
use crate::tool::printable::printable;
use crate::tool::system::{self, SignalGuard};
use std::ffi::OsStr;
use std::fs::{self, File, Metadata, Permissions};
use std::io::{self, ErrorKind, Read};
use std::os::unix::fs::{MetadataExt, OpenOptionsExt, PermissionsExt};
use std::path::{Path, PathBuf};

/// Makes a file with these bytes, a piece at a time. They are written beside it first. An older file stays as it is, unless
/// `force` lets the new one take its place.
pub fn write_file(path: &OsStr, bytes: impl Read, force: bool) -> Outcome {
    replace(path, bytes, force).map_err(|error| match error.kind() {
        ErrorKind::AlreadyExists => Failure::io(path, io::Error::other("it is there already, and stays as it is")),
        ErrorKind::Interrupted => Failure::io(path, io::Error::other(format!("{error}: nothing is made or replaced"))),
        _ => Failure::io(path, error),
    })
}

/// Makes the file, by what is at its path.
fn replace(path: &OsStr, mut bytes: impl Read, force: bool) -> io::Result<()> {
    match fs::metadata(path) {
        Ok(_) if !force => Err(ErrorKind::AlreadyExists.into()),
        Ok(older) if older.is_dir() => Err(ErrorKind::IsADirectory.into()),
        // A device or a pipe holds nothing that could be lost, and must not be replaced.
        Ok(older) if !older.is_file() => {
            io::copy(&mut bytes, &mut File::options().write(true).open(path)?)?;
            Ok(())
        }
        // Where the path is a link, the file that it leads to is replaced and not the link.
        Ok(older) => {
            put(&fs::canonicalize(path)?, bytes, Some(&older))?;
            say_split(path, older.nlink());
            Ok(())
        }
        // Neither is a link replaced that leads to no file.
        Err(error) if force && Path::new(path).is_symlink() => Err(match error.kind() {
            ErrorKind::NotFound => io::Error::other("it is a link that leads nowhere"),
            _ => error,
        }),
        Err(_) => put(Path::new(path), bytes, None),
    }
}

/// Says that the other hard links of a file that was replaced lead to the older bytes still.
fn say_split(path: &OsStr, links: u64) {
    if links > 1 {
        let path = printable(path);
        output::say(&format!(
            "{path}: it had {links} hard links, and this one alone leads to the new bytes"
        ));
    }
}

/// Writes the bytes beside the path, and gives them their name when all are there. A signal meanwhile leaves the file whole
/// or not there, and nothing beside it.
fn put(path: &Path, bytes: impl Read, older: Option<&Metadata>) -> io::Result<()> {
    let _guard = SignalGuard::new();
    let (file, beside) = beside(path)?;
    let made = fill(file, bytes, older)
        .and_then(|()| system::check_signals())
        .and_then(|()| publish(&beside, path, older.is_some()));
    if made.is_err() {
        let _ = fs::remove_file(&beside);
    }
    made.and_then(|()| flush_folder(path))
}

/// A new file in the same folder, under a name that nothing has. Nobody else may open it before it is whole.
fn beside(path: &Path) -> io::Result<(File, PathBuf)> {
    for attempt in 0..1_000 {
        let beside = path.with_file_name(format!(".varnucht-{}-{attempt}.part", std::process::id()));
        match File::options().write(true).create_new(true).mode(0o600).open(&beside) {
            Err(error) if error.kind() == ErrorKind::AlreadyExists => {}
            made => return Ok((made?, beside)),
        }
    }
    Err(io::Error::other("no name is left for a file beside it"))
}

/// Writes the bytes, and flushes them to the disk. The rights are then those of the older file, or the usual ones. Setuid,
/// setgid and sticky are not kept: the new file's owner may be another.
fn fill(mut file: File, mut bytes: impl Read, older: Option<&Metadata>) -> io::Result<()> {
    io::copy(&mut bytes, &mut file)?;
    let rights = older.map_or_else(system::default_mode, |older| older.mode() & 0o777);
    file.set_permissions(Permissions::from_mode(rights))?;
    file.sync_all()
}

/// Flushes the folder that a file has got its name in, so that a loss of power does not take the name away again.
fn flush_folder(path: &Path) -> io::Result<()> {
    let folder = path.parent().filter(|folder| *folder != "");
    match File::open(folder.unwrap_or(Path::new("."))).and_then(|folder| folder.sync_all()) {
        // A folder need not be readable for its owner to make a file there, and not every file system can flush one.
        Err(error) if matches!(error.kind(), ErrorKind::PermissionDenied | ErrorKind::InvalidInput) => Ok(()),
        flushed => flushed,
    }
}

/// Gives the written file its name, in the place of an older file or where there is none.
fn publish(beside: &Path, path: &Path, older: bool) -> io::Result<()> {
    if older {
        return fs::rename(beside, path);
    }
    // A link is refused where the name is taken by now; a rename would replace what is there.
    match fs::hard_link(beside, path) {
        Ok(()) => fs::remove_file(beside),
        Err(error) if error.kind() == ErrorKind::AlreadyExists => Err(error),
        // Some file systems have no links.
        Err(_) if fs::symlink_metadata(path).is_err() => fs::rename(beside, path),
        Err(_) => Err(ErrorKind::AlreadyExists.into()),
    }
}
