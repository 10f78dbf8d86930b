//! Where the images of a report are: those that the command line and a list name, and those found in folders.
use crate::tool::failure::Failure;
use crate::tool::files::input::{self, STANDARD};
use crate::tool::printable::printable_path;
use std::collections::HashSet;
use std::ffi::{OsStr, OsString};
use std::fs::{self, File, Metadata, ReadDir};
use std::io::{self, BufRead, BufReader, Read};
use std::os::unix::ffi::{OsStrExt, OsStringExt};
use std::os::unix::fs::MetadataExt;
use std::path::{Path, PathBuf};
use varnucht::IMAGE_LENGTH;

/// The images of a report, one after the other. Each file and each folder is taken once, however many paths and links lead to
/// it, so that no ring of links has no end. No more is kept of what was met than a number of the file system's.
pub struct ImageSearch<'a> {
    words: std::slice::Iter<'a, OsString>,
    list: Option<PathList>,
    /// The folder that is being searched, and those that are still to be.
    open: Option<(PathBuf, ReadDir)>,
    folders: Vec<PathBuf>,
    met: HashSet<(u64, u64)>,
}

/// What comes next: the path of an image, or what could not be read; a list that cannot be read further ends all.
pub enum SearchItem {
    Image(OsString),
    Unread(Failure),
    Broken(Failure),
}

impl<'a> ImageSearch<'a> {
    /// Those that are in these files and folders and in those that the list names.
    pub fn new(words: &'a [OsString], list: Option<PathList>) -> ImageSearch<'a> {
        ImageSearch {
            words: words.iter(),
            list,
            open: None,
            folders: Vec::new(),
            met: HashSet::new(),
        }
    }

    /// A path that was named. What is no folder is an image, whatever its name and its length.
    fn named(&mut self, path: OsString) -> Option<SearchItem> {
        if path == STANDARD {
            return Some(SearchItem::Image(path));
        }
        match fs::metadata(&path) {
            Err(error) => Some(unread(&path, error)),
            Ok(found) if found.is_dir() => {
                self.folder(path.into(), &found);
                None
            }
            Ok(found) => self.is_new(&found).then_some(SearchItem::Image(path)),
        }
    }

    /// A path that was found in a folder.
    fn found(&mut self, path: PathBuf) -> Option<SearchItem> {
        let name = path.file_name().unwrap_or_default();
        if name.as_bytes().starts_with(b".") {
            return None;
        }
        match fs::metadata(&path) {
            Err(error) => looks_like_an_image(name).then(|| unread(path.as_os_str(), error)),
            Ok(found) if found.is_dir() => {
                self.folder(path, &found);
                None
            }
            Ok(found) => {
                let image = found.len() == IMAGE_LENGTH as u64 || looks_like_an_image(name);
                let taken = found.is_file() && image && self.is_new(&found);
                taken.then(|| SearchItem::Image(path.into()))
            }
        }
    }

    /// A folder, to be searched when the one before is done.
    fn folder(&mut self, path: PathBuf, found: &Metadata) {
        if self.is_new(found) {
            self.folders.push(path);
        }
    }

    /// Whether a file or a folder was not met before. A pipe or a device may give other bytes each time.
    fn is_new(&mut self, found: &Metadata) -> bool {
        let kept = found.is_file() || found.is_dir();
        !kept || self.met.insert((found.dev(), found.ino()))
    }

    /// The next of what is in folders; none where all are searched.
    fn in_folders(&mut self) -> Option<SearchItem> {
        loop {
            let Some((folder, entries)) = &mut self.open else {
                let folder = self.folders.pop()?;
                match fs::read_dir(&folder) {
                    Ok(entries) => self.open = Some((folder, entries)),
                    Err(error) => return Some(unread(folder.as_os_str(), error)),
                }
                continue;
            };
            let next = match entries.next() {
                Some(Ok(entry)) => self.found(entry.path()),
                Some(Err(error)) => {
                    let trouble = unread(folder.as_os_str(), error);
                    self.open = None;
                    Some(trouble)
                }
                None => {
                    self.open = None;
                    None
                }
            };
            if next.is_some() {
                return next;
            }
        }
    }

    /// The next path that was named, by the command line or by the list.
    fn next_named(&mut self) -> Option<Result<OsString, SearchItem>> {
        match self.words.next() {
            Some(word) => Some(Ok(word.clone())),
            None => self.list.as_mut()?.next(),
        }
    }
}

impl Iterator for ImageSearch<'_> {
    type Item = SearchItem;

    /// A folder is searched before what is named behind it.
    fn next(&mut self) -> Option<SearchItem> {
        loop {
            if let Some(next) = self.in_folders() {
                return Some(next);
            }
            let next = match self.next_named()? {
                Ok(path) => self.named(path),
                Err(next) => Some(next),
            };
            if next.is_some() {
                return next;
            }
        }
    }
}

fn unread(path: &OsStr, error: io::Error) -> SearchItem {
    SearchItem::Unread(Failure::io(path, error))
}

/// How the names of images end, in capitals or not.
const ENDINGS: [&str; 3] = ["mgt", "dsk", "img"];

/// Whether a name is one that images have.
fn looks_like_an_image(name: &OsStr) -> bool {
    let ending = Path::new(name).extension();
    ending.is_some_and(|ending| ENDINGS.iter().any(|known| ending.eq_ignore_ascii_case(known)))
}

/// A list of paths, one to a line.
pub struct PathList {
    path: OsString,
    from: BufReader<File>,
    lines: usize,
}

/// The system takes no path that is longer.
const LONGEST_PATH: usize = 4_096;

impl PathList {
    /// The list in a file, or on standard input for `-`.
    pub fn open(path: &OsStr) -> Result<PathList, Failure> {
        let file = match path == STANDARD {
            true => input::standard_input()?.try_clone(),
            false => File::open(path),
        };
        Ok(PathList {
            path: path.into(),
            from: BufReader::new(file.map_err(|error| Failure::io(path, error))?),
            lines: 0,
        })
    }

    /// The next line that is not empty. No more is read of a line at a time than a path can have.
    fn next(&mut self) -> Option<Result<OsString, SearchItem>> {
        loop {
            let mut line = Vec::new();
            self.lines += 1;
            match self.from.by_ref().take(LONGEST_PATH as u64).read_until(b'\n', &mut line) {
                Err(error) => return Some(Err(SearchItem::Broken(Failure::io(&self.path, error)))),
                Ok(0) => return None,
                Ok(LONGEST_PATH) if !line.ends_with(b"\n") => return Some(Err(self.too_long())),
                Ok(_) => {}
            }
            line.pop_if(|last| *last == b'\n');
            match &line[..] {
                [] => {}
                // In a list it is a file of that name.
                b"-" => return Some(Ok("./-".into())),
                _ => return Some(Ok(OsString::from_vec(line))),
            }
        }
    }

    /// Passes over the rest of a line that is no path.
    fn too_long(&mut self) -> SearchItem {
        let what = format!("{}: line {}", printable_path(&self.path), self.lines);
        match self.from.skip_until(b'\n') {
            Ok(_) => SearchItem::Unread(Failure::Io(what, io::Error::other("it is longer than a path can be"))),
            Err(error) => SearchItem::Broken(Failure::io(&self.path, error)),
        }
    }
}
