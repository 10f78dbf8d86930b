//! The index of a folder of files that came from a disk: what a file's bytes alone do not tell. A line has, between tabs, the
//! file's name on the host, its name on the disk, kind, page, offset, execution bytes, kind information and marks.
use crate::tool::failure::Failure;
use std::ffi::{OsStr, OsString};
use std::fs::File;
use std::io::{self, ErrorKind, Read};
use std::os::unix::ffi::OsStrExt;
use std::path::{Path, PathBuf};
use varnucht::escape::{escape, unescape};
use varnucht::{Disk, Entry, Name};

/// The index is called so. No file of a disk is: its name has more than ten bytes.
const CALLED: &str = "varnucht.index";

/// The first line.
const HEAD: &str = "varnucht index 1: file, name, kind, page, offset, exec, info, marks";

/// No index is longer, by far: 778 files to a disk, and as many disks as there are days in a year.
const LONGEST: u64 = 64 << 20;

/// What an index says of a file.
#[derive(Clone)]
pub struct IndexLine {
    /// What it is called on the host.
    pub file: OsString,
    /// Its name on the disk.
    pub name: Vec<u8>,
    pub kind: u8,
    /// Where it starts. A Spectrum file has no page, and the start that its header says.
    pub page: Option<u8>,
    pub offset: u32,
    pub execution: [u8; 3],
    pub information: [u8; 11],
    pub hidden: bool,
    pub protected: bool,
}

/// What a file of this name is called on the host: its name as `list` prints it, with a slash and a dot at the front as escapes,
/// so that it is never a path and never hidden. Escapes undone it is the name again.
pub fn host_name(name: &Name) -> String {
    let safe = escape(name.trimmed()).replace('/', r"\x2f");
    match safe.strip_prefix('.') {
        Some(rest) => format!(r"\x2e{rest}"),
        None => safe,
    }
}

impl IndexLine {
    /// What is to be kept of a file of a disk.
    pub fn of(disk: &Disk, entry: &Entry) -> IndexLine {
        let (name, bytes) = (entry.name(), entry.as_bytes());
        let spectrum = entry.kind().is_spectrum();
        let offset = match spectrum {
            true => disk.start(&name).unwrap_or(0),
            false => u16::from_le_bytes([bytes[237], bytes[238]]).into(),
        };
        IndexLine {
            file: host_name(&name).into(),
            name: name.trimmed().to_vec(),
            kind: entry.kind().number(),
            page: (!spectrum).then_some(bytes[236] & 0x1f),
            offset,
            execution: entry.execution(),
            information: entry.information(),
            hidden: entry.hidden(),
            protected: entry.protected(),
        }
    }

    /// The line as text.
    fn text(&self) -> String {
        let hex = |bytes: &[u8]| bytes.iter().map(|byte| format!("{byte:02x}")).collect::<String>();
        let mark = |set: bool, letter: char| if set { letter } else { '-' };
        let fields = [
            escape(self.file.as_bytes()),
            escape(&self.name),
            self.kind.to_string(),
            self.page.map_or("-".to_string(), |page| page.to_string()),
            self.offset.to_string(),
            hex(&self.execution),
            hex(&self.information),
            String::from_iter([mark(self.hidden, 'h'), mark(self.protected, 'p')]),
        ];
        fields.join("\t") + "\n"
    }

    /// The line that a text is; none where it is no such line.
    fn parse(text: &str) -> Option<IndexLine> {
        let fields: Vec<&str> = text.split('\t').collect();
        let &[file, name, kind, page, offset, execution, information, marks] = &fields[..] else {
            return None;
        };
        let page = match page {
            "-" => None,
            page => Some(page.parse().ok()?),
        };
        let (hidden, protected) = match marks.as_bytes() {
            [h @ (b'h' | b'-'), p @ (b'p' | b'-')] => (*h == b'h', *p == b'p'),
            _ => return None,
        };
        Some(IndexLine {
            file: OsStr::from_bytes(&unescape(file.as_bytes()).ok()?).into(),
            name: unescape(name.as_bytes()).ok()?,
            kind: kind.parse().ok()?,
            page,
            offset: offset.parse().ok()?,
            execution: bytes(execution)?,
            information: bytes(information)?,
            hidden,
            protected,
        })
    }
}

/// So many bytes, two hexadecimal digits to each.
fn bytes<const N: usize>(text: &str) -> Option<[u8; N]> {
    let mut bytes = [0; N];
    let whole = text.len() == 2 * N && text.bytes().all(|digit| digit.is_ascii_hexdigit());
    for (byte, place) in bytes.iter_mut().zip((0..).step_by(2)).filter(|_| whole) {
        *byte = u8::from_str_radix(&text[place..place + 2], 16).ok()?;
    }
    whole.then_some(bytes)
}

/// The lines of the index of a folder.
#[derive(Default)]
pub struct FolderIndex(Vec<IndexLine>);

impl FolderIndex {
    /// Where the index of a folder is.
    pub fn path(folder: &Path) -> PathBuf {
        folder.join(CALLED)
    }

    /// Whether a path leads to an index, by its name.
    pub fn is(path: &OsStr) -> bool {
        Path::new(path).file_name() == Some(CALLED.as_ref())
    }

    /// The index of a folder; without a line where there is none.
    pub fn read(folder: &Path) -> Result<FolderIndex, Failure> {
        let path = FolderIndex::path(folder);
        let failed = |error| Failure::io(path.as_os_str(), error);
        let file = match File::open(&path) {
            Err(error) if matches!(error.kind(), ErrorKind::NotFound | ErrorKind::NotADirectory) => {
                return Ok(FolderIndex::default());
            }
            file => file.map_err(failed)?,
        };
        let mut text = String::new();
        file.take(LONGEST).read_to_string(&mut text).map_err(failed)?;
        let mut lines = text.lines();
        let wrong = |line: usize| {
            failed(io::Error::other(format!(
                "line {line} is none of an index that `extract` makes"
            )))
        };
        if lines.next() != Some(HEAD) {
            return Err(wrong(1));
        }
        let line = |(number, line)| IndexLine::parse(line).ok_or_else(|| wrong(number));
        (2..).zip(lines).map(line).collect::<Result<_, _>>().map(FolderIndex)
    }

    /// The line of a file of the folder.
    pub fn find(&self, file: &OsStr) -> Option<&IndexLine> {
        self.0.iter().find(|line| line.file == file)
    }

    /// Takes lines in, each in the place of an older one of the same file.
    pub fn take(&mut self, lines: Vec<IndexLine>) {
        self.0.retain(|old| !lines.iter().any(|line| line.file == old.file));
        self.0.extend(lines);
    }

    /// All of it as text.
    pub fn text(&self) -> String {
        let lines: String = self.0.iter().map(IndexLine::text).collect();
        format!("{HEAD}\n{lines}")
    }
}
