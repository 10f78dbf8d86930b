//! What the tests of the tool share: a folder of their own, and the tool run as a process.
#![allow(dead_code)] // Each test file uses a part of this.
use std::ffi::{OsStr, c_int};
use std::fs;
use std::io::Write;
use std::os::unix::process::CommandExt;
use std::path::{Path, PathBuf};
use std::process::{Command, Output, Stdio};
use std::sync::atomic::{AtomicUsize, Ordering};
use std::time::{Duration, Instant, SystemTime};
use varnucht::{CarriedKind, Directory, Disk, Image, NewFile, NewName, Start};

/// The tool.
pub const TOOL: &str = env!("CARGO_BIN_EXE_varnucht");

/// A folder for one test, which goes away with it.
pub struct Folder(PathBuf);

impl Folder {
    /// A new folder.
    pub fn new() -> Folder {
        static MADE: AtomicUsize = AtomicUsize::new(0);
        let number = MADE.fetch_add(1, Ordering::Relaxed);
        let path = std::env::temp_dir().join(format!("varnucht-tool-{}-{number}", std::process::id()));
        fs::create_dir(&path).expect("the folder is made");
        Folder(path)
    }

    /// A path in it.
    pub fn path(&self, name: &str) -> PathBuf {
        self.0.join(name)
    }

    /// Makes a file in it.
    pub fn file(&self, name: &str, bytes: &[u8]) -> PathBuf {
        let path = self.path(name);
        fs::write(&path, bytes).expect("the file is made");
        path
    }

    /// Makes an image file of a disk in it.
    pub fn image(&self, disk: &Disk) -> PathBuf {
        self.file("disk.mgt", disk.image().as_bytes())
    }

    /// The names of all that is in it, sorted.
    pub fn names(&self) -> Vec<String> {
        let entries = fs::read_dir(&self.0).expect("the folder is there");
        let mut names: Vec<String> = entries
            .map(|entry| entry.unwrap().file_name().to_string_lossy().into())
            .collect();
        names.sort();
        names
    }
}

impl Drop for Folder {
    fn drop(&mut self) {
        let _ = fs::remove_dir_all(&self.0);
    }
}

/// What a run of the tool gave.
#[derive(Debug)]
pub struct Run {
    /// The exit status.
    pub status: i32,
    /// Standard output.
    pub out: Vec<u8>,
    /// Standard error.
    pub err: String,
}

impl Run {
    /// A run that came to its end: with a status that the help names, and without a panic.
    pub fn of(output: Output) -> Run {
        let err = String::from_utf8(output.stderr).expect("messages are text");
        let status = output.status.code().expect("no signal ended it");
        assert!((0..=3).contains(&status), "status {status}: {err}");
        assert!(!err.contains("panicked"), "{err}");
        Run {
            status,
            out: output.stdout,
            err,
        }
    }

    /// Standard output as text.
    pub fn text(&self) -> &str {
        std::str::from_utf8(&self.out).expect("the output is text")
    }

    /// Checks the status, and that a failure's message holds these words.
    pub fn fails(&self, status: i32, words: &str) {
        assert_eq!(self.status, status, "{self:?}");
        assert!(self.err.contains(words), "`{words}` is not in {:?}", self.err);
        assert!(self.out.is_empty(), "{:?}", self.text());
    }

    /// Checks that it was done, and gives standard output as text.
    pub fn done(&self) -> &str {
        assert_eq!((self.status, self.err.as_str()), (0, ""), "{self:?}");
        self.text()
    }
}

/// The tool with these words.
pub fn tool<S: AsRef<OsStr>>(words: impl IntoIterator<Item = S>) -> Command {
    let mut command = Command::new(TOOL);
    command.args(words).env_remove("NO_COLOR").stdin(Stdio::null());
    command
}

unsafe extern "C" {
    fn signal(number: c_int, action: usize) -> usize;
}

/// Lets a program heed HUP, INT and TERM, even where the tests themselves were started with some of them ignored, as by `nohup`:
/// what is ignored stays so in all that is started, and a shell cannot take it back.
pub fn with_signals(command: &mut Command) -> &mut Command {
    const USUAL: usize = 0;
    // SAFETY: between the fork and the start of the program this sets what signals do, and nothing else.
    unsafe {
        command.pre_exec(|| {
            for number in [1, 2, 15] {
                signal(number, USUAL);
            }
            Ok(())
        })
    }
}

/// Runs the tool with these words.
pub fn run<S: AsRef<OsStr>>(words: impl IntoIterator<Item = S>) -> Run {
    Run::of(tool(words).output().expect("the tool runs"))
}

/// Runs the tool with these words where it must not wait for anything. What it prints is short.
pub fn run_soon<S: AsRef<OsStr>>(words: impl IntoIterator<Item = S>) -> Run {
    let mut child = tool(words)
        .stdout(Stdio::piped())
        .stderr(Stdio::piped())
        .spawn()
        .expect("the tool runs");
    let began = Instant::now();
    while child.try_wait().expect("the tool is there").is_none() {
        if began.elapsed() > Duration::from_secs(20) {
            child.kill().expect("the tool is there");
            panic!("the tool waits");
        }
        std::thread::sleep(Duration::from_millis(5));
    }
    Run::of(child.wait_with_output().expect("the tool ends"))
}

/// Runs the tool on an image: a command, the image, and more words.
pub fn on<S: AsRef<OsStr>>(command: &str, image: &Path, words: impl IntoIterator<Item = S>) -> Run {
    let words: Vec<S> = words.into_iter().collect();
    let all = [OsStr::new(command), image.as_os_str()]
        .into_iter()
        .chain(words.iter().map(AsRef::as_ref));
    run(all)
}

/// Runs the tool with this standard input.
pub fn fed<S: AsRef<OsStr>>(words: impl IntoIterator<Item = S>, input: &[u8]) -> Run {
    let mut child = tool(words)
        .stdin(Stdio::piped())
        .stdout(Stdio::piped())
        .stderr(Stdio::piped())
        .spawn()
        .expect("the tool runs");
    // The tool may stop reading early; then the rest goes nowhere.
    let _ = child.stdin.take().expect("it has an input").write_all(input);
    Run::of(child.wait_with_output().expect("the tool ends"))
}

/// Compiles a file of C beside the tests to a library that can be loaded in front of the system's.
pub fn library(folder: &Folder, source: &str) -> PathBuf {
    let library = folder.path(source).with_extension("so");
    let source = Path::new(env!("CARGO_MANIFEST_DIR")).join("tests/tool").join(source);
    let output = Command::new("cc")
        .args(["-shared", "-fPIC", "-O1", "-o"])
        .args([&library, &source])
        .arg("-ldl")
        .output()
        .expect("the compiler `cc` is needed for this test");
    assert!(output.status.success(), "{}", String::from_utf8_lossy(&output.stderr));
    library
}

/// What a terminal shows of a text with colours.
pub fn plain(text: &str) -> String {
    let mut parts = text.split("\x1b[");
    let first = parts.next().unwrap_or_default().to_string();
    parts.fold(first, |shown, part| {
        shown + part.split_once('m').expect("a colour ends in m").1
    })
}

/// What `check` says of an accepted disk with a directory of four tracks.
pub const ACCEPTED: &str = "accepted, 4 directory tracks\n";

/// No more words.
pub const NONE: [&str; 0] = [];

/// A body that repeats nowhere soon.
pub fn body(length: usize) -> Vec<u8> {
    (0..length as u64)
        .map(|place| (place.wrapping_mul(0x9e37_79b9_7f4a_7c15) >> 56) as u8)
        .collect()
}

/// A disk with these files of code, by name and length.
pub fn disk<S: AsRef<str>>(files: &[(S, usize)]) -> Disk {
    disk_with(Directory::default(), files)
}

/// The same with a directory of this size.
pub fn disk_with<S: AsRef<str>>(directory: Directory, files: &[(S, usize)]) -> Disk {
    let mut disk = Disk::open(Image::blank_with(directory)).expect("a blank disk is accepted");
    for (name, length) in files {
        let body = body(*length);
        let (name, start) = (
            NewName::new(name.as_ref()).expect("a usable name"),
            Start::new(1, 32_768).expect("a usable start"),
        );
        let file = NewFile::new(CarriedKind::Code, name, start, &body);
        drop(disk.save(&file).expect("the file is saved"));
    }
    disk
}

/// The disk that an image file holds.
pub fn disk_in(path: &Path) -> Disk {
    let image = Image::from_bytes(fs::read(path).expect("the file is there")).expect("it is an image");
    Disk::open(image).expect("it is an accepted disk")
}

/// A file's bytes and the time of its last change.
pub fn state(path: &Path) -> (Vec<u8>, SystemTime) {
    let bytes = fs::read(path).expect("the file is there");
    (
        bytes,
        fs::metadata(path)
            .expect("the file is there")
            .modified()
            .expect("it has a time"),
    )
}

/// Puts the time of a file's last change an hour back, so that any write shows.
pub fn age(path: &Path) {
    let file = fs::File::options().write(true).open(path).expect("the file is there");
    file.set_modified(SystemTime::now() - Duration::from_secs(3_600))
        .expect("its time is set");
}
