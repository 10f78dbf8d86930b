//! Standard input and output: `-` for an image and for a file, and standard files that are closed or open the wrong way.
use crate::support::*;
use std::ffi::{OsStr, OsString};
use std::fs::{self, File};
use std::os::unix::ffi::OsStrExt;
use std::path::Path;
use std::process::{Command, Stdio};

/// Runs the tool in the folder as the shell starts it with these redirections. A word may hold any bytes but a space.
fn redirected(folder: &Folder, how: &str, line: &str) -> Run {
    let mut shell = Command::new("sh");
    shell.args(["-c", &format!("exec \"$@\" {how}"), "sh", TOOL]);
    shell.args(line.split(' ')).current_dir(folder.path(""));
    Run::of(shell.stdin(Stdio::null()).output().expect("the shell runs"))
}

/// A folder with an image and a body.
fn fixture() -> Folder {
    let folder = Folder::new();
    folder.image(&disk(&[("ONE", 10), ("TWO", 600)]));
    folder.file("body", &body(2_000));
    folder
}

const READING: [&str; 5] = ["check I", "list I", "map I", "read I TWO", "sector I 4 1"];
const TRIED: [&str; 9] = [
    "save I NEW body --dry-run",
    "erase I ONE --dry-run",
    "rename I ONE NEW --dry-run",
    "hide I ONE --dry-run",
    "show I ONE --dry-run",
    "protect I ONE --dry-run",
    "release I ONE --dry-run",
    "gather I ONE --dry-run",
    "gather I --all --dry-run",
];

fn with_image(line: &str, image: &str) -> String {
    line.split(' ')
        .map(|word| if word == "I" { image } else { word })
        .collect::<Vec<_>>()
        .join(" ")
}

/// What can be printed nowhere is no success.
#[test]
fn a_closed_standard_output_is_an_error() {
    let folder = fixture();
    let before = state(&folder.path("disk.mgt"));
    let others = ["help", "help list", "--version", "list --help"];
    let lines = READING.iter().chain(&TRIED).chain(&others);
    for line in lines.map(|line| with_image(line, "disk.mgt")) {
        redirected(&folder, ">&-", &line).fails(3, "varnucht: standard output: it is closed\n");
        redirected(&folder, "1</dev/null", &line).fails(3, "standard output: Bad file descriptor");
        // All three at once: no file that is opened gets the number of a standard one.
        assert_eq!(redirected(&folder, "<&- >&- 2>&-", &line).status, 3, "{line}");
        assert_eq!(redirected(&folder, ">/dev/null", &line).status, 0, "{line}");
        assert_eq!(redirected(&folder, "1<>/dev/null", &line).status, 0, "{line}");
    }
    redirected(&folder, ">&-", "read disk.mgt TWO -o -").fails(3, "standard output: it is closed");
    redirected(&folder, ">&-", "read disk.mgt TWO -o /dev/stdout --force").fails(3, "/dev/stdout: ");
    assert!(state(&folder.path("disk.mgt")) == before);
    // A change is made all the same, and a file too.
    assert_eq!(redirected(&folder, "<&- >&-", "hide disk.mgt ONE").status, 0);
    assert!(disk_in(&folder.path("disk.mgt")).listing().entries()[0].hidden());
    assert_eq!(redirected(&folder, "<&- >&- 2>&-", "read disk.mgt TWO -o two").status, 0);
    assert!(fs::read(folder.path("two")).unwrap() == body(600));
}

/// What cannot be read is not an empty file.
#[test]
fn a_closed_standard_input_is_an_error() {
    let folder = fixture();
    let before = state(&folder.path("disk.mgt"));
    for line in ["save disk.mgt NEW -", "save disk.mgt NEW - --dry-run", "record disk.mgt NEW"] {
        redirected(&folder, "<&-", line).fails(3, "varnucht: standard input: it is closed\n");
        redirected(&folder, "0>/dev/null", line).fails(3, "standard input: Bad file descriptor");
    }
    for line in ["save disk.mgt NEW /dev/stdin", "check /dev/stdin"] {
        redirected(&folder, "<&-", line).fails(3, "/dev/stdin: ");
    }
    for line in READING.iter().chain(&TRIED).map(|line| with_image(line, "-")) {
        redirected(&folder, "<&-", &line).fails(3, "standard input: it is closed\n");
        redirected(&folder, "< .", &line).fails(3, "standard input: Is a directory");
    }
    assert!(state(&folder.path("disk.mgt")) == before);
    assert_eq!(
        redirected(&folder, "</dev/null", "save disk.mgt NEW -").done(),
        "saved NEW: 2 sectors written\n"
    );
}

#[test]
fn an_image_that_is_only_read_may_be_standard_input() {
    let folder = fixture();
    let bytes = fs::read(folder.path("disk.mgt")).unwrap();
    for line in READING.iter().chain(&TRIED) {
        let by_path = redirected(&folder, "", &with_image(line, "disk.mgt"));
        let by_file = redirected(&folder, "<disk.mgt", &with_image(line, "-"));
        assert_eq!((by_path.status, by_path.err.as_str()), (0, ""), "{line}");
        assert_eq!((by_file.status, by_file.err.as_str()), (0, ""), "{line}");
        assert!(by_file.out == by_path.out, "{line}");
        if !line.contains("body") {
            let words = with_image(line, "-");
            assert!(fed(words.split(' '), &bytes).out == by_path.out, "{line}");
        }
    }
    let refused = redirected(&folder, "<body", "check -");
    refused.fails(1, "varnucht: standard input: refusal 1: ");
    redirected(&folder, "<disk.mgt", "read - NONE").fails(1, "varnucht: standard input: NONE: refusal 15: ");
    // It is locked as a file is, and the lock of whoever opened it stays.
    let lock = File::open(folder.path("disk.mgt")).unwrap();
    lock.lock().unwrap();
    redirected(&folder, "<disk.mgt", "check - --no-wait").fails(3, "standard input: another program has locked it\n");
    let mut command = tool(["check", "-", "--no-wait"]);
    Run::of(command.stdin(lock.try_clone().unwrap()).output().unwrap()).fails(3, "another program has locked it");
    let other = File::open(folder.path("disk.mgt")).unwrap();
    assert!(other.try_lock_shared().is_err(), "the lock is gone");
}

/// What is changed or made is a file; one that is called `-` has a path.
#[test]
fn standard_input_cannot_be_changed() {
    let folder = fixture();
    let bytes = fs::read(folder.path("disk.mgt")).unwrap();
    fs::write(folder.path("-"), &bytes).unwrap();
    for line in TRIED.iter().chain(&["blank I"]) {
        let line = with_image(line, "-");
        let run = redirected(&folder, "<disk.mgt", line.trim_end_matches(" --dry-run"));
        run.fails(2, "write `./-` for a file of that name\n");
    }
    let both = redirected(&folder, "<disk.mgt", "save - NEW - --dry-run");
    both.fails(2, "IMAGE and FILE cannot both be standard input\n");
    for image in ["disk.mgt", "-"] {
        assert!(fs::read(folder.path(image)).unwrap() == bytes);
    }
    redirected(&folder, "<disk.mgt", "read - TWO -o disk.mgt --force").fails(2, "FILE is IMAGE itself");
    redirected(&folder, "<disk.mgt", "read - TWO -o ./- --force").done();
    assert!(fs::read(folder.path("-")).unwrap() == body(600));
    fs::write(folder.path("-"), &bytes).unwrap();
    assert_eq!(redirected(&folder, "", "hide ./- ONE").done(), "hid ONE: 1 sector written\n");
}

/// Every way to write an option's value, and values of any bytes.
#[test]
fn values_of_options() {
    let folder = fixture();
    let read = |words: &[&OsStr]| {
        let all = ["read", "disk.mgt", "TWO"]
            .map(OsStr::new)
            .into_iter()
            .chain(words.iter().copied());
        Run::of(tool(all).current_dir(folder.path("")).output().unwrap())
    };
    let ways: [(&[&[u8]], &[u8]); 11] = [
        (&[b"-o", b"one"], b"one"),
        (&[b"-otwo"], b"two"),
        (&[b"-o=three"], b"three"),
        (&[b"--output", b"four"], b"four"),
        (&[b"--output=five"], b"five"),
        (&[b"--output=six=6"], b"six=6"),
        (&[b"--output=\xff\xfe"], b"\xff\xfe"),
        (&[b"-o\xff="], b"\xff="),
        (&[b"-o", b"\xfd"], b"\xfd"),
        (&[b"--output=\xc3\x28=\xff"], b"\xc3\x28=\xff"),
        (&[b"--no-wait", b"-oseven", b"--force"], b"seven"),
    ];
    for (words, name) in ways {
        let words: Vec<&OsStr> = words.iter().copied().map(OsStr::from_bytes).collect();
        read(&words).done();
        let made = folder.path("").join(Path::new(OsStr::from_bytes(name)));
        assert!(fs::read(&made).is_ok_and(|bytes| bytes == body(600)), "{words:?}");
    }
    let wrong: [(&[&[u8]], &str); 5] = [
        (&[b"-oone", b"-otwo"], "`-o` is given twice"),
        (&[b"-oone", b"--output=two"], "`--output` is given twice"),
        (&[b"-xone"], "`read` has no option `-xone`"),
        (&[b"--out\xffput=one"], "`read` has no option `--out"),
        (&[b"-ofour", b"--force=\xff"], "`--force` takes no value"),
    ];
    for (words, said) in wrong {
        let words: Vec<&OsStr> = words.iter().copied().map(OsStr::from_bytes).collect();
        read(&words).fails(2, said);
    }
    let image: OsString = folder.path("disk.mgt").into();
    let words = [OsStr::new("map"), &image, OsStr::from_bytes(b"--color=\xff")];
    run(words).fails(2, "`--color` takes always, never or auto, and not");
}
