//! An image whose file is removed, replaced or cut short while the tool waits for it or writes to it: no change is said to be
//! made that is not there. `interpose.c`, loaded in front of the system's library, does such a thing at a given moment.
use crate::support::*;
use std::fs::{self, File};
use std::io::{BufRead, BufReader, Read};
use std::path::Path;
use std::process::Stdio;
use varnucht::LONGEST_BODY;

/// What is done to the image in the folder, by the shell, and what the tool says then.
const OUTSIDE_CHANGES: [(&str, &str); 6] = [
    (
        "mv other.mgt disk.mgt",
        "disk.mgt: another file has taken its place meanwhile",
    ),
    (
        "cp other.mgt new; mv new disk.mgt",
        "disk.mgt: another file has taken its place meanwhile",
    ),
    ("rm disk.mgt", "disk.mgt: it was removed meanwhile"),
    ("mv disk.mgt elsewhere.mgt", "disk.mgt: it was removed meanwhile"),
    ("head -c 100000 other.mgt > disk.mgt", "disk.mgt: it has 100000 bytes now"),
    ("echo >> disk.mgt", "disk.mgt: it has 819201 bytes now"),
];

/// A folder with an image, another one, and a body that takes four sectors.
fn fixture() -> Folder {
    let folder = Folder::new();
    folder.image(&disk(&[("ONE", 10), ("TWO", 600)]));
    folder.file("other.mgt", disk(&[("OTHER", 3_000)]).image().as_bytes());
    folder.file("body", &body(2_000));
    folder
}

/// The other image is as it was, wherever it is by now.
fn other_is_untouched(folder: &Folder, outside: &str) {
    let at = if outside.starts_with("mv other.mgt") {
        "disk.mgt"
    } else {
        "other.mgt"
    };
    let bytes = fs::read(folder.path(at)).unwrap();
    assert!(bytes == disk(&[("OTHER", 3_000)]).image().as_bytes(), "{outside}");
    if outside.starts_with("cp") {
        assert!(fs::read(folder.path("disk.mgt")).unwrap() == bytes, "{outside}");
    }
}

fn shell(folder: &Folder, line: &str) {
    let mut shell = std::process::Command::new("sh");
    let status = shell.args(["-c", line]).current_dir(folder.path("")).status();
    assert!(status.expect("the shell runs").success(), "{line}");
}

#[test]
fn while_it_waits_for_a_lock() {
    for (outside, said) in OUTSIDE_CHANGES {
        let folder = fixture();
        let lock = File::open(folder.path("disk.mgt")).unwrap();
        lock.lock().unwrap();
        let mut child = tool(["save", "disk.mgt", "NEW", "body"])
            .current_dir(folder.path(""))
            .stdout(Stdio::piped())
            .stderr(Stdio::piped())
            .spawn()
            .unwrap();
        let mut err = BufReader::new(child.stderr.take().unwrap());
        let mut waits = String::new();
        err.read_line(&mut waits).unwrap();
        assert!(waits.contains("waiting"), "{waits}");
        shell(&folder, outside);
        lock.unlock().unwrap();
        let mut rest = String::new();
        err.read_to_string(&mut rest).unwrap();
        let output = child.wait_with_output().unwrap();
        let run = Run {
            status: output.status.code().expect("no signal ended it"),
            out: output.stdout,
            err: rest,
        };
        run.fails(3, said);
        assert!(run.err.ends_with(": the change is not saved\n"), "{}", run.err);
        other_is_untouched(&folder, outside);
    }
}

/// A save in the folder, and the change from outside made at that moment of it.
fn interposed(folder: &Folder, library: &Path, at: &str, outside: &str) -> Run {
    let mut command = tool(["save", "disk.mgt", "NEW", "-"]);
    command
        .stdin(File::open(folder.path("body")).unwrap())
        .current_dir(folder.path(""))
        .env("LD_PRELOAD", library)
        .env("INTERPOSE_AT", at)
        .env("INTERPOSE_LINE", outside);
    Run::of(command.output().expect("the tool runs"))
}

/// Before the first sector, between two, and after the last of the five.
#[test]
fn while_it_writes() {
    let made = Folder::new();
    let library = library(&made, "interpose.c");
    for at in [
        "lock 1", "read 1", "write 1", "flush 1", "write 3", "flush 4", "write 5", "flush 5",
    ] {
        for (outside, said) in OUTSIDE_CHANGES {
            let folder = fixture();
            let run = interposed(&folder, &library, at, outside);
            println!("{at}, {outside}: {}", run.err);
            run.fails(3, said);
            assert!(run.err.ends_with(": the change is not saved\n"), "{}", run.err);
            other_is_untouched(&folder, outside);
        }
        let folder = fixture();
        let run = interposed(&folder, &library, at, "true");
        assert_eq!(run.done(), "saved NEW: 5 sectors written\n", "{at}");
    }
}

/// The last data sector of a disk is the last of the image: written after a cut it brings back the length and nothing else.
#[test]
fn a_cut_that_the_writing_hides() {
    let folder = fixture();
    let library = library(&folder, "interpose.c");
    let full = disk(&[("LONG", LONGEST_BODY - 4 * 510)]);
    assert_eq!(full.listing().free(), 4);
    for at in ["flush 1", "flush 3", "write 4"] {
        folder.image(&full);
        let run = interposed(&folder, &library, at, ": > disk.mgt");
        let length = fs::metadata(folder.path("disk.mgt")).unwrap().len();
        match at {
            "write 4" => run.fails(3, OTHER_BYTES),
            _ => run.fails(3, "disk.mgt: it has 0 bytes now: the change is not saved\n"),
        }
        // Where the cut is seen before a sector is written, no more is written.
        assert_eq!(length, if at == "write 4" { 819_200 } else { 0 }, "{at}");
    }
}

/// What is said where all sectors are written and the file does not hold the disk.
const OTHER_BYTES: &str =
    "disk.mgt: it holds other bytes than were written: another program changed it meanwhile, so check it\n";

/// A program that writes to the image and does not ask for a lock.
#[test]
fn another_program_that_writes_meanwhile() {
    let folder = fixture();
    let library = library(&folder, "interpose.c");
    let line = "printf x | dd of=disk.mgt bs=1 seek=700000 conv=notrunc 2>/dev/null";
    for at in ["lock 1", "flush 2", "flush 5"] {
        let old = folder.image(&disk(&[("ONE", 10), ("TWO", 600)]));
        let run = interposed(&folder, &library, at, line);
        if at == "lock 1" {
            // It is read with what the other wrote.
            assert_eq!(run.done(), "saved NEW: 5 sectors written\n");
        } else {
            run.fails(3, OTHER_BYTES);
        }
        assert_eq!(fs::read(old).unwrap()[700_000], b'x', "what the other wrote stays");
    }
}

/// A link to the image, and a path through the open files, lead to the same file.
#[test]
fn other_ways_to_the_image() {
    let folder = fixture();
    std::os::unix::fs::symlink("disk.mgt", folder.path("link")).unwrap();
    assert_eq!(
        on("hide", &folder.path("link"), ["ONE"]).done(),
        "hid ONE: 1 sector written\n"
    );
    let mut command = tool(["hide", "/dev/stdin", "TWO"]);
    let file = File::options().read(true).write(true).open(folder.path("disk.mgt")).unwrap();
    let run = Run::of(command.stdin(file).output().unwrap());
    assert_eq!(run.done(), "hid TWO: 1 sector written\n");
    assert!(
        disk_in(&folder.path("disk.mgt"))
            .listing()
            .entries()
            .iter()
            .all(|entry| entry.hidden())
    );
}
