//! `save --replace`: a file over an older one, cut short anywhere.
use crate::support::*;
use crate::writing::limited;
use std::fs;
use std::path::Path;
use std::process::{Command, Stdio};
use std::time::Duration;
use varnucht::{CarriedKind, Change, Disk, Entry, Name, NewFile, NewName, SECTOR_LENGTH, Start};

/// The words of a replacement of TUNES.
fn replace(image: &Path, file: &Path, words: &[&str]) -> Run {
    let words = ["TUNES", file.to_str().unwrap(), "--replace"]
        .into_iter()
        .chain(words.iter().copied());
    on("save", image, words)
}

/// The file of a name, if it is there.
fn found(disk: &Disk, name: &str) -> Option<Entry> {
    disk.listing().find(&Name::new(name).unwrap()).copied()
}

#[test]
fn a_file_takes_the_place_of_an_older_one() {
    let folder = Folder::new();
    let mut disk = disk(&[("ONE", 10), ("tunes", 2_000), ("TWO", 10)]);
    drop(disk.hide(&Name::new("TUNES").unwrap()).unwrap());
    let image = folder.image(&disk);
    let file = folder.file("body", &body(3_000));
    let run = replace(&image, &file, &["--kind", "screen"]);
    assert_eq!(run.done(), "replaced TUNES: 9 sectors written\n");
    let disk = disk_in(&image);
    let entry = found(&disk, "TUNES").unwrap();
    assert_eq!(entry.name().to_string(), "TUNES", "as it is typed now");
    assert_eq!((entry.kind().number(), entry.hidden(), entry.parent_code()), (20, false, 0));
    assert_eq!(disk.read(&entry.name()).unwrap(), body(3_000));
    assert_eq!((disk.listing().entries().len(), found(&disk, "NEW~1")), (3, None));
    // Once more, shorter; and where there is none it is a save.
    let file = folder.file("body", &body(3));
    assert_eq!(replace(&image, &file, &[]).done(), "replaced TUNES: 4 sectors written\n");
    on("erase", &image, ["TUNES"]).done();
    assert_eq!(replace(&image, &file, &[]).done(), "saved TUNES: 2 sectors written\n");
    // Without the option nothing is replaced.
    on("save", &image, ["TUNES", file.to_str().unwrap()]).fails(1, "refusal 16 at slot ");
}

#[test]
fn what_is_not_replaced() {
    let folder = Folder::new();
    let file = folder.file("body", &body(600));
    let refused = |disk: &Disk, words: &str| {
        let image = folder.image(disk);
        age(&image);
        let before = state(&image);
        replace(&image, &file, &[]).fails(1, words);
        replace(&image, &file, &["--dry-run"]).fails(1, words);
        assert!(state(&image) == before, "nothing is written: {words}");
    };
    let mut protected = disk(&[("TUNES", 10)]);
    drop(protected.protect(&Name::new("TUNES").unwrap()).unwrap());
    refused(
        &protected,
        "disk.mgt: TUNES: refusal 17 at slot 1: protected (erase, rename)\n",
    );
    // A directory, empty or not.
    for parent in [0, 7] {
        let mut image = disk(&[("TUNES", 10), ("ONE", 10)]).into_image();
        let bytes = image.as_bytes_mut();
        bytes[..11].copy_from_slice(b"\x15TUNES     ");
        bytes[11..256].fill(0);
        (bytes[250], bytes[256 + 254]) = (7, parent);
        refused(&Disk::open(image).unwrap(), "TUNES: refusal 13 at slot 1: ");
    }
    // Room for one of the two alone.
    refused(
        &disk(&[("TUNES", 510 * 1_559 - 9)]),
        "TUNES: refusal 19: fewer free sectors than the save takes: the older file stays",
    );
    let names: Vec<(String, usize)> = (1..80).map(|number| (number.to_string(), 0)).collect();
    let full: Vec<(&str, usize)> = names
        .iter()
        .map(|(name, length)| (name.as_str(), *length))
        .chain([("TUNES", 0)])
        .collect();
    refused(&disk(&full), "TUNES: refusal 18: ");
    // What is wrong with the new file, and with the disk, comes first.
    let image = folder.image(&protected);
    replace(&image, &file, &["--page", "32"]).fails(1, "refusal 14: ");
    replace(&image, &file, &["--kind", "5"]).fails(1, "refusal 13: ");
    on("save", &image, ["much too long", "/dev/null", "--replace"]).fails(1, "refusal 12: ");
    on("save", Path::new("-"), ["TUNES", "/dev/null", "--replace"]).fails(2, "IMAGE is written to");
}

/// The three changes, made by the library: each sector as it is written, and the disk behind each change.
fn by_the_library(old: &Disk, new: &[u8], beside: &str) -> Vec<(usize, [u8; SECTOR_LENGTH])> {
    let (name, beside) = (NewName::new("TUNES").unwrap(), NewName::new(beside).unwrap());
    let file = NewFile::new(CarriedKind::Code, beside, Start::new(1, 32_768).unwrap(), new);
    let mut disk = old.clone();
    let mut writes = Vec::new();
    for change in [
        Change::Save(file),
        Change::Erase(name.name()),
        Change::Rename(beside.name(), name),
    ] {
        let sectors = disk.change(&change).unwrap();
        writes.extend(sectors.iter().map(|(number, bytes)| (number.place(), *bytes)));
    }
    writes
}

/// Cut behind any write the disk is accepted, and the older file or the new one is there, whole, under its name or the other;
/// all other files stay. The tool writes these sectors in this order.
#[test]
fn cut_anywhere_one_of_them_is_there() {
    let folder = Folder::new();
    let watch = library(&folder, "watch.c");
    for (files, beside) in [
        (&[("ONE", 10), ("TUNES", 2_000), ("TWO", 700)][..], "NEW~1"),
        (&[("TUNES", 0)], "NEW~1"),
        (&[("new~1", 10), ("NEW~3", 10), ("TUNES", 2_000)], "NEW~2"),
    ] {
        let old = disk(files);
        let (before, new) = (old.read(&Name::new("TUNES").unwrap()).unwrap(), body(3_000));
        let writes = by_the_library(&old, &new, beside);
        let mut cut = old.image().clone();
        let mut seen = Vec::new();
        for place in 0..=writes.len() {
            let disk = Disk::open(cut.clone()).expect("every cut is an accepted disk");
            let read = |name: &str| found(&disk, name).map(|entry| disk.read(&entry.name()).unwrap());
            let there = (
                read("TUNES") == Some(before.clone()),
                read("TUNES") == Some(new.clone()),
                read(beside) == Some(new.clone()),
            );
            seen.push(there);
            assert!(read("TUNES").is_none_or(|body| body == before || body == new));
            assert!(there.0 || there.1 || there.2, "cut behind {place}");
            for (name, length) in files.iter().filter(|(name, _)| *name != "TUNES") {
                assert_eq!(read(name), Some(body(*length)), "cut behind {place}");
            }
            if let Some((at, bytes)) = writes.get(place) {
                cut.as_bytes_mut()[*at..at + SECTOR_LENGTH].copy_from_slice(bytes);
            }
        }
        seen.dedup();
        assert_eq!(
            seen,
            [
                (true, false, false),
                (true, false, true),
                (false, false, true),
                (false, true, false)
            ]
        );
        // The tool does just that.
        let image = folder.image(&old);
        let file = folder.file("body", &new);
        let planned = replace(&image, &file, &["--dry-run"]);
        let numbers: Vec<usize> = planned
            .done()
            .lines()
            .skip(1)
            .map_while(|row| {
                row.split_whitespace()
                    .next()?
                    .parse()
                    .ok()
                    .filter(|_| !row.contains("written"))
            })
            .collect();
        assert_eq!(
            numbers,
            writes.iter().map(|(place, _)| place / SECTOR_LENGTH).collect::<Vec<_>>()
        );
        let notes = folder.path("notes");
        let mut command = tool(["save", image.to_str().unwrap(), "TUNES", file.to_str().unwrap(), "--replace"]);
        command.env("LD_PRELOAD", &watch).env("WATCH", &notes);
        Run::of(command.output().unwrap()).done();
        let expected: String = writes
            .iter()
            .map(|(place, _)| format!("write 512 at {place}\nflush\n"))
            .collect();
        assert_eq!(fs::read_to_string(&notes).unwrap(), expected);
        fs::remove_file(&notes).unwrap();
        assert!(fs::read(&image).unwrap() == cut.as_bytes());
    }
}

/// Where writing fails it is said which file is where.
#[test]
fn a_replacement_that_fails() {
    let folder = Folder::new();
    let old = disk(&[("TUNES", 2_000)]);
    let image = folder.image(&old);
    let file = folder.file("body", &body(200_000));
    let run = limited(&["save", image.to_str().unwrap(), "TUNES", file.to_str().unwrap(), "--replace"]);
    run.fails(3, "varnucht: the older TUNES is there as it was\n");
    run.fails(3, " sectors were written, and then: File too large");
    assert!(disk_in(&image).listing() == old.listing());
    assert_eq!(on("read", &image, ["TUNES"]).out, body(2_000));
    assert_eq!(replace(&image, &file, &[]).done(), "replaced TUNES: 396 sectors written\n");
}

/// Killed or asked to end at any moment, the older file or the new one is there, and the other files are. Each flush takes a
/// while here, so that the moments fall between all writes.
#[test]
fn killed_at_any_moment() {
    let folder = Folder::new();
    let slow = library(&folder, "terminal.c");
    let old = disk(&[("ONE", 700), ("TUNES", 900)]);
    let file = folder.file("body", &body(300));
    let (before, new) = (body(900), body(300));
    let mut seen = std::collections::BTreeMap::new();
    for (round, signal) in (0..36).zip(["KILL", "TERM", "INT"].into_iter().cycle()) {
        let image = folder.image(&old);
        let words = ["save", image.to_str().unwrap(), "TUNES", file.to_str().unwrap(), "--replace"];
        let mut command = tool(words);
        with_signals(&mut command)
            .env("LD_PRELOAD", &slow)
            .stderr(Stdio::piped())
            .stdout(Stdio::null());
        let child = command.spawn().expect("the tool runs");
        std::thread::sleep(Duration::from_millis(5 * round));
        // It may have ended before; then nobody is there to be told.
        let kill = format!("kill -{signal} {} 2>/dev/null || true", child.id());
        Command::new("sh").args(["-c", &kill]).status().expect("the shell runs");
        let output = child.wait_with_output().expect("the tool ends");
        let said = String::from_utf8(output.stderr).expect("messages are text");
        let left = disk_in(&image);
        let read = |name: &str| found(&left, name).map(|entry| left.read(&entry.name()).unwrap());
        assert_eq!(read("ONE"), Some(body(700)), "{signal} {round}");
        let state = match (read("TUNES"), read("NEW~1")) {
            (Some(tunes), None) if tunes == before => "older",
            (Some(tunes), Some(beside)) if tunes == before && beside == new => "both",
            (None, Some(beside)) if beside == new => "beside",
            (Some(tunes), None) if tunes == new => "new",
            other => panic!("{signal} {round}: {other:?}"),
        };
        // What a tool says that was asked to end is so.
        for (words, states) in [
            ("the older TUNES is there as it was", &["older"][..]),
            (
                "the new file is there as NEW~1, and the older TUNES may be there still",
                &["both", "beside"],
            ),
            ("the new file is there as NEW~1 or as TUNES", &["beside", "new"]),
        ] {
            assert!(
                !said.contains(words) || states.contains(&state),
                "{signal} {round}, {state}: {said}"
            );
        }
        *seen.entry(state).or_insert(0) += 1;
    }
    println!("{seen:?}");
    assert!(seen.len() >= 2, "all moments fell together: {seen:?}");
}
