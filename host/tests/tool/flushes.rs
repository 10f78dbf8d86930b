//! The sectors of a change go to the file one by one, in the order that it names them, each whole and flushed before the next.
//! A file that the tool makes is whole and flushed before it has its name, and then its folder is flushed. `watch.c`, loaded
//! in front of the system's library, notes what the tool writes, when it flushes, and when it names a file.
use crate::support::{Folder, Run, body, disk, library, on, tool};
use std::fs::{self, File};
use std::path::Path;
use std::process::Stdio;

/// Runs the tool in the folder with these words, and gives what the watcher noted too.
fn watched(folder: &Folder, watch: &Path, words: &[&str]) -> (Run, String) {
    watched_with(folder, watch, words, Stdio::null())
}

/// The same with this standard input.
fn watched_with(folder: &Folder, watch: &Path, words: &[&str], input: Stdio) -> (Run, String) {
    let notes = folder.path("notes");
    let mut command = tool(words);
    command
        .stdin(input)
        .current_dir(folder.path(""))
        .env("LD_PRELOAD", watch)
        .env("WATCH", &notes);
    let run = Run::of(command.output().expect("the tool runs"));
    // Where nothing is noted there is no file.
    let noted = fs::read_to_string(&notes).unwrap_or_default();
    let _ = fs::remove_file(&notes);
    (run, noted)
}

/// The sector numbers that a dry run prints.
fn named(printed: &str) -> Vec<usize> {
    let rows = printed.lines().skip(1);
    rows.map_while(|row| {
        row.split_whitespace()
            .next()?
            .parse()
            .ok()
            .filter(|_| !row.contains("written"))
    })
    .collect()
}

#[test]
fn each_sector_is_flushed_before_the_next() {
    let folder = Folder::new();
    let watch = library(&folder, "watch.c");
    let image = folder.image(&disk(&[("OLD", 3_000), ("KEPT", 600)]));
    let file = folder.file("file", &body(20_000));
    let file = file.to_str().expect("a path in text");
    let changes: [(&str, &[&str]); 10] = [
        ("save", &["TUNES", file]),
        ("hide", &["TUNES"]),
        ("show", &["TUNES"]),
        ("protect", &["TUNES"]),
        ("release", &["TUNES"]),
        ("rename", &["TUNES", "SONGS"]),
        ("erase", &["OLD"]),
        // Into the sectors of OLD, and behind all others.
        ("save", &["MORE", file]),
        ("gather", &["MORE"]),
        ("erase", &["KEPT", "SONGS"]),
    ];
    for (command, words) in changes {
        let planned = on(command, &image, words.iter().copied().chain(["--dry-run"]));
        let sectors = named(planned.done());
        let many = match words {
            _ if ["save", "gather"].contains(&command) => 41,
            ["KEPT", "SONGS"] => 2,
            _ => 1,
        };
        assert_eq!(sectors.len(), many, "{command}");
        let words: Vec<&str> = [command, "disk.mgt"].into_iter().chain(words.iter().copied()).collect();
        let (run, noted) = watched(&folder, &watch, &words);
        run.done();
        let expected: String = sectors
            .iter()
            .map(|sector| format!("write 512 at {}\nflush\n", 512 * sector))
            .collect();
        assert_eq!(noted, expected, "{command}");
    }
}

/// A recording writes the sectors of a save, the first of the file after its last.
#[test]
fn each_sector_of_a_recording_is_flushed_before_the_next() {
    let folder = Folder::new();
    let watch = library(&folder, "watch.c");
    let image = folder.image(&disk(&[("OLD", 3_000), ("KEPT", 600)]));
    let file = folder.file("file", &body(20_000));
    let planned = on("save", &image, ["TUNES", file.to_str().expect("a path in text"), "--dry-run"]);
    let mut sectors = named(planned.done());
    assert_eq!(sectors.len(), 41);
    sectors[..40].rotate_left(1);
    let input = File::open(&file).expect("the file is there");
    let (run, noted) = watched_with(&folder, &watch, &["record", "disk.mgt", "TUNES"], input.into());
    run.done();
    let expected: String = sectors
        .iter()
        .map(|sector| format!("write 512 at {}\nflush\n", 512 * sector))
        .collect();
    assert_eq!(noted, expected);
}

/// The lengths of the writes that stand at the front of the notes, each where the one before ended; and what follows them.
fn written(noted: &str) -> (Vec<usize>, &str) {
    let (mut lengths, mut rest) = (vec![], noted);
    while let Some((write, after)) = rest.strip_prefix("write ").and_then(|rest| rest.split_once('\n')) {
        let (length, place) = write.split_once(" at ").expect("a write has a place");
        assert_eq!(place.parse(), Ok(lengths.iter().sum::<usize>()), "{noted}");
        lengths.push(length.parse().expect("a number"));
        rest = after;
    }
    (lengths, rest)
}

/// A body goes to the file a piece at a time, however long it is.
#[test]
fn a_body_is_written_piece_by_piece() {
    let folder = Folder::new();
    let watch = library(&folder, "watch.c");
    folder.image(&disk(&[("LONG", 795_591)]));
    let (run, noted) = watched(&folder, &watch, &["read", "disk.mgt", "LONG", "-o", "body"]);
    run.done();
    let (written, after) = written(&noted);
    assert_eq!(after, "flush\nname body\nflush folder\n");
    assert!(written.iter().all(|length| *length <= 16_384), "{noted}");
    assert!(fs::read(folder.path("body")).unwrap() == body(795_591));
    let (run, noted) = watched(&folder, &watch, &["read", "disk.mgt", "LONG"]);
    assert_eq!((run.status, run.err.as_str(), noted.as_str()), (0, "", ""));
    assert!(run.out == body(795_591));
}

/// A loss of power leaves such a file whole, or leaves what was there before.
#[test]
fn a_made_file_is_flushed_before_it_has_its_name() {
    let folder = Folder::new();
    let watch = library(&folder, "watch.c");
    folder.image(&disk(&[("TUNES", 20_000)]));
    folder.file("older", b"older");
    let made = [
        ("blank new.mgt", "new.mgt", vec![0; 819_200]),
        ("read disk.mgt TUNES -o new", "new", body(20_000)),
        ("read disk.mgt TUNES -o another --force", "another", body(20_000)),
        ("read disk.mgt TUNES -o older --force", "older", body(20_000)),
        ("read disk.mgt TUNES -o ./one", "one", body(20_000)),
        ("blank folder/new.mgt", "folder/new.mgt", vec![0; 819_200]),
    ];
    fs::create_dir(folder.path("folder")).unwrap();
    for (line, name, bytes) in made {
        let (run, noted) = watched(&folder, &watch, &line.split(' ').collect::<Vec<_>>());
        assert_eq!((run.status, run.err.as_str()), (0, ""), "{line}");
        let last = name.rsplit('/').next().unwrap();
        let (written, after) = written(&noted);
        assert_eq!(written.iter().sum::<usize>(), bytes.len(), "{line}");
        assert_eq!(after, format!("flush\nname {last}\nflush folder\n"), "{line}");
        assert!(fs::read(folder.path(name)).unwrap() == bytes, "{line}");
    }
    let (run, noted) = watched(&folder, &watch, &["read", "disk.mgt", "TUNES", "-o", "older"]);
    run.fails(3, "it is there already");
    assert_eq!(noted, "");
}
