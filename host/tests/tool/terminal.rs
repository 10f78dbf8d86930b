//! What a terminal shows: colours where they are allowed, and how far a slow save has come. `terminal.c`, loaded in front of
//! the system's library, says which files are terminals and makes each flush slow.
use crate::support::*;
use std::io::{self, Read};
use std::os::unix::process::ExitStatusExt;
use std::path::Path;
use std::process::Command;

/// The tool with these words, where the files of these numbers are terminals: 1 is standard output, 2 standard error.
fn at(terminals: &str, library: &Path, words: &[&str]) -> Command {
    let mut command = tool(words);
    command
        .env("LD_PRELOAD", library)
        .env("TERMINALS", terminals)
        .env_remove("TERM");
    command
}

/// Variables of the environment and their values.
type Variables = &'static [(&'static str, &'static str)];

/// The terminals, the option, the environment, and whether there are colours then.
const CASES: [(&str, &str, Variables, bool); 13] = [
    ("1", "", &[], true),
    ("02", "", &[], false),
    ("1", "", &[("NO_COLOR", "1")], false),
    ("1", "", &[("NO_COLOR", "")], true),
    ("1", "", &[("TERM", "dumb")], false),
    ("1", "", &[("TERM", "xterm")], true),
    ("1", "--color=auto", &[], true),
    ("1", "--color=auto", &[("NO_COLOR", "1")], false),
    ("1", "--color=auto", &[("TERM", "dumb")], false),
    ("02", "--color=auto", &[], false),
    ("1", "--color=never", &[], false),
    ("1", "--color=always", &[("NO_COLOR", "1"), ("TERM", "dumb")], true),
    ("02", "--color=always", &[], true),
];

#[test]
fn a_map_has_colours_where_they_are_allowed() {
    let folder = Folder::new();
    let library = library(&folder, "terminal.c");
    let image = folder.image(&disk(&[("ONE", 2_000), ("TWO", 10_000)]));
    let path = image.to_str().unwrap();
    let map = on("map", &image, NONE);
    assert!(!map.done().contains('\x1b'), "a pipe is no terminal");
    for (terminals, option, environment, coloured) in CASES {
        let words = ["map", path, option];
        let words = if option.is_empty() { &words[..2] } else { &words };
        let mut map_there = at(terminals, &library, words);
        let run = Run::of(map_there.envs(environment.iter().copied()).output().unwrap());
        let case = format!("terminals {terminals}, {option} {environment:?}");
        assert_eq!(plain(run.done()), map.text(), "{case}");
        for code in ["\x1b", "\x1b[0;1m#", "\x1b[0;2m.", "\x1b[0;32mA", "\x1b[0;35mB", "\x1b[0m"] {
            assert_eq!(run.text().contains(code), coloured, "{case}: {code:?}");
        }
    }
}

/// A save that takes 21 flushes, on an image of its own.
fn slow_save(folder: &Folder, terminals: &str) -> Command {
    let (image, file) = (folder.image(&disk::<&str>(&[])), folder.file("body", &body(10_000)));
    let words = ["save", image.to_str().unwrap(), "SLOW", file.to_str().unwrap()];
    at(terminals, &library(folder, "terminal.c"), &words)
}

/// What a slow save confirms.
const SAVED: &str = "saved SLOW: 21 sectors written\n";

/// The numbers of written sectors that a slow save shows on its line, and what comes after the line.
fn followed(shown: &str) -> (Vec<usize>, &str) {
    let parts: Vec<&str> = shown.split('\r').collect();
    let ["", lines @ .., blank, after] = parts.as_slice() else {
        panic!("no line is shown and taken away: {shown:?}");
    };
    assert!(blank.chars().all(|letter| letter == ' '), "the line stays: {shown:?}");
    let number = |line: &&str| {
        assert!(line.len() <= blank.len(), "a part of the line stays: {shown:?}");
        let number = line.strip_suffix(" of 21 sectors written ");
        number.expect("a line tells how many").parse().expect("a number")
    };
    (lines.iter().map(number).collect(), after)
}

/// The flushes take 630 milliseconds, and a line comes every 200 or so: there are two at least.
#[test]
fn a_slow_save_shows_how_far_it_is() {
    let folder = Folder::new();
    let run = Run::of(slow_save(&folder, "2").output().unwrap());
    assert_eq!((run.status, run.text()), (0, SAVED));
    let (written, after) = followed(&run.err);
    println!("{written:?} of 21 sectors written");
    assert!((2..21).contains(&written.len()), "{written:?}");
    assert!(written.is_sorted_by(|one, next| one < next), "{written:?}");
    assert!(written.iter().all(|written| (1..=21).contains(written)), "{written:?}");
    assert_eq!(after, "");
}

/// The line is gone before the save is confirmed, where both go to one terminal.
#[test]
fn a_slow_save_leaves_nothing_but_its_confirmation() {
    let folder = Folder::new();
    let (mut reader, writer) = io::pipe().unwrap();
    let mut command = slow_save(&folder, "12");
    let mut child = command
        .stdout(writer.try_clone().unwrap())
        .stderr(writer)
        .spawn()
        .expect("the tool runs");
    // The command holds the writing ends too: without them gone the reading would not end.
    drop(command);
    let mut shown = String::new();
    reader.read_to_string(&mut shown).expect("what is shown is text");
    assert!(child.wait().unwrap().success());
    assert_eq!(followed(&shown).1, SAVED);
}

#[test]
fn a_slow_save_without_a_terminal_says_nothing_meanwhile() {
    let folder = Folder::new();
    let run = Run::of(slow_save(&folder, "01").output().unwrap());
    assert_eq!(run.done(), SAVED);
}

/// A signal in the middle of a slow save: the line goes away, and what is said stands on a line of its own. At 30 milliseconds
/// for a flush the line is there by the twelfth.
#[test]
fn a_signal_takes_the_line_away() {
    let folder = Folder::new();
    let mut command = slow_save(&folder, "2");
    let both = [library(&folder, "interpose.c"), folder.path("terminal.so")].map(|path| path.to_str().unwrap().to_string());
    command
        .env("LD_PRELOAD", both.join(":"))
        .env("INTERPOSE_AT", "flush 12")
        .env("INTERPOSE_LINE", "kill -INT $PPID");
    let output = with_signals(&mut command).output().unwrap();
    let shown = String::from_utf8_lossy(&output.stderr);
    assert_eq!((output.status.signal(), output.stdout.len()), (Some(2), 0), "{shown}");
    let (written, after) = followed(&shown);
    assert!(!written.is_empty(), "{shown}");
    assert!(
        after.contains(": 12 of 21 sectors were written when the signal INT came. ") && after.ends_with(".\n"),
        "{shown}"
    );
}
