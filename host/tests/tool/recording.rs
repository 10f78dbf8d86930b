//! `record`, run as a process: standard input is saved as it comes, and nothing is seen of it before it ends.
use crate::support::*;
use std::fs::{self, File};
use std::io::{Read, Write};
use std::os::unix::process::ExitStatusExt;
use std::path::{Path, PathBuf};
use std::process::{Child, Command, Stdio};
use std::time::{Duration, Instant};

/// The words of a recording on this image.
fn words<'a>(image: &'a Path, more: &[&'a str]) -> Vec<&'a str> {
    ["record", image.to_str().expect("a plain path")]
        .into_iter()
        .chain(more.iter().copied())
        .collect()
}

/// A folder with an image of two files.
fn fixture() -> (Folder, PathBuf) {
    let folder = Folder::new();
    let image = folder.image(&disk(&[("ONE", 10), ("TWO", 600)]));
    (folder, image)
}

/// The disk is the one that a save of the same bytes leaves.
#[test]
fn a_recording_is_a_save() {
    let options = "--kind screen --page 0x1f --offset=49151 --exec 0102FF --info 0a0b";
    for (length, sectors) in [(0, 2), (1, 2), (501, 2), (502, 3), (1_012, 4), (20_000, 41), (100_000, 198)] {
        for options in ["", options].map(|options| options.split_whitespace().collect::<Vec<_>>()) {
            let (folder, image) = fixture();
            let bytes = body(length);
            let more = [&["TUNE"][..], &options].concat();
            let recorded = fed(words(&image, &more), &bytes);
            let unit = if length == 1 { "byte" } else { "bytes" };
            assert_eq!(
                recorded.done(),
                format!("recorded TUNE: {length} {unit}, {sectors} sectors written\n")
            );
            let left = fs::read(&image).unwrap();
            let image = folder.image(&disk(&[("ONE", 10), ("TWO", 600)]));
            let saved = [&["save", image.to_str().unwrap(), "TUNE", "-"][..], &options].concat();
            fed(saved, &bytes).done();
            assert!(fs::read(&image).unwrap() == left, "{length} bytes");
        }
    }
}

/// A tool that records, and its input.
fn started(image: &Path) -> Child {
    let mut command = tool(words(image, &["TUNE"]));
    command.stdin(Stdio::piped()).stdout(Stdio::piped()).stderr(Stdio::piped());
    with_signals(&mut command).spawn().expect("the tool runs")
}

/// Waits until the image is no longer what it was, and gives what it is then.
fn changed(image: &Path, before: &[u8]) -> Vec<u8> {
    let began = Instant::now();
    loop {
        let now = fs::read(image).unwrap();
        if now != before {
            return now;
        }
        assert!(began.elapsed() < Duration::from_secs(20), "nothing is written");
        std::thread::sleep(Duration::from_millis(5));
    }
}

/// What comes is written while more is waited for; and till the input ends the files are the old ones.
#[test]
fn it_is_saved_as_it_comes() {
    let (_folder, image) = fixture();
    let (old, bytes) = (disk_in(&image), body(3_000));
    let mut child = started(&image);
    let mut input = child.stdin.take().expect("it has an input");
    let mut before = fs::read(&image).unwrap();
    for piece in bytes.chunks(1_500) {
        input.write_all(piece).unwrap();
        before = changed(&image, &before);
        assert_eq!(disk_in(&image).listing().entries(), old.listing().entries());
        assert_eq!(disk_in(&image).listing().free(), old.listing().free());
    }
    on("hide", &image, ["ONE", "--no-wait"]).fails(3, "another program has locked it");
    drop(input);
    let run = Run::of(child.wait_with_output().unwrap());
    assert_eq!(run.done(), "recorded TUNE: 3000 bytes, 7 sectors written\n");
    assert_eq!(on("read", &image, ["TUNE"]).out, bytes);
}

/// A signal while it waits for more ends it at once, and leaves the old files.
#[test]
fn a_signal_gives_it_up() {
    for (signal, number) in [("-INT", 2), ("-TERM", 15), ("-HUP", 1), ("-KILL", 9)] {
        let (_folder, image) = fixture();
        let old = disk_in(&image);
        let mut child = started(&image);
        let mut input = child.stdin.take().expect("it has an input");
        input.write_all(&body(5_000)).unwrap();
        changed(&image, old.image().as_bytes());
        let status = Command::new("kill").args([signal, &child.id().to_string()]).status();
        assert!(status.expect("`kill` runs").success());
        let output = child.wait_with_output().unwrap();
        assert_eq!((output.status.signal(), output.stdout.len()), (Some(number), 0));
        assert_eq!(disk_in(&image).listing().entries(), old.listing().entries());
        for name in ["ONE", "TWO"] {
            assert_eq!(
                on("read", &image, [name]).out,
                old.read(&varnucht::Name::new(name).unwrap()).unwrap()
            );
        }
        // What it wrote is free still, and the recording can be made again.
        assert_eq!(
            fed(words(&image, &["TUNE"]), &body(5_000)).done(),
            "recorded TUNE: 5000 bytes, 11 sectors written\n"
        );
    }
}

/// A signal between two sectors: `interpose.c` sends it when the third is flushed.
#[test]
fn a_signal_while_it_writes() {
    let (folder, image) = fixture();
    let old = disk_in(&image);
    let library = library(&folder, "interpose.c");
    let input = folder.file("body", &body(4_000));
    for (at, said) in [
        ("flush 3", "the signal INT came: the recording is given up."),
        // The last of a piece, and the one before the last of all.
        ("flush 6", "the signal INT came: the recording is given up."),
        ("flush 8", "2 of 3 sectors were written when the signal INT came."),
    ] {
        let mut command = tool(words(&image, &["TUNE"]));
        command
            .stdin(File::open(&input).unwrap())
            .env("LD_PRELOAD", &library)
            .env("INTERPOSE_AT", at)
            .env("INTERPOSE_LINE", "kill -INT $PPID");
        let output = with_signals(&mut command).output().unwrap();
        let err = String::from_utf8_lossy(&output.stderr);
        assert_eq!((output.status.signal(), output.stdout.len()), (Some(2), 0), "{at}: {err}");
        assert!(err.contains(said), "{at}: {err}");
        assert!(
            err.ends_with("The old disk is still there and reads as before.\n"),
            "{at}: {err}"
        );
        assert_eq!(disk_in(&image).listing().entries(), old.listing().entries(), "{at}");
    }
}

/// An input without an end fills the disk, is refused, and leaves the old files.
#[test]
fn a_disk_that_gets_full() {
    let folder = Folder::new();
    let image = folder.image(&disk(&[("ONE", 10), ("LONG", 780_000)]));
    let old = disk_in(&image);
    assert_eq!(old.listing().free(), 29);
    let mut command = tool(words(&image, &["TUNE"]));
    let run = Run::of(command.stdin(File::open("/dev/zero").unwrap()).output().unwrap());
    run.fails(1, "disk.mgt: TUNE: refusal 19: fewer free sectors than the save takes\n");
    assert_eq!(disk_in(&image).listing().entries(), old.listing().entries());
    assert_eq!(disk_in(&image).listing().free(), old.listing().free());
}

/// What is refused at the start is refused before any byte is read, and nothing is written.
#[test]
fn refused_in_the_papers_order() {
    let (folder, image) = fixture();
    age(&image);
    let before = state(&image);
    let wrong = ["--kind", "21", "--page", "32"];
    for (name, number) in [("A\\x07", 12), ("", 12), (" A", 12), ("ONE", 13)] {
        let more = [&[name][..], &wrong].concat();
        on("record", &image, more).fails(1, &format!("refusal {number}: "));
    }
    on("record", &image, ["ONE", "--page", "32"]).fails(1, "ONE: refusal 14: ");
    on("record", &image, ["one"]).fails(1, "one: refusal 16 at slot 1: ");
    on("record", "-".as_ref(), ["NEW"]).fails(2, "IMAGE is written to, and `-` is standard input");
    assert!(state(&image) == before);
    let full: Vec<(String, usize)> = (1..=80).map(|number| (format!("FILE{number}"), 0)).collect();
    let image = folder.image(&disk(&full));
    on("record", &image, ["MORE"]).fails(1, "refusal 18: ");
    // Nobody writes to this input, and it is not waited for.
    let (reader, writer) = std::io::pipe().unwrap();
    let mut command = tool(words(&image, &["MORE"]));
    Run::of(command.stdin(reader).output().unwrap()).fails(1, "refusal 18: ");
    drop(writer);
}

/// On a terminal a line follows the recording, and goes away before it is confirmed. Each flush takes 30 milliseconds.
#[test]
fn a_slow_recording_shows_how_far_it_is() {
    let (folder, image) = fixture();
    let input = folder.file("body", &body(20_000));
    let slow = library(&folder, "terminal.c");
    for (terminals, shows) in [("2", true), ("01", false)] {
        let (mut reader, writer) = std::io::pipe().unwrap();
        let name = format!("TUNE{terminals}");
        let mut command = tool(words(&image, &[&name]));
        command
            .stdin(File::open(&input).unwrap())
            .env("LD_PRELOAD", &slow)
            .env("TERMINALS", terminals)
            .stdout(writer.try_clone().unwrap())
            .stderr(writer);
        let mut child = command.spawn().expect("the tool runs");
        // The command holds the writing ends too: without them gone the reading would not end.
        drop(command);
        let mut shown = String::new();
        reader.read_to_string(&mut shown).expect("what is shown is text");
        assert!(child.wait().unwrap().success(), "{shown}");
        let said = format!("recorded {name}: 20000 bytes, 41 sectors written\n");
        if !shows {
            assert_eq!(shown, said);
            continue;
        }
        let parts: Vec<&str> = shown.split('\r').collect();
        let ["", lines @ .., blank, after] = parts.as_slice() else {
            panic!("no line is shown and taken away: {shown:?}");
        };
        assert!(lines.len() >= 2, "{shown:?}");
        assert!(lines.contains(&"4096 bytes recorded, 7 sectors written "), "{shown:?}");
        assert!(lines.iter().all(|line| line.ends_with(" sectors written ")), "{shown:?}");
        assert!(blank.chars().all(|letter| letter == ' '), "the line stays: {shown:?}");
        assert_eq!(*after, said);
    }
}
