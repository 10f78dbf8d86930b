//! The examples, compiled in both languages and run on disks that the test makes; the README shows the first as it is.
use crate::compilers::{BOTH, Folder, Language, build, compile, link, part, root};
use std::fs;
use std::path::{Path, PathBuf};
use std::process::{Command, Output};
use varnucht::{Disk, Image, raw};

const IMAGE: usize = 819_200;

/// The save that the example makes, in memory: the new disk and the sectors named, in order.
fn saved(old: &[u8], name: &[u8], body: &[u8]) -> (Vec<u8>, Vec<usize>) {
    let mut image = old.to_vec();
    let mut list = vec![0; 3124];
    let exec = [255, 255, 255];
    // Each slice is a vector or an array of its own, lent with its own length.
    let answer = unsafe {
        raw::varnucht_save(
            image.as_mut_ptr(),
            image.len(),
            19,
            name.as_ptr(),
            name.len(),
            1,
            32768,
            exec.as_ptr(),
            exec.len(),
            std::ptr::null(),
            0,
            body.as_ptr(),
            body.len(),
            list.as_mut_ptr(),
            list.len(),
        )
    };
    assert_eq!(answer % 256, 0, "the save is accepted");
    let named = (answer >> 24 & 0xff_ffff) as usize;
    let sectors = list[..2 * named]
        .chunks(2)
        .map(|two| two[0] as usize + 256 * two[1] as usize)
        .collect();
    (image, sectors)
}

fn accepted(image: &[u8]) -> bool {
    (unsafe { raw::varnucht_check(image.as_ptr(), image.len()) }) == 0
}

fn run(program: &Path, arguments: &[&Path]) -> Output {
    Command::new(program).args(arguments).output().expect("the example runs")
}

/// The example's answer where it must succeed: what it wrote.
fn done(output: Output) -> Vec<u8> {
    assert!(
        output.status.success() && output.stderr.is_empty(),
        "{}",
        String::from_utf8_lossy(&output.stderr)
    );
    output.stdout
}

/// The example's answer where it must be refused: what it said.
fn refused(output: Output) -> String {
    assert_eq!(output.status.code(), Some(1));
    assert!(output.stdout.is_empty());
    String::from_utf8(output.stderr).expect("words")
}

fn some_bytes(len: usize) -> Vec<u8> {
    (0..len as u64)
        .map(|i| (i.wrapping_mul(0x9e37_79b9_7f4a_7c15) >> 56) as u8)
        .collect()
}

fn example(language: Language, folder: &Folder) -> PathBuf {
    build(language, &["-O2"], &[root().join("examples/tunes.c")], folder, "tunes")
}

fn player(language: Language, folder: &Folder) -> PathBuf {
    build(language, &["-O2"], &[root().join("examples/play.c")], folder, "play")
}

/// The README's program in C is `examples/files.c`, to the letter, and lists the sample disk.
#[test]
fn the_readme_shows_a_program_that_runs() {
    let source = root().join("examples/files.c");
    let text = fs::read_to_string(&source).expect("the program");
    let readme = fs::read_to_string(root().join("README.md")).expect("the README");
    assert!(
        readme.contains(&format!("```c\n{text}```\n")),
        "the README shows examples/files.c"
    );
    for language in BOTH {
        let folder = Folder::new(&format!("files-{language:?}"));
        let files = build(language, &["-O2"], std::slice::from_ref(&source), &folder, "files");
        let lines = String::from_utf8(done(run(&files, &[&root().join("samples/sample.mgt")]))).expect("text");
        assert_eq!(lines.lines().count(), 14, "{lines}");
        assert!(
            lines.contains(" 2 TUNES        20 sectors\n") && lines.ends_with("\n1503 sectors free\n"),
            "{lines}"
        );
        let blank = folder.write("blank", vec![0; IMAGE]);
        assert_eq!(done(run(&files, &[&blank])), b"1560 sectors free\n");
        let long = folder.write("long", vec![0; IMAGE + 1]);
        let words = "files: refused 1, slot 0: the image is not 819,200 bytes\n";
        assert_eq!(refused(run(&files, &[&long])), words);
        assert_eq!(run(&files, &[&folder.file("nowhere")]).status.code(), Some(2));
    }
}

/// Names are printed with the escapes of the tool, whatever bytes they have: no disk can send orders to a terminal.
#[test]
fn the_readmes_program_shows_names_as_the_tool_does() {
    let names: [&[u8; 10]; 8] = [
        b"PLAIN     ",
        b"TWO WORDS ",
        b" LEADING  ",
        b"          ",
        b"\x1b[2J\x1b]0;x ",
        b"A\\B\\x41   ",
        b"A\0\n\r\t\x7f\x80\xffB ",
        b"\xff\xfe\xfd\xfc\xfb\xfa\xf9\xf8\xf7\xf6",
    ];
    let mut image = vec![0; IMAGE];
    for place in 0..names.len() {
        image = saved(&image, &[b'A' + place as u8], b"body").0;
    }
    for (place, name) in names.into_iter().enumerate() {
        image[256 * place + 1..][..10].copy_from_slice(name);
    }
    let disk = Disk::open(Image::from_bytes(image.clone()).expect("an image")).expect("an accepted disk");
    let lines = disk.listing().entries().iter().map(|entry| {
        let name = entry.name().to_string();
        format!("{:>3} {name:<10}    1 sectors\n", entry.slot().number())
    });
    let expected = lines.collect::<String>() + "1552 sectors free\n";
    assert!(expected.contains(r" 5 \x1b[2J\x1b]0;x    1 sectors"), "{expected}");
    for language in BOTH {
        let folder = Folder::new(&format!("shown-{language:?}"));
        let source = root().join("examples/files.c");
        let files = build(language, &["-O2"], &[source], &folder, "files");
        let shown = done(run(&files, &[&folder.write("disk", &image)]));
        assert_eq!(String::from_utf8_lossy(&shown), expected);
    }
}

/// List, read, save, read back, list again, on a blank disk.
#[test]
fn the_example_saves_and_reads() {
    for language in BOTH {
        let folder = Folder::new(&format!("example-{language:?}"));
        let tunes = example(language, &folder);
        let disk = folder.write("disk", vec![0; IMAGE]);
        let body = some_bytes(20_000);
        let file = folder.write("file", &body);
        let name = Path::new("TUNES");

        assert_eq!(done(run(&tunes, &[&disk])), b"files 0, free sectors 1560\n");
        assert_eq!(
            refused(run(&tunes, &[&disk, name])),
            "read: refused 15, slot 0: no live slot has the name, capitals or not\n"
        );
        assert_eq!(done(run(&tunes, &[&disk, name, &file])), b"");
        let written = fs::read(&disk).expect("the disk");
        assert!(
            written == saved(&vec![0; IMAGE], b"TUNES", &body).0,
            "the file on the storage is the new disk"
        );
        assert!(accepted(&written));
        assert!(done(run(&tunes, &[&disk, name])) == body, "the saved file reads back");
        let lines = "  1 -- TUNES      kind 19, sectors   40, length  20000\nfiles 1, free sectors 1520\n";
        assert_eq!(String::from_utf8_lossy(&done(run(&tunes, &[&disk]))), lines);
        let words = "save: refused 16, slot 1: a live slot has the new name, capitals or not\n";
        assert_eq!(refused(run(&tunes, &[&disk, name, &file])), words);
        assert!(fs::read(&disk).expect("the disk") == written, "a refused save writes nothing");
    }
}

/// A tune comes out whole, whatever its length, and refusals are said in words.
#[test]
fn the_player_reads_piece_by_piece() {
    for language in BOTH {
        let folder = Folder::new(&format!("play-{language:?}"));
        let play = player(language, &folder);
        let mut image = vec![0; IMAGE];
        let lengths = [0, 1, 501, 502, 512, 1_011, 20_000, 700_000];
        for (place, len) in lengths.into_iter().enumerate() {
            image = saved(&image, &[b'A' + place as u8], &some_bytes(len)).0;
        }
        let disk = folder.write("disk", &image);
        for (place, len) in lengths.into_iter().enumerate() {
            let name = char::from(b'A' + place as u8).to_string();
            assert!(done(run(&play, &[&disk, Path::new(&name)])) == some_bytes(len), "{len} bytes");
        }
        let words = "play: refused 15, slot 0: no live slot has the name, capitals or not\n";
        assert_eq!(refused(run(&play, &[&disk, Path::new("TUNES")])), words);
        let long = folder.write("long", vec![0; IMAGE + 1]);
        let words = "play: refused 1, slot 0: the image is not 819,200 bytes\n";
        assert_eq!(refused(run(&play, &[&long, Path::new("TUNES")])), words);
        assert_eq!(run(&play, &[&disk]).status.code(), Some(2));
        assert!(fs::read(&disk).expect("the disk") == image);
    }
}

/// Runs a recorder with the file as its standard input.
fn record(program: &Path, disk: &Path, name: &str, input: &Path) -> Output {
    let input = fs::File::open(input).expect("the input");
    let mut command = Command::new(program);
    command.arg(disk).arg(name).stdin(input).output().expect("the example runs")
}

/// What is recorded is on the storage as a save of it would be, whatever its length; what is refused leaves the old files.
#[test]
fn the_recorder_saves_as_it_comes() {
    for language in BOTH {
        let folder = Folder::new(&format!("record-{language:?}"));
        let recorder = build(language, &["-O2"], &[root().join("examples/record.c")], &folder, "record");
        let disk = folder.write("disk", vec![0; IMAGE]);
        let mut image = vec![0; IMAGE];
        for (place, len) in [0, 1, 501, 502, 1_011, 1_012, 20_000, 700_000].into_iter().enumerate() {
            let name = char::from(b'A' + place as u8).to_string();
            let file = folder.write("file", some_bytes(len));
            assert_eq!(done(record(&recorder, &disk, &name, &file)), b"", "{len} bytes");
            image = saved(&image, name.as_bytes(), &some_bytes(len)).0;
            assert!(fs::read(&disk).expect("the disk") == image, "{len} bytes");
        }
        let file = folder.write("file", some_bytes(1_000));
        let words = "open: refused 16, slot 1: a live slot has the new name, capitals or not\n";
        assert_eq!(refused(record(&recorder, &disk, "a", &file)), words);
        assert!(fs::read(&disk).expect("the disk") == image, "it writes nothing");
        // What does not fit has written free sectors alone.
        let file = folder.write("file", some_bytes(200_000));
        let words = "add: refused 19, slot 0: fewer free sectors than the save takes\n";
        assert_eq!(refused(record(&recorder, &disk, "TUNES", &file)), words);
        let left = fs::read(&disk).expect("the disk");
        assert!(accepted(&left) && left[..40_960] == image[..40_960], "the old files");
        let long = folder.write("long", vec![0; IMAGE + 1]);
        let words = "open: refused 1, slot 0: the image is not 819,200 bytes\n";
        assert_eq!(refused(record(&recorder, &long, "TUNES", &file)), words);
        assert_eq!(
            record(&recorder, &folder.file("nowhere"), "TUNES", &file).status.code(),
            Some(2)
        );
    }
}

/// A shelf is counted, with what is no disk; a file that is not there is named and the rest is counted.
#[test]
fn the_report_counts() {
    for language in BOTH {
        let folder = Folder::new(&format!("report-{language:?}"));
        let report = build(language, &["-O2"], &[root().join("examples/report.c")], &folder, "report");
        let (disk, _) = saved(&vec![0; IMAGE], b"TUNES", &some_bytes(2_000));
        let images = [
            folder.write("disk", &disk),
            folder.write("blank", vec![0; IMAGE]),
            folder.write("short", b"no disk"),
            folder.write("long", vec![0; IMAGE + 1]),
        ];
        let paths: Vec<&Path> = images.iter().map(PathBuf::as_path).collect();
        let counted = String::from_utf8(done(run(&report, &paths))).expect("text");
        let lines: Vec<&str> = counted.lines().map(str::trim_start).collect();
        assert_eq!(lines[..2], ["2 accepted", "2 refused 1: the image is not 819,200 bytes"]);
        assert_eq!((lines.len(), lines[5]), (15, "1 files of 4 or more sectors"));
        assert_eq!(lines[14], "3116 sectors free");
        let nowhere = folder.file("nowhere");
        let output = run(&report, &[&nowhere, &images[0]]);
        assert_eq!(output.status.code(), Some(1));
        assert!(String::from_utf8_lossy(&output.stderr).contains("nowhere: "));
        assert!(String::from_utf8_lossy(&output.stdout).starts_with("         1 accepted\n"));
        assert!(done(run(&report, &[])).starts_with(b"         0 accepted\n"));
    }
}

/// What the example cannot do it says in words, and leaves the disk alone.
#[test]
fn the_example_says_refusals_in_words() {
    for language in BOTH {
        let folder = Folder::new(&format!("words-{language:?}"));
        let tunes = example(language, &folder);
        let disk = folder.write("disk", vec![0; IMAGE]);
        let file = folder.write("file", some_bytes(795_592));
        let size = "check: refused 1, slot 0: the image is not 819,200 bytes\n";
        for len in [0, IMAGE - 1, IMAGE + 1, 2 * IMAGE] {
            let other = folder.write("other", vec![0; len]);
            assert_eq!(refused(run(&tunes, &[&other])), size, "{len} bytes");
        }
        let unusable = "save: refused 12, slot 0: the name is not usable\n";
        for name in ["ELEVENBYTES", "", " TUNES"] {
            assert_eq!(refused(run(&tunes, &[&disk, Path::new(name), &file])), unusable, "{name:?}");
        }
        let full = "save: refused 19, slot 0: fewer free sectors than the save takes\n";
        assert_eq!(refused(run(&tunes, &[&disk, Path::new("TUNES"), &file])), full);
        assert!(refused(run(&tunes, &[&folder.file("nowhere")])).contains("nowhere"));
        assert_eq!(run(&tunes, &[]).status.code(), Some(2));
        assert!(fs::read(&disk).expect("the disk").iter().all(|byte| *byte == 0));
    }
}

/// Where what they print is lost, the examples do not say that all is well.
#[test]
fn a_full_device_is_no_success() {
    for language in BOTH {
        let folder = Folder::new(&format!("full-{language:?}"));
        let (tunes, play) = (example(language, &folder), player(language, &folder));
        let source = root().join("examples/files.c");
        let files = build(language, &["-O2"], &[source], &folder, "files");
        let sample = root().join("samples/sample.mgt");
        let onto_full = |program: &Path, arguments: &[&Path]| {
            let full = fs::File::options().write(true).open("/dev/full").expect("the full device");
            let output = Command::new(program).args(arguments).stdout(full).output().expect("it runs");
            (
                output.status.code(),
                String::from_utf8_lossy(&output.stderr).contains("standard output: "),
            )
        };
        assert_eq!(onto_full(&files, &[&sample]), (Some(2), true));
        assert_eq!(onto_full(&tunes, &[&sample]), (Some(1), true));
        assert_eq!(onto_full(&tunes, &[&sample, Path::new("TUNES")]), (Some(1), true));
        assert_eq!(onto_full(&tunes, &[&sample, Path::new("AUTO")]), (Some(1), true));
        assert_eq!(onto_full(&play, &[&sample, Path::new("TUNES")]), (Some(2), true));
    }
}

/// The example writes the sectors that the save names, in that order, each whole and flushed before the next: on a blank disk,
/// and on one where an old name behind the directory's end goes. `watch.c` stands between it and the system and says each
/// write and flush.
#[test]
fn the_example_writes_in_order() {
    let folder = Folder::new("watched");
    let objects = [folder.file("tunes.o"), folder.file("watch.o")];
    compile(Language::C, "c99", &[], &root().join("examples/tunes.c"), &objects[0]);
    compile(Language::C, "c99", &[], &part("watch.c"), &objects[1]);
    let program = folder.file("watched");
    link(Language::C, &objects, &["-Wl,--wrap=pwrite", "-Wl,--wrap=fsync"], &program);
    let body = some_bytes(3000);
    let file = folder.write("file", &body);
    let mut old_name = saved(&vec![0; IMAGE], b"A", b"").0;
    old_name[2 * 256..][..2].copy_from_slice(&[19, b'X']);
    for (old, directory) in [(vec![0; IMAGE], &[0][..]), (old_name, &[1, 0])] {
        let disk = folder.write("disk", &old);
        let output = run(&program, &[&disk, Path::new("TUNES"), &file]);
        let (new, sectors) = saved(&old, b"TUNES", &body);
        let expected: String = sectors
            .iter()
            .map(|sector| format!("write 512 at {}\nflush\n", 512 * sector))
            .collect();
        assert!(output.status.success());
        assert_eq!(sectors[6..], *directory);
        assert_eq!(String::from_utf8_lossy(&output.stderr), expected);
        assert!(fs::read(&disk).expect("the disk") == new);
    }
}
