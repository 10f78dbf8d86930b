//! Ways to see a file and a disk: `dump`, `start`, a map as SVG; a terminal that gets no raw bytes; and what is said of a
//! command or an option that is not there.
use crate::support::*;
use std::fs;
use std::path::Path;
use std::process::Command;
use varnucht::{CarriedKind, Disk, NewFile, NewName, Start};

#[test]
fn dump_shows_a_file() {
    let folder = Folder::new();
    let mut disk = disk(&[("EMPTY", 0)]);
    let text = b"Hello\x07 world, and more than a line.".as_slice();
    let (name, start) = (NewName::new("TEXT").unwrap(), Start::new(2, 40_000).unwrap());
    drop(disk.save(&NewFile::new(CarriedKind::Basic, name, start, text)).unwrap());
    let image = folder.image(&disk);
    let shown = "\
TEXT: BASIC, 35 bytes, start 56384
00000  48 65 6c 6c 6f 07 20 77  6f 72 6c 64 2c 20 61 6e  |Hello. world, an|
00010  64 20 6d 6f 72 65 20 74  68 61 6e 20 61 20 6c 69  |d more than a li|
00020  6e 65 2e                                          |ne.|
";
    assert_eq!(on("dump", &image, ["text"]).done(), shown.replace("TEXT:", "text:"));
    assert_eq!(on("dump", &image, ["EMPTY"]).done(), "EMPTY: code, 0 bytes, start 32768\n");
    assert_eq!(on("start", &image, ["TEXT"]).done(), "56384\n");
    for command in ["dump", "start"] {
        on(command, &image, ["NONE"]).fails(1, "disk.mgt: NONE: refusal 15: ");
        on(command, &image, [""]).fails(1, "refusal 12: the name is not usable: it has no byte");
        on(command, &image, NONE).fails(2, "NAME is missing");
        on(command, &folder.path("none"), ["TEXT"]).fails(3, "/none: ");
    }
}

/// A start that is out of its range, and kinds that have none.
#[test]
fn what_has_no_start() {
    let folder = Folder::new();
    let mut image = disk(&[("ONE", 10), ("SNAP", 10)]).into_image();
    image.as_bytes_mut()[238] = 0;
    image.as_bytes_mut()[256] = 5;
    let image = folder.image(&Disk::open(image).unwrap());
    on("start", &image, ["ONE"]).fails(1, "ONE: refusal 14 at slot 1: ");
    assert!(on("dump", &image, ["ONE"]).done().starts_with("ONE: code, 10 bytes\n"));
    for command in ["dump", "start"] {
        on(command, &image, ["SNAP"]).fails(1, "SNAP: refusal 13 at slot 2: ");
    }
}

#[test]
fn a_map_as_svg() {
    let folder = Folder::new();
    let mut image = disk(&[("ONE", 600), ("TWO", 10)]).into_image();
    image.as_bytes_mut()[257..267].copy_from_slice(b"<\"&>\x07     ");
    let image = folder.image(&Disk::open(image).unwrap());
    let file = folder.path("map.svg");
    let words = ["--svg", file.to_str().unwrap()];
    assert_eq!(on("map", &image, words).done(), "");
    let svg = fs::read_to_string(&file).unwrap();
    assert!(svg.starts_with("<svg xmlns=\"http://www.w3.org/2000/svg\" ") && svg.ends_with("</svg>\n"));
    // A square for each sector, and for each file one more.
    assert_eq!(svg.matches("<title>track ").count(), 1_600);
    assert_eq!(svg.matches(": directory</title>").count(), 40);
    assert_eq!(svg.matches(": free</title>").count(), 1_557);
    assert_eq!(svg.matches(": 1 ONE (2)</title>").count(), 2);
    assert_eq!(svg.matches(r": 2 &lt;&quot;&amp;&gt;\x07 (1)</title>").count(), 1);
    assert!(svg.contains("track 4, sector 1: 1 ONE (2)") && svg.contains("track 207, sector 10: free"));
    assert_eq!(svg.matches("<text ").count(), 4);
    assert_eq!(on("map", &image, ["--svg", "-"]).done(), svg);
    on("map", &image, words).fails(3, "map.svg: it is there already");
    on("map", &image, words.into_iter().chain(["--force"])).done();
    on("map", &image, ["--svg", "-", "--json"]).fails(2, "two forms");
    for words in [&["--force"][..], &["--force", "--svg", "-"]] {
        on("map", &image, words.iter().copied()).fails(2, "`--force` goes with `--svg FILE`");
    }
    on("map", &image, ["--svg"]).fails(2, "`--svg` takes FILE");
}

/// The tool where standard output is a terminal.
fn at_terminal(library: &Path, words: &[&str]) -> Run {
    let mut command: Command = tool(words);
    command.env("LD_PRELOAD", library).env("TERMINALS", "1");
    Run::of(command.output().unwrap())
}

#[test]
fn a_terminal_gets_no_raw_bytes() {
    let folder = Folder::new();
    let library = library(&folder, "terminal.c");
    let mut disk = disk(&[("RAW", 300), ("EMPTY", 0)]);
    let text = b"ten lines\r\nand\ta tab\n".as_slice();
    let (name, start) = (NewName::new("TEXT").unwrap(), Start::new(1, 32_768).unwrap());
    drop(disk.save(&NewFile::new(CarriedKind::Code, name, start, text)).unwrap());
    let image = folder.image(&disk);
    let path = image.to_str().unwrap();
    let run = at_terminal(&library, &["read", path, "raw"]);
    run.fails(
        2,
        "raw holds bytes that give orders to a terminal. `dump` shows them, `-o FILE` writes",
    );
    assert_eq!(at_terminal(&library, &["read", path, "RAW", "-o", "-"]).out, body(300));
    assert_eq!(at_terminal(&library, &["read", path, "TEXT"]).done().as_bytes(), text);
    assert_eq!(at_terminal(&library, &["read", path, "EMPTY"]).done(), "");
    assert_eq!(on("read", &image, ["RAW"]).out, body(300), "a pipe takes all");
}

#[test]
fn other_names_of_commands() {
    let folder = Folder::new();
    let image = folder.image(&disk(&[("ONE", 10), ("TWO", 600)]));
    assert_eq!(on("ls", &image, NONE).done(), on("list", &image, NONE).done());
    for alias in ["cat", "get"] {
        assert_eq!(on(alias, &image, ["TWO"]).out, body(600));
    }
    on("mv", &image, ["TWO", "THREE"]).done();
    on("rm", &image, ["THREE"]).done();
    assert_eq!(disk_in(&image).listing().entries().len(), 1);
    for (alias, name) in [
        ("ls", "list"),
        ("cat", "read"),
        ("get", "read"),
        ("rm", "erase"),
        ("mv", "rename"),
    ] {
        assert_eq!(run(["help", alias]).done(), run(["help", name]).done());
        assert!(run(["help", name]).done().contains(&format!("`{alias}`")), "{alias}");
        assert!(run(["help"]).done().contains(&format!("\n  {alias} ")), "{alias}");
    }
    on("ls", &image, ["--none"]).fails(2, "`list` has no option `--none`\nTry `varnucht help list`.");
}

#[test]
fn did_you_mean() {
    for (word, meant) in [
        ("lst", "list"),
        ("Save", "save"),
        ("chekc", "check"),
        ("salvge", "salvage"),
        ("hlep", "help"),
        ("--list", "list"),
        ("sl", "ls"),
    ] {
        let meant = if word == "sl" {
            String::new()
        } else {
            format!(": did you mean `{meant}`?")
        };
        let said = format!("varnucht: there is no command `{word}`{meant}\nTry `varnucht help`.\n");
        assert_eq!(run([word]).err, said);
        assert_eq!(run(["help", word]).err, said);
    }
    for word in ["", "format", "completely else", "-"] {
        assert!(!run([word]).err.contains("did you mean"), "{word}");
    }
    run(["list", "--jsno", "x"]).fails(2, "`list` has no option `--jsno`: did you mean `--json`?\n");
    run(["save", "--ofset=3", "x"]).fails(2, "`save` has no option `--ofset=3`: did you mean `--offset`?\n");
    run(["list", "-j", "x"]).fails(2, "`list` has no option `-j`\n");
}
