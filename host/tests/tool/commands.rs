//! The tool's other commands, each run as a process: what it prints, what it does to the file, and its exit status.
use crate::support::*;
use std::fs;

#[test]
fn read_gives_the_body() {
    let folder = Folder::new();
    let image = folder.image(&disk(&[("ONE", 10), ("LONG", 100_000)]));
    let run = on("read", &image, ["LONG"]);
    assert_eq!((run.status, run.err.as_str()), (0, ""));
    assert!(run.out == body(100_000));
    let run = on("read", &image, ["LONG", "-o", "-"]);
    assert!(run.out == body(100_000));
    on("read", &image, ["NONE"]).fails(1, "disk.mgt: NONE: refusal 15: no live slot has the name, capitals or not\n");
    on("read", &image, [""]).fails(1, "refusal 12: the name is not usable: it has ");
    on("read", &image, ["ELEVEN BYTE"]).fails(1, "refusal 12: the name is not usable: it has ");
}

#[test]
fn read_makes_a_file_and_replaces_none() {
    let folder = Folder::new();
    let image = folder.image(&disk(&[("ONE", 10), ("TWO", 600)]));
    let file = folder.path("body");
    let words = |name: &'static str| [name.into(), "-o".into(), file.clone().into_os_string()];
    on("read", &image, words("ONE")).done();
    assert_eq!(fs::read(&file).unwrap(), body(10));
    on("read", &image, words("TWO")).fails(3, "it is there already");
    assert_eq!(fs::read(&file).unwrap(), body(10));
    on("read", &image, words("TWO").into_iter().chain(["--force".into()])).done();
    assert_eq!(fs::read(&file).unwrap(), body(600));
    on(
        "read",
        &image,
        [
            "ONE".into(),
            "--force".into(),
            "--output".into(),
            image.clone().into_os_string(),
        ],
    )
    .fails(2, "IMAGE itself");
    on("read", &image, ["ONE", "--force"]).fails(2, "`--force` goes with");
    assert_eq!(folder.names(), ["body", "disk.mgt"], "nothing is left beside them");
}

#[test]
fn the_other_changes() {
    let folder = Folder::new();
    let image = folder.image(&disk(&[("ONE", 10), ("TWO", 600)]));
    let marks = || {
        disk_in(&image)
            .listing()
            .entries()
            .iter()
            .map(|entry| (entry.hidden(), entry.protected()))
            .collect::<Vec<_>>()
    };
    assert_eq!(on("hide", &image, ["ONE"]).done(), "hid ONE: 1 sector written\n");
    assert_eq!(on("protect", &image, ["ONE"]).done(), "protected ONE: 1 sector written\n");
    assert_eq!(marks(), [(true, true), (false, false)]);
    on("erase", &image, ["ONE"]).fails(1, "ONE: refusal 17 at slot 1: protected (erase, rename)\n");
    on("rename", &image, ["ONE", "NEW"]).fails(1, "ONE to NEW: refusal 17 at slot 1: ");
    assert_eq!(on("show", &image, ["ONE"]).done(), "showed ONE: 1 sector written\n");
    assert_eq!(on("release", &image, ["ONE"]).done(), "released ONE: 1 sector written\n");
    assert_eq!(marks(), [(false, false), (false, false)]);
    on("rename", &image, ["ONE", "TWO"]).fails(
        1,
        "ONE to TWO: refusal 16 at slot 2: a live slot has the new name, capitals or not\n",
    );
    on("rename", &image, ["ONE", "ONE"]).fails(1, "refusal 16 at slot 1: ");
    on("rename", &image, ["ONE", ""]).fails(1, "refusal 12: ");
    assert_eq!(
        on("rename", &image, ["ONE", "NEW"]).done(),
        "renamed ONE to NEW: 1 sector written\n"
    );
    assert_eq!(on("erase", &image, ["NEW"]).done(), "erased NEW: 1 sector written\n");
    for command in ["erase", "hide", "show", "protect", "release", "gather"] {
        on(command, &image, ["NEW"]).fails(1, "NEW: refusal 15: no live slot has the name, capitals or not\n");
    }
    assert_eq!(disk_in(&image).listing().entries().len(), 1);
    assert_eq!(on("read", &image, ["TWO"]).out, body(600));
}

#[test]
fn sector_dumps_any_image() {
    let folder = Folder::new();
    let mut bytes = vec![255; 819_200]; // no accepted disk
    bytes[5_120..5_120 + 6].copy_from_slice(b"Hello\x07");
    let image = folder.file("disk.mgt", &bytes);
    let run = on("sector", &image, ["128", "1"]);
    let lines: Vec<&str> = run.done().lines().collect();
    assert_eq!(lines.len(), 33);
    assert_eq!(lines[0], "track 128, sector 1: number 10, byte 5120 of the image");
    assert_eq!(
        lines[1],
        "000  48 65 6c 6c 6f 07 ff ff  ff ff ff ff ff ff ff ff  |Hello...........|"
    );
    assert!(lines[32].starts_with("1f0  ff"));
    for (track, sector) in [
        ("80", "1"),
        ("127", "1"),
        ("208", "1"),
        ("4", "0"),
        ("4", "11"),
        ("0x50", "01"),
        ("4294967295", "1"),
        ("4294967296", "1"),
        ("99999999999999", "1"),
        ("4", "0xFFFFFFFFFFFFFFFF"),
    ] {
        let said = format!("disk.mgt: track {track}, sector {sector}: refusal 21: no such drive, track or sector\n");
        on("sector", &image, [track, sector]).fails(1, &said);
    }
    for words in [["x", "1"], ["1", ""], ["1.5", "1"], ["0x", "1"], ["+1", "1"]] {
        on("sector", &image, words).fails(2, "is not a number");
    }
}

#[test]
fn blank_makes_a_disk_and_replaces_none() {
    let folder = Folder::new();
    let image = folder.path("new.mgt");
    on("blank", &image, NONE).done();
    assert!(fs::read(&image).unwrap() == vec![0; 819_200]);
    let other = folder.file("other", b"precious");
    on("blank", &other, NONE).fails(3, "it is there already");
    assert_eq!(fs::read(&other).unwrap(), b"precious");
    on("blank", &folder.path("none/new.mgt"), NONE).fails(3, "new.mgt: ");
    assert_eq!(folder.names(), ["new.mgt", "other"]);
}

#[test]
fn help_and_version() {
    let commands = [
        "check", "list", "tree", "map", "read", "save", "record", "erase", "rename", "hide", "show", "protect", "release",
        "gather", "sector", "blank", "report", "salvage", "extract", "add", "dump", "start",
    ];
    let all = run(["help"]);
    for command in commands {
        // A report may take its images from a list alone.
        let takes = if command == "report" { "[IMAGE...]" } else { "IMAGE" };
        assert!(all.done().contains(&format!("\n  {command} {takes}")), "{command}");
        let one = run(["help", command]);
        assert!(one.done().starts_with(&format!("varnucht {command} {takes}")));
        assert_eq!(run([command, "--help"]).done(), one.done());
        assert!(one.text().contains("\n  3  something could not be read or written\n"));
        let only_reads = [
            "check", "list", "tree", "map", "read", "sector", "report", "salvage", "extract", "dump", "start",
        ]
        .contains(&command);
        assert_eq!(one.text().contains("\nIMAGE may be a pipe, "), only_reads, "{command}");
        assert!(
            one.text()
                .lines()
                .chain(all.text().lines())
                .all(|line| line.chars().count() <= 80)
        );
    }
    assert_eq!(run(["--help"]).done(), all.done());
    assert_eq!(run(["-h"]).done(), all.done());
    assert_eq!(run(["--version"]).done(), format!("varnucht {}\n", env!("CARGO_PKG_VERSION")));
}
