//! How the tool writes: only the sectors named, in their order, and nothing on a dry run; what is lost where writing fails.
use crate::support::*;
use std::fs::{self, File};
use std::io::{self, Read};
use std::os::unix::fs::{MetadataExt, PermissionsExt};
use std::os::unix::process::CommandExt;
use std::path::Path;
use std::process::{Command, Stdio};
use varnucht::{Disk, Image, Name};

/// The commands of every change, on a disk with the files ONE and TWO.
fn changes(body: &Path) -> Vec<Vec<String>> {
    let save = vec!["save".into(), "NEW".into(), body.to_str().expect("a plain path").into()];
    let others = [
        "erase ONE",
        "erase TWO ONE",
        "rename ONE NEW",
        "hide ONE",
        "show ONE",
        "protect ONE",
        "release ONE",
        "gather TWO",
    ];
    [save]
        .into_iter()
        .chain(others.map(|line| line.split(' ').map(String::from).collect()))
        .collect()
}

#[test]
fn a_dry_run_writes_nothing() {
    let folder = Folder::new();
    let file = folder.file("body", &body(5_000));
    let image = folder.image(&disk(&[("ONE", 10), ("TWO", 600)]));
    age(&image);
    let before = state(&image);
    for words in changes(&file) {
        let run = on(&words[0], &image, words[1..].iter().map(String::as_str).chain(["--dry-run"]));
        let lines: Vec<&str> = run.done().lines().collect();
        assert_eq!(lines[0], "number  track  sector");
        assert!(
            lines
                .last()
                .unwrap()
                .ends_with("would be written, in this order; nothing is written")
        );
        assert!(state(&image) == before, "{words:?}");
    }
    let run = on("save", &image, ["NEW".into(), file.into_os_string(), "--dry-run".into()]);
    let rows: Vec<Vec<u32>> = run.done().lines().skip(1).filter_map(numbers).collect();
    let expected = [
        (83, 4),
        (84, 5),
        (85, 6),
        (86, 7),
        (87, 8),
        (88, 9),
        (89, 10),
        (100, 1),
        (101, 2),
        (102, 3),
    ];
    let data = expected.map(|(number, sector)| vec![number, if number < 100 { 4 } else { 5 }, sector]);
    assert_eq!(
        rows,
        [&data[..], &[vec![1, 0, 2]]].concat(),
        "the data rising, and then the directory's sector"
    );
    assert_eq!(folder.names(), ["body", "disk.mgt"]);
}

/// The numbers of a row, where it is one.
fn numbers(row: &str) -> Option<Vec<u32>> {
    row.split_whitespace().map(|word| word.parse().ok()).collect()
}

/// A refused change writes nothing either.
#[test]
fn a_refused_change_writes_nothing() {
    let folder = Folder::new();
    let image = folder.image(&disk(&[("ONE", 10), ("TWO", 600)]));
    age(&image);
    let before = state(&image);
    for words in [
        &["save", "ONE", "/dev/null"][..],
        &["record", "ONE"],
        &["erase", "NONE"],
        &["rename", "ONE", "TWO"],
        &["hide", "NONE"],
        &["gather", "NONE"],
    ] {
        on(words[0], &image, &words[1..]).fails(1, "refusal 1");
        assert!(state(&image) == before, "{words:?}");
    }
}

/// A change writes the sectors that its dry run names and no other; the file is the same file, of the same length. The image
/// is a file with holes here: whatever is written takes room on the disk, and all else does not.
#[test]
fn only_the_sectors_named_are_written() {
    let folder = Folder::new();
    let image = folder.path("disk.mgt");
    File::create(&image).unwrap().set_len(819_200).unwrap();
    let made = fs::metadata(&image).unwrap();
    let file = folder.file("body", &body(100));
    on("save", &image, ["NEW".into(), file.into_os_string()]).done();
    let after = fs::metadata(&image).unwrap();
    assert_eq!((after.len(), after.ino()), (819_200, made.ino()));
    println!("blocks of 512 bytes: {} before, {} after", made.blocks(), after.blocks());
    assert!(after.blocks() <= made.blocks() + 128, "the file was rewritten");
    let mut expected = disk(&[("NEW", 100)]).into_image().into_bytes();
    assert!(fs::read(&image).unwrap() == expected);
    on("hide", &image, ["NEW"]).done();
    expected[0] |= 128;
    assert!(fs::read(&image).unwrap() == expected);
}

/// A process that may not do all: where the tests run as root, who may write everything, it runs as nobody.
fn powerless(command: &mut Command, folder: &Folder) -> Run {
    let root = fs::metadata(folder.path("")).unwrap().uid() == 0;
    if root {
        // Nobody must get at the tool, wherever it was built.
        let tool = folder.path("tool");
        // Another process copies it: a file that this one had open for writing could not be run while a third is started.
        assert!(Command::new("cp").arg(TOOL).arg(&tool).status().unwrap().success());
        let words: Vec<_> = command.get_args().map(|word| word.to_owned()).collect();
        *command = Command::new(tool);
        command.args(words).uid(65_534).gid(65_534);
    }
    Run::of(command.output().expect("the tool runs"))
}

#[test]
fn a_file_that_may_not_be_written() {
    let folder = Folder::new();
    let image = folder.image(&disk(&[("ONE", 10)]));
    age(&image);
    fs::set_permissions(&image, fs::Permissions::from_mode(0o444)).unwrap();
    let before = state(&image);
    let path = image.to_str().unwrap();
    for words in [
        &["save", path, "NEW", "/dev/null"][..],
        &["erase", path, "ONE"],
        &["hide", path, "ONE"],
    ] {
        powerless(&mut tool(words), &folder).fails(3, "disk.mgt: Permission denied");
        assert!(state(&image) == before);
    }
    assert_eq!(powerless(&mut tool(["check", path]), &folder).done(), ACCEPTED);
    assert!(
        powerless(&mut tool(["erase", path, "ONE", "--dry-run"]), &folder)
            .done()
            .contains("nothing is written")
    );
    fs::set_permissions(&image, fs::Permissions::from_mode(0o000)).unwrap();
    powerless(&mut tool(["check", path]), &folder).fails(3, "disk.mgt: Permission denied");
    fs::set_permissions(folder.path(""), fs::Permissions::from_mode(0o555)).unwrap();
    let new = folder.path("new.mgt");
    powerless(&mut tool(["blank".as_ref(), new.as_os_str()]), &folder).fails(3, "new.mgt: Permission denied");
    fs::set_permissions(folder.path(""), fs::Permissions::from_mode(0o755)).unwrap();
    assert!(!new.exists());
}

/// The tool with a limit on how far into a file it may write: writing beyond fails.
pub fn limited(words: &[&str]) -> Run {
    let script = "trap '' XFSZ; ulimit -f 100; exec \"$@\"";
    let command = ["-c", script, "sh", TOOL].into_iter().chain(words.iter().copied());
    Run::of(
        Command::new("sh")
            .args(command)
            .stdin(Stdio::null())
            .output()
            .expect("the shell runs"),
    )
}

/// Writing fails in the middle of a save: the old disk is still there, and the message says how far it came.
#[test]
fn a_save_that_fails_leaves_the_old_disk() {
    let folder = Folder::new();
    let old = disk(&[("ONE", 10), ("TWO", 600)]);
    let image = folder.image(&old);
    let file = folder.file("body", &body(200_000));
    let run = limited(&["save", image.to_str().unwrap(), "NEW", file.to_str().unwrap()]);
    run.fails(3, " of 394 sectors were written, and then: File too large");
    assert!(
        run.err.ends_with("The old disk is still there and reads as before.\n"),
        "{}",
        run.err
    );
    let words: Vec<&str> = run.err.split(' ').collect();
    let written: usize = words[words.iter().position(|word| *word == "of").unwrap() - 1]
        .parse()
        .unwrap();
    println!("{written} of 394 sectors were written");
    assert!((1..393).contains(&written));
    // The file holds the first so many sectors of the new disk, and otherwise the old one.
    let mut new = old.clone();
    let all = body(200_000);
    let made = new.save(&file_of(&all)).unwrap();
    let mut expected = old.image().clone();
    for (number, bytes) in made.iter().take(written) {
        expected.as_bytes_mut()[number.place()..][..512].copy_from_slice(bytes);
    }
    assert!(fs::read(&image).unwrap() == expected.as_bytes());
    let cut = disk_in(&image);
    assert!(cut.listing() == old.listing());
    for name in ["ONE", "TWO"].map(|name| Name::new(name).unwrap()) {
        assert_eq!(cut.read(&name), old.read(&name));
    }
    assert_eq!(
        on("save", &image, ["NEW".into(), file.into_os_string()]).done(),
        "saved NEW: 394 sectors written\n"
    );
    assert!(fs::read(&image).unwrap() == new.image().as_bytes());
}

/// The file that the tool saves as NEW.
fn file_of(body: &[u8]) -> varnucht::NewFile<'_> {
    let (name, start) = (
        varnucht::NewName::new("NEW").unwrap(),
        varnucht::Start::new(1, 32_768).unwrap(),
    );
    varnucht::NewFile::new(varnucht::CarriedKind::Code, name, start, body)
}

/// Writing fails at the one sector of a change: the message says that it is not known whether it was written.
#[test]
fn a_change_that_fails_says_so() {
    let folder = Folder::new();
    let files: Vec<(String, usize)> = (1..=80).map(|number| (format!("FILE{number}"), 10)).collect();
    let image = folder.image(&disk(&files));
    let script = "trap '' XFSZ; ulimit -f 1; exec \"$@\"";
    let words = ["-c", script, "sh", TOOL, "erase", image.to_str().unwrap(), "FILE80"];
    let run = Run::of(Command::new("sh").args(words).output().unwrap());
    run.fails(3, "0 of 1 sectors were written, and then: File too large");
    assert!(
        run.err.contains("may hold the old bytes or the new: check the disk.\n"),
        "{}",
        run.err
    );
    assert_eq!(disk_in(&image).listing().entries().len(), 80);
}

/// Nobody reads standard output: no panic and no message.
#[test]
fn a_closed_standard_output() {
    let folder = Folder::new();
    let image = folder.image(&disk(&[("ONE", 10), ("LONG", 300_000)]));
    let path = image.to_str().unwrap();
    for words in [
        &["list", path][..],
        &["map", path],
        &["read", path, "LONG"],
        &["help"],
        &["check", path],
        &["erase", path, "ONE", "--dry-run"],
    ] {
        let (reader, writer) = io::pipe().unwrap();
        drop(reader);
        let run = Run::of(tool(words).stdout(writer).output().unwrap());
        assert_eq!((run.status, run.err.as_str()), (3, ""), "{words:?}");
    }
    // A change is made all the same, and that is what the status tells.
    let (reader, writer) = io::pipe().unwrap();
    drop(reader);
    let run = Run::of(tool(["hide", path, "ONE"]).stdout(writer).output().unwrap());
    assert_eq!((run.status, run.err.as_str()), (0, ""));
    assert!(disk_in(&image).listing().entries()[0].hidden());
}

/// A reader that takes some and goes away.
#[test]
fn a_reader_that_stops() {
    let folder = Folder::new();
    let image = folder.image(&disk(&[("LONG", 700_000)]));
    let mut child = tool(["read".as_ref(), image.as_os_str(), "LONG".as_ref()])
        .stdout(Stdio::piped())
        .stderr(Stdio::piped())
        .spawn()
        .unwrap();
    let mut some = [0; 1_000];
    child.stdout.take().unwrap().read_exact(&mut some).unwrap();
    assert_eq!(some[..], body(1_000));
    let run = Run::of(child.wait_with_output().unwrap());
    assert_eq!((run.status, run.err.as_str()), (3, ""));
}

/// Standard output or standard error on a full device.
#[test]
fn a_full_device() {
    let folder = Folder::new();
    let image = folder.image(&disk(&[("ONE", 10)]));
    let full = || File::options().write(true).open("/dev/full").unwrap();
    for command in ["list", "map", "check"] {
        let run = Run::of(tool([command.as_ref(), image.as_os_str()]).stdout(full()).output().unwrap());
        run.fails(3, "standard output: No space left on device");
    }
    for (words, status) in [
        (vec!["list", "missing"], 3),
        (vec!["what"], 2),
        (vec!["sector", image.to_str().unwrap(), "99", "1"], 1),
    ] {
        assert_eq!(Run::of(tool(words).stderr(full()).output().unwrap()).status, status);
    }
    on("read", &image, ["ONE", "-o", "/dev/full", "--force"]).fails(3, "/dev/full: No space left on device");
    on("read", &image, ["ONE", "-o", "/dev/null", "--force"]).done();
    on("read", &image, ["ONE", "-o", "/dev/null"]).fails(3, "it is there already");
}

/// A body is never half there: where it cannot be written, an older file stays, and nothing is left beside it.
#[test]
fn an_older_file_stays_where_writing_fails() {
    let folder = Folder::new();
    let image = folder.image(&disk(&[("LONG", 300_000)]));
    let older = folder.file("older", b"precious");
    let new = folder.path("new");
    for (path, force) in [(&older, "--force"), (&new, "--no-wait")] {
        let run = limited(&["read", image.to_str().unwrap(), "LONG", "-o", path.to_str().unwrap(), force]);
        run.fails(3, "File too large");
    }
    assert_eq!(fs::read(&older).unwrap(), b"precious");
    assert_eq!(folder.names(), ["disk.mgt", "older"]);
    fs::set_permissions(&older, fs::Permissions::from_mode(0o600)).unwrap();
    std::os::unix::fs::symlink(&older, folder.path("link")).unwrap();
    on(
        "read",
        &image,
        [
            "LONG".into(),
            "--force".into(),
            "-o".into(),
            folder.path("link").into_os_string(),
        ],
    )
    .done();
    assert!(
        fs::symlink_metadata(folder.path("link")).unwrap().is_symlink(),
        "the link stays"
    );
    assert!(fs::read(&older).unwrap() == body(300_000));
    assert_eq!(fs::metadata(&older).unwrap().mode() & 0o777, 0o600, "and so do its rights");
    assert!(Disk::open(Image::from_bytes(fs::read(&image).unwrap()).unwrap()).is_ok());
}

/// A link that leads to no file stays, forced or not, and what it leads to is not made.
#[test]
fn a_link_that_leads_nowhere_stays() {
    let folder = Folder::new();
    let image = folder.image(&disk(&[("ONE", 10)]));
    let (link, circle) = (folder.path("link"), folder.path("circle"));
    std::os::unix::fs::symlink("nothing", &link).unwrap();
    std::os::unix::fs::symlink("circle", &circle).unwrap();
    let read = |path: &Path, force: &[&str]| {
        let words = ["ONE", "-o", path.to_str().unwrap()];
        on("read", &image, words.iter().chain(force))
    };
    read(&link, &["--force"]).fails(3, "link: it is a link that leads nowhere\n");
    read(&circle, &["--force"]).fails(3, "circle: Too many levels of symbolic links");
    for path in [&link, &circle] {
        read(path, &[]).fails(3, ": it is there already, and stays as it is\n");
        on("blank", path, NONE).fails(3, ": it is there already, and stays as it is\n");
    }
    assert_eq!(fs::read_link(&link).unwrap(), Path::new("nothing"));
    assert_eq!(fs::read_link(&circle).unwrap(), Path::new("circle"));
    assert_eq!(folder.names(), ["circle", "disk.mgt", "link"]);
}
