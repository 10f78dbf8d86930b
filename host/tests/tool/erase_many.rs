//! `erase` with several names: what is said, what is written, and what is left where the writing fails.
use crate::support::*;
use std::fs;
use std::process::Command;
use varnucht::{Disk, Name};

/// A disk with eight files, F1 to F8; F7 is protected.
fn eight() -> Disk {
    let files: Vec<(String, usize)> = (1..=8).map(|file| (format!("F{file}"), 100 * file)).collect();
    let mut disk = disk(&files);
    drop(disk.protect(&Name::new("F7").unwrap()).unwrap());
    disk
}

/// The names of the files that a disk has.
fn listed(disk: &Disk) -> String {
    let names: Vec<String> = disk
        .listing()
        .entries()
        .iter()
        .map(|entry| entry.name().to_string())
        .collect();
    names.join(" ")
}

#[test]
fn several_files_are_erased() {
    let folder = Folder::new();
    let image = folder.image(&eight());
    assert_eq!(
        on("erase", &image, ["F8", "f1", "F2"]).done(),
        "erased 3 of 3: 2 sectors written\n"
    );
    assert_eq!(listed(&disk_in(&image)), "F3 F4 F5 F6 F7");
    // One name is as it always was, its slot in the message too.
    assert_eq!(on("erase", &image, ["F3"]).done(), "erased F3: 1 sector written\n");
    on("erase", &image, ["F7"]).fails(1, "disk.mgt: F7: refusal 17 at slot 7: protected (erase, rename)\n");
    let mut single = eight();
    for name in ["F1", "F2", "F3", "F8"] {
        drop(single.erase(&Name::new(name).unwrap()).unwrap());
    }
    assert!(disk_in(&image) == single);
}

/// Of each name that is refused a line is said, the rest is done, and the status is 1.
#[test]
fn each_refused_name_has_a_line() {
    let folder = Folder::new();
    let image = folder.image(&eight());
    let words = ["F1", "none", "F7", "", r"\x00F2", "F1", "ELEVEN BYTE", "F4"];
    let run = on("erase", &image, words);
    assert_eq!((run.status, run.text()), (1, "erased 2 of 8: 2 sectors written\n"));
    let lines = [
        "none: refusal 15: no live slot has the name, capitals or not",
        "F7: refusal 17: protected (erase, rename)",
        ": refusal 12: the name is not usable: it has no byte, and a name has 1 to 10",
        r"\x00F2: refusal 12: the name is not usable: it begins with the byte 0",
        "F1: refusal 15: no live slot has the name, capitals or not",
        "ELEVEN BYTE: refusal 12: the name is not usable: it has 11 bytes, and a name has 1 to 10",
    ];
    let said: Vec<&str> = run.err.lines().collect();
    assert_eq!(said.len(), lines.len(), "{}", run.err);
    for (said, line) in said.iter().zip(lines) {
        assert!(
            said.starts_with("varnucht: ") && said.ends_with(&format!("disk.mgt: {line}")),
            "{said}"
        );
    }
    assert_eq!(listed(&disk_in(&image)), "F2 F3 F5 F6 F7 F8");
    age(&image);
    let before = state(&image);
    let run = on("erase", &image, ["none", "F7"]);
    assert_eq!((run.status, run.text()), (1, "erased 0 of 2: 0 sectors written\n"));
    assert_eq!(state(&image), before, "nothing is written");
}

/// A directory that the names before it empty goes too; the message of one that does not says how to see why.
#[test]
fn directories() {
    let folder = Folder::new();
    let mut image = eight().into_image();
    let bytes = image.as_bytes_mut();
    bytes[256] = 21;
    bytes[256 + 11..256 + 210].fill(0);
    (bytes[256 + 250], bytes[4 * 256 + 254]) = (9, 9);
    let path = folder.file("disk.mgt", bytes);
    let run = on("erase", &path, ["F2", "F5", "F1"]);
    assert_eq!((run.status, run.text()), (1, "erased 2 of 3: 2 sectors written\n"));
    let words = "disk.mgt: F2: refusal 29: a directory whose code, not 0, is another live slot's byte 254 (erase): it is not \
                 empty, and `tree` shows what is in it\n";
    assert!(run.err.ends_with(words), "{}", run.err);
    let path = folder.file("disk.mgt", image.as_bytes());
    assert_eq!(
        on("erase", &path, ["F5", "F2", "F1"]).done(),
        "erased 3 of 3: 2 sectors written\n"
    );
    assert_eq!(listed(&disk_in(&path)), "F3 F4 F6 F7 F8");
}

#[test]
fn nothing_is_written_with_dry_run() {
    let folder = Folder::new();
    let image = folder.image(&eight());
    age(&image);
    let before = state(&image);
    let planned = "number  track  sector\n     0      0       1\n     2      0       3\n2 sectors would be written, in this order; \
                   nothing is written\n";
    assert_eq!(on("erase", &image, ["F5", "F2", "F1", "--dry-run"]).done(), planned);
    let run = on("erase", &image, ["--dry-run", "F5", "none", "F1"]);
    assert_eq!((run.status, run.text()), (1, planned));
    assert!(
        run.err
            .ends_with("disk.mgt: none: refusal 15: no live slot has the name, capitals or not\n")
    );
    let input = fs::read(&image).unwrap();
    assert_eq!(fed(["erase", "-", "F5", "F2", "F1", "--dry-run"], &input).done(), planned);
    assert_eq!(state(&image), before);
    fed(["erase", "-", "F5", "F2"], &input).fails(2, "IMAGE is written to");
}

/// The disk's own refusal comes first, and is said once; a word that is no name refuses the command line.
#[test]
fn what_refuses_them_all() {
    let folder = Folder::new();
    let mut image = eight().into_image();
    image.as_bytes_mut()[2 * 256] = 63;
    let path = folder.file("disk.mgt", image.as_bytes());
    let run = on("erase", &path, ["none", "", "F1"]);
    run.fails(1, "disk.mgt: refusal 2 at slot 3: the kind is not known\n");
    assert_eq!(run.err.lines().count(), 1);
    on("erase", &path, ["F1", r"\q"]).fails(2, r"`\q`");
    on("erase", &path, NONE).fails(2, "`erase` takes IMAGE NAME...: NAME is missing");
    assert_eq!(fs::read(&path).unwrap(), image.as_bytes());
}

/// As many names as a directory can have, by one call.
#[test]
fn a_full_directory() {
    let folder = Folder::new();
    let names: Vec<String> = (1..=778).map(|file| format!("F{file}")).collect();
    let files: Vec<(&String, usize)> = names.iter().map(|name| (name, 1)).collect();
    let disk = disk_with(varnucht::Directory::new(39).unwrap(), &files);
    let image = folder.image(&disk);
    assert_eq!(on("erase", &image, &names).done(), "erased 778 of 778: 389 sectors written\n");
    assert_eq!(listed(&disk_in(&image)), "");
}

/// Writing fails at the second sector: what was erased in the first is gone, and the rest is still there.
#[test]
fn an_erase_that_fails_halfway() {
    let folder = Folder::new();
    let image = folder.image(&eight());
    let script = "trap '' XFSZ; ulimit -f 1; exec \"$@\"";
    let words = ["-c", script, "sh", TOOL, "erase", image.to_str().unwrap(), "F8", "none", "F1"];
    let run = Run::of(Command::new("sh").args(words).output().unwrap());
    run.fails(3, "disk.mgt: none: refusal 15: no live slot has the name, capitals or not\n");
    let words = "disk.mgt: 1 of 2 sectors were written, and then: File too large (os error 27). The files erased in those are \
                 gone, and all others are still there; but the sector that failed may hold the old bytes or the new: check the \
                 disk.\n";
    assert!(run.err.ends_with(words), "{}", run.err);
    assert_eq!(listed(&disk_in(&image)), "F2 F3 F4 F5 F6 F7 F8");
    assert_eq!(on("erase", &image, ["F8", "F2"]).done(), "erased 2 of 2: 2 sectors written\n");
}
