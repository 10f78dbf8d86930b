//! Names of any bytes: what `list` prints can be typed back.
use crate::support::*;
use std::ffi::OsStr;
use std::os::unix::ffi::OsStrExt;

/// Names that are hard to print: of control characters, bytes above 126, backslashes and spaces.
fn hard_names() -> Vec<Vec<u8>> {
    let mut names: Vec<Vec<u8>> = vec![
        b"PLAIN".to_vec(),
        b"TWO WORDS".to_vec(),
        b" LEADING".to_vec(),
        b"          ".to_vec(),
        b"\\".to_vec(),
        b"\\x41".to_vec(),
        b"\\\\".to_vec(),
        b"A\\".to_vec(),
        b"A\0B".to_vec(),
        b"A\0\0\0\0\0\0\0\0\0".to_vec(),
        b"\x01\x02\x03\x04\x05\x06\x07\x08\x09\x0a".to_vec(),
        b"\x1b[31mRED".to_vec(),
        b"\xff\xfe\xfd\xfc\xfb\xfa\xf9\xf8\xf7\xf6".to_vec(),
        b"-o".to_vec(),
        b"--dry-run".to_vec(),
        b"--".to_vec(),
        b"-".to_vec(),
        b"'\"$(ls)`".to_vec(),
        b"*?[a-z]".to_vec(),
        b"\x7f\x80".to_vec(),
        "naïve".as_bytes().to_vec(),
    ];
    for byte in 1..=59u8 {
        names.push(vec![byte.wrapping_mul(4), byte, 255 - byte, b'x', byte.wrapping_mul(91)]);
    }
    names
}

/// A disk with the hard names, a body of another length under each.
fn hard_disk(names: &[Vec<u8>]) -> Vec<u8> {
    let files: Vec<(String, usize)> = (0..names.len()).map(|place| (format!("FILE{place}"), place + 1)).collect();
    let mut bytes = disk(&files).into_image().into_bytes();
    for (place, name) in names.iter().enumerate() {
        let at = place / 20 * 10_240 + place % 20 * 256 + 1;
        bytes[at..at + 10].fill(b' ');
        bytes[at..at + name.len()].copy_from_slice(name);
    }
    bytes
}

/// The column of names in the table that `list` prints.
fn printed(table: &str) -> Vec<String> {
    let header = table.lines().next().expect("it has a header");
    let (from, to) = (header.find("name").unwrap(), header.find("kind").unwrap());
    let rows = table.lines().skip(1).take_while(|line| !line.contains("files,"));
    rows.map(|line| line[from..to].trim_end().to_string()).collect()
}

#[test]
fn what_list_prints_can_be_typed() {
    let folder = Folder::new();
    let names = hard_names();
    let image = folder.file("disk.mgt", &hard_disk(&names));
    let table = on("list", &image, NONE);
    assert!(table.done().bytes().all(|byte| byte == b'\n' || (32..=126).contains(&byte)));
    let printed = printed(table.text());
    assert_eq!(printed.len(), 80);
    let map = on("map", &image, NONE);
    for (place, name) in printed.iter().enumerate() {
        let run = on("read", &image, ["--", name]);
        assert_eq!(run.status, 0, "{name}: {}", run.err);
        assert_eq!(run.out, body(place + 1), "{name}");
        assert!(
            map.done().contains(&format!("{} {name} (1)", place + 1)),
            "{name} is in the map"
        );
    }
    println!("{} names typed back", printed.len());
}

/// A name may be given by its own bytes too, where a command line can hold them and none is a backslash.
#[test]
fn names_by_their_own_bytes() {
    let folder = Folder::new();
    let names = hard_names();
    let image = folder.file("disk.mgt", &hard_disk(&names));
    let mut typed = 0;
    for (place, name) in names
        .iter()
        .enumerate()
        .filter(|(_, name)| !name.contains(&0) && !name.contains(&b'\\'))
    {
        let run = on("read", &image, [OsStr::new("--"), OsStr::from_bytes(name)]);
        assert_eq!((run.status, run.out), (0, body(place + 1)), "{name:?}");
        typed += 1;
    }
    println!("{typed} names typed");
    assert!(typed > 60);
}

#[test]
fn every_name_can_be_changed_away() {
    let folder = Folder::new();
    let image = folder.file("disk.mgt", &hard_disk(&hard_names()));
    for (place, name) in printed(on("list", &image, NONE).done()).iter().enumerate().take(21) {
        let new = format!("NEW{place}");
        let run = on("rename", &image, ["--", name, &new]);
        assert_eq!(run.done(), format!("renamed {name} to {new}: 1 sector written\n"));
    }
    let names = printed(on("list", &image, NONE).done());
    assert!((0..21).all(|place| names[place] == format!("NEW{place}")));
}

/// Capitals or not, a name finds its file; a rename may alter them alone, and `list` shows what is stored.
#[test]
fn names_in_capitals_or_not() {
    let folder = Folder::new();
    let image = folder.image(&disk(&[("TUNES", 10), ("Songs 2", 20), ("x", 0)]));
    let names = || printed(on("list", &image, NONE).done());
    assert_eq!(on("read", &image, ["tunes"]).out, body(10));
    assert_eq!(on("read", &image, ["SONGS 2"]).out, body(20));
    for command in ["hide", "show", "protect", "release"] {
        assert!(on(command, &image, ["tunes"]).done().contains(" tunes: 1 sector written\n"));
    }
    assert_eq!(
        on("gather", &image, ["tunes"]).done(),
        "tunes is not scattered: nothing is written\n"
    );
    assert_eq!(names(), ["TUNES", "Songs 2", "x"]);
    assert_eq!(
        on("rename", &image, ["tunes", "Tunes"]).done(),
        "renamed tunes to Tunes: 1 sector written\n"
    );
    assert_eq!(names(), ["Tunes", "Songs 2", "x"]);
    on("rename", &image, ["TUNES", "Tunes"]).fails(1, "TUNES to Tunes: refusal 16 at slot 1: a live slot has the new name");
    on("rename", &image, ["TUNES", "songs 2"]).fails(1, "refusal 16 at slot 2: ");
    on("save", &image, ["songs 2", "/dev/null"]).fails(1, "songs 2: refusal 16 at slot 2: ");
    assert_eq!(on("erase", &image, ["tUNES"]).done(), "erased tUNES: 1 sector written\n");
    assert_eq!(names(), ["Songs 2", "x"]);
    // Two files whose names differ in their capitals alone are no accepted disk.
    let mut bytes = disk(&[("TUNES", 10), ("SONGS", 20)]).into_image().into_bytes();
    bytes[256 + 1..][..5].copy_from_slice(b"tunes");
    let image = folder.file("disk.mgt", &bytes);
    let said = "refusal 9 at slot 2: the name is an earlier live slot's, capitals or not\n";
    on("check", &image, NONE).fails(1, said);
}

/// Messages print names with the same escapes.
#[test]
fn messages_escape_names() {
    let folder = Folder::new();
    let image = folder.image(&disk(&[("ONE", 10)]));
    on("read", &image, [r"A\x1b[0m\\"]).fails(1, r"disk.mgt: A\x1b[0m\\: refusal 15: ");
    on("rename", &image, ["ONE", r"A\x07"]).fails(1, r"ONE to A\x07: refusal 12: ");
    on("save", &image, [r"BACK\\SLASH", "/dev/null"]).done();
    assert_eq!(printed(on("list", &image, NONE).done()), ["ONE", r"BACK\\SLASH"]);
}
