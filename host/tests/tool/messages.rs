//! What a refusal tells beyond its number and its words: how long a file is and what it may be, and what is wrong with a name.
use crate::support::*;
use std::fs::File;

/// The words of a refusal 1 and what follows them.
fn wrong(path: &str, follows: &str) -> String {
    format!("varnucht: {path}: refusal 1: the image is not 819,200 bytes: it has {follows}\n")
}

#[test]
fn refusal_1_says_how_long_the_file_is() {
    let folder = Folder::new();
    for length in [0, 1, 819_199, 819_201, 8 << 30] {
        let image = folder.path("disk.mgt");
        File::create(&image).unwrap().set_len(length).unwrap();
        let said = wrong(image.to_str().unwrap(), &length.to_string());
        for line in [
            "check",
            "list",
            "read ONE",
            "hide ONE",
            "hide ONE --dry-run",
            "rename ONE TWO",
            "sector 4 1",
        ] {
            let (command, words) = line.split_once(' ').unwrap_or((line, ""));
            let run = on(command, &image, words.split(' ').filter(|word| !word.is_empty()));
            run.fails(1, "");
            assert_eq!(run.err, said, "{line}");
        }
    }
    // The end of a pipe or a device is not waited for.
    for (length, follows) in [(1_000, "1000"), (819_201, "more"), (900_000, "more")] {
        assert_eq!(fed(["check", "-"], &vec![0; length]).err, wrong("standard input", follows));
    }
    assert_eq!(run(["check", "/dev/zero"]).err, wrong("/dev/zero", "more"));
}

/// How files begin that are often met where an image is looked for, and a word of what is said of them.
const OTHERS: [(&[u8], &str); 8] = [
    (
        b"\x1f\x8b\x08\x08",
        "It looks like a file packed with gzip: unpack it first, with `gzip -dc x.mgt.gz > x.mgt`.\n",
    ),
    (
        b"PK\x03\x04\x14\x00",
        "It looks like a file packed with zip: unpack it first, with `unzip`.\n",
    ),
    (
        b"EXTENDED CPC DSK File\r\nDisk-Info\r\n",
        "first, with `dsktrans -itype edsk -otype raw -format mgt800 x.dsk x.mgt` (of libdsk).\n",
    ),
    (
        b"MV - CPCEMU Disk-File\r\nDisk-Info\r\n",
        "first, with `dsktrans -itype dsk -otype raw -format mgt800 x.dsk x.mgt` (of libdsk).\n",
    ),
    (
        b"TD\0\x15\x15",
        "`dsktrans -itype tele -otype raw -format mgt800 x.td0 x.mgt`",
    ),
    (b"td\0\x15\x15", "a TD0 image of Teledisk"),
    (b"MV - CPC format Disk Image (DU54)\r\n", "a DSK image"),
    (b"Aley's disk backup\x02\x50\x0a\x08", "a SAD image"),
];

#[test]
fn refusal_1_says_what_the_file_may_be() {
    let folder = Folder::new();
    for (front, words) in OTHERS {
        for length in [front.len(), 1_000, 819_222, 1_000_000] {
            let mut bytes = front.to_vec();
            bytes.resize(length, 0);
            let image = folder.file("disk.img", &bytes);
            let run = on("check", &image, NONE);
            run.fails(1, words);
            let (first, second) = run.err.split_once('\n').unwrap();
            assert_eq!(format!("{first}\n"), wrong(image.to_str().unwrap(), &length.to_string()));
            assert!(second.starts_with("It looks like ") && second.ends_with(".\n"), "{second}");
            assert_eq!(second.lines().count(), 1, "{second}");
            assert!(second.contains("first"), "what is to be done: {second}");
            let piped = fed(["list", "-"], &bytes);
            assert!(piped.err.ends_with(second), "{}", piped.err);
        }
        // Cut off too early it is nothing known.
        let image = folder.file("disk.img", &front[..1]);
        assert_eq!(on("check", &image, NONE).err, wrong(image.to_str().unwrap(), "1"));
    }
    // By its length it is an image, whatever it begins with.
    let mut bytes = b"\x1f\x8b".to_vec();
    bytes.resize(819_200, 0);
    assert_eq!(
        on("check", &folder.file("disk.img", &bytes), NONE)
            .err
            .matches("gzip")
            .count(),
        0
    );
}

/// Names that cannot be asked for, and those that no file can be given.
const UNUSABLE: [(&str, &str); 3] = [
    ("", "has no byte, and a name has 1 to 10"),
    ("ELEVEN BYTE", "has 11 bytes, and a name has 1 to 10"),
    (r"\x00A", "begins with the byte 0"),
];
const NOT_NEW: [(&str, &str); 5] = [
    (" A", "begins with a space"),
    (r"\x20", "begins with a space"),
    (r"A\x07", "has 7 as byte 2, and a new name has bytes 32 to 126 alone"),
    (r"\x7f", "has 127 as byte 1, and a new name has bytes 32 to 126 alone"),
    ("naïve", "has 195 as byte 3, and a new name has bytes 32 to 126 alone"),
];

#[test]
fn refusal_12_says_why() {
    let folder = Folder::new();
    let image = folder.image(&disk(&[("ONE", 10)]));
    let said = |who: &str, why: &str| format!(": refusal 12: the name is not usable: {who} {why}\n");
    for (name, why) in UNUSABLE {
        for command in ["read", "erase", "hide", "show", "protect", "release", "gather"] {
            on(command, &image, [name]).fails(1, &said("it", why));
        }
        on("hide", &image, [name, "--dry-run"]).fails(1, &said("it", why));
        on("rename", &image, [name, "NEW"]).fails(1, &said("the old one", why));
    }
    for (name, why) in UNUSABLE.iter().chain(&NOT_NEW) {
        on("save", &image, [name, "/dev/null"]).fails(1, &said("it", why));
        on("record", &image, [name]).fails(1, &said("it", why));
        on("rename", &image, ["ONE", name]).fails(1, &said("the new one", why));
    }
    // Where both are at fault the old one is named, as the library would.
    on("rename", &image, ["", "ELEVEN BYTE"]).fails(1, &said("the old one", UNUSABLE[0].1));
    // A name that may be asked for is not found, and that is all that is said of it.
    for (name, _) in NOT_NEW {
        let run = on("read", &image, [name]);
        assert!(
            run.err
                .ends_with(": refusal 15: no live slot has the name, capitals or not\n"),
            "{}",
            run.err
        );
    }
}
