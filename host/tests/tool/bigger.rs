//! Disks with bigger directories, as MasterDOS makes them, and the disk's name.
use crate::map::signs;
use crate::support::*;
use std::fs;
use varnucht::{Directory, SectorNumber};

/// The byte of slot 1 that says how many directory tracks there are beyond four, and the place of the disk's name.
const MORE: usize = 255;
const NAME: usize = 210;

#[test]
fn blank_with_a_number_of_tracks() {
    let folder = Folder::new();
    for tracks in 4..=39_u8 {
        let image = folder.path(&format!("{tracks}.mgt"));
        let (slots, free) = match u32::from(tracks) {
            4 => (80, 1_560),
            tracks => (20 * tracks - 2, 1_601 - 10 * tracks),
        };
        let said = format!(": no file, {free} sectors free, {tracks} directory tracks\n");
        let run = on("blank", &image, ["--tracks", &tracks.to_string()]);
        assert!(run.done().ends_with(&said), "{}", run.text());
        let mut expected = vec![0; 819_200];
        expected[MORE] = tracks - 4;
        assert!(fs::read(&image).unwrap() == expected);
        assert_eq!(
            on("check", &image, NONE).done(),
            format!("accepted, {tracks} directory tracks\n")
        );
        let list = on("list", &image, NONE);
        let last = format!("\n{tracks} directory tracks: {slots} slots, {slots} free\n");
        assert!(list.done().ends_with(&last), "{}", list.text());
    }
    let same = folder.path("same.mgt");
    on("blank", &same, ["--tracks", "0x27"]).done();
    assert!(fs::read(&same).unwrap() == fs::read(folder.path("39.mgt")).unwrap());
}

#[test]
fn blank_with_no_such_number() {
    let folder = Folder::new();
    let image = folder.path("new.mgt");
    for tracks in ["0", "3", "40", "255", "260", "4294967300", "99999999999", "0x28"] {
        let words = format!("`--tracks` takes 4 to 39, and not `{tracks}`\nTry `varnucht help blank`.\n");
        on("blank", &image, ["--tracks", tracks]).fails(2, &words);
    }
    for tracks in ["", "four", "-1", "4.0", "0x"] {
        on("blank", &image, ["--tracks", tracks]).fails(2, &format!("`{tracks}` is not a number"));
    }
    on("blank", &image, ["--tracks"]).fails(2, "`--tracks` takes N");
    on("blank", &image, ["--tracks", "5", "--tracks=5"]).fails(2, "`--tracks` is given twice");
    assert_eq!(folder.names(), [""; 0]);
}

#[test]
fn no_such_number_on_a_disk() {
    let folder = Folder::new();
    let mut bytes = vec![0; 819_200];
    for byte in [36, 100, 254] {
        bytes[MORE] = byte;
        let image = folder.file("disk.mgt", &bytes);
        let said = "disk.mgt: refusal 24: the number of directory tracks beyond four, byte 255 of slot 1, is 36 to 254\n";
        for command in ["check", "list", "tree", "map"] {
            on(command, &image, NONE).fails(1, said);
        }
        on("save", &image, ["NEW", "/dev/null"]).fails(1, "refusal 24: ");
    }
    bytes[MORE] = 255;
    assert_eq!(on("check", &folder.file("disk.mgt", &bytes), NONE).done(), ACCEPTED);
}

/// Files up to the last slot, past the gap; the map shows the bigger directory, and names all.
#[test]
fn a_directory_full_of_files() {
    let folder = Folder::new();
    let directory = Directory::new(6).expect("a size");
    let files: Vec<(String, usize)> = (1..=118).map(|number| (format!("FILE{number}"), 600)).collect();
    let disk = disk_with(directory, &files);
    let image = folder.image(&disk);
    let list = on("list", &image, NONE);
    assert_eq!(list.done().lines().count(), 1 + 118 + 2);
    assert!(list.text().contains("\n  81  --     FILE81   code        2     600  32768\n"));
    let last = "\n118 files, 1305 sectors free, but no slot: no room for a file\n6 directory tracks: 118 slots, 0 free\n";
    assert!(list.text().ends_with(last), "{}", list.text());
    on("save", &image, ["NEW", "/dev/null"]).fails(1, "NEW: refusal 18: ");

    let map = on("map", &image, NONE);
    for (number, sign) in (0..).zip(signs(map.done())) {
        let number = SectorNumber::new(number).expect("a sector");
        assert_eq!(sign == '#', directory.holds(number), "sector {number}");
    }
    assert!(map.text().contains("\n# directory (59)  . free (1305)\n"));
    assert!(map.text().contains("A   1 FILE1 (2)"), "{}", map.text());
    assert!(map.text().contains("A  81 FILE81 (2)"), "the signs come again");
    assert!(map.text().lines().all(|line| line.len() <= 80));
}

/// A save into slot 1 keeps the disk's name, and `list` shows it; none where there is none.
#[test]
fn the_disks_name() {
    let folder = Folder::new();
    let mut bytes = disk::<&str>(&[]).into_image().into_bytes();
    for (stored, shown) in [
        (b"MAGAZINE 7", Some("MAGAZINE 7")),
        (b"\xcdY TUNES  ", Some("MY TUNES")),
        (b"A\x1b\\\xff\x00 \x00 \x00 ", Some("A\\x1b\\\\\\xff")),
        (b"\x00BCDEFGHIJ", None),
        (b"\xff\xff\xff\xff\xff\xff\xff\xff\xff\xff", None),
        (b"          ", None),
    ] {
        bytes[NAME..NAME + 10].copy_from_slice(stored);
        let image = folder.file("disk.mgt", &bytes);
        let first = shown.map_or(String::new(), |name| format!("disk {name}\n"));
        let begins = format!("{first}slot  marks  name");
        assert!(on("list", &image, NONE).done().starts_with(&begins), "{stored:?}");
        on("save", &image, ["TUNES", "/dev/null"]).done();
        assert_eq!(fs::read(&image).unwrap()[NAME..NAME + 10], stored[..]);
        let list = on("list", &image, NONE);
        assert!(
            list.done().starts_with(&begins) && list.text().contains("TUNES"),
            "{stored:?}"
        );
    }
}
