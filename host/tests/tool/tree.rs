//! Subdirectories: what `tree` draws, what `list` and `map` say, and erasing.
use crate::support::*;
use std::fs;
use std::path::Path;
use varnucht::{Directory, Disk, Image};

/// Puts a directory into a slot of an image.
fn directory(image: &mut Image, slot: usize, name: &str, code: u8, parent: u8) {
    let bytes = slot_bytes(image, slot);
    let tracks = bytes[255];
    bytes.fill(0);
    bytes[0] = 21;
    bytes[1..11].copy_from_slice(format!("{name:<10}").as_bytes());
    (bytes[250], bytes[254], bytes[255]) = (code, parent, tracks);
}

fn slot_bytes(image: &mut Image, slot: usize) -> &mut [u8] {
    let place = if slot > 80 { slot + 1 } else { slot - 1 };
    &mut image.as_bytes_mut()[place / 20 * 10_240 + place % 20 * 256..][..256]
}

/// Four files and four directories: CHESS and ARCADE in GAMES, MUSIC and PONG in ARCADE, TUNE in MUSIC.
fn nested_disk() -> Image {
    let mut image = disk(&[("CHESS", 10), ("LETTER", 600), ("PONG", 10), ("TUNE", 10)]).into_image();
    for (slot, parent) in [(1, 7), (3, 3), (4, 200)] {
        slot_bytes(&mut image, slot)[254] = parent;
    }
    directory(&mut image, 5, "GAMES", 7, 0);
    directory(&mut image, 6, "EMPTY", 1, 0);
    directory(&mut image, 7, "ARCADE", 3, 7);
    directory(&mut image, 8, "MUSIC", 200, 3);
    image
}

const WHOLE: &str = "\
slot  name           kind       sectors
   2  LETTER         code             2
   5  GAMES          directory        -
   1  ├─ CHESS       code             1
   7  └─ ARCADE      directory        -
   3     ├─ PONG     code             1
   8     └─ MUSIC    directory        -
   4        └─ TUNE  code             1
   6  EMPTY          directory        -
4 directories, 4 files
";

const GAMES: &str = "\
slot  name           kind       sectors
   5  GAMES          directory        -
   1  ├─ CHESS       code             1
   7  └─ ARCADE      directory        -
   3     ├─ PONG     code             1
   8     └─ MUSIC    directory        -
   4        └─ TUNE  code             1
2 directories, 3 files beneath GAMES
";

#[test]
fn trees_are_drawn() {
    let folder = Folder::new();
    let path = folder.file("disk.mgt", nested_disk().as_bytes());
    let before = fs::read(&path).unwrap();
    assert_eq!(on("tree", &path, NONE).done(), WHOLE);
    assert_eq!(on("tree", &path, [""]).done(), WHOLE);
    for name in ["GAMES", "games", "Games ", r"\x47AMES"] {
        assert_eq!(on("tree", &path, [name]).done(), GAMES);
    }
    let empty = "slot  name   kind       sectors\n   6  EMPTY  directory        -\n0 directories, 0 files beneath EMPTY\n";
    assert_eq!(on("tree", &path, ["empty"]).done(), empty);
    let one = on("tree", &path, ["MUSIC"]);
    assert!(
        one.done()
            .ends_with("\n   4  └─ TUNE  code             1\n0 directories, 1 file beneath MUSIC\n")
    );
    assert_eq!(fed(["tree", "-", "GAMES"], &before).done(), GAMES);
    assert!(fs::read(&path).unwrap() == before);
    let blank = on("tree", &folder.file("blank.mgt", Image::blank().as_bytes()), NONE);
    assert_eq!(blank.done(), "slot  name  kind  sectors\n0 directories, 0 files\n");
}

/// Where something follows at a level, a line goes on to it past all that lies beneath.
#[test]
fn lines_go_on() {
    let folder = Folder::new();
    let mut image = Image::blank();
    for (slot, name, code, parent) in [
        (1, "A", 1, 0),
        (2, "B", 2, 1),
        (3, "C", 3, 2),
        (4, "D", 4, 2),
        (5, "E", 5, 1),
        (6, "F", 6, 3),
    ] {
        directory(&mut image, slot, name, code, parent);
    }
    let path = folder.file("disk.mgt", image.as_bytes());
    let tree = on("tree", &path, NONE);
    let names: Vec<&str> = tree
        .done()
        .lines()
        .map(|line| line[6..].split("  directory").next().unwrap().trim_end())
        .collect();
    assert_eq!(names[1..7], ["A", "├─ B", "│  ├─ C", "│  │  └─ F", "│  └─ D", "└─ E"]);
    assert_eq!(tree.text().lines().last(), Some("6 directories, 0 files"));
}

#[test]
fn trees_that_cannot_be_drawn() {
    let folder = Folder::new();
    let spoilt = |slot: usize, place: usize, byte: u8| {
        let mut image = nested_disk();
        slot_bytes(&mut image, slot)[place] = byte;
        folder.file("disk.mgt", image.as_bytes())
    };
    let fails = |path: &Path, words: &str| on("tree", path, NONE).fails(1, &format!("disk.mgt: {words}\n"));
    let not_own = "a directory with code 0 or an earlier directory's code (tree)";
    fails(
        &spoilt(6, 250, 0),
        &format!("refusal 26 at slot 6: {not_own}: EMPTY has code 0"),
    );
    let words = format!("refusal 26 at slot 7: {not_own}: ARCADE has code 7, and so has GAMES");
    fails(&spoilt(7, 250, 7), &words);
    let missing = "a live slot's byte 254 is not 0 and no directory's code (tree)";
    let words = format!("refusal 27 at slot 2: {missing}: LETTER is in a directory with code 9, which is not there");
    fails(&spoilt(2, 254, 9), &words);
    let words = "refusal 28 at slot 5: a directory lies inside itself at some depth (tree): GAMES is in MUSIC";
    fails(&spoilt(5, 254, 200), words);
    let path = folder.file("disk.mgt", nested_disk().as_bytes());
    on("tree", &path, ["LETTER"]).fails(1, ": LETTER: refusal 13 at slot 2: ");
    on("tree", &path, ["LETTER"]).fails(1, ": it is no directory but of kind code\n");
    on("tree", &path, ["NOTHING"]).fails(1, ": NOTHING: refusal 15: ");
    on("tree", &path, ["ELEVEN BYTE"]).fails(1, ": refusal 12: the name is not usable: it has 11 bytes");
    on("tree", &path, [r"\x00"]).fails(1, "refusal 12");
    on("tree", &path, [r"\q"]).fails(2, "Try `varnucht help tree`.");
    on("tree", &path, ["GAMES", "MUSIC"]).fails(2, "`tree` takes IMAGE [NAME]: `MUSIC` is one too many");
    run(["tree"]).fails(2, "`tree` takes IMAGE [NAME]: IMAGE is missing");
    // The disk's own faults come first.
    on("tree", &spoilt(5, 12, 1), ["ELEVEN BYTE"]).fails(1, "refusal 4 at slot 5: ");
}

/// The last column says where each file is. Where the disk has no directory there is no such column.
#[test]
fn lists_say_where_files_are() {
    let folder = Folder::new();
    let mut image = nested_disk();
    slot_bytes(&mut image, 2)[254] = 99;
    let list = on("list", &folder.file("disk.mgt", image.as_bytes()), NONE);
    let lines: Vec<&str> = list.done().lines().collect();
    assert_eq!(lines[0], "slot  marks  name    kind       sectors  length  start  in");
    assert_eq!(lines[1], "   1  --     CHESS   code             1      10  32768  GAMES");
    assert_eq!(
        lines[2],
        "   2  --     LETTER  code             2     600  32768  no directory (code 99)"
    );
    assert_eq!(lines[5], "   5  --     GAMES   directory        0       -      -");
    assert_eq!(lines[7], "   7  --     ARCADE  directory        0       -      -  GAMES");
    assert!(
        lines[9].starts_with("4 files, 4 directories, 1555 sectors free: room for a file of "),
        "{}",
        lines[9]
    );
    let plain = disk(&[("CHESS", 10)]);
    let mut image = plain.image().clone();
    image.as_bytes_mut()[254] = 99;
    let without = on("list", &folder.file("plain.mgt", plain.image().as_bytes()), NONE);
    let lost = on("list", &folder.file("lost.mgt", image.as_bytes()), NONE);
    assert_eq!(without.done(), lost.done());
    assert!(
        without
            .text()
            .starts_with("slot  marks  name   kind  sectors  length  start\n")
    );
}

#[test]
fn maps_have_no_sign_for_directories() {
    let folder = Folder::new();
    let map = on("map", &folder.file("disk.mgt", nested_disk().as_bytes()), NONE);
    let legend: Vec<&str> = map.done().lines().skip(24).collect();
    let signs = "A  1 CHESS (1)   B  2 LETTER (2)  C  3 PONG (1)    D  4 TUNE (1)";
    assert_eq!(legend, ["# directory (40)  . free (1555)", signs]);
}

#[test]
fn directories_are_erased_when_they_are_empty() {
    let folder = Folder::new();
    let path = folder.file("disk.mgt", nested_disk().as_bytes());
    let words = "disk.mgt: GAMES: refusal 29 at slot 5: a directory whose code, not 0, is another live slot's byte 254 (erase): \
                 it is not empty, and `tree` shows what is in it\n";
    on("erase", &path, ["GAMES"]).fails(1, words);
    on("erase", &path, ["GAMES", "--dry-run"]).fails(1, words);
    assert!(fs::read(&path).unwrap() == nested_disk().as_bytes());
    for name in ["TUNE", "MUSIC", "PONG", "ARCADE", "CHESS", "GAMES", "EMPTY"] {
        assert_eq!(
            on("erase", &path, [name]).done(),
            format!("erased {name}: 1 sector written\n")
        );
        on("check", &path, NONE).done();
    }
    assert!(on("tree", &path, NONE).done().ends_with("\n0 directories, 1 file\n"));
    on("read", &folder.file("disk.mgt", nested_disk().as_bytes()), ["MUSIC"]).fails(1, "refusal 13 at slot 8: ");
}

/// As deep as codes go, with a file in the last directory.
#[test]
fn the_deepest_tree() {
    let folder = Folder::new();
    let mut image = Image::blank_with(Directory::new(39).unwrap());
    for slot in 1..=255 {
        directory(&mut image, slot, &format!("D{slot}"), slot as u8, slot as u8 - 1);
    }
    let path = folder.file("disk.mgt", image.as_bytes());
    let tree = on("tree", &path, NONE);
    let lines: Vec<&str> = tree.done().lines().collect();
    assert_eq!((lines.len(), lines[256]), (257, "255 directories, 0 files"));
    assert!(lines[255].starts_with(&format!(" 255  {}└─ D255  directory", " ".repeat(3 * 253))));
    assert!(Disk::open(image).is_ok());
}

/// A report counts directories among the files, as kind 21 and with no sectors.
#[test]
fn reports_count_directories() {
    let folder = Folder::new();
    let path = folder.file("disk.mgt", nested_disk().as_bytes());
    let report = on("report", &path, ["--json"]);
    let text = report.done();
    for field in [
        r#""files":8"#,
        r#"{"kind":21,"words":"directory","files":4}"#,
        r#""file_sectors":5"#,
        r#"{"from":0,"to":0,"files":4}"#,
    ] {
        assert!(text.contains(field), "{field} is not in {text}");
    }
}
