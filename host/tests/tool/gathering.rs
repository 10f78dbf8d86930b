//! `gather`, of one file and of all; and which files `map` calls scattered.
use crate::support::*;
use std::fs;
use varnucht::{Disk, Name};

fn name(text: &str) -> Name {
    Name::new(text).expect("a usable name")
}

/// These files, where those whose names begin with `-` are erased again before the next is saved.
fn laid_out(files: &[(&str, usize)]) -> Disk {
    let mut laid = disk(&[("FIRST", 1)]);
    for (file, sectors) in files {
        match file.strip_prefix('-') {
            Some(gone) => drop(laid.erase(&name(gone)).expect("it is there")),
            None => {
                let body = body(510 * sectors - 9);
                let new = varnucht::NewName::new(*file).expect("a usable name");
                let start = varnucht::Start::new(1, 32_768).expect("a usable start");
                let kind = varnucht::CarriedKind::Code;
                drop(
                    laid.save(&varnucht::NewFile::new(kind, new, start, &body))
                        .expect("there is room"),
                );
            }
        }
    }
    laid
}

/// FIRST on bit 0, TUNES on bits 1 and 12, WALL on bits 2 to 11.
fn scattered() -> Disk {
    laid_out(&[("GAP", 1), ("WALL", 10), ("-GAP", 0), ("TUNES", 2)])
}

#[test]
fn one_file() {
    let folder = Folder::new();
    let image = folder.image(&scattered());
    let old = disk_in(&image);
    assert_eq!(old.is_scattered(&name("TUNES")), Ok(true));
    let dry = on("gather", &image, ["tunes", "--dry-run"]);
    assert_eq!(
        dry.done(),
        "number  track  sector\n   103      5       4\n   104      5       5\n     0      0       1\n\
         3 sectors would be written, in this order; nothing is written\n"
    );
    assert!(disk_in(&image) == old);
    assert_eq!(on("gather", &image, ["TUNES"]).done(), "gathered TUNES: 3 sectors written\n");
    let new = disk_in(&image);
    assert_eq!(new.is_scattered(&name("TUNES")), Ok(false));
    assert_eq!(new.read(&name("TUNES")), old.read(&name("TUNES")));
    age(&image);
    let before = state(&image);
    assert_eq!(
        on("gather", &image, ["TUNES"]).done(),
        "TUNES is not scattered: nothing is written\n"
    );
    assert_eq!(
        on("gather", &image, ["TUNES", "--dry-run"]).done(),
        "number  track  sector\n0 sectors would be written, in this order; nothing is written\n"
    );
    assert!(state(&image) == before, "the file is not touched");
    on("gather", &image, ["SONGS"]).fails(1, "disk.mgt: SONGS: refusal 15: no live slot has the name, capitals or not\n");
    on("gather", &image, [""]).fails(1, "refusal 12: the name is not usable: it has ");
}

#[test]
fn what_cannot_move() {
    let folder = Folder::new();
    let crowded = laid_out(&[("GAP", 1), ("WALL", 1_554), ("-GAP", 0), ("TUNES", 3)]);
    let image = folder.image(&crowded);
    let words =
        "disk.mgt: TUNES: refusal 32: the file must move and no run of consecutive free map bits has its length (gather)\n";
    age(&image);
    let before = state(&image);
    on("gather", &image, ["TUNES"]).fails(1, words);
    on("gather", &image, ["TUNES", "--dry-run"]).fails(1, words);
    for more in [&["--all"][..], &["--all", "--dry-run"]] {
        let run = on("gather", &image, more);
        assert_eq!(run.status, 1);
        assert!(run.err.ends_with(words), "{}", run.err);
        let gathered = if more.len() == 1 { "gathered" } else { "would be gathered" };
        assert_eq!(run.text(), format!("0 files {gathered}, 2 left in place, 1 could not move\n"));
    }
    assert!(state(&image) == before, "the file is not touched");
    let mut bytes = crowded.into_image();
    bytes.as_bytes_mut()[3 * 256..][..11].copy_from_slice(b"\x15GAMES     ");
    let image = folder.file("disk.mgt", bytes.as_bytes());
    on("gather", &image, ["GAMES"]).fails(1, "disk.mgt: GAMES: refusal 13 at slot 4: ");
    let run = on("gather", &image, ["--all"]);
    assert_eq!(
        (run.status, run.text()),
        (1, "0 files gathered, 2 left in place, 1 could not move\n")
    );
}

/// The lowest slot first, each into what those before it left; the one that cannot move is named, and the others go on.
#[test]
fn all_files() {
    let folder = Folder::new();
    // GAP is slot 2, which LOW takes. LONG lies on bits 2, 3 and 14 on, and has nowhere to go.
    let disk = laid_out(&[
        ("GAP", 1),
        ("HOLE", 2),
        ("WALL", 10),
        ("-GAP", 0),
        ("LOW", 2),
        ("-HOLE", 0),
        ("LONG", 800),
        ("HIGH", 1),
    ]);
    let image = folder.image(&disk);
    let names = ["FIRST", "LOW", "LONG", "WALL", "HIGH"];
    let scattered = |image: &std::path::Path| names.map(|file| disk_in(image).is_scattered(&name(file)).unwrap());
    assert_eq!(scattered(&image), [false, true, true, false, false]);
    let before = state(&image);
    let dry = on("gather", &image, ["--all", "--dry-run"]);
    assert_eq!(dry.status, 1);
    assert!(state(&image) == before, "nothing is written");
    assert!(dry.text().starts_with("LOW\nnumber  track  sector\n"), "{}", dry.text());
    let run = on("gather", &image, ["--all"]);
    assert_eq!(
        run.text(),
        "gathered LOW: 3 sectors written\n1 file gathered, 3 left in place, 1 could not move\n"
    );
    assert!(run.err.contains("disk.mgt: LONG: refusal 32: "), "{}", run.err);
    assert_eq!((run.status, run.err.lines().count()), (1, 1));
    assert_eq!(scattered(&image), [false, false, true, false, false]);
    for file in names {
        assert_eq!(disk_in(&image).read(&name(file)), disk.read(&name(file)), "{file}");
    }
    on("erase", &image, ["WALL"]).done();
    on("erase", &image, ["LONG"]).done();
    assert_eq!(on("gather", &image, ["--all"]).done(), "0 files gathered, 3 left in place\n");
}

#[test]
fn the_command_line() {
    let folder = Folder::new();
    let image = folder.image(&scattered());
    let before = fs::read(&image).unwrap();
    for words in [&[][..], &["TUNES", "--all"]] {
        on("gather", &image, words).fails(2, "`gather` takes NAME or `--all`, and not both\nTry `varnucht help gather`.");
    }
    on("gather", &image, ["TUNES", "WALL"]).fails(2, "`WALL` is one too many");
    run(["gather", "--all"]).fails(2, "IMAGE is missing");
    run(["gather", "-", "--all"]).fails(2, "IMAGE is written to, and `-` is standard input");
    assert!(fs::read(&image).unwrap() == before);
    assert!(
        fed(["gather", "-", "--all", "--dry-run"], &before)
            .done()
            .starts_with("TUNES\nnumber")
    );
}

#[test]
fn map_shows_scattered_files() {
    let folder = Folder::new();
    let image = folder.image(&scattered());
    let map = on("map", &image, ["--color", "never"]);
    let legend = "A  1 FIRST (1)  B  2 TUNES (2)  C  3 WALL (10)\n1 file scattered:\nB  2 TUNES (2)\n";
    assert!(map.done().ends_with(legend), "{}", map.text());
    on("gather", &image, ["--all"]).done();
    let map = on("map", &image, ["--color", "never"]);
    assert!(
        map.done().contains("B  2 TUNES (2)") && !map.text().contains("scattered"),
        "{}",
        map.text()
    );
}
