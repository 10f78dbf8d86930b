//! `check --all` and `salvage`: every fault is named, and a copy is made of what is accepted.
use crate::support::*;
use std::fs;
use std::path::{Path, PathBuf};
use varnucht::{Directory, Disk, Image, Name};

/// The image of a disk with these files of code, to be damaged.
fn image_of(files: &[(&str, usize)]) -> Image {
    disk(files).into_image()
}

/// Where a slot's 256 bytes begin.
fn place(image: &Image, slot: usize) -> usize {
    image.directory().unwrap().places().nth(slot - 1).unwrap().1
}

/// A byte of a slot.
fn byte(image: &mut Image, slot: usize, at: usize) -> &mut u8 {
    let place = place(image, slot);
    &mut image.as_bytes_mut()[place + at]
}

/// Copies a slot's bytes to another and gives it a name.
fn twin(image: &mut Image, from: usize, to: usize, name: &[u8; 10]) {
    let (from, to) = (place(image, from), place(image, to));
    image.as_bytes_mut().copy_within(from..from + 256, to);
    image.as_bytes_mut()[to + 1..to + 11].copy_from_slice(name);
}

/// The links of the first sector of a slot's file, led to no sector.
fn broken(image: &mut Image, slot: usize) {
    let entry = Disk::open(image.clone()).unwrap().listing().entries()[slot - 1];
    let first = entry.sectors().next().unwrap().place();
    image.as_bytes_mut()[first + 510] = 99;
}

/// A disk of six files with a fault of its own in three slots, and two that share a sector and a name.
fn fixture() -> Image {
    let mut image = image_of(&[
        ("GOOD", 600),
        ("CHAIN", 2_000),
        ("KIND", 10),
        ("COUNT", 10),
        ("FINE", 10),
        ("LAST", 10),
    ]);
    broken(&mut image, 2);
    *byte(&mut image, 3, 0) = 13;
    *byte(&mut image, 4, 12) += 1;
    twin(&mut image, 5, 7, b"SHARED    ");
    let name = place(&image, 6) + 1;
    image.as_bytes_mut()[name..name + 10].copy_from_slice(b"good      ");
    image
}

/// The file of an image.
fn file(folder: &Folder, image: &Image) -> PathBuf {
    folder.file("disk.mgt", image.as_bytes())
}

/// Salvages an image, and checks that it stays as it is.
fn salvage(image: &Path, new: &Path, words: &[&str]) -> Run {
    age(image);
    let before = state(image);
    let words: Vec<_> = [new.to_str().unwrap()].into_iter().chain(words.iter().copied()).collect();
    let run = on("salvage", image, ["-o"].into_iter().chain(words));
    assert!(state(image) == before, "IMAGE is never written");
    run
}

#[test]
fn check_all_names_every_fault() {
    let folder = Folder::new();
    let image = file(&folder, &fixture());
    on("check", &image, NONE).fails(1, "disk.mgt: refusal 2 at slot 3: the kind is not known\n");
    let run = on("check", &image, ["--all"]);
    run.fails(1, "");
    let path = image.to_str().unwrap();
    let said = [
        "slot 2 CHAIN: refusal 10 at slot 2: the chain is broken",
        "slot 3 KIND: refusal 2 at slot 3: the kind is not known",
        "slot 4 COUNT: refusal 5 at slot 4: the map's set bits are not as many as the count",
        "slot 1 GOOD and slot 6 good: refusal 9 at slot 6: the name is an earlier live slot's, capitals or not: both are doubtful",
        "slot 5 FINE and slot 7 SHARED: refusal 8 at slot 7: the map shares a bit with an earlier live slot: both are doubtful",
        "5 faults: `salvage` makes a copy without them",
    ];
    let said: String = said.iter().map(|line| format!("varnucht: {path}: {line}\n")).collect();
    assert_eq!(run.err, said);
    // Beside others each has its lines, and the greatest status is given.
    let accepted = folder.file("accepted.mgt", disk(&[("ONE", 10)]).image().as_bytes());
    let both = run_words(["check", "--all", accepted.to_str().unwrap(), path]);
    assert_eq!((both.status, both.err), (1, said));
    assert_eq!(both.out, format!("{}: {ACCEPTED}", accepted.display()).into_bytes());
    assert_eq!(on("check", &accepted, ["--all"]).done(), ACCEPTED);
}

/// Runs the tool with words that are no image's.
fn run_words<const N: usize>(words: [&str; N]) -> Run {
    run(words)
}

#[test]
fn check_all_before_a_release() {
    let folder = Folder::new();
    let mut image = image_of(&[("ONE", 1_000), ("TWO", 10), ("THREE", 1_000)]);
    // A length of 100 in slot and header: the second sector is waste.
    for slot in [1, 3] {
        let entry = Disk::open(image.clone()).unwrap().listing().entries()[slot - 1];
        let first = entry.sectors().next().unwrap().place();
        image.as_bytes_mut()[first + 1..first + 3].copy_from_slice(&[100, 0]);
        *byte(&mut image, slot, 240) = 100;
        *byte(&mut image, slot, 241) = 0;
    }
    let image = file(&folder, &image);
    assert_eq!(on("check", &image, ["--all"]).done(), ACCEPTED);
    let run = on("check", &image, ["--all", "--release"]);
    run.fails(1, "slot 1 ONE: refusal 22 at slot 1: ");
    run.fails(1, "slot 3 THREE: refusal 22 at slot 3: ");
    assert!(run.err.ends_with(": 2 faults\n"), "a rescue would leave them: {}", run.err);
}

#[test]
fn salvage_copies_what_is_accepted() {
    let folder = Folder::new();
    let whole = fixture();
    let image = file(&folder, &whole);
    let new = folder.path("new.mgt");
    let run = salvage(&image, &new, &[]);
    assert_eq!(run.status, 1);
    let path = image.to_str().unwrap();
    let said = [
        "slot 2 CHAIN is left out: refusal 10 at slot 2: the chain is broken",
        "slot 3 KIND is left out: refusal 2 at slot 3: the kind is not known",
        "slot 4 COUNT is left out: refusal 5 at slot 4: the map's set bits are not as many as the count",
        "slot 6 good is left out: refusal 9 at slot 6: the name is an earlier live slot's, capitals or not: slot 1 GOOD is \
         kept, and as doubtful; `--keep 6` keeps this",
        "slot 7 SHARED is left out: refusal 8 at slot 7: the map shares a bit with an earlier live slot: slot 5 FINE is kept, \
         and as doubtful; `--keep 7` keeps this",
    ];
    let said: String = said.iter().map(|line| format!("varnucht: {path}: {line}\n")).collect();
    assert_eq!(run.err, said);
    assert_eq!(
        run.text(),
        format!("made {}: 2 of 7 live slots are kept, 5 left out\n", new.display())
    );
    let mut expected = whole.clone();
    for slot in [2, 3, 4, 6, 7] {
        *byte(&mut expected, slot, 0) = 0;
    }
    assert!(fs::read(&new).unwrap() == expected.as_bytes(), "nothing else is changed");
    assert_eq!(on("read", &new, ["GOOD"]).out, body(600));
    assert_eq!(on("check", &new, ["--all"]).done(), ACCEPTED);
    // Standard input and output, byte for byte the same.
    let piped = fed(["salvage", "-", "-o", "-"], whole.as_bytes());
    assert_eq!((piped.status, piped.err), (1, said.replace(path, "standard input")));
    assert!(piped.out == expected.as_bytes());
}

#[test]
fn salvage_keeps_what_is_asked_for() {
    let folder = Folder::new();
    let whole = fixture();
    let image = file(&folder, &whole);
    let new = folder.path("new.mgt");
    let run = salvage(&image, &new, &["--keep", "7,0x6"]);
    assert_eq!(run.status, 1);
    assert!(
        run.err.contains("slot 1 GOOD is left out: refusal 9 at slot 6: "),
        "{}",
        run.err
    );
    assert!(
        run.err
            .contains(": slot 7 SHARED is kept, and as doubtful; `--keep 5` keeps this\n"),
        "{}",
        run.err
    );
    let names: Vec<String> = disk_in(&new)
        .listing()
        .entries()
        .iter()
        .map(|entry| entry.name().to_string())
        .collect();
    assert_eq!(names, ["good", "SHARED"]);
    for (words, status, said) in [
        (
            "2",
            1,
            "disk.mgt: slot 2 CHAIN: refusal 10 at slot 2: the chain is broken: `--keep` cannot keep it\n",
        ),
        ("7,5", 1, "slot 7 SHARED and slot 5 FINE: refusal 8 at slot 7: "),
        ("1,1,6", 1, "slot 1 GOOD and slot 6 good: refusal 9 at slot 6: "),
        ("8", 2, "`--keep` asks for slot 8, which is not live"),
        ("0", 2, "`--keep` asks for slot 0, which is not live"),
        ("x", 2, "`--keep` takes slots, as `3` or `3,7`, and not `x`"),
        ("1,,2", 2, "`--keep` takes slots"),
        ("", 2, "`--keep` takes slots"),
    ] {
        let other = folder.path("other.mgt");
        salvage(&image, &other, &["--keep", words]).fails(status, said);
        assert!(!other.exists(), "{words}");
    }
}

#[test]
fn a_third_is_not_lost_for_one_that_is_left_out() {
    let folder = Folder::new();
    let mut image = image_of(&[("ONE", 10), ("TWO", 10), ("three", 10)]);
    // 2 has 1's sectors, and 3 has 2's name: without 2 nothing is against 3.
    twin(&mut image, 1, 2, b"THREE     ");
    let image = file(&folder, &image);
    let run = on("check", &image, ["--all"]);
    assert_eq!(run.err.matches("both are doubtful").count(), 2, "{}", run.err);
    let new = folder.path("new.mgt");
    salvage(&image, &new, &[]);
    let slots: Vec<u16> = disk_in(&new)
        .listing()
        .entries()
        .iter()
        .map(|entry| entry.slot().number())
        .collect();
    assert_eq!(slots, [1, 3]);
}

#[test]
fn an_accepted_disk_is_copied_as_it_is() {
    let folder = Folder::new();
    let mut whole = image_of(&[("ONE", 10), ("TWO", 600)]);
    *byte(&mut whole, 1, 0) |= 0xc0; // its marks
    *byte(&mut whole, 2, 245) = 7; // its date
    twin(&mut whole, 1, 9, b"BEHIND    "); // behind the directory's end
    let image = file(&folder, &whole);
    let new = folder.path("new.mgt");
    let said = salvage(&image, &new, &[]);
    assert_eq!(
        said.done(),
        format!("made {}: nothing is left out, and every byte is the same\n", new.display())
    );
    assert!(fs::read(&new).unwrap() == whole.as_bytes());
    salvage(&image, &new, &["--keep", "9"]).fails(2, "which is not live");
}

#[test]
fn what_cannot_be_salvaged() {
    let folder = Folder::new();
    let new = folder.path("new.mgt");
    let short = folder.file("short.mgt", &[0; 1_000]);
    salvage(&short, &new, &[]).fails(
        1,
        "refusal 1: the image is not 819,200 bytes: nothing can be salvaged: it has 1000\n",
    );
    let packed = folder.file("packed.mgt", b"\x1f\x8b\x08");
    salvage(&packed, &new, &[]).fails(
        1,
        ": nothing can be salvaged: it has 3\nIt looks like a file packed with gzip",
    );
    let mut image = image_of(&[("ONE", 10)]);
    *byte(&mut image, 1, 255) = 40;
    let image = file(&folder, &image);
    salvage(&image, &new, &[]).fails(1, "disk.mgt: refusal 24");
    salvage(&image, &new, &[]).fails(1, ": nothing can be salvaged\n");
    let run = on("check", &image, ["--all"]);
    run.fails(1, "refusal 24");
    assert_eq!(run.err.lines().count(), 1);
    assert!(!new.exists());
}

#[test]
fn wrong_use_of_salvage() {
    let folder = Folder::new();
    let image = file(&folder, &fixture());
    on("salvage", &image, NONE).fails(
        2,
        "`salvage` takes `-o NEW`, where the copy goes\nTry `varnucht help salvage`.",
    );
    salvage(&image, &image, &["--force"]).fails(2, "NEW is IMAGE itself, which is never written");
    on("salvage", &image, ["-o", "-", "--force"]).fails(2, "`--force` goes with `-o NEW`");
    let older = folder.file("older", b"precious");
    let run = salvage(&image, &older, &[]);
    assert_eq!(run.status, 3);
    assert!(
        run.err.ends_with("older: it is there already, and stays as it is\n"),
        "{}",
        run.err
    );
    assert_eq!(fs::read(&older).unwrap(), b"precious");
    assert_eq!(salvage(&image, &older, &["--force"]).status, 1);
    assert_eq!(disk_in(&older).listing().entries().len(), 2);
    run_words(["salvage", "none.mgt", "-o", "new.mgt"]).fails(3, "none.mgt: ");
    assert_eq!(folder.names(), ["disk.mgt", "older"], "nothing is left beside them");
}

/// A directory that is left out: what was in it stays, and the tree alone is refused.
#[test]
fn what_was_in_a_refused_directory_stays() {
    let folder = Folder::new();
    let mut image = image_of(&[("PONG", 10), ("TUNE", 10)]);
    let games = place(&image, 3);
    image.as_bytes_mut()[games..games + 11].copy_from_slice(b"\x15GAMES     ");
    (*byte(&mut image, 3, 250), *byte(&mut image, 1, 254)) = (7, 7);
    assert!(Disk::open(image.clone()).unwrap().tree(None).is_ok());
    *byte(&mut image, 3, 12) = 1; // a directory has no sectors
    let image = file(&folder, &image);
    let new = folder.path("new.mgt");
    let run = salvage(&image, &new, &[]);
    let path = image.to_str().unwrap();
    assert!(
        run.err
            .starts_with(&format!("varnucht: {path}: slot 3 GAMES is left out: refusal 4 at slot 3: "))
    );
    let stays = format!("varnucht: {path}: slot 1 PONG stays, and its directory is left out\n");
    let tree = format!("varnucht: {path}: `tree` refuses the copy: refusal 27 at slot 1: ");
    assert!(run.err.contains(&format!("{stays}{tree}")), "{}", run.err);
    assert_eq!(disk_in(&new).listing().entries().len(), 2);
    on("tree", &new, NONE).fails(1, "refusal 27 at slot 1: ");
    assert_eq!(on("read", &new, ["PONG"]).out, body(10));
}

/// A full directory of 39 tracks: with one fault, and with names that are all the same.
#[test]
fn the_largest_directory() {
    let folder = Folder::new();
    let names: Vec<(String, usize)> = (0..778).map(|number| (format!("FILE {number}"), 10)).collect();
    let mut image = disk_with(Directory::new(39).unwrap(), &names).into_image();
    *byte(&mut image, 778, 0) = 13;
    *byte(&mut image, 81, 0) = 13;
    let path = file(&folder, &image);
    let new = folder.path("new.mgt");
    let run = salvage(&path, &new, &[]);
    assert_eq!(run.err.lines().count(), 2, "{}", run.err);
    assert_eq!(disk_in(&new).listing().entries().len(), 776);
    for slot in 1..=778 {
        let name = place(&image, slot) + 1;
        image.as_bytes_mut()[name..name + 10].copy_from_slice(b"ALL OF ONE");
    }
    let path = file(&folder, &image);
    let run = salvage(&path, &folder.path("one.mgt"), &["--keep", "400"]);
    assert_eq!(run.err.lines().count(), 777, "{}", run.err);
    let disk = disk_in(&folder.path("one.mgt"));
    assert_eq!(disk.read(&Name::new("all of one").unwrap()).unwrap(), body(10));
    assert_eq!(disk.listing().entries()[0].slot().number(), 400);
}

/// Drawn damage: whatever bytes of the directory and of the files are altered, the copy is accepted, differs from the image in
/// the first bytes of refused slots alone, and has every file that is accepted by itself and shares nothing.
#[test]
fn drawn_damage() {
    let folder = Folder::new();
    let files: Vec<(String, usize)> = (0..24).map(|number| (format!("FILE {number}"), number * 130)).collect();
    let accepted = disk(&files).into_image();
    let mut draw = 0x2545_f491_4f6c_dd1d_u64;
    let mut next = |below: usize| {
        draw ^= draw << 13;
        draw ^= draw >> 7;
        draw ^= draw << 17;
        (draw % below as u64) as usize
    };
    for round in 0..60 {
        let mut image = accepted.clone();
        for _ in 0..=next(12) {
            match next(3) {
                0 => {
                    *byte(
                        &mut image,
                        1 + next(24),
                        [0, 1, 11, 12, 13, 14, 15, 20, 236, 239, 240][next(11)],
                    ) = next(256) as u8
                }
                1 => image.as_bytes_mut()[40_960 + [0, 1, 510, 511][next(4)] + 512 * next(100)] = next(256) as u8,
                _ => twin(&mut image, 1 + next(24), 1 + next(24), b"TWIN      "),
            }
        }
        *byte(&mut image, 1, 255) = 0;
        let path = file(&folder, &image);
        let new = folder.path("new.mgt");
        let run = salvage(&path, &new, &["--force"]);
        assert_eq!(run.status, i32::from(image.check().is_err()), "round {round}: {run:?}");
        let mut copy = disk_in(&new).into_image();
        let out: Vec<usize> = (1..=80)
            .filter(|slot| *byte(&mut copy, *slot, 0) != *byte(&mut image, *slot, 0))
            .collect();
        for slot in &out {
            assert!(
                run.err.contains(&format!(": slot {slot} ")),
                "round {round}, slot {slot}: {run:?}"
            );
            *byte(&mut copy, *slot, 0) = *byte(&mut image, *slot, 0);
            // With it the copy is refused.
            let mut without = disk_in(&new).into_image();
            *byte(&mut without, *slot, 0) = *byte(&mut image, *slot, 0);
            assert!(without.check().is_err(), "round {round}, slot {slot}: it could have stayed");
        }
        assert!(copy == image, "round {round}");
    }
}
