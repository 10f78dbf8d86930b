//! `extract` and `add`: files to a folder and back, with all that their bytes do not tell.
use crate::support::*;
use std::fs;
use std::os::unix::ffi::OsStrExt;
use std::path::{Path, PathBuf};
use varnucht::{CarriedKind, Disk, Image, Name, NewFile, NewName, Start};

/// A disk with files of several kinds, starts and marks, and with names that are no names on the host.
fn fixture() -> Disk {
    let mut disk = Disk::open(Image::blank()).unwrap();
    let bodies: Vec<Vec<u8>> = (0..7).map(|number| body(number * 400)).collect();
    let files = [
        ("A/B", CarriedKind::Code, (1, 32_768)),
        ("..", CarriedKind::Basic, (0, 40_139)),
        (".hidden", CarriedKind::Code, (31, 49_151)),
        (r"BACK\SLASH", CarriedKind::NumericArray, (1, 32_768)),
        ("-o", CarriedKind::Screen, (14, 32_768)),
        ("MY TUNES", CarriedKind::StringArray, (2, 40_000)),
        ("TUNES*", CarriedKind::Code, (1, 32_768)),
    ];
    for ((name, kind, (page, offset)), body) in files.into_iter().zip(&bodies) {
        let (name, start) = (NewName::new(name).unwrap(), Start::new(page, offset).unwrap());
        let file = NewFile {
            execution: [1, 2, name.as_bytes()[0]],
            information: [3; 11],
            ..NewFile::new(kind, name, start, body)
        };
        drop(disk.save(&file).unwrap());
    }
    drop(disk.hide(&Name::new("A/B").unwrap()).unwrap());
    drop(disk.protect(&Name::new("A/B").unwrap()).unwrap());
    drop(disk.protect(&Name::new("TUNES*").unwrap()).unwrap());
    disk
}

/// What the files are called on the host, sorted.
const CALLED: [&str; 8] = [
    "-o",
    "A\\x2fB",
    "BACK\\\\SLASH",
    "MY TUNES",
    "TUNES*",
    "\\x2e.",
    "\\x2ehidden",
    "varnucht.index",
];

/// The names of what is in a folder, sorted.
fn names(folder: &Path) -> Vec<String> {
    let entries = fs::read_dir(folder).expect("the folder is there");
    let mut names: Vec<String> = entries
        .map(|entry| entry.unwrap().file_name().into_string().unwrap())
        .collect();
    names.sort();
    names
}

/// Extracts files of an image, and checks that it stays as it is.
fn extract(image: &Path, to: &Path, words: &[&str]) -> Run {
    age(image);
    let before = state(image);
    let words = [to.to_str().unwrap()].into_iter().chain(words.iter().copied());
    let run = on("extract", image, words);
    assert!(state(image) == before);
    run
}

/// All that the listing says of a file, but its place on the disk.
fn described(disk: &Disk) -> Vec<String> {
    let entries = disk.listing().entries().iter();
    let mut all: Vec<String> = entries
        .map(|entry| {
            let marks = (entry.hidden(), entry.protected());
            let bytes = (entry.execution(), entry.information(), disk.read(&entry.name()).unwrap());
            format!("{} {:?} {:?} {marks:?} {bytes:?}", entry.name(), entry.kind(), entry.start())
        })
        .collect();
    all.sort();
    all
}

#[test]
fn there_and_back() {
    let folder = Folder::new();
    let disk = fixture();
    let image = folder.image(&disk);
    let to = folder.path("files");
    let said = format!("extracted 7 files to {}\n", to.display());
    assert_eq!(extract(&image, &to, &[]).done(), said);
    assert_eq!(names(&to), CALLED);
    assert_eq!(folder.names(), ["disk.mgt", "files"], "nothing got out of the folder");
    for entry in disk.listing().entries() {
        let called = names(&to)
            .into_iter()
            .find(|called| varnucht::escape::unescape(called.as_bytes()).unwrap() == entry.name().trimmed());
        assert!(fs::read(to.join(called.unwrap())).unwrap() == disk.read(&entry.name()).unwrap());
    }
    // All of them back, in one call, to a disk without a file.
    let new = folder.path("new.mgt");
    on("blank", &new, NONE).done();
    let words: Vec<PathBuf> = names(&to).iter().map(|name| to.join(name)).collect();
    let run = on("add", &new, &words);
    assert!(run.done().ends_with("\n7 of 7 files added\n"), "{}", run.text());
    assert!(
        run.text().contains("saved A/B: 4 sectors written\n"),
        "the marks too: {}",
        run.text()
    );
    assert_eq!(described(&disk_in(&new)), described(&disk));
}

#[test]
fn some_and_by_a_pattern() {
    let folder = Folder::new();
    let image = folder.image(&fixture());
    for (place, (words, expected)) in [
        (&["my tunes"][..], &["MY TUNES"][..]),
        (&["*tunes*"], &["MY TUNES", "TUNES*"]),
        (&["*TUNES"], &["MY TUNES"]),
        (&["tunes?"], &["TUNES*"]),
        (&[r"*\x2a"], &["TUNES*"]),
        (&["?/?", "my*", "*tunes"], &["A\\x2fB", "MY TUNES"]),
        (&[r"*\\*"], &["BACK\\\\SLASH"]),
        (&["*"], &CALLED[..7]),
        (&["??"], &["-o", "\\x2e."]),
        (&["--", "-o"], &["-o"]),
    ]
    .into_iter()
    .enumerate()
    {
        let to = folder.path(&place.to_string());
        extract(&image, &to, words).done();
        let found: Vec<String> = names(&to).into_iter().filter(|name| name != "varnucht.index").collect();
        assert_eq!(found, expected, "{words:?}");
    }
    let to = folder.path("none");
    let run = extract(&image, &to, &["NONE", "my*", "x*", "ELEVEN BYTE"]);
    assert_eq!(
        (run.status, names(&to)),
        (1, vec!["MY TUNES".into(), "varnucht.index".into()])
    );
    for (name, number) in [("NONE", 15), ("x*", 15), ("ELEVEN BYTE", 12)] {
        assert!(
            run.err.contains(&format!("disk.mgt: {name}: refusal {number}: ")),
            "{}",
            run.err
        );
    }
    let nothing = folder.path("nothing");
    let run = extract(&image, &nothing, &["x*"]);
    assert_eq!((run.status, nothing.exists()), (1, false));
    extract(&image, &nothing, &[r"A\q*"]).fails(2, "a backslash begins");
    assert!(!nothing.exists());
}

#[test]
fn no_file_is_replaced_unseen() {
    let folder = Folder::new();
    let image = folder.image(&disk(&[("ONE", 10), ("TWO", 600)]));
    let to = folder.path("files");
    fs::create_dir(&to).unwrap();
    fs::write(to.join("TWO"), b"precious").unwrap();
    extract(&image, &to, &[]).fails(3, "files/TWO: it is there already: nothing is extracted\n");
    assert_eq!(names(&to), ["TWO"], "not the others either");
    extract(&image, &to, &["ONE"]).done();
    extract(&image, &to, &["--force"]).done();
    assert_eq!(fs::read(to.join("TWO")).unwrap(), body(600));
    let index = fs::read_to_string(to.join("varnucht.index")).unwrap();
    assert_eq!(index.lines().count(), 3, "a line for each, once: {index}");
    // A link that leads nowhere is there too.
    fs::remove_file(to.join("ONE")).unwrap();
    std::os::unix::fs::symlink("nowhere", to.join("ONE")).unwrap();
    extract(&image, &to, &["ONE"]).fails(3, "files/ONE: it is there already");
    // What is no index stays as it is, and nothing is extracted beside it.
    let other = folder.path("other");
    fs::create_dir(&other).unwrap();
    fs::write(other.join("varnucht.index"), b"mine\n").unwrap();
    extract(&image, &other, &["--force"]).fails(3, "varnucht.index: line 1 is none of an index that `extract` makes\n");
    assert_eq!(names(&other), ["varnucht.index"]);
    extract(&image, &folder.file("file", b""), &[]).fails(3, "/file: ");
    extract(&image, &folder.path("no/folder"), &[]).fails(3, "no/folder: ");
}

#[test]
fn what_cannot_be_read_is_named() {
    let folder = Folder::new();
    let mut image = disk(&[("SNAP", 10), ("ONE", 600)]).into_image();
    image.as_bytes_mut()[0] = 5;
    image.as_bytes_mut()[512..523].copy_from_slice(b"\x15GAMES     ");
    image.as_bytes_mut()[512 + 250] = 7;
    let image = folder.image(&Disk::open(image).unwrap());
    let to = folder.path("files");
    let run = extract(&image, &to, &[]);
    assert_eq!((run.status, run.err.lines().count()), (1, 1), "{}", run.err);
    assert!(run.err.contains("disk.mgt: SNAP: refusal 13 at slot 1: "), "{}", run.err);
    assert_eq!(names(&to), ["ONE", "varnucht.index"]);
    // A directory that is asked for by its name has no body either.
    let run = extract(&image, &folder.path("games"), &["games"]);
    assert!(run.err.contains("GAMES: refusal 13 at slot 3: "), "{}", run.err);
    // A pattern stands for files.
    assert_eq!(extract(&image, &folder.path("g"), &["g*"]).status, 1);
}

#[test]
fn add_takes_names_and_options() {
    let folder = Folder::new();
    let image = folder.image(&disk(&[("ONE", 10)]));
    let [two, three] = ["two.bin", r"A\x2fB"].map(|name| folder.file(name, &body(700)).into_os_string());
    let options = ["--kind", "screen", "--page", "2", "--offset", "40000", "--exec", "01"].map(Into::into);
    let run = on("add", &image, [two.clone(), three.clone()].into_iter().chain(options));
    assert_eq!(
        run.done(),
        "saved two.bin: 3 sectors written\nsaved A/B: 3 sectors written\n2 of 2 files added\n"
    );
    let disk = disk_in(&image);
    for name in ["two.bin", "A/B"] {
        let entry = disk.listing().find(&Name::new(name).unwrap()).unwrap();
        let start = entry.start().map(|start| (start.page(), start.offset()));
        assert_eq!(
            (entry.kind().number(), start, entry.execution()),
            (20, Some((2, 40_000)), [1, 0, 0])
        );
        assert_eq!(disk.read(&entry.name()).unwrap(), body(700));
    }
    // An option goes before what the index says.
    let to = folder.path("files");
    extract(&image, &to, &["two*"]).done();
    let new = folder.path("new.mgt");
    on("blank", &new, NONE).done();
    on(
        "add",
        &new,
        [to.join("two.bin").as_os_str(), "--kind".as_ref(), "code".as_ref()],
    )
    .done();
    let entry = disk_in(&new).listing().entries()[0];
    assert_eq!((entry.kind().number(), entry.start().unwrap().page()), (19, 2));
}

#[test]
fn add_goes_on_behind_what_is_refused() {
    let folder = Folder::new();
    let image = folder.image(&disk(&[("ONE", 10)]));
    let names = ["TWO", "one", "much too long", "THREE"];
    let files: Vec<_> = names
        .iter()
        .map(|name| folder.file(name, &body(10)).into_os_string())
        .collect();
    let none = folder.path("NONE").into_os_string();
    let run = on("add", &image, files.iter().chain([&none]));
    assert_eq!(run.status, 3, "the greatest");
    assert_eq!(
        run.text(),
        "saved TWO: 2 sectors written\nsaved THREE: 2 sectors written\n2 of 5 files added\n"
    );
    assert!(run.err.contains("disk.mgt: one: refusal 16 at slot 1: "), "{}", run.err);
    assert!(
        run.err
            .contains("much too long: refusal 12: the name is not usable: it has 13 bytes, "),
        "{}",
        run.err
    );
    assert!(run.err.contains("/NONE: No such file"), "{}", run.err);
    assert_eq!(disk_in(&image).listing().entries().len(), 3);
    let run = on("add", &image, &files[..1]);
    assert_eq!((run.status, run.text()), (1, "0 of 1 file added\n"));
}

#[test]
fn add_tried_and_wrong_use() {
    let folder = Folder::new();
    let image = folder.image(&disk(&[("ONE", 10)]));
    age(&image);
    let before = state(&image);
    let [two, three] = ["TWO", "THREE"].map(|name| folder.file(name, &body(700)).into_os_string());
    let words = [two.clone(), three, "--dry-run".into()];
    let run = on("add", &image, &words);
    assert!(run.done().starts_with("TWO\nnumber  track  sector\n"), "{}", run.text());
    assert!(
        run.text().ends_with("nothing is written\n2 of 2 files would be added\n"),
        "{}",
        run.text()
    );
    // The second is tried on the disk that the first left.
    let numbers = |text: &str| text.lines().filter(|line| line.starts_with("   ")).count();
    assert_eq!(numbers(run.text()), 6);
    let piped = fed(
        ["add".as_ref(), "-".as_ref(), two.as_os_str(), "--dry-run".as_ref()],
        &before.0,
    );
    assert_eq!(piped.status, 0);
    on("add", &image, ["-"]).fails(2, "`add` takes files, whose names they get");
    on("add", &image, NONE).fails(2, "`add` takes IMAGE FILE...: FILE is missing");
    on("add", Path::new("-"), [&two]).fails(2, "IMAGE is written to");
    let index = folder.file(
        "varnucht.index",
        b"varnucht index 1: file, name, kind, page, offset, exec, info, marks\nTWO\n",
    );
    on("add", &image, [&two]).fails(3, "varnucht.index: line 2 is none of an index");
    fs::remove_file(index).unwrap();
    let odd = folder.path("").join(std::ffi::OsStr::from_bytes(b"\xff"));
    fs::write(&odd, b"").unwrap();
    let run = on("add", &image, [&odd]);
    assert!(run.err.contains(r"disk.mgt: \xff: refusal 12: "), "{}", run.err);
    assert!(state(&image) == before);
}
