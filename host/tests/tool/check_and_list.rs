//! Looking at a disk: `check` and `list`, each run as a process.
use crate::support::*;
use std::ffi::OsString;
use std::fs;
use varnucht::{LONGEST_BODY, Name};

#[test]
fn check_accepts_and_refuses() {
    let folder = Folder::new();
    let image = folder.image(&disk(&[("ONE", 10)]));
    assert_eq!(on("check", &image, NONE).done(), ACCEPTED);
    let mut bytes = fs::read(&image).unwrap();
    bytes[0] = 13;
    fs::write(&image, &bytes).unwrap();
    on("check", &image, NONE).fails(1, "disk.mgt: refusal 2 at slot 1: the kind is not known\n");
    for command in ["list", "map"] {
        on(command, &image, NONE).fails(1, "refusal 2 at slot 1");
    }
    // The disk's refusals come before those of the request, whatever is wrong with that.
    on("erase", &image, ["ONE"]).fails(1, "disk.mgt: refusal 2 at slot 1");
    on("erase", &image, [""]).fails(1, "disk.mgt: refusal 2 at slot 1");
    on("hide", &image, ["", "--dry-run"]).fails(1, "disk.mgt: refusal 2 at slot 1");
    on("read", &image, [""]).fails(1, "disk.mgt: refusal 2 at slot 1");
    on("save", &image, ["", "/dev/null", "--kind", "5", "--page", "32"]).fails(1, "disk.mgt: refusal 2 at slot 1");
    assert_eq!(fs::read(&image).unwrap(), bytes);
}

/// Old bytes from the directory's end on are not looked at, and a save there clears the name that would come back.
#[test]
fn a_directory_that_ends() {
    let folder = Folder::new();
    let mut image = disk(&[("ONE", 10), ("TWO", 1_000), ("THREE", 0)]).into_image();
    let bytes = image.as_bytes_mut();
    bytes[3 * 256..20 * 256].fill(99);
    bytes[3 * 256 + 1] = 0; // slot 4 was never used
    let image = folder.file("disk.mgt", image.as_bytes());
    assert_eq!(on("check", &image, NONE).done(), ACCEPTED);
    let last = "\n3 files, 1556 sectors free: room for a file of 793551 bytes\n4 directory tracks: 80 slots, 77 free\n";
    assert!(on("list", &image, NONE).done().ends_with(last));
    let planned = "\
number  track  sector
    84      4       5
     2      0       3
     1      0       2
3 sectors would be written, in this order; nothing is written
";
    assert_eq!(on("save", &image, ["FOUR", "/dev/null", "--dry-run"]).done(), planned);
    assert_eq!(
        on("save", &image, ["FOUR", "/dev/null"]).done(),
        "saved FOUR: 3 sectors written\n"
    );
    let bytes = fs::read(&image).unwrap();
    assert_eq!(bytes[4 * 256..][..3], [0, 0, 99]);
    let last = "\n4 files, 1555 sectors free: room for a file of 793041 bytes\n4 directory tracks: 80 slots, 76 free\n";
    assert!(on("list", &image, NONE).done().ends_with(last));
    assert_eq!(
        on("save", &image, ["FIVE", "/dev/null"]).done(),
        "saved FIVE: 2 sectors written\n"
    );
}

/// A disk with the files ONE and TWO, of which TWO says in its slot and in its header that it has so many bytes.
fn shortened(length: u16) -> Vec<u8> {
    let mut bytes = disk(&[("ONE", 10), ("TWO", 1_000)]).into_image().into_bytes();
    // ONE takes one sector, so TWO begins at track 4, sector 2.
    for place in [256 + 240, 81 * 512 + 1] {
        bytes[place..place + 2].copy_from_slice(&length.to_le_bytes());
    }
    bytes
}

#[test]
fn check_before_a_release() {
    let folder = Folder::new();
    let words = "refusal 22 at slot 2: carried kind, and the count is above the least that its length needs \
                 (waste sectors behind the file)";
    for length in [0, 501, 502, 1_000] {
        let image = folder.file("disk.mgt", &shortened(length));
        assert_eq!(on("check", &image, NONE).done(), ACCEPTED);
        let run = on("check", &image, ["--release"]);
        match length {
            ..=501 => run.fails(1, &format!("disk.mgt: {words}: TWO has 2 sectors and needs 1\n")),
            _ => assert_eq!(run.done(), ACCEPTED),
        }
        on("list", &image, ["--release"]).fails(2, "`list` has no option `--release`");
    }
    // What else is wrong behind it does not hide it; then the file is not named.
    let mut bytes = shortened(1);
    bytes[512..514].copy_from_slice(&[63, b'X']);
    let image = folder.file("disk.mgt", &bytes);
    on("check", &image, NONE).fails(1, "disk.mgt: refusal 2 at slot 3: ");
    on("check", &image, ["--release"]).fails(1, &format!("disk.mgt: {words}\n"));
}

/// Several images: a line each, in their order, and the greatest status of all.
#[test]
fn check_of_several_images() {
    let folder = Folder::new();
    let accepted = folder.file("accepted.mgt", &shortened(1_000)).into_os_string();
    let waste = folder.file("waste.mgt", &shortened(9)).into_os_string();
    let short = folder.file("short.mgt", b"PK\x03\x04").into_os_string();
    let missing = folder.path("missing.mgt").into_os_string();
    let check = |words: &[&OsString]| run([&"check".into()].into_iter().chain(words.iter().copied()));
    let (release, name) = (OsString::from("--release"), |path: &OsString| {
        path.to_str().unwrap().to_string()
    });
    let accepted_line = |path: &OsString| format!("{}: {ACCEPTED}", name(path));

    assert_eq!(
        check(&[&accepted, &waste]).done(),
        accepted_line(&accepted) + &accepted_line(&waste)
    );
    assert_eq!(
        check(&[&release, &accepted, &accepted, &accepted]).done(),
        accepted_line(&accepted).repeat(3)
    );
    let run = check(&[&accepted, &waste, &release, &accepted]);
    assert_eq!((run.status, run.text()), (1, accepted_line(&accepted).repeat(2).as_str()));
    assert_eq!(run.err.lines().count(), 1, "{}", run.err);
    assert!(
        run.err
            .starts_with(&format!("varnucht: {}: refusal 22 at slot 2: ", name(&waste))),
        "{}",
        run.err
    );

    // Nothing stops the rest from being checked.
    let run = check(&[&missing, &accepted, &short, &release, &waste]);
    assert_eq!((run.status, run.text()), (3, accepted_line(&accepted).as_str()));
    let said: Vec<&str> = run.err.lines().collect();
    assert_eq!(said.len(), 4, "{}", run.err);
    assert!(said[0].contains("missing.mgt: No such file") && said[1].contains("short.mgt: refusal 1: "));
    assert!(said[2].starts_with("It looks like a file packed with zip") && said[3].contains("waste.mgt: refusal 22 "));
    let run = check(&[&waste, &short]);
    assert_eq!((run.status, run.text()), (1, accepted_line(&waste).as_str()));

    // Standard input is one of them, once.
    let piped = fed([&"check".into(), &accepted, &"-".into()], &shortened(9));
    assert_eq!(piped.done(), accepted_line(&accepted) + "standard input: " + ACCEPTED);
    fed([&"check".into(), &OsString::from("-"), &accepted, &"-".into()], &shortened(9))
        .fails(2, "standard input can be read once");
    check(&[]).fails(2, "`check` takes IMAGE...: IMAGE is missing");
    assert_eq!(folder.names(), ["accepted.mgt", "short.mgt", "waste.mgt"]);
}

#[test]
fn list_is_a_table() {
    let folder = Folder::new();
    let mut disk = disk(&[("ONE", 10), ("TWO", 1_000), ("THREE", 0)]);
    drop(disk.hide(&Name::new("ONE").unwrap()).unwrap());
    drop(disk.protect(&Name::new("TWO").unwrap()).unwrap());
    let mut image = disk.into_image();
    image.as_bytes_mut()[512] = 5; // THREE becomes a snapshot
    let image = folder.file("disk.mgt", image.as_bytes());
    let table = "\
slot  marks  name   kind             sectors  length  start
   1  h-     ONE    code                   1      10  32768
   2  -p     TWO    code                   2    1000  32768
   3  --     THREE  ZX snapshot 48K        1       -      -
3 files, 1556 sectors free: room for a file of 793551 bytes
4 directory tracks: 80 slots, 77 free
";
    assert_eq!(on("list", &image, NONE).done(), table);
    let blank = folder.path("blank.mgt");
    on("blank", &blank, NONE).done();
    let none = "\
slot  marks  name  kind  sectors  length  start
0 files, 1560 sectors free: room for a file of 795591 bytes
4 directory tracks: 80 slots, 80 free
";
    assert_eq!(on("list", &blank, NONE).done(), none);
}

/// Spectrum files: length and start are those of the file's header, and the body is read by it.
#[test]
fn spectrum_files_are_listed_and_read() {
    let folder = Folder::new();
    let files = [
        ("BASIC", 400),
        ("NUMBERS", 30),
        ("STRINGS", 501),
        ("GENERIC", 700),
        ("SNAP", 9),
        ("CODE", 10),
    ];
    let mut bytes = disk(&files).into_image().into_bytes();
    let headers = [
        (1, 80, 400, 23_755),
        (2, 81, 0, 0),
        (3, 82, 501, 65_535),
        (4, 83, 1_011, 32_768),
    ];
    for (slot, (kind, sector, length, start)) in headers.into_iter().enumerate() {
        let (length, start): (u16, u16) = (length, start);
        bytes[slot * 256] = kind;
        bytes[sector * 512 + 1..][..2].copy_from_slice(&length.to_le_bytes());
        bytes[sector * 512 + 3..][..2].copy_from_slice(&start.to_le_bytes());
    }
    bytes[4 * 256] = 5;
    let image = folder.file("disk.mgt", &bytes);
    let table = "\
slot  marks  name     kind              sectors  length  start
   1  --     BASIC    ZX BASIC                1     400  23755
   2  --     NUMBERS  ZX numeric array        1       0      0
   3  --     STRINGS  ZX string array         1     501  65535
   4  --     GENERIC  ZX generic              2    1011  32768
   5  --     SNAP     ZX snapshot 48K         1       -      -
   6  --     CODE     code                    1      10  32768
6 files, 1553 sectors free: room for a file of 792021 bytes
4 directory tracks: 80 slots, 74 free
";
    assert_eq!(on("list", &image, NONE).done(), table);
    assert_eq!(on("read", &image, ["basic"]).out, body(400));
    assert_eq!(on("read", &image, ["STRINGS"]).out, body(501));
    assert_eq!(on("read", &image, ["NUMBERS"]).done(), "");
    let generic = on("read", &image, ["GENERIC"]);
    assert_eq!((generic.out.len(), &generic.out[..700]), (1_011, &body(700)[..]));
    let words = "the kind asked for (save) or found (read, start address, tree, gather) is not one that this call takes\n";
    on("read", &image, ["SNAP"]).fails(1, &format!("SNAP: refusal 13 at slot 5: {words}"));
    on("save", &image, ["NEW", "/dev/null", "--kind", "4"]).fails(1, &format!("NEW: refusal 13: {words}"));
    // A length that its sectors do not hold.
    bytes[82 * 512 + 1..][..2].copy_from_slice(&502u16.to_le_bytes());
    let image = folder.file("disk.mgt", &bytes);
    let said = "refusal 25 at slot 3: kind 1 to 4, and 510 × count is below 9 + the length in the header\n";
    on("check", &image, NONE).fails(1, said);
    on("list", &image, NONE).fails(1, said);
}

#[test]
fn list_of_a_full_disk() {
    let folder = Folder::new();
    let image = folder.image(&disk(&[("LONG", LONGEST_BODY)]));
    let table = on("list", &image, NONE);
    let last = "\n1 file, no sector free: no room for a file\n4 directory tracks: 80 slots, 79 free\n";
    assert!(table.done().ends_with(last), "{}", table.text());
    let files: Vec<(String, usize)> = (1..=80).map(|number| (format!("FILE{number}"), 0)).collect();
    let table = on("list", &folder.image(&disk(&files)), NONE);
    let last = "\n80 files, 1480 sectors free, but no slot: no room for a file\n4 directory tracks: 80 slots, 0 free\n";
    assert!(table.done().ends_with(last), "{}", table.text());
}
