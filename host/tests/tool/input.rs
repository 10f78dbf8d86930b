//! Bad input of many kinds: every one is answered, with the status that the help names, and nothing changes.
use crate::support::*;
use std::ffi::OsString;
use std::fs::{self, File};
use std::os::unix::ffi::OsStringExt;
use std::time::Instant;

#[test]
fn images_of_every_length() {
    let folder = Folder::new();
    let lengths = [0, 1, 255, 512, 40_960, 819_199, 819_201, 1_638_400, 8 << 30];
    for length in lengths {
        let image = folder.path("disk.mgt");
        File::create(&image).unwrap().set_len(length).unwrap();
        let began = Instant::now();
        for command in ["check", "list", "tree", "map"] {
            on(command, &image, NONE).fails(1, "disk.mgt: refusal 1: the image is not 819,200 bytes: it has ");
        }
        on("read", &image, ["ONE"]).fails(1, "refusal 1: ");
        on("sector", &image, ["0", "1"]).fails(1, "refusal 1: ");
        for command in ["erase", "hide", "show", "protect", "release", "gather"] {
            on(command, &image, ["ONE"]).fails(1, "refusal 1: ");
            on(command, &image, ["ONE", "--dry-run"]).fails(1, "refusal 1: ");
        }
        on("gather", &image, ["--all"]).fails(1, "refusal 1: ");
        on("save", &image, ["ONE", "/dev/null"]).fails(1, "refusal 1: ");
        on("record", &image, ["ONE"]).fails(1, "refusal 1: ");
        on("rename", &image, ["ONE", "TWO"]).fails(1, "refusal 1: ");
        assert_eq!(fs::metadata(&image).unwrap().len(), length, "its length stays");
        assert!(began.elapsed().as_secs() < 10, "a long file is not read whole");
    }
}

#[test]
fn images_of_every_content() {
    let folder = Folder::new();
    let (mut accepted, mut refused) = (0, 0);
    for seed in 0..60u32 {
        // An accepted disk with some bytes of its directory and of its first data track changed.
        let mut bytes = disk(&[("ONE", 5_000), ("TWO", 300)]).into_image().into_bytes();
        for change in 0..seed % 4 {
            let mixed = (seed * 4 + change).wrapping_mul(2_654_435_761);
            let place = if mixed & 1 == 0 {
                mixed as usize % 512
            } else {
                40_960 + mixed as usize % 5_120
            };
            bytes[place] ^= (mixed >> 24) as u8 | 1;
        }
        let image = folder.file("disk.mgt", &bytes);
        let check = on("check", &image, NONE);
        for run in [on("list", &image, NONE), on("map", &image, NONE)] {
            assert_eq!((run.status, &run.err), (check.status, &check.err));
        }
        if check.status == 0 {
            accepted += 1
        } else {
            refused += 1
        }
        assert!(fs::read(&image).unwrap() == bytes);
    }
    println!("{accepted} accepted, {refused} refused");
    assert!(accepted > 10 && refused > 10);
}

#[test]
fn what_is_no_file() {
    let folder = Folder::new();
    let directory = folder.path("");
    let missing = folder.path("missing.mgt");
    for command in ["check", "list", "tree", "map"] {
        on(command, &directory, NONE).fails(3, "directory");
        on(command, &missing, NONE).fails(3, "missing.mgt: No such file");
    }
    let changes: [(&str, &[&str]); 4] = [
        ("erase", &["A"]),
        ("save", &["A", "/dev/null"]),
        ("record", &["A"]),
        ("rename", &["A", "B"]),
    ];
    for (command, words) in changes {
        on(command, &directory, words).fails(3, "directory");
        on(command, &missing, words).fails(3, "missing.mgt: No such file");
    }
    on("check", "/dev/zero".as_ref(), NONE).fails(1, "refusal 1: ");
    on("check", "/dev/null".as_ref(), NONE).fails(1, "refusal 1: ");
    on("hide", "/dev/zero".as_ref(), ["A"]).fails(3, "it is not a file");
    on("hide", "/dev/null".as_ref(), ["A"]).fails(3, "it is not a file");
    on("check", "".as_ref(), NONE).fails(3, "No such file");
    assert!(!missing.exists(), "nothing is made");
}

#[test]
fn images_and_bodies_from_a_pipe() {
    let folder = Folder::new();
    let accepted = disk(&[("ONE", 5_000)]);
    assert_eq!(fed(["check", "/dev/stdin"], accepted.image().as_bytes()).done(), ACCEPTED);
    fed(["check", "/dev/stdin"], &[0; 1_000]).fails(1, "refusal 1: ");
    let image = folder.image(&accepted);
    for file in ["/dev/zero", "/dev/urandom"] {
        on("save", &image, ["LONG", file]).fails(1, "refusal 19: fewer free sectors than the save takes\n");
    }
    on("save", &image, ["NONE", "missing"]).fails(3, "missing: No such file");
    on("save", &image, ["NONE".into(), folder.path("").into_os_string()]).fails(3, "directory");
    assert!(fs::read(&image).unwrap() == accepted.image().as_bytes());
    on("save", &image, ["EMPTY", "/dev/null"]).done();
    assert_eq!(on("read", &image, ["EMPTY"]).done(), "");
}

#[test]
fn command_lines_that_are_not_understood() {
    let folder = Folder::new();
    let image = folder.image(&disk(&[("ONE", 10)]));
    let before = fs::read(&image).unwrap();
    let image_word = image.to_str().unwrap();
    let lines: &[&[&str]] = &[
        &[],
        &[""],
        &["chek", "I"],
        &["CHECK", "I"],
        &["check"],
        &["map", "I", "more"],
        &["check", "--release"],
        &["check", "--release=1", "I"],
        &["check", "-", "-"],
        &["check", "--what", "I"],
        &["check", "-x", "I"],
        &["check", "--dry-run", "I"],
        &["check", "I", "--no-wait=1"],
        &["list", "I", "--color", "always"],
        &["map", "I", "--color"],
        &["map", "I", "--color", "blue"],
        &["map", "I", "--color=never", "--color=never"],
        &["read", "I"],
        &["read", "I", "ONE", "-o"],
        &["read", "I", "\\"],
        &["read", "I", "\\q"],
        &["read", "I", "\\x4"],
        &["read", "I", "\\xzz"],
        &["save", "I", "NEW"],
        &["save", "I", "NEW", "/dev/null", "--kind", "tune"],
        &["save", "I", "NEW", "/dev/null", "--kind", ""],
        &["save", "I", "NEW", "/dev/null", "--kind", "-1"],
        &["save", "I", "NEW", "/dev/null", "--page", "one"],
        &["save", "I", "NEW", "/dev/null", "--page", "1e3"],
        &["save", "I", "NEW", "/dev/null", "--offset", "0x"],
        &["save", "I", "NEW", "/dev/null", "--offset", " 32768"],
        &["save", "I", "NEW", "/dev/null", "--exec", "0"],
        &["save", "I", "NEW", "/dev/null", "--exec", "01020304"],
        &["save", "I", "NEW", "/dev/null", "--exec", "0g"],
        &["save", "I", "NEW", "/dev/null", "--exec", "é"],
        &["save", "I", "NEW", "/dev/null", "--info", "000102030405060708090a0b"],
        &["record", "I"],
        &["record", "I", "NEW", "/dev/null"],
        &["record", "I", "NEW", "--dry-run"],
        &["record", "I", "NEW", "--kind", "tune"],
        &["record", "-", "NEW"],
        &["erase", "I"],
        &["erase", "I", "ONE", r"\q"],
        &["hide", "I", "ONE", "TWO"],
        &["rename", "I", "ONE"],
        &["sector", "I", "0"],
        &["sector", "I", "-1", "1"],
        &["blank"],
        &["blank", "I", "--force"],
        &["help", "chek"],
        &["help", "check", "list"],
        &["--what"],
    ];
    for line in lines {
        let run = run(line.iter().map(|word| if *word == "I" { image_word } else { word }));
        run.fails(2, "Try `varnucht help");
        assert!(fs::read(&image).unwrap() == before, "{line:?}");
    }
    println!("{} command lines", lines.len());
}

/// Words that are no text, very long words, and words with control characters.
#[test]
fn words_of_any_bytes() {
    let folder = Folder::new();
    let image = folder.image(&disk(&[("ONE", 10)]));
    let before = fs::read(&image).unwrap();
    let odd = [
        vec![255],
        vec![0xc3, 0x28],
        b"\x1b[31m".to_vec(),
        vec![b'A'; 100_000],
        b"-\xff".to_vec(),
        b"--\xff=\xff".to_vec(),
    ];
    let mut runs = 0;
    for word in odd.map(OsString::from_vec) {
        for command in [
            "check", "list", "tree", "map", "read", "save", "record", "erase", "rename", "hide", "sector", "blank", "help",
        ] {
            let path = image.clone().into_os_string();
            let lines = [
                vec![word.clone()],
                vec![command.into(), word.clone()],
                vec![command.into(), path.clone(), word.clone()],
                vec![command.into(), path.clone(), word.clone(), word.clone()],
                vec![command.into(), path.clone(), "--kind".into(), word.clone()],
                vec![command.into(), path.clone(), "--color".into(), word.clone()],
            ];
            for line in lines {
                let run = Run::of(tool(&line).current_dir(folder.path("")).output().unwrap());
                assert!(run.status != 0 || command == "blank", "{line:?}");
                assert!(!run.err.contains('\x1b'), "{:?}", run.err);
                runs += 1;
            }
        }
    }
    println!("{runs} runs");
    assert!(fs::read(&image).unwrap() == before);
}
