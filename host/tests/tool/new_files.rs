//! Files that the tool makes: who may read them, what becomes of an older one's rights and links, and what a signal leaves.
//! `interpose.c`, loaded in front of the system's library, looks or sends a signal in the middle of the work.
use crate::support::*;
use std::fs;
use std::os::unix::fs::{MetadataExt, PermissionsExt};
use std::os::unix::process::ExitStatusExt;
use std::path::Path;
use std::process::{Command, Output, Stdio};

/// The rights of a file, with setuid, setgid and sticky.
fn rights(path: &Path) -> u32 {
    fs::metadata(path).unwrap().mode() & 0o7777
}

/// An image with a file TUNES, and an older file with these rights.
fn fixture(mode: u32) -> Folder {
    let folder = Folder::new();
    folder.image(&disk(&[("TUNES", 20_000)]));
    let older = folder.file("older", b"older");
    fs::set_permissions(&older, fs::Permissions::from_mode(mode)).unwrap();
    folder
}

/// Runs the tool in the folder, as the shell starts it after the line `before`, with a line run in the middle of its work.
fn interposed(folder: &Folder, library: &Path, before: &str, words: &str, at: &str, line: &str) -> Output {
    let script = format!("{before}; LD_PRELOAD=\"$0\" exec \"$@\"");
    let mut shell = Command::new("sh");
    shell.args(["-c", &script]).arg(library).arg(TOOL).args(words.split(' '));
    shell
        .env("INTERPOSE_AT", at)
        .env("INTERPOSE_LINE", line)
        .current_dir(folder.path(""));
    with_signals(&mut shell)
        .stdin(Stdio::null())
        .output()
        .expect("the shell runs")
}

/// Lines that make a file, its name, and the rights that it has in the end with the mask 027.
const MADE: [(&str, &str, u32); 4] = [
    ("read disk.mgt TUNES -o new", "new", 0o640),
    ("read disk.mgt TUNES -o new --force", "new", 0o640),
    ("read disk.mgt TUNES -o older --force", "older", 0o666),
    ("blank new", "new", 0o640),
];

/// The owner of the new file is another: what the older one could do as its own owner is not handed on.
#[test]
fn an_older_files_special_bits_are_not_kept() {
    for mode in [0o4755, 0o2755, 0o1777, 0o6711, 0o7777, 0o640, 0o600, 0o444] {
        let folder = fixture(mode);
        on(
            "read",
            &folder.path("disk.mgt"),
            ["TUNES".into(), "--force".into(), "-o".into(), folder.path("older")],
        )
        .done();
        assert!(fs::read(folder.path("older")).unwrap() == body(20_000));
        assert_eq!(rights(&folder.path("older")), mode & 0o777, "{mode:o}");
    }
}

/// As long as it is not whole nobody else can open it.
#[test]
fn a_file_is_closed_to_others_until_it_is_whole() {
    let made = Folder::new();
    let library = library(&made, "interpose.c");
    for (words, name, mode) in MADE {
        let folder = fixture(0o666);
        let command = "stat -c '%a %s' .varnucht-*.part > seen";
        let run = Run::of(interposed(&folder, &library, "umask 027", words, "write 1", command));
        assert_eq!((run.status, run.err.as_str()), (0, ""), "{words}");
        assert_eq!(fs::read_to_string(folder.path("seen")).unwrap(), "600 0\n", "{words}");
        assert_eq!(rights(&folder.path(name)), mode, "{words}");
    }
}

/// The bytes come in a new file, so that an older one is there whole until then; its other names keep leading to it.
#[test]
fn hard_links_are_split_and_that_is_said() {
    let folder = fixture(0o644);
    fs::hard_link(folder.path("older"), folder.path("second")).unwrap();
    let words = ["TUNES".into(), "--force".into(), "-o".into(), folder.path("older")];
    let run = on("read", &folder.path("disk.mgt"), words.clone());
    assert_eq!((run.status, run.text()), (0, ""));
    assert!(
        run.err
            .ends_with("older: it had 2 hard links, and this one alone leads to the new bytes\n"),
        "{}",
        run.err
    );
    assert!(fs::read(folder.path("older")).unwrap() == body(20_000));
    assert_eq!(fs::read(folder.path("second")).unwrap(), b"older");
    on("read", &folder.path("disk.mgt"), words).done();
    assert!(run_help("read").contains("hard links"), "the help says so");
}

fn run_help(command: &str) -> String {
    run(["help", command]).done().to_string()
}

/// The signals that end a program which a user or the system wants no more.
const SIGNALS: [(&str, i32); 3] = [("HUP", 1), ("INT", 2), ("TERM", 15)];

/// Before the name is given nothing is made or replaced, and nothing is left beside it; afterwards the file is whole.
#[test]
fn a_signal_leaves_no_part() {
    let made = Folder::new();
    let library = library(&made, "interpose.c");
    for (signal, number) in SIGNALS {
        for (words, name, _) in MADE {
            for (at, named) in [("write 1", false), ("flush 1", false), ("flush 2", true)] {
                let folder = fixture(0o644);
                let output = interposed(&folder, &library, "true", words, at, &format!("kill -{signal} $PPID"));
                let case = format!("{signal} at {at}: {words}");
                assert_eq!(output.status.signal(), Some(number), "{case}: {}", output.status);
                assert!(
                    !folder.names().iter().any(|name| name.contains("part")),
                    "{case}: {:?}",
                    folder.names()
                );
                let there = fs::read(folder.path(name)).ok();
                let expected = match (named, name) {
                    (true, _) if words.starts_with("blank") => Some(vec![0; 819_200]),
                    (true, _) => Some(body(20_000)),
                    (false, "older") => Some(b"older".to_vec()),
                    (false, _) => None,
                };
                assert!(there == expected, "{case}");
                let said = format!("{name}: the signal {signal} came: nothing is made or replaced\n");
                assert_eq!(String::from_utf8_lossy(&output.stderr).ends_with(&said), !named, "{case}");
            }
        }
    }
}

/// A signal that is to be ignored, as `nohup` asks for, stays ignored.
#[test]
fn an_ignored_signal_is_none() {
    let made = Folder::new();
    let library = library(&made, "interpose.c");
    for (signal, _) in SIGNALS {
        let (before, line) = (format!("trap '' {signal}"), format!("kill -{signal} $PPID"));
        let folder = fixture(0o644);
        for words in ["read disk.mgt TUNES -o new", "hide disk.mgt TUNES"] {
            let run = Run::of(interposed(&folder, &library, &before, words, "flush 1", &line));
            assert_eq!((run.status, run.err.as_str()), (0, ""), "{signal}: {words}");
        }
        assert!(fs::read(folder.path("new")).unwrap() == body(20_000));
    }
}

/// A save stops between two sectors, says so, and ends by the signal; where the last is written it is a save.
#[test]
fn a_signal_stops_a_save_between_two_sectors() {
    let made = Folder::new();
    let library = library(&made, "interpose.c");
    let old = disk(&[("ONE", 10)]);
    for (signal, number) in SIGNALS {
        for at in [1, 3, 4, 5] {
            let folder = Folder::new();
            let image = folder.image(&old);
            folder.file("body", &body(2_000));
            let line = format!("kill -{signal} $PPID");
            let output = interposed(
                &folder,
                &library,
                "true",
                "save disk.mgt NEW body",
                &format!("flush {at}"),
                &line,
            );
            let (out, err) = (
                String::from_utf8_lossy(&output.stdout),
                String::from_utf8_lossy(&output.stderr),
            );
            assert_eq!(output.status.signal(), Some(number), "{at}: {err}");
            if at < 5 {
                let said = format!(
                    "varnucht: disk.mgt: {at} of 5 sectors were written when the signal {signal} came. \
                     The old disk is still there and reads as before.\n"
                );
                assert_eq!((&*out, &*err), ("", &*said));
                assert!(disk_in(&image).listing() == old.listing());
            } else {
                assert_eq!((&*out, &*err), ("saved NEW: 5 sectors written\n", ""));
                assert_eq!(disk_in(&image).listing().entries().len(), 2);
            }
        }
    }
}
