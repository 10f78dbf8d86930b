//! The sample disk: the script makes it anew, byte for byte, and the tool prints of it what is kept beside it. The lines for
//! the shell in the README, run as they are printed.
#[path = "tool/support.rs"]
mod support;

use std::env;
use std::ffi::OsString;
use std::fs;
use std::path::{Path, PathBuf};
use std::process::{Command, Stdio};
use support::*;
use varnucht::Name;

/// A file of the folder with the samples.
fn sample(name: &str) -> PathBuf {
    PathBuf::from(env!("CARGO_MANIFEST_DIR")).join("../samples").join(name)
}

#[test]
fn the_script_makes_the_disk_anew() {
    let folder = Folder::new();
    let image = folder.path("sample.mgt");
    let made = Command::new("sh")
        .arg(sample("make.sh"))
        .arg(&image)
        .env("VARNUCHT", TOOL)
        .output()
        .expect("the shell runs");
    let run = Run::of(made);
    assert_eq!((run.status, run.err.as_str()), (0, ""), "{run:?}");
    assert!(
        fs::read(&image).unwrap() == fs::read(sample("sample.mgt")).unwrap(),
        "the disk is another"
    );
}

#[test]
fn the_tool_prints_what_is_kept() {
    let image = sample("sample.mgt");
    assert_eq!(on("check", &image, NONE).done(), ACCEPTED);
    assert_eq!(on("check", &image, ["--release"]).done(), ACCEPTED);
    assert_eq!(
        on("list", &image, NONE).done(),
        fs::read_to_string(sample("list.txt")).unwrap()
    );
    assert_eq!(on("map", &image, NONE).done(), fs::read_to_string(sample("map.txt")).unwrap());
    assert_eq!(
        on("report", &image, NONE).done(),
        fs::read_to_string(sample("report.txt")).unwrap()
    );
}

/// The bodies are those that the script says: the bytes 0 to 255 again and again, and a screen of stripes.
#[test]
fn the_bodies_read_back() {
    let image = sample("sample.mgt");
    let disk = disk_in(&image);
    for entry in disk.listing().entries() {
        let length = entry.length().expect("all kinds are carried") as usize;
        let expected: Vec<u8> = match entry.name().to_string().as_str() {
            "TITLE" => [vec![0x55; 6_144], vec![0x38; 768]].concat(),
            _ => (0..length).map(|place| place as u8).collect(),
        };
        assert!(disk.read(&entry.name()).unwrap() == expected, "{}", entry.name());
        assert!(on("read", &image, [entry.name().to_string()]).out == expected);
    }
    let kinds: Vec<u8> = disk.listing().entries().iter().map(|entry| entry.kind().number()).collect();
    assert!((16..=20).all(|kind| kinds.contains(&kind)), "every carried kind is there");
    let marks = |name: &str| {
        disk.listing()
            .find(&Name::new(name).unwrap())
            .map(|entry| (entry.hidden(), entry.protected()))
    };
    assert_eq!(
        (marks("SECRET"), marks("MASTER"), marks("AUTO")),
        (Some((true, false)), Some((false, true)), Some((false, false)))
    );
    assert_eq!((marks("DRAFT"), marks("TEMP")), (None, None));
    println!("{} files", kinds.len());
}

/// The lines of the README's block for the shell.
fn shell_lines() -> Vec<String> {
    let readme = fs::read_to_string(Path::new(env!("CARGO_MANIFEST_DIR")).join("../README.md")).expect("the README");
    let (_, after) = readme.split_once("\n## From the shell\n").expect("it has the section");
    // A block of a later section is another.
    let section = after.split("\n## ").next().unwrap_or_default();
    let block = section.lines().skip_while(|line| *line != "```sh").skip(1);
    block
        .take_while(|line| *line != "```")
        .filter(|line| !line.is_empty())
        .map(String::from)
        .collect()
}

/// PATH with the tool's folder in front.
fn path_to_tool() -> OsString {
    let tool = Path::new(TOOL).parent().expect("the tool is in a folder").to_path_buf();
    let others = env::var_os("PATH").unwrap_or_default();
    env::join_paths([tool].into_iter().chain(env::split_paths(&others))).expect("a path of folders")
}

#[test]
fn the_readmes_lines_run_as_they_are_printed() {
    let folder = Folder::new();
    folder.file("tunes.bin", &body(10_000));
    let lines = shell_lines();
    assert!(!lines.is_empty(), "the README has no lines for the shell");
    for line in &lines {
        let mut shell = Command::new("sh");
        shell
            .args(["-c", line])
            .current_dir(folder.path(""))
            .env("PATH", path_to_tool());
        let run = Run::of(shell.stdin(Stdio::null()).output().expect("the shell runs"));
        assert_eq!((run.status, run.err.as_str()), (0, ""), "{line}");
    }
    assert!(fs::read(folder.path("copy.bin")).expect("the copy is there") == body(10_000));
    assert!(fs::read(folder.path("files/TUNES")).expect("it is extracted") == body(10_000));
    let left = [
        "big.mgt",
        "copy.bin",
        "files",
        "map.svg",
        "new.mgt",
        "other.mgt",
        "rescued.mgt",
        "tunes.bin",
    ];
    assert_eq!(folder.names(), left);
    println!("{} lines", lines.len());
}
