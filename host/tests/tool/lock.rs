//! Locks: two programs that change one image at once lose nothing.
use crate::support::*;
use std::fs::{self, File};
use std::io::{BufRead, BufReader, Read};
use std::process::{Child, Stdio};
use std::time::Duration;

/// Starts the tool and leaves it running.
fn start(words: &[&str]) -> Child {
    tool(words)
        .stdout(Stdio::piped())
        .stderr(Stdio::piped())
        .spawn()
        .expect("the tool runs")
}

/// A tool that waits for a lock: says so, does nothing, and goes on when the lock is gone.
fn waits(words: &[&str], lock: File) -> Run {
    let mut child = start(words);
    let mut err = BufReader::new(child.stderr.take().unwrap());
    let mut said = String::new();
    err.read_line(&mut said).unwrap();
    assert!(
        said.contains("disk.mgt: waiting for another program that has locked it\n"),
        "{said}"
    );
    std::thread::sleep(Duration::from_millis(100));
    assert!(child.try_wait().unwrap().is_none(), "it waits");
    lock.unlock().unwrap();
    err.read_to_string(&mut said).unwrap();
    let output = child.wait_with_output().unwrap();
    Run {
        status: output.status.code().expect("no signal ended it"),
        out: output.stdout,
        err: said,
    }
}

#[test]
fn a_change_waits_for_a_lock() {
    let folder = Folder::new();
    let image = folder.image(&disk(&[("ONE", 10)]));
    let path = image.to_str().unwrap();
    age(&image);
    let before = state(&image);
    for shared in [false, true] {
        let lock = File::open(&image).unwrap();
        if shared {
            lock.lock_shared().unwrap()
        } else {
            lock.lock().unwrap()
        }
        run_soon(["hide", path, "ONE", "--no-wait"]).fails(3, "disk.mgt: another program has locked it\n");
        assert!(state(&image) == before);
    }
    let lock = File::open(&image).unwrap();
    lock.lock().unwrap();
    let run = waits(&["hide", path, "ONE"], lock);
    assert_eq!((run.status, run.text()), (0, "hid ONE: 1 sector written\n"));
    assert!(disk_in(&image).listing().entries()[0].hidden());
}

/// What is read is read while nobody writes; readers do not wait for each other.
#[test]
fn reading_waits_for_a_change_alone() {
    let folder = Folder::new();
    let image = folder.image(&disk(&[("ONE", 10)]));
    let path = image.to_str().unwrap();
    let lock = File::open(&image).unwrap();
    lock.lock_shared().unwrap();
    for words in [
        &["list", path][..],
        &["tree", path],
        &["check", path],
        &["map", path],
        &["sector", path, "0", "1"],
        &["erase", path, "ONE", "--dry-run"],
    ] {
        assert_eq!(run_soon(words.iter().copied().chain(["--no-wait"])).err, "", "{words:?}");
    }
    drop(lock);
    for words in [
        &["check", path][..],
        &["read", path, "ONE"],
        &["erase", path, "ONE", "--dry-run"],
    ] {
        let lock = File::open(&image).unwrap();
        lock.lock().unwrap();
        run_soon(words.iter().copied().chain(["--no-wait"])).fails(3, "another program has locked it");
        assert_eq!(waits(words, lock).status, 0);
    }
}

/// The lock is held from before the disk is read: a change that waits sees what the one before it wrote.
#[test]
fn a_change_that_waited_sees_the_change_before() {
    let folder = Folder::new();
    let image = folder.image(&disk(&[("ONE", 10)]));
    let lock = File::open(&image).unwrap();
    lock.lock().unwrap();
    let path = image.to_str().unwrap();
    let mut child = start(&["rename", path, "TWO", "THREE"]);
    let mut said = String::new();
    BufReader::new(child.stderr.take().unwrap()).read_line(&mut said).unwrap();
    assert!(said.contains("waiting"));
    let renamed = disk(&[("TWO", 10)]);
    fs::write(&image, renamed.image().as_bytes()).unwrap();
    lock.unlock().unwrap();
    assert_eq!(
        child.wait_with_output().unwrap().stdout,
        b"renamed TWO to THREE: 1 sector written\n"
    );
    assert_eq!(disk_in(&image).listing().entries()[0].name().to_string(), "THREE");
}

/// Many tools at once on one image: every change is there in the end.
#[test]
fn many_at_once_lose_nothing() {
    const MANY: usize = 16;
    let folder = Folder::new();
    let image = folder.image(&disk(&[("OLD", 3_000)]));
    let path = image.to_str().unwrap();
    let children: Vec<Child> = (0..MANY)
        .map(|number| {
            let file = folder.file(&format!("body{number}"), &body(600 * number));
            start(&["save", path, &format!("NEW{number}"), file.to_str().unwrap()])
        })
        .collect();
    for child in children {
        let output = child.wait_with_output().unwrap();
        assert!(output.status.success(), "{}", String::from_utf8_lossy(&output.stderr));
    }
    assert_eq!(disk_in(&image).listing().entries().len(), MANY + 1);
    for number in 0..MANY {
        assert!(on("read", &image, [format!("NEW{number}")]).out == body(600 * number));
    }
    assert!(on("read", &image, ["OLD"]).out == body(3_000));
    println!("{MANY} saves at once");
}
