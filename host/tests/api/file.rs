//! A disk and its file in one: opened by a path, locked, checked, and changed for good.
use super::*;
use std::fs::{self, File};
use std::io::ErrorKind;
use std::path::PathBuf;
use varnucht::{DiskFile, FileError, Refusal, WriteError};

/// A file for one test, which goes away with it.
struct TempFile(PathBuf);

impl TempFile {
    fn new(called: &str, bytes: &[u8]) -> TempFile {
        let path = std::env::temp_dir().join(format!("varnucht-api-{called}-{}", std::process::id()));
        fs::write(&path, bytes).expect("the file is made");
        TempFile(path)
    }

    fn bytes(&self) -> Vec<u8> {
        fs::read(&self.0).expect("the file is there")
    }
}

impl Drop for TempFile {
    fn drop(&mut self) {
        let _ = fs::remove_file(&self.0);
    }
}

#[test]
fn changes_are_in_the_file_when_they_return() {
    let temp = TempFile::new("changes", pair().image().as_bytes());
    let body = body(2_000);
    assert_eq!(DiskFile::open(&temp.0).unwrap().save(&code("NEW", &body)).unwrap(), 5);
    let mut file = DiskFile::open(&temp.0).unwrap();
    assert!(file.disk().read(&name("new")).unwrap() == body);
    let new = NewName::new("OTHER").unwrap();
    type Made = fn(&mut DiskFile, &NewName) -> Result<usize, FileError>;
    let changes: [Made; 7] = [
        |file, _| file.hide(&name("NEW")),
        |file, _| file.show(&name("NEW")),
        |file, _| file.protect(&name("NEW")),
        |file, _| file.release(&name("NEW")),
        |file, new| file.rename(&name("NEW"), new),
        |file, _| file.erase(&name("ONE")),
        |file, new| file.gather(&new.name()),
    ];
    for (place, change) in changes.into_iter().enumerate() {
        let before = temp.bytes();
        let many = change(&mut file, &new).unwrap();
        assert!(temp.bytes() == file.disk().image().as_bytes(), "{place}");
        assert_eq!(temp.bytes() == before, many == 0, "{place}");
    }
    let answers = file.erase_many(&[name("TWO"), name("NONE"), new.name()]).unwrap();
    assert_eq!(answers, [Ok(()), Err(Refusal::NotFound), Ok(())]);
    assert!(temp.bytes() == file.disk().image().as_bytes());
    assert_eq!(file.into_disk().listing().entries().len(), 0);
}

#[test]
fn what_is_refused_leaves_the_file() {
    let temp = TempFile::new("refused", pair().image().as_bytes());
    let before = temp.bytes();
    let mut file = DiskFile::open(&temp.0).unwrap();
    let refused = file.erase(&name("NONE")).unwrap_err();
    assert!(matches!(refused, FileError::Refused(refused) if refused.refusal.number() == 15));
    assert_eq!(
        file.hide(&name("NONE")).unwrap_err().to_string(),
        "refusal 15: no live slot has the name, capitals or not"
    );
    assert!(temp.bytes() == before);
    for (bytes, number) in [(&before[..3], 1), (&damaged(&[(0, 13)]).as_bytes()[..], 2)] {
        let temp = TempFile::new("not-accepted", bytes);
        let error = DiskFile::open(&temp.0).unwrap_err();
        assert!(matches!(error, FileError::Refused(refused) if refused.refusal.number() == number));
    }
    let long = TempFile::new("long", &vec![0; 900_000]);
    assert!(matches!(DiskFile::open(&long.0), Err(FileError::Refused(_))));
    assert!(matches!(DiskFile::open("/nowhere/disk.mgt"), Err(FileError::Io(error)) if error.kind() == ErrorKind::NotFound));
    assert!(matches!(DiskFile::open("/dev/null"), Err(FileError::Io(_))));
}

#[test]
fn the_file_is_locked() {
    let temp = TempFile::new("locked", pair().image().as_bytes());
    let file = DiskFile::open(&temp.0).unwrap();
    let error = DiskFile::try_open(&temp.0).unwrap_err();
    assert!(matches!(error, FileError::Io(error) if error.kind() == ErrorKind::WouldBlock));
    assert!(File::open(&temp.0).unwrap().try_lock_shared().is_err());
    drop(file);
    assert!(DiskFile::try_open(&temp.0).is_ok());
}

/// Another program that heeds no lock changes the file: what is in memory is read anew.
#[test]
fn a_disk_is_read_anew() {
    let temp = TempFile::new("anew", pair().image().as_bytes());
    let mut file = DiskFile::open(&temp.0).unwrap();
    let mut other = pair();
    drop(other.erase(&name("ONE")).unwrap());
    fs::write(&temp.0, other.image()).unwrap();
    assert_eq!(file.disk().listing().entries().len(), 2);
    file.reload().unwrap();
    assert_eq!(file.disk().listing().entries().len(), 1);
    fs::write(&temp.0, b"").unwrap();
    assert!(file.reload().is_err());
    assert_eq!(file.disk().listing().entries().len(), 1, "what is in memory stays");
    let error = FileError::from(WriteError::Skipped);
    assert!(error.to_string().starts_with("nothing was written"));
}
