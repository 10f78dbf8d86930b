//! A change written sector by sector gives the disk of memory; cut short, the old disk; refused, nothing.
use super::*;
use std::fs::{self, File};
use std::io;
use varnucht::{Change, LONGEST_BODY, SECTOR_LENGTH, Store, WriteError};

/// A disk in memory, and a file that follows it.
struct Followed {
    disk: Disk,
    file: File,
    path: std::path::PathBuf,
}

impl Followed {
    fn new(disk: Disk, called: &str) -> Followed {
        let path = std::env::temp_dir().join(format!("varnucht-api-{}-{called}.mgt", std::process::id()));
        fs::write(&path, disk.image().as_bytes()).expect("the file is made");
        let file = File::options().read(true).write(true).open(&path).expect("the file is there");
        Followed { disk, file, path }
    }

    /// Makes a change in memory and in the file.
    fn change(&mut self, change: &Change) -> Result<usize, Refused> {
        let before = self.disk.image().clone();
        let planned = self.disk.try_change(change);
        assert!(self.disk.image() == &before, "a trial leaves the disk as it is");
        let mut steps = Vec::new();
        let sectors = self.disk.change(change);
        assert_eq!(
            planned,
            sectors
                .as_ref()
                .map(|sectors| sectors.numbers().to_vec())
                .map_err(|refused| *refused)
        );
        sectors?
            .write_to(&mut self.file, |written, of| steps.push((written, of)))
            .expect("the file takes them");
        let of = steps.len();
        assert!(steps.into_iter().eq((1..=of).map(|written| (written, of))));
        assert!(
            fs::read(&self.path).unwrap() == self.disk.image().as_bytes(),
            "the file is the disk of memory"
        );
        Ok(of)
    }
}

impl Drop for Followed {
    fn drop(&mut self) {
        let _ = fs::remove_file(&self.path);
    }
}

#[test]
fn a_file_follows_the_disk_of_memory() {
    let (one, two, new) = (name("ONE"), name("TWO"), NewName::new("NEW NAME").unwrap());
    let mut followed = Followed::new(pair(), "follows");
    let long = body(3_000);
    assert_eq!(followed.change(&Change::Save(code("LONG", &long))), Ok(7));
    for (change, hidden, protected) in [
        (Change::Hide(one), true, false),
        (Change::Hide(one), true, false),
        (Change::Protect(one), true, true),
        (Change::Show(one), false, true),
        (Change::Release(one), false, false),
    ] {
        assert_eq!(followed.change(&change), Ok(1));
        let entry = followed.disk.listing().find(&one).unwrap();
        assert_eq!((entry.hidden(), entry.protected()), (hidden, protected));
    }
    assert_eq!(followed.change(&Change::Rename(one, new)), Ok(1));
    assert_eq!(followed.change(&Change::Erase(two)), Ok(1));
    assert_eq!(
        followed.change(&Change::Erase(two)).map_err(|refused| parts(refused).0),
        Err(15)
    );
    assert_eq!(followed.change(&Change::Save(code("AGAIN", &long))), Ok(7));
    let names: Vec<String> = followed
        .disk
        .listing()
        .entries()
        .iter()
        .map(|entry| entry.name().to_string())
        .collect();
    assert_eq!(names, ["NEW NAME", "AGAIN", "LONG"]);
    assert!(followed.disk.read(&name("AGAIN")).unwrap() == long);
    assert!(followed.disk.read(&new.name()).unwrap() == body(1_000));
}

/// A file may be given its own name with other capitals; what is stored is what was given.
#[test]
fn a_file_is_renamed_in_its_capitals() {
    let mut followed = Followed::new(pair(), "capitals");
    let new = |text: &str| NewName::new(text).unwrap();
    for (old, given) in [("one", "One"), ("ONE", "one"), ("One", "ONE")] {
        assert_eq!(followed.change(&Change::Rename(name(old), new(given))), Ok(1));
        assert_eq!(followed.disk.listing().entries()[0].name().to_string(), given);
        let again = followed.change(&Change::Rename(name(old), new(given)));
        assert_eq!(again.map_err(|refused| (parts(refused).0, parts(refused).1)), Err((16, 1)));
    }
    let taken = followed.change(&Change::Rename(name("one"), new("two")));
    assert_eq!(taken.map_err(|refused| (parts(refused).0, parts(refused).1)), Err((16, 2)));
    let taken = followed.change(&Change::Save(code("Two", b"")));
    assert_eq!(taken.map_err(|refused| (parts(refused).0, parts(refused).1)), Err((16, 2)));
}

/// An image in memory that takes so many sectors and then no more.
struct Failing {
    image: Image,
    left: usize,
}

impl Store for Failing {
    fn write_sector(&mut self, number: SectorNumber, bytes: &[u8; SECTOR_LENGTH]) -> io::Result<()> {
        self.left = self.left.checked_sub(1).ok_or_else(|| io::Error::other("no more"))?;
        self.image.as_bytes_mut()[number.place()..][..SECTOR_LENGTH].copy_from_slice(bytes);
        Ok(())
    }
}

/// Wherever the writing of a save fails, the old disk is still there.
#[test]
fn a_save_that_fails_leaves_the_old_disk() {
    let (old, long) = (pair(), body(20_000));
    let mut disk = old.clone();
    let mut sectors = disk.save(&code("LONG", &long)).unwrap();
    let of = sectors.numbers().len();
    assert_eq!(of, 41);
    for left in 0..of {
        let mut store = Failing {
            image: old.image().clone(),
            left,
        };
        let failed = sectors.write_to(&mut store, |_, _| {}).unwrap_err();
        assert!(matches!(failed, WriteError::Stopped { written, of: all, .. } if (written, all) == (left, of)));
        assert_eq!(failed.at_last(), left + 1 == of);
        assert!(
            failed
                .to_string()
                .starts_with(&format!("{left} of {of} sectors were written, and then: no more. "))
        );
        let cut = Disk::open(store.image).expect("it is accepted");
        assert_eq!(cut.listing(), old.listing());
        assert_eq!(cut.read(&name("ONE")), old.read(&name("ONE")));
        assert_eq!(cut.read(&name("TWO")), old.read(&name("TWO")));
    }
    let mut store = Failing {
        image: old.image().clone(),
        left: of,
    };
    sectors.write_to(&mut store, |_, _| {}).expect("it takes them all");
    assert!(&store.image == disk.image());
}

/// Saves over old bytes: each takes the directory's end and clears the name behind it, in the slot's own sector or in the next,
/// which is then written before. Wherever that fails, the old disk is still there.
#[test]
fn saves_into_the_end_clear_old_names() {
    let mut disk = Disk::open(pair_that_ends()).expect("it is accepted");
    for (slot, directory) in [(3, &[1][..]), (4, &[2, 1]), (5, &[2]), (6, &[3, 2])] {
        let old = disk.clone();
        let mut sectors = disk.save(&code(&format!("FILE {slot}"), &body(600))).unwrap();
        let numbers: Vec<u16> = sectors.numbers().iter().map(|number| number.number()).collect();
        assert_eq!(numbers[2..], *directory);
        for left in 0..=numbers.len() {
            let image = old.image().clone();
            let mut store = Failing { image, left };
            assert_eq!(sectors.write_to(&mut store, |_, _| {}).is_ok(), left == numbers.len());
            let cut = Disk::open(store.image).expect("it is accepted");
            assert_eq!(cut.listing() == old.listing(), left < numbers.len());
            assert_eq!(cut.read(&name("ONE")), old.read(&name("ONE")));
        }
        let bytes = disk.image().as_bytes();
        assert_eq!(
            bytes[slot_place(slot + 1)..][..3],
            [0, 0, 99],
            "two bytes are cleared and no more"
        );
        assert_eq!(
            (disk.listing().entries().len(), disk.listing().free_slots()),
            (slot, 80 - slot)
        );
    }
}

/// After a failed write a later change of the same disk writes nothing, because its sectors build on those that are missing;
/// the same sectors written again bring it up to date.
#[test]
fn no_change_is_written_over_a_missing_one() {
    let (old, long) = (pair(), body(20_000));
    for left in [0, 2, 40] {
        let mut disk = old.clone();
        let mut store = Failing {
            image: old.image().clone(),
            left,
        };
        let mut sectors = disk.save(&code("LONG", &long)).unwrap();
        sectors.write_to(&mut store, |_, _| {}).unwrap_err();
        if left == 2 {
            store.left = 100;
            sectors.write_to(&mut store, |_, _| {}).expect("the same again");
            disk.hide(&name("ONE"))
                .unwrap()
                .write_to(&mut store, |_, _| {})
                .expect("the next");
            assert!(&store.image == disk.image());
            continue;
        }
        store.left = 100;
        let cut = store.image.clone();
        for change in [Change::Hide(name("ONE")), Change::Erase(name("TWO"))] {
            let skipped = disk.change(&change).unwrap().write_to(&mut store, |_, _| {}).unwrap_err();
            assert!(matches!(skipped, WriteError::Skipped) && !skipped.at_last());
            assert!(skipped.to_string().starts_with("nothing was written"), "{skipped}");
            assert!(store.image == cut, "nothing is written");
        }
        // What is stored is a disk, and goes on when it is opened.
        let mut disk = Disk::open(store.image.clone()).expect("it is accepted");
        disk.hide(&name("ONE"))
            .unwrap()
            .write_to(&mut store, |_, _| {})
            .expect("it takes it");
        assert!(&store.image == disk.image());
    }
}

/// A change that nobody wrote counts as missing, a refused one does not.
#[test]
fn a_change_in_memory_alone_is_missing_in_the_file() {
    let mut disk = pair();
    let mut store = Failing {
        image: disk.image().clone(),
        left: 100,
    };
    disk.hide(&name("THREE")).unwrap_err();
    disk.hide(&name("ONE"))
        .unwrap()
        .write_to(&mut store, |_, _| {})
        .expect("none is missing");
    let _ = disk.try_change(&Change::Erase(name("ONE"))).unwrap();
    disk.show(&name("ONE"))
        .unwrap()
        .write_to(&mut store, |_, _| {})
        .expect("a trial is no change");
    drop(disk.protect(&name("ONE")).unwrap());
    let mut copy = disk.clone();
    for disk in [&mut disk, &mut copy] {
        let skipped = disk
            .release(&name("ONE"))
            .unwrap()
            .write_to(&mut store, |_, _| {})
            .unwrap_err();
        assert!(matches!(skipped, WriteError::Skipped));
    }
    assert!(&store.image == pair().image());
}

/// A file that is open to append takes every write at its end, wherever it is meant to go: it takes none.
#[test]
fn a_file_open_to_append_is_refused() {
    let mut followed = Followed::new(pair(), "append");
    let before = fs::read(&followed.path).unwrap();
    for read in [false, true] {
        let opened = File::options().read(read).append(true).open(&followed.path);
        let mut file = opened.expect("the file is there");
        let mut sectors = followed.disk.hide(&name("ONE")).unwrap();
        let failed = sectors.write_to(&mut file, |_, _| panic!("a sector is written")).unwrap_err();
        let WriteError::Stopped {
            written: 0,
            of: 1,
            error,
        } = failed
        else {
            panic!("{failed}");
        };
        assert_eq!(error.kind(), io::ErrorKind::InvalidInput);
        assert!(error.to_string().contains("open to append"), "{error}");
        assert!(fs::read(&followed.path).unwrap() == before, "nothing is written");
        sectors.write_to(&mut followed.file, |_, _| {}).expect("another takes them");
        let hidden = fs::read(&followed.path).unwrap();
        assert!(hidden == followed.disk.image().as_bytes());
        fs::write(&followed.path, &before).unwrap();
        followed.disk = pair();
    }
}

/// A refused change alters nothing, and the disk goes on as before.
#[test]
fn a_refused_change_alters_nothing() {
    let mut disk = pair();
    drop(disk.protect(&name("ONE")).unwrap());
    let (before, long) = (disk.clone(), body(LONGEST_BODY));
    let taken = NewName::new("ONE").unwrap();
    let changes = [
        (16, Change::Save(code("ONE", b""))),
        (19, Change::Save(code("LONG", &long))),
        (17, Change::Erase(name("ONE"))),
        (17, Change::Rename(name("ONE"), NewName::new("NEW").unwrap())),
        (16, Change::Rename(name("TWO"), taken)),
        (15, Change::Hide(name("THREE"))),
        (15, Change::Show(name("THREE"))),
        (15, Change::Protect(name("THREE"))),
        (15, Change::Release(name("THREE"))),
    ];
    for (number, change) in changes {
        assert_eq!(parts(disk.change(&change).unwrap_err()).0, number);
        assert!(disk == before);
    }
}
