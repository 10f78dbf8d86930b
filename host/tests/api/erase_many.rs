//! Many files erased at once: an answer for each name, and the disk wherever the writing is cut.
use crate::{blank, body, code, name, pair, save, slot_place};
use std::io;
use varnucht::{Directory, Disk, Erased, Image, Name, Refusal, SECTOR_LENGTH, SectorNumber, Store, WriteError};

/// A disk with so many files of code, F1 and so on, opened as from a file.
fn files(directory: Directory, many: usize) -> Disk {
    let mut disk = Disk::open(Image::blank_with(directory)).expect("a blank disk is accepted");
    for file in 1..=many {
        save(&mut disk, &code(&format!("F{file}"), &body(file)));
    }
    Disk::open(disk.into_image()).expect("it is accepted")
}

fn names(texts: &[&str]) -> Vec<Name> {
    texts.iter().map(|text| name(text)).collect()
}

fn numbers(erased: &Erased) -> Vec<u16> {
    erased.sectors.numbers().iter().map(|number| number.number()).collect()
}

/// Each name has its answer, and the disk is that of single erases.
#[test]
fn each_name_has_its_answer() {
    let mut disk = files(Directory::default(), 8);
    let mut image = disk.image().clone();
    let directory = &mut image.as_bytes_mut()[slot_place(4)..][..256];
    directory[0] = 21;
    directory[11..210].fill(0);
    directory[250] = 7;
    image.as_bytes_mut()[slot_place(6) + 254] = 7;
    image.as_bytes_mut()[slot_place(7)] |= 64;
    disk = Disk::open(image).expect("it is accepted");
    let mut single = disk.clone();

    let asked = names(&["F4", "f6", "F6", "F7", "none", "F4", "F5", "f1"]);
    let erased = disk.erase_many(&asked).expect("the disk is accepted");
    let expected = [
        Err(Refusal::DirectoryNotEmpty),
        Ok(()),
        Err(Refusal::NotFound),
        Err(Refusal::Protected),
        Err(Refusal::NotFound),
        Ok(()),
        Ok(()),
        Ok(()),
    ];
    assert_eq!(erased.answers, expected);
    assert_eq!(numbers(&erased), [0, 1, 2], "slots 1, 4, and 5 with 6");
    for (name, answer) in asked.iter().zip(expected) {
        let one = single.erase(name).map(|_| ()).map_err(|refused| refused.refusal);
        assert_eq!(one, answer, "{name}");
    }
    assert!(disk == single && disk.listing() == single.listing());
    let left: Vec<String> = disk
        .listing()
        .entries()
        .iter()
        .map(|entry| entry.name().to_string())
        .collect();
    assert_eq!(left, ["F2", "F3", "F7", "F8"]);
}

#[test]
fn none_and_all() {
    let mut disk = pair();
    let old = disk.clone();
    let erased = disk.erase_many(&[]).expect("the disk is accepted");
    assert!(erased.answers.is_empty() && erased.sectors.numbers().is_empty());
    let erased = disk.erase_many(&names(&["none", "nor this"])).expect("the disk is accepted");
    assert_eq!(erased.answers, [Err(Refusal::NotFound); 2]);
    assert!(erased.sectors.numbers().is_empty());
    assert!(disk == old && disk.listing() == old.listing());
    for (tracks, slots) in [(4, 80), (5, 98), (39, 778)] {
        let mut disk = files(Directory::new(tracks).unwrap(), slots);
        let all: Vec<Name> = (1..=slots).rev().map(|file| name(&format!("f{file}"))).collect();
        let erased = disk.erase_many(&all).expect("the disk is accepted");
        assert!(erased.answers.iter().all(Result::is_ok));
        let numbers = numbers(&erased);
        assert_eq!(numbers.len(), slots / 2);
        assert!(numbers.is_sorted_by(|one, next| one < next));
        assert_eq!(disk.listing().entries().len(), 0);
        assert_eq!(usize::from(disk.listing().free()), disk.directory().data_sectors());
    }
}

/// An image in memory that takes so many sectors and then no more.
struct Failing {
    image: Image,
    left: usize,
}

impl Store for Failing {
    fn write_sector(&mut self, number: SectorNumber, bytes: &[u8; SECTOR_LENGTH]) -> io::Result<()> {
        self.left = self.left.checked_sub(1).ok_or_else(|| io::Error::other("no more"))?;
        self.image.as_bytes_mut()[number.place()..][..SECTOR_LENGTH].copy_from_slice(bytes);
        Ok(())
    }
}

/// Wherever the writing fails, the files of the sectors written are gone, and the others are there and read as before.
#[test]
fn cut_anywhere() {
    let old = files(Directory::default(), 10);
    let asked = names(&["F9", "F1", "F6", "F2", "F3"]);
    let mut disk = old.clone();
    let Erased { answers, mut sectors } = disk.erase_many(&asked).expect("the disk is accepted");
    assert_eq!(answers, [Ok(()); 5]);
    // Slots 1 and 2, 3, 6, 9.
    let gone: [&[&str]; 4] = [&["F1", "F2"], &["F3"], &["F6"], &["F9"]];
    for left in 0..=4 {
        let image = old.image().clone();
        let mut store = Failing { image, left };
        match sectors.write_to(&mut store, |_, _| {}) {
            Ok(()) => assert_eq!(left, 4),
            Err(failed) => {
                assert!(matches!(failed, WriteError::Partly { written, of: 4, .. } if written == left));
                assert!(failed.at_last(), "each sector is a change of its own");
                let words =
                    format!("{left} of 4 sectors were written, and then: no more. The files erased in those are gone, ");
                assert!(failed.to_string().starts_with(&words), "{failed}");
            }
        }
        let cut = Disk::open(store.image).expect("it is accepted");
        let gone = names(&gone[..left].concat());
        assert_eq!(cut.listing().entries().len(), 10 - gone.len());
        for file in 1..=10 {
            let name = name(&format!("F{file}"));
            match gone.contains(&name) {
                true => assert_eq!(cut.read(&name).unwrap_err().refusal, Refusal::NotFound),
                false => assert_eq!(cut.read(&name), old.read(&name)),
            }
        }
    }
}

/// As with every change a later one is not written before it; but where it named no sector there is nothing to write.
#[test]
fn later_changes_wait_for_it() {
    let old = files(Directory::default(), 4);
    let mut store = Failing {
        image: old.image().clone(),
        left: 100,
    };
    let mut disk = old.clone();
    drop(disk.erase_many(&names(&["none"])).expect("the disk is accepted"));
    disk.hide(&name("F1"))
        .unwrap()
        .write_to(&mut store, |_, _| {})
        .expect("nothing is missing");
    drop(disk.erase_many(&names(&["F2", "F3"])).expect("the disk is accepted"));
    let skipped = disk.hide(&name("F4")).unwrap().write_to(&mut store, |_, _| {}).unwrap_err();
    assert!(matches!(skipped, WriteError::Skipped));
    let skipped = disk
        .erase_many(&names(&["F4"]))
        .unwrap()
        .sectors
        .write_to(&mut store, |_, _| {});
    assert!(matches!(skipped, Err(WriteError::Skipped)));
}

/// The sectors rise, whatever the order of the names.
#[test]
fn the_order_of_names() {
    let old = files(Directory::default(), 6);
    let mut orders = vec![
        names(&["F1", "F4", "F6"]),
        names(&["F6", "F1", "F4"]),
        names(&["F4", "F6", "F1"]),
    ];
    orders.push(names(&["F6", "F4", "F1", "f1", "F6"]));
    for order in orders {
        let mut disk = old.clone();
        let erased = disk.erase_many(&order).expect("the disk is accepted");
        assert_eq!(numbers(&erased), [0, 1, 2]);
        assert_eq!(erased.answers[..3], [Ok(()); 3]);
        assert!(erased.answers[3..].iter().all(|answer| *answer == Err(Refusal::NotFound)));
    }
    assert!(blank().erase_many(&names(&["F1"])).unwrap().answers[0].is_err());
}
