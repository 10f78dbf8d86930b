//! Scattered files: which they are, where they go when they are gathered, and what stays.
use super::*;
use varnucht::{Change, Directory, Entry, SECTOR_LENGTH, Store};

/// TUNES on the first data sector and on two behind a wall of so many.
fn behind(wall: usize) -> Disk {
    let mut disk = blank();
    save(&mut disk, &code("GAP", b""));
    save(&mut disk, &code("WALL", &body(510 * wall - 9)));
    drop(disk.erase(&name("GAP")).expect("it is there"));
    save(&mut disk, &code("TUNES", &body(510 * 3 - 9)));
    Disk::open(disk.into_image()).expect("it is accepted")
}

/// TUNES scattered on a disk with one free sector.
pub fn crowded() -> Disk {
    behind(1_556)
}

/// The track and the sector of each sector of a file, in the order of its bytes.
fn places(disk: &Disk, file: &str) -> Vec<(u8, u8)> {
    let chain = disk.chain(&name(file)).expect("it is there");
    chain.iter().map(|at| (at.track().number(), at.sector().number())).collect()
}

#[test]
fn a_scattered_file_is_gathered() {
    let mut disk = behind(10);
    let tunes = name("tunes");
    assert_eq!(places(&disk, "TUNES"), [(4, 1), (5, 2), (5, 3)]);
    assert_eq!(
        (disk.is_scattered(&tunes), disk.is_scattered(&name("WALL"))),
        (Ok(true), Ok(false))
    );
    let (old, planned) = (disk.clone(), disk.try_change(&Change::Gather(tunes)).expect("there is room"));
    let numbers = disk.gather(&tunes).expect("there is room").into_numbers();
    assert_eq!(numbers, planned);
    // Map bits 13 to 15 are track 5, sectors 4 to 6; sector 100 is track 5 sector 1.
    let numbers: Vec<u16> = numbers.iter().map(|number| number.number()).collect();
    assert_eq!(numbers, [103, 104, 105, 0]);
    assert_eq!(places(&disk, "TUNES"), [(5, 4), (5, 5), (5, 6)]);
    assert_eq!(places(&disk, "WALL"), places(&old, "WALL"));
    assert_eq!(disk.is_scattered(&tunes), Ok(false));
    assert_eq!(
        (disk.read(&tunes), disk.start(&tunes), disk.listing().free()),
        (old.read(&tunes), old.start(&tunes), old.listing().free())
    );
    let rest = |disk: &Disk| -> Vec<u8> {
        let bytes = disk.listing().find(&tunes).map(Entry::as_bytes).expect("it is there");
        [&bytes[..13], &bytes[210..]].concat()
    };
    assert_eq!(rest(&disk), rest(&old));
    assert!(disk.gather(&tunes).expect("it lies in a row").numbers().is_empty());
}

#[test]
fn what_cannot_be_gathered() {
    let mut disk = crowded();
    let before = disk.clone();
    let words = "refusal 32: the file must move and no run of consecutive free map bits has its length (gather)";
    assert_eq!(parts(disk.gather(&name("TUNES")).unwrap_err()), (32, 0, words.to_string()));
    assert_eq!(parts(disk.gather(&name("SONGS")).unwrap_err()).0, 15);
    assert!(disk == before);
    assert!(disk.gather(&name("WALL")).expect("it lies in a row").numbers().is_empty());
    assert!(disk == before);
    assert_eq!(parts(disk.is_scattered(&name("SONGS")).unwrap_err()).0, 15);
    assert_eq!(parts(disk.chain(&name("SONGS")).unwrap_err()).0, 15);
    // What stands in the way gone, there is room.
    drop(disk.erase(&name("WALL")).expect("it is there"));
    assert_eq!(disk.gather(&name("TUNES")).expect("there is room").numbers().len(), 4);
    assert_eq!(places(&disk, "TUNES"), [(4, 2), (4, 3), (4, 4)]);
}

/// A directory has no sectors: nothing of it is scattered, and nothing to be gathered.
#[test]
fn directories() {
    let mut image = behind(10).into_image();
    image.as_bytes_mut()[2 * 256..][..11].copy_from_slice(b"\x15GAMES     ");
    let mut disk = Disk::open(image).expect("it is accepted");
    let games = name("GAMES");
    assert_eq!((disk.is_scattered(&games), disk.chain(&games)), (Ok(false), Ok(vec![])));
    let (number, slot, _) = parts(disk.gather(&games).unwrap_err());
    assert_eq!((number, slot), (13, 3));
}

/// A store that counts what is written to it.
struct Counted(usize);

impl Store for Counted {
    fn write_sector(&mut self, _: SectorNumber, _: &[u8; SECTOR_LENGTH]) -> std::io::Result<()> {
        self.0 += 1;
        Ok(())
    }
}

/// Where a file is left there is nothing to write, so that nothing is missing when the next change is written.
#[test]
fn a_file_that_is_left_leaves_nothing_unwritten() {
    let (mut disk, mut store) = (pair(), Counted(0));
    drop(disk.gather(&name("ONE")).expect("it lies in a row"));
    disk.hide(&name("ONE"))
        .expect("it is there")
        .write_to(&mut store, |_, _| {})
        .expect("all before it is written");
    disk.gather(&name("TWO"))
        .expect("it lies in a row")
        .write_to(&mut store, |_, _| panic!("there is none"))
        .expect("all before it is written");
    assert_eq!(store.0, 1);
    // A change that was not written is missing all the same, before and after such a gather.
    drop(disk.show(&name("ONE")).expect("it is there"));
    for _ in 0..2 {
        assert!(disk.gather(&name("ONE")).unwrap().write_to(&mut store, |_, _| {}).is_err());
        drop(disk.gather(&name("TWO")).expect("it lies in a row"));
    }
    assert!(disk.hide(&name("ONE")).unwrap().write_to(&mut store, |_, _| {}).is_err());
}

/// A file is moved exactly where it is scattered, whatever its chain, with four directory tracks and with more.
#[test]
fn scattered_is_what_moves() {
    let (mut moved, mut left) = (0, 0);
    for tracks in [4, 5, 39] {
        let mut disk = Disk::open(Image::blank_with(Directory::new(tracks).unwrap())).expect("it is accepted");
        for round in 0..120usize {
            let length = 510 * (round * 7 % 11) + 100;
            save(&mut disk, &code(&format!("F{}", round % 60), &body(length)));
            let gone = format!("F{}", (round * 37 + 11) % 60);
            for file in [gone, format!("F{}", (round + 1) % 60)] {
                if disk.listing().find(&name(&file)).is_some() {
                    drop(disk.erase(&name(&file)).expect("it is there"));
                }
            }
            for entry in disk.listing().entries() {
                let sectors = disk.try_change(&Change::Gather(entry.name())).expect("there is room");
                assert_eq!(disk.is_scattered(&entry.name()), Ok(!sectors.is_empty()));
                *if sectors.is_empty() { &mut left } else { &mut moved } += 1;
            }
        }
    }
    println!("{moved} files would move, {left} would be left");
    assert!(moved > 500 && left > 500);
}
