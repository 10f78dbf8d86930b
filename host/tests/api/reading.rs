//! What is saved is read back, and listings say what the library says.
use super::*;
use std::io::Read;
use varnucht::{DATA_SECTORS, Drive, Drives, IMAGE_LENGTH, Kind, LONGEST_BODY};

#[test]
fn bodies_of_every_kind_and_length_come_back() {
    let lengths = [
        0,
        1,
        500,
        501,
        502,
        1_011,
        1_012,
        10_000,
        16_383,
        16_384,
        16_385,
        LONGEST_BODY,
    ];
    for (length, kind) in lengths
        .into_iter()
        .flat_map(|length| CarriedKind::ALL.map(|kind| (length, kind)))
    {
        let mut disk = blank();
        let body = body(length);
        let start = Start::new(31, 49_151).unwrap();
        let file = NewFile {
            execution: [1, 2, 3],
            information: [7; 11],
            ..code("FILE", &body)
        };
        let sectors = save(&mut disk, &NewFile { kind, start, ..file });
        assert_eq!(sectors.len(), (9 + length).div_ceil(510) + 1);
        assert!(disk.read(&name("FILE")).unwrap() == body);
        assert_eq!(disk.start(&name("FILE")), Ok(540_671));
        let entry = disk.listing().find(&name("FILE")).expect("it is listed");
        assert_eq!((entry.kind().carried(), entry.length()), (Some(kind), Some(length as u32)));
        assert_eq!(
            (entry.start(), entry.execution(), entry.information()),
            (Some(start), [1, 2, 3], [7; 11])
        );
        assert_eq!(usize::from(entry.sector_count()), sectors.len() - 1);
        assert!(
            entry.sectors().eq(sectors[..sectors.len() - 1].iter().copied()),
            "rising from the lowest"
        );
        assert_eq!(usize::from(disk.listing().free()), DATA_SECTORS - (sectors.len() - 1));
    }
}

#[test]
fn listings_say_what_the_library_says() {
    let disk = Disk::open(damaged(&[(0, 5 + 128 + 64)])).unwrap();
    let [one, two] = disk.listing().entries() else {
        panic!("there are two files")
    };
    assert_eq!((one.slot().number(), two.slot().number()), (1, 2));
    assert_eq!((one.hidden(), one.protected(), one.kind().number()), (false, false, 19));
    assert_eq!((two.hidden(), two.protected(), two.kind().number()), (true, true, 5));
    assert_eq!((two.length(), two.start()), (None, None));
    assert_eq!((one.name(), two.name()), (name("ONE"), name("TWO")));
    assert_eq!((disk.listing().free(), disk.listing().room()), (1_556, Some(1_556 * 510 - 9)));
    assert_eq!(disk.start(&name("ONE")).ok(), one.start().map(Start::address));
    assert!(disk.listing().find(&name("THREE")).is_none());
    let mut full = blank();
    save(&mut full, &code("LONG", &body(LONGEST_BODY)));
    assert_eq!((full.listing().free(), full.listing().room()), (0, None));
    assert_eq!((full.listing().free_slots(), disk.listing().free_slots()), (79, 78));
}

/// What stands from the directory's end on is no file, whatever it says, and its slots are free.
#[test]
fn listings_stop_at_the_end() {
    let (mut image, accepted) = (pair_that_ends(), pair());
    assert_eq!(image.check(), Ok(()));
    let disk = Disk::open(image.clone()).expect("it is accepted");
    assert_eq!(disk.listing(), accepted.listing());
    assert_eq!(
        (disk.listing().free_slots(), disk.listing().room()),
        (78, accepted.listing().room())
    );
    assert_eq!(disk.read(&name("TWO")), accepted.read(&name("TWO")));
    image.as_bytes_mut()[slot_place(3) + 1] = b'A';
    assert_eq!(parts(image.check().unwrap_err()).0, 2, "with a name there it is read on");
    image.as_bytes_mut()[slot_place(1) + 1] = 0;
    let none = Disk::open(image).expect("nothing is read");
    assert_eq!((none.listing().entries().len(), none.listing().free()), (0, 1_560));
    assert_eq!(
        (
            none.listing().free_slots(),
            none.start(&name("TWO")).unwrap_err().refusal.number()
        ),
        (80, 15)
    );
}

/// Bits 14 and 15 of the length are no part of it.
#[test]
fn lengths_ignore_two_bits() {
    let high = pair().listing().entries()[1].as_bytes()[241];
    for bits in [0x40, 0x80, 0xc0] {
        let disk = Disk::open(damaged(&[(241, high | bits)])).unwrap();
        assert_eq!(disk.listing().entries()[1].length(), Some(900));
        assert!(disk.read(&name("TWO")).unwrap() == body(900));
    }
}

/// A file's start as its entry gives it is what the library gives, for each offset around the range.
#[test]
fn starts_of_entries_are_the_librarys() {
    for offset in [0u16, 16_384, 32_767, 32_768, 40_000, 49_151, 49_152, 65_535] {
        let [low, high] = offset.to_le_bytes();
        for page in [0, 1, 31, 32, 63, 255] {
            let disk = Disk::open(damaged(&[(236, page), (237, low), (238, high)])).unwrap();
            let entry = disk.listing().find(&name("TWO")).unwrap();
            assert_eq!(
                disk.start(&name("TWO")).ok(),
                entry.start().map(Start::address),
                "page {page}, offset {offset}"
            );
        }
    }
}

#[test]
fn raw_sectors_are_parts_of_the_chosen_image() {
    let (mut one, mut two) = (Image::blank(), Image::blank());
    one.as_bytes_mut().copy_from_slice(&body(IMAGE_LENGTH));
    two.as_bytes_mut().fill(9);
    let drives = Drives { one: &one, two: &two };
    for number in (0..1_600).filter_map(SectorNumber::new) {
        let (track, sector) = (number.track(), number.sector());
        for (drive, image) in [(Drive::One, &one), (Drive::Two, &two)] {
            let found = drives.sector(drive, track, sector).expect("it is there");
            assert!(std::ptr::eq(found, image.at(number)), "it is not copied");
            assert!(std::ptr::eq(found.as_ptr(), &image.as_bytes()[number.place()]));
        }
        assert_eq!(one.sector(track, sector), Ok(one.at(number)));
    }
}

/// A disk may go out where no file has a sector more than its length needs; every other call takes it all the same.
#[test]
fn waste_sectors_are_found_before_a_release() {
    for (length, waste) in [(0, true), (1, true), (501, true), (502, false), (900, false), (1_011, false)] {
        let disk = shortened(length);
        let refused = disk.check_release().map_err(|refused| parts(refused).0);
        assert_eq!(refused, if waste { Err(22) } else { Ok(()) }, "{length} bytes");
        assert_eq!(disk.image().check_release(), disk.check_release());
        let entry = disk.listing().find(&name("TWO")).unwrap();
        assert_eq!(
            (entry.sector_count(), entry.least_sectors()),
            (2, Some(if waste { 1 } else { 2 }))
        );
        assert!(
            disk.read(&name("TWO")).unwrap()[..usize::from(length).min(900)] == body(900)[..usize::from(length).min(900)]
        );
        assert_eq!(disk.image().check(), Ok(()));
    }
    let strange = Disk::open(damaged(&[(0, 5), (240, 1), (241, 0)])).unwrap();
    assert_eq!(
        (strange.check_release(), strange.listing().entries()[1].least_sectors()),
        (Ok(()), None)
    );
    // What the check refuses this one refuses too.
    assert_eq!(parts(damaged(&[(0, 13)]).check_release().unwrap_err()).0, 2);
    assert_eq!(blank().check_release(), Ok(()));
}

/// Kinds 1 to 4: length, start and body by their header; the listing has neither length nor start.
#[test]
fn spectrum_files_are_read_by_their_header() {
    for (kind, length, start) in [
        (1, 0, 0),
        (2, 900, 23_755),
        (3, 1_011, 32_768),
        (4, 501, 65_535),
        (4 | 128, 1, 49_152),
    ] {
        let disk = Disk::open(spectrum(kind, length, start)).unwrap();
        let (two, entry) = (name("two"), &disk.listing().entries()[1]);
        assert!(entry.kind().is_spectrum() && entry.kind().carried().is_none());
        assert_eq!((entry.length(), entry.start(), entry.least_sectors()), (None, None, None));
        assert_eq!((disk.length(&two), disk.start(&two)), (Ok(length.into()), Ok(start.into())));
        let whole = disk.read(&two).unwrap();
        assert_eq!(whole.len(), usize::from(length));
        assert!(whole.iter().zip(body(900)).all(|(read, saved)| *read == saved));
        let (mut reader, mut joined) = (disk.reader(&two).unwrap(), vec![]);
        assert_eq!(
            (reader.left(), reader.read_to_end(&mut joined).unwrap()),
            (whole.len(), whole.len())
        );
        assert!(joined == whole);
        assert_eq!(disk.check_release(), Ok(()));
    }
    let carried = pair();
    assert_eq!(carried.length(&name("ONE")).ok(), carried.listing().entries()[0].length());
    let strange = Disk::open(damaged(&[(0, 5)])).unwrap();
    let answers = [strange.length(&name("TWO")), strange.start(&name("TWO"))];
    assert!(answers.into_iter().all(|answer| parts(answer.unwrap_err()).0 == 13));
    assert_eq!(parts(strange.length(&name("THREE")).unwrap_err()).0, 15);
    assert!((0..=255).filter(|kind| Kind::new(*kind).is_spectrum()).eq(1..=4));
}
