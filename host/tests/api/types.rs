//! What the types rule out is what the library refuses, no more and no less.
use super::*;
use std::collections::HashSet;
use std::hash::{BuildHasher, BuildHasherDefault, DefaultHasher};
use varnucht::calls::{self, SaveRequest};
use varnucht::{Drive, IMAGE_LENGTH, Kind, SECTORS, Sector, Track};

/// What a save on a blank disk is refused with. The list has no room, so a save is never made: it is refused 20 where
/// nothing else is wrong.
fn save_refused(image: &mut Image, request: &SaveRequest) -> u8 {
    calls::save(image.as_bytes_mut(), request, &mut [])
        .decode()
        .unwrap_err()
        .refusal
        .number()
}

const REQUEST: SaveRequest = SaveRequest {
    kind: 19,
    name: b"A",
    page: 1,
    offset: 32_768,
    execution: &[],
    information: &[],
    body: &[],
};

/// Names of 0 to 12 bytes: letters, and with each byte at each place.
fn names() -> Vec<Vec<u8>> {
    let plain = (0..=12).map(|length| vec![b'N'; length]);
    let put = |length: usize, place: usize, byte: u8| {
        let mut name = vec![b'N'; length];
        name[place] = byte;
        name
    };
    let odd = [1, 2, 5, 10, 11]
        .into_iter()
        .flat_map(|length| (0..length).flat_map(move |place| (0..=255).map(move |byte| put(length, place, byte))));
    plain.chain(odd).collect()
}

#[test]
fn names_asked_for() {
    let (image, names) = (Image::blank(), names());
    for name in &names {
        let asked = calls::start(image.as_bytes(), name).decode().unwrap_err().refusal.number();
        let made = Name::new(name).map_or_else(|refused| refused.refusal.number(), |_| 15);
        assert_eq!(made, asked, "{name:?}");
    }
    println!("{} names asked for", names.len());
}

#[test]
fn new_names() {
    let (mut image, names) = (Image::blank(), names());
    for name in &names {
        let asked = save_refused(&mut image, &SaveRequest { name, ..REQUEST });
        let made = NewName::new(name).map_or_else(|refused| refused.refusal.number(), |_| 20);
        assert_eq!(made, asked, "{name:?}");
    }
    println!("{} new names", names.len());
}

/// Two names are equal where the library finds a file of the one by the other; then they hash alike and stand at one place in
/// an order. Their bytes stay as given.
#[test]
fn names_that_are_the_same() {
    let hash = |name: &Name| BuildHasherDefault::<DefaultHasher>::default().hash_one(name);
    let mut equal = 0;
    for stored in 33..=126u8 {
        let mut disk = blank();
        save(&mut disk, &code(&format!("F{}", char::from(stored)), b"body"));
        for asked in 0..=255 {
            let (one, other) = (Name::new([b'F', stored]).unwrap(), Name::new([b'f', asked]).unwrap());
            let found = disk.start(&other).is_ok();
            assert_eq!((one == other, one.cmp(&other).is_eq()), (found, found), "{one} and {other}");
            assert_eq!(disk.listing().find(&other).is_some(), found);
            assert_eq!(disk.read(&other).ok(), found.then(|| b"body".to_vec()));
            assert!(!found || hash(&one) == hash(&other), "{one} and {other}");
            assert_eq!(other.as_bytes()[..2], [b'f', asked]);
            equal += usize::from(found);
        }
    }
    assert_eq!(equal, 94 + 52, "each byte by itself, and each letter by its partner");
    let names: HashSet<Name> = ["TUNES", "tunes", "Tunes", "SONGS"].map(name).into();
    assert_eq!(names.len(), 2);
    assert_eq!(NewName::new("TUNES"), NewName::new("tunes"));
}

#[test]
fn kinds() {
    let mut image = Image::blank();
    for kind in (0..=300).chain([0x1_0013, u32::MAX]) {
        let asked = save_refused(&mut image, &SaveRequest { kind, ..REQUEST });
        let made = CarriedKind::from_number(kind).map_or_else(|refused| refused.refusal.number(), |_| 20);
        assert_eq!(made, asked, "kind {kind}");
    }
    let carried = (0..=255).filter_map(|kind| Kind::new(kind).carried());
    assert!(carried.eq(CarriedKind::ALL));
}

#[test]
fn starts() {
    let mut image = Image::blank();
    let offsets = [
        0,
        1,
        16_384,
        32_767,
        32_768,
        32_769,
        40_000,
        49_150,
        49_151,
        49_152,
        65_535,
        65_536,
        98_304,
        u32::MAX,
    ];
    for page in (0..=40).chain([255, 256, 257, u32::MAX]) {
        for offset in offsets {
            let asked = save_refused(&mut image, &SaveRequest { page, offset, ..REQUEST });
            let made = Start::new(page, offset).map_or_else(|refused| refused.refusal.number(), |_| 20);
            assert_eq!(made, asked, "page {page}, offset {offset}");
        }
    }
}

#[test]
fn drives_tracks_and_sectors() {
    let (one, two) = (Image::blank(), Image::blank());
    let mut places = HashSet::new();
    for (drive, track) in (0..4).flat_map(|drive| (0..=300).chain([u32::MAX]).map(move |track| (drive, track))) {
        for sector in (0..=12).chain([257, u32::MAX]) {
            let asked = calls::sector(one.as_bytes(), two.as_bytes(), drive, track, sector).decode();
            let typed = Drive::new(drive).and_then(|_| Ok(SectorNumber::of(Track::new(track)?, Sector::new(sector)?)));
            assert_eq!(asked.map(|found| found.value as usize), typed.map(|number| number.place()));
            places.extend(typed.ok());
        }
    }
    assert_eq!(places.len(), SECTORS);
    for number in places {
        assert_eq!(SectorNumber::of(number.track(), number.sector()), number);
    }
    assert_eq!(SectorNumber::new(1_599).map(SectorNumber::place), Some(818_688));
    assert_eq!(SectorNumber::new(1_600), None);
}

#[test]
fn lengths_of_images() {
    for length in [0, 1, 819_199, 819_201, 2 * 819_200] {
        let bytes = body(length);
        let wrong = Image::from_bytes(bytes.clone()).unwrap_err();
        assert_eq!(
            wrong.to_string(),
            format!("refusal 1: the image is not 819,200 bytes: it has {length}")
        );
        assert!(wrong.into_bytes() == bytes, "the bytes come back as they were");
    }
    let bytes = body(IMAGE_LENGTH);
    let image = Image::from_bytes(bytes.clone()).expect("it has the right length");
    assert!(image.as_bytes()[..] == bytes[..]);
    assert!(image.into_bytes() == bytes);
}
