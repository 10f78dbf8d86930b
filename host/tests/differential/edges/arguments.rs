//! Kind, start page, offset, execution bytes and kind information of a save.

use super::{disk, expect, save};
use crate::support::calls::{EXEC, INFO, NAME, OUT};
use crate::support::fields;
use crate::support::geometry::{IMAGE, SLOT};

static BLANK: [u8; IMAGE] = [0; IMAGE];

/// Numbers that are an accepted one only if high bits are dropped.
const HIGH: [u32; 5] = [1 << 8, 1 << 16, 1 << 24, 1 << 31, u32::MAX - 255];

#[test]
fn kinds() {
    let high = HIGH.into_iter().flat_map(|high| (16..=20).map(move |kind| high | kind));
    for kind in (0..=300).chain(high).chain([u32::MAX]) {
        let mut asked = save(vec![7; 600]);
        asked.numbers[0] = kind;
        expect(&asked, &BLANK, if (16..=20).contains(&kind) { 0 } else { 13 });
    }
}

#[test]
fn pages() {
    for page in (0..=300).chain(HIGH).chain([u32::MAX]) {
        let mut asked = save(vec![7; 10]);
        asked.numbers[1] = page;
        let left = expect(&asked, &BLANK, if page <= 31 { 0 } else { 14 });
        assert!(left.image.is_none_or(|image| u32::from(image[fields::PAGE]) == page));
    }
}

#[test]
fn offsets() {
    let high = HIGH
        .into_iter()
        .filter(|&high| high > 65_535)
        .flat_map(|high| [high, high | 32_768, high | 49_151]);
    let near = [
        0, 1, 16_384, 32_766, 32_767, 32_768, 32_769, 40_000, 49_150, 49_151, 49_152, 49_153, 65_535, 65_536,
    ];
    for offset in near.into_iter().chain(high).chain([u32::MAX]) {
        let mut asked = save(vec![7; 10]);
        asked.numbers[2] = offset;
        let left = expect(&asked, &BLANK, if (32_768..=49_151).contains(&offset) { 0 } else { 14 });
        assert!(
            left.image
                .is_none_or(|image| fields::offset(&image[..SLOT]) == offset as usize)
        );
    }
}

/// Shorter ones are filled with 0, any beyond are ignored.
#[test]
fn execution_bytes_and_information() {
    for exec in 0..=6_u8 {
        for info in 0..=16_u8 {
            let asked = save(vec![7; 10]);
            let asked = asked
                .with(EXEC, (1..=exec).collect::<Vec<_>>())
                .with(INFO, (101..=100 + info).collect::<Vec<_>>());
            let image = expect(&asked, &BLANK, 0).image.expect("accepted");
            for i in 0..3 {
                assert_eq!(image[fields::EXEC + usize::from(i)], if i < exec { 1 + i } else { 0 });
            }
            for i in 0..11 {
                assert_eq!(image[fields::INFO + usize::from(i)], if i < info { 101 + i } else { 0 });
            }
            assert_eq!((image[fields::INFO + 11], image[fields::EXEC + 3]), (0, 255));
        }
    }
}

/// Rows that hold together: the lowest number is given.
#[test]
fn the_lowest_number_of_several() {
    let full = disk(1, 80, 1_560);
    let mut asked = save(vec![7; 10]);
    asked.slices[OUT].clear();
    expect(&asked, &BLANK, 20);
    expect(&asked, &disk(2, 79, 1_560).image, 19);
    expect(&asked, &full.image, 18);
    asked.numbers[1] = 32;
    expect(&asked, &full.image, 14);
    asked.numbers[0] = 5;
    expect(&asked, &full.image, 13);
    asked.slices[NAME].clear();
    expect(&asked, &full.image, 12);
}
