//! The body of a save: at the edges of sectors and pages, at exactly the free room and one above.

use super::{disk, expect, save};
use crate::support::calls::{self, Call, NAME, OUT};
use crate::support::facts::Facts;
use crate::support::geometry::{BITS, IMAGE, fills};
use crate::support::names;
use crate::support::random::Random;
use crate::support::requests::OwnedRequest;

/// Saves and reads back; the sectors named are the data sectors and those of the directory.
fn takes(image: &[u8], length: usize, sectors: usize) {
    let body = Random::new(length as u64).bytes(length);
    let left = expect(&save(body.clone()), image, 0);
    let directory = Facts::of(image).directory_sectors().len();
    assert_eq!(calls::value(left.answer), sectors + directory, "a body of {length} bytes");
    let image = left.image.expect("accepted");
    let read = OwnedRequest::new(Call::Read).with(NAME, *b"new").with(OUT, vec![0; length]);
    let left = expect(&read, &image, 0);
    assert!(
        calls::value(left.answer) == length && left.out == body,
        "the body of {length} bytes reads back otherwise"
    );
}

#[test]
fn edges_of_sectors() {
    let blank = vec![0; IMAGE];
    for (length, sectors) in [
        (0, 1),
        (1, 1),
        (500, 1),
        (501, 1),
        (502, 2),
        (1_011, 2),
        (1_012, 3),
        (10_000, 20),
        (795_591, 1_560),
    ] {
        takes(&blank, length, sectors);
    }
    for sectors in (3..40).chain([256, 257, 759, 760, 761, 1_559]) {
        takes(&blank, fills(sectors), sectors);
        takes(&blank, fills(sectors) + 1, sectors + 1);
    }
    expect(&save(vec![1; 795_592]), &blank, 19);
    expect(&save(vec![1; 1_000_000]), &blank, 19);
}

#[test]
fn edges_of_pages() {
    let blank = vec![0; IMAGE];
    for pages in [1, 2, 3, 15, 16, 47, 48] {
        for length in [pages * 16_384 - 1, pages * 16_384, pages * 16_384 + 1] {
            takes(&blank, length, (length + 9).div_ceil(510));
        }
    }
}

#[test]
fn exactly_the_room() {
    for (seed, free) in [1, 2, 3, 10, 700, 1_559].into_iter().enumerate() {
        let files = 20.min(BITS - free);
        let disk = disk(seed as u64, files, BITS - free);
        assert!(
            !disk.names().iter().any(|name| names::same(name, b"new       ")),
            "the name that is saved here must be new"
        );
        takes(&disk.image, fills(free), free);
        expect(&save(vec![1; fills(free) + 1]), &disk.image, 19);
    }
    expect(&save(Vec::new()), &disk(9, 20, BITS).image, 19);
}
