//! Slices that a call only reads may overlap each other: a name that stands in the image itself, one image for both drives,
//! one slice for all that a save is given.

use crate::support::calls::{
    self, BODY, Call, EXEC, IMAGE, INFO, NAME, NOTHING, OUT, RawSlice, Request, SLICES, TWO, ask_c, ask_paper,
};
use crate::support::compare::{self, Lend};
use crate::support::disks;
use crate::support::fields;
use crate::support::geometry::slot_place;
use crate::support::guarded::{Edge, Empty, Guarded};
use crate::support::random::Random;

fn guarded() -> Guarded {
    Guarded::new(Edge::End, Empty::Closed)
}

/// The name is the ten bytes in the slot of the lent image.
#[test]
fn a_name_inside_the_image() {
    for seed in 14_000_000..14_000_010 {
        let disk = disks::draw(&mut Random::new(seed));
        for file in &disk.files {
            let mut lender = guarded();
            let mut parts = [NOTHING; SLICES];
            parts[IMAGE] = lender.lend(IMAGE, &disk.image, false);
            // Safety: the name lies in the image.
            let front = unsafe { parts[IMAGE].front.add(slot_place(file.slot) + fields::NAME) };
            parts[NAME] = RawSlice { front, length: 10 };
            let out = vec![0x5c; file.body.len() + 1];
            parts[OUT] = lender.lend(OUT, &out, true);
            for call in [Call::Start, Call::Open, Call::Read] {
                let mut request = Request::new(call, &disk.image).with(NAME, &file.name);
                if call == Call::Read {
                    request = request.with(OUT, &out);
                }
                // Safety: both slices are only read, and the output buffer stands alone.
                let answer = unsafe { ask_c(call, [0; 3], &parts) };
                let paper = ask_paper(&request);
                assert_eq!(answer, paper.packed, "{}", compare::describe(&request));
                assert!(
                    call != Call::Read || lender.bytes(OUT) == paper.out,
                    "{}",
                    compare::describe(&request)
                );
            }
            assert!(lender.bytes(IMAGE) == disk.image && lender.around(OUT));
        }
    }
}

#[test]
fn one_image_in_both_drives() {
    let disk = disks::draw(&mut Random::new(15_000_000));
    let mut lender = guarded();
    let mut parts = [NOTHING; SLICES];
    parts[IMAGE] = lender.lend(IMAGE, &disk.image, false);
    parts[TWO] = parts[IMAGE];
    for numbers in [
        [1, 0, 1],
        [2, 207, 10],
        [1, 79, 10],
        [2, 128, 1],
        [3, 4, 1],
        [1, 127, 1],
        [2, 4, 0],
    ] {
        let request = Request::new(Call::Sector, &disk.image)
            .with(TWO, &disk.image)
            .numbers(numbers);
        // Safety: both slices are only read.
        let answer = unsafe { ask_c(Call::Sector, numbers, &parts) };
        assert_eq!(answer, ask_paper(&request).packed, "{}", compare::describe(&request));
    }
}

/// Name, execution bytes, information and body begin at one byte.
#[test]
fn one_slice_for_all_that_is_saved() {
    let image = vec![0; crate::support::geometry::IMAGE];
    let bytes: Vec<u8> = b"overlapped".iter().copied().cycle().take(3_000).collect();
    let mut lender = guarded();
    let mut parts = [NOTHING; SLICES];
    parts[IMAGE] = lender.lend(IMAGE, &image, true);
    parts[BODY] = lender.lend(BODY, &bytes, false);
    parts[OUT] = lender.lend(OUT, &[0x5c; 20], true);
    for (role, length) in [(NAME, 10), (EXEC, 3), (INFO, 20)] {
        parts[role] = RawSlice { length, ..parts[BODY] };
    }
    let request = Request::new(Call::Save, &image)
        .with(NAME, &bytes[..10])
        .with(EXEC, &bytes[..3]);
    let request = request
        .with(INFO, &bytes[..20])
        .with(BODY, &bytes)
        .with(OUT, &[0x5c; 20])
        .numbers([19, 1, 40_000]);
    // Safety: the slices that overlap are only read; image and list stand alone.
    let answer = unsafe { ask_c(Call::Save, request.numbers, &parts) };
    let paper = ask_paper(&request);
    assert_eq!((calls::refusal(answer), calls::value(answer)), (0, 7));
    assert_eq!(answer, paper.packed);
    assert!(paper.image.is_some_and(|image| lender.bytes(IMAGE) == image) && lender.bytes(OUT) == paper.out);
    assert!(lender.bytes(BODY) == bytes);
}
