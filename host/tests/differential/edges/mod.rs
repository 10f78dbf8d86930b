//! Each argument of each call at, below and above its boundaries, one after the other, on disks made for it. The number that
//! document 01 gives is written here too, so that `paper` is not the only one to say it.

mod arguments;
mod bigger;
mod bodies;
mod buffers;
mod ends;
mod erase_many;
mod gather;
mod letters;
mod names;
mod order;
mod recording;
mod release;
mod slots;
mod spectrum;
mod tree;

use crate::support::calls::{self, BODY, Call, NAME, OUT};
use crate::support::compare::{self, Returned};
use crate::support::disks::{self, DrawnDisk};
use crate::support::geometry::sectors_for;
use crate::support::margins::Margins;
use crate::support::random::Random;
use crate::support::requests::OwnedRequest;
use crate::support::shapes::Shape;

/// A disk with so many files that have so many sectors together.
fn disk(seed: u64, files: usize, sectors: usize) -> DrawnDisk {
    let random = &mut Random::new(seed);
    let shape = Shape::with(files, sectors, random);
    disks::of_shape(&shape, random)
}

/// A save that an empty disk takes, with room in its list for two sectors of the directory.
fn save(body: Vec<u8>) -> OwnedRequest {
    let list = vec![0x5c; 2 * (sectors_for(body.len()) + 2)];
    let mut asked = OwnedRequest::new(Call::Save)
        .with(NAME, *b"new")
        .with(BODY, body)
        .with(OUT, list);
    asked.numbers = [19, 1, 32_768];
    asked
}

/// Asks both sides; the refusal must be this one.
fn expect(asked: &OwnedRequest, image: &[u8], number: u8) -> Returned {
    let request = asked.on(image);
    let left = compare::ask(&request, &mut Margins::default());
    assert_eq!(calls::refusal(left.answer), number, "{}", compare::describe(&request));
    left
}
