//! The disks that journeys begin with.

use crate::support::disks::{self, DrawnDisk};
use crate::support::fields;
use crate::support::random::Random;
use crate::support::shapes::Shape;

/// Any disk; one with few slots free, so that they run out, and a file whose directory is gone; one with two directories of one code; one with more than four
/// directory tracks and two directories inside each other.
pub fn draw(seed: u64, random: &mut Random) -> DrawnDisk {
    match seed % 4 {
        0 => disks::draw(random),
        1 => with_few_slots(random),
        2 => with_directories(0, &[[10, 0], [20, 10], [20, 0], [50, 20]], random),
        _ => with_directories(random.between(1, 35), &[[10, 0], [30, 40], [40, 30]], random),
    }
}

fn with_few_slots(random: &mut Random) -> DrawnDisk {
    let mut disk = disks::of_shape(&Shape::with(74, 300, random), random);
    let carried = disk.files.iter().find(|file| fields::is_carried(file.kind));
    let slot = carried.map_or(disk.files[0].slot, |file| file.slot);
    disk.slot_mut(slot)[fields::PARENT] = 77;
    disk
}

/// Directories with these codes, each with that of the one around it, and files in these.
fn with_directories(extra: usize, codes: &[[u8; 2]], random: &mut Random) -> DrawnDisk {
    let mut shape = Shape::of(extra, 24, 120, random);
    for (_, sectors) in &mut shape.files[..codes.len()] {
        *sectors = 0;
    }
    let mut disk = disks::of_shape(&shape, random);
    let slots: Vec<usize> = disk.files.iter().map(|file| file.slot).collect();
    for (&slot, place) in slots.iter().zip(0..) {
        let bytes = disk.slot_mut(slot);
        bytes[fields::PARENT] = codes[place % codes.len()][1];
        if let Some([code, _]) = codes.get(place) {
            bytes[fields::CODE] = *code;
        }
    }
    disk
}
