//! What a drawn disk is like before a byte is written: which slots are live, how many sectors each file has, in which order
//! free sectors are taken, and what stands where nobody wrote.

use super::geometry::{self, BITS, IMAGE, MOST_EXTRA};
use super::random::Random;

pub struct Shape {
    /// The directory tracks beyond four.
    pub extra: usize,
    /// The live slots, rising, with the sectors of each; one without sectors is a directory.
    pub files: Vec<(usize, usize)>,
    /// The directory's end, behind every live slot; none where every slot has a name.
    pub end: Option<usize>,
    pub order: Order,
    pub background: Background,
    /// Whether every carried file has no more sectors than it needs.
    pub tidy: bool,
}

/// In which order the files take their sectors.
#[derive(Clone, Copy)]
pub enum Order {
    Scattered,
    Rising,
    Falling,
}

/// What stands in unused sectors, erased and unread slots and bytes that no rule reads.
#[derive(Clone, Copy)]
pub enum Background {
    Clear,
    Filled(u8),
    Rubbish,
}

impl Shape {
    /// Half of the directories have four tracks.
    pub fn draw(random: &mut Random) -> Shape {
        let extra = match random.below(6) {
            0..3 => 0,
            3 => random.pick(&[1, 2, MOST_EXTRA]),
            _ => random.between(1, MOST_EXTRA),
        };
        let slots = geometry::slots(extra);
        let live = match random.below(8) {
            0 => random.pick(&[0, 1, slots.min(100) - 1, slots.min(100)]),
            1 => random.between(1, slots.min(100)),
            2 => 1,
            3 if random.one_in(12) => random.pick(&[slots - 1, slots]),
            _ => random.between(2, 8),
        };
        let mut shape = Shape::of(extra, live, sectors(extra, live, random), random);
        shape.make_directories(random);
        shape
    }

    /// Some of the files, often none, made directories.
    fn make_directories(&mut self, random: &mut Random) {
        let often = random.pick(&[0, 0, 1, 2, 3, 5]);
        for (_, sectors) in self.files.iter_mut().filter(|_| often > 0) {
            if random.below(6) < often {
                *sectors = 0;
            }
        }
    }

    /// So many files that have so many sectors together, in a directory of four tracks.
    pub fn with(live: usize, sectors: usize, random: &mut Random) -> Shape {
        Shape::of(0, live, sectors, random)
    }

    /// The same in a directory of so many tracks beyond four.
    pub fn of(extra: usize, live: usize, sectors: usize, random: &mut Random) -> Shape {
        let counts = parts(live, sectors, random);
        let slots = slots(extra, live, random);
        let end = end(extra, slots.last().copied().unwrap_or(0), random);
        let files = slots.into_iter().zip(counts).collect();
        let order = random.pick(&[Order::Scattered, Order::Scattered, Order::Rising, Order::Falling]);
        let background = match random.below(5) {
            0 => Background::Clear,
            1 => Background::Filled(random.pick(&[1, 4, 229, 255])),
            _ => Background::Rubbish,
        };
        Shape {
            extra,
            files,
            end,
            order,
            background,
            tidy: random.one_in(4),
        }
    }

    /// The data sectors in the order in which they are taken.
    pub fn free(&self, random: &mut Random) -> Vec<usize> {
        let mut free: Vec<usize> = (0..BITS).filter(|&bit| geometry::is_data(bit, self.extra)).collect();
        match self.order {
            Order::Scattered => random.shuffle(&mut free),
            Order::Rising => {}
            Order::Falling => free.reverse(),
        }
        free
    }
}

impl Background {
    pub fn image(self, random: &mut Random) -> Vec<u8> {
        self.bytes(IMAGE, random)
    }

    pub fn bytes(self, length: usize, random: &mut Random) -> Vec<u8> {
        match self {
            Background::Clear => vec![0; length],
            Background::Filled(byte) => vec![byte; length],
            Background::Rubbish => random.bytes(length),
        }
    }
}

/// How many sectors the files of a disk have together: one each, all, all but a few, or any number.
fn sectors(extra: usize, live: usize, random: &mut Random) -> usize {
    let data = geometry::data(extra);
    if live == 0 {
        return 0;
    }
    match random.below(8) {
        0 => live,
        1 => data,
        2 => random.between(data - 5, data),
        3 => random.between(live, data),
        _ => random.between(live, (live * 8).min(data)),
    }
}

/// The lowest slots, the highest, or any: of all, or of as many as there are files and a few more.
fn slots(extra: usize, live: usize, random: &mut Random) -> Vec<usize> {
    let most = geometry::slots(extra);
    let few = (live + random.below(4)).min(most);
    let mut slots: Vec<usize> = (1..=most).collect();
    match random.below(6) {
        0 | 1 => {}
        2 => slots.reverse(),
        3 => random.shuffle(&mut slots[..few]),
        _ => random.shuffle(&mut slots),
    }
    slots.truncate(live);
    slots.sort_unstable();
    slots
}

/// Where the directory ends behind its last live slot: directly, anywhere, at the edges of sectors and tracks, or not at all.
fn end(extra: usize, last: usize, random: &mut Random) -> Option<usize> {
    let most = geometry::slots(extra);
    let behind: Vec<usize> = (last + 1..=most).collect();
    let edges = [1, 2, 20, 21, 80, 81, 98, 99, most - 1, most];
    let edges: Vec<usize> = edges.into_iter().filter(|&end| end > last && end <= most).collect();
    match random.below(6) {
        _ if behind.is_empty() => None,
        0 => None,
        1 => Some(random.pick(&behind)),
        2 if !edges.is_empty() => Some(random.pick(&edges)),
        _ => Some(last + 1),
    }
}

/// `sectors` given out to `live` files, at least one to each: anyhow, or all that is over to one file.
fn parts(live: usize, sectors: usize, random: &mut Random) -> Vec<usize> {
    let mut parts = vec![1; live];
    let over = sectors - live;
    if live > 0 && random.one_in(3) {
        parts[random.below(live)] += over;
        return parts;
    }
    for _ in 0..over {
        parts[random.below(live)] += 1;
    }
    parts
}
