//! What a gather does to a file, by document 02, M-112, from the bytes of an accepted disk.

use super::disks::{self, DrawnDisk};
use super::facts::{Facts, LiveSlot};
use super::fields;
use super::geometry::{self, BITS, PAYLOAD, SECTOR, SECTORS, SLOT, bit_of, bit_place, number, slot_place};
use super::random::Random;
use super::shapes::{Background, Order, Shape};

/// A disk with a file for each of these chains, in slots 1 on, and behind them a directory and the directory's end.
pub fn disk(extra: usize, chains: &[Vec<usize>], random: &mut Random) -> DrawnDisk {
    let counts = chains.iter().map(Vec::len).chain([0]);
    let shape = Shape {
        extra,
        files: (1..).zip(counts).collect(),
        end: Some(chains.len() + 2),
        order: Order::Rising,
        background: Background::Filled(0xe5),
        tidy: false,
    };
    disks::on_bits(&shape, chains.concat(), random)
}

/// Where a file goes.
#[derive(Clone, Copy, Debug, PartialEq, Eq)]
pub enum GatherResult {
    /// It lies on consecutive bits already, rising.
    InPlace,
    /// To the run that begins at this bit.
    MovedTo(usize),
    /// It must move, and no run is long enough.
    NoRun,
}

/// The map bits of a file in the order of its chain; none of a directory.
pub fn chain(image: &[u8], live: &LiveSlot) -> Vec<usize> {
    let slot = &image[slot_place(live.slot)..][..SLOT];
    let first = bit_of([slot[fields::FIRST], slot[fields::FIRST + 1]]);
    let next = |&bit: &usize| {
        let sector = &image[bit_place(bit)..][..SECTOR];
        bit_of([sector[PAYLOAD], sector[PAYLOAD + 1]])
    };
    std::iter::successors(first, next).take(live.sectors.len()).collect()
}

/// Whether these bits are consecutive and rise.
pub fn in_a_row(bits: &[usize]) -> bool {
    bits.iter().enumerate().all(|(i, &bit)| bit == bits[0] + i)
}

/// Which map bits are free: data, and no file's.
pub fn free(facts: &Facts) -> Vec<bool> {
    let mut used = [false; SECTORS];
    for &sector in facts.live.iter().flat_map(|live| &live.sectors) {
        used[sector] = true;
    }
    let free = |bit| geometry::is_data(bit, facts.extra) && !used[number(bit_place(bit))];
    (0..BITS).map(free).collect()
}

/// The lowest bit from which on so many are free: no lower one has them all free.
pub fn lowest_run(free: &[bool], length: usize) -> Option<usize> {
    (0..BITS + 1 - length.min(BITS)).find(|&start| (start..start + length).all(|bit| free[bit]))
}

/// Where this file goes.
pub fn gather_result(image: &[u8], facts: &Facts, live: &LiveSlot) -> GatherResult {
    if in_a_row(&chain(image, live)) {
        return GatherResult::InPlace;
    }
    lowest_run(&free(facts), live.sectors.len()).map_or(GatherResult::NoRun, GatherResult::MovedTo)
}
