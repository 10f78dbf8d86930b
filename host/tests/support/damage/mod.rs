//! Faults put into a drawn disk, one for each field that the rules look at, with the refusal that the table and its order give
//! for it; and changes beside those fields, which must stay accepted.

mod bytes;
mod chains;
mod directories;
mod ends;
mod firsts;
mod headers;
mod maps;
mod names;
mod slots;
mod tracks;

use super::disks::{self, DrawnDisk};
use super::random::Random;

/// What the check must say of the damaged disk.
#[derive(Clone, Copy, Debug, PartialEq, Eq)]
pub enum Expected {
    Accepted,
    /// Number and slot.
    Refused(u8, usize),
    /// Accepted: the directory ends at this slot, and no damage behind it is seen.
    Ends(usize),
    /// Not known beforehand: only the comparison decides.
    Open,
}

pub struct Damage {
    pub title: &'static str,
    /// It touches one file alone or none, and its outcome hangs on no other file but for those behind an end that it makes.
    pub own: bool,
    /// Damages the file with this index; none, and nothing done, where that file does not allow it.
    pub apply: fn(&mut DrawnDisk, usize, &mut Random) -> Option<Expected>,
}

pub fn all() -> Vec<&'static Damage> {
    [
        slots::ALL,
        names::ALL,
        firsts::ALL,
        maps::ALL,
        chains::ALL,
        headers::ALL,
        ends::ALL,
        directories::ALL,
        tracks::ALL,
        bytes::ALL,
    ]
    .concat()
}

/// A drawn disk with this damage.
pub fn one(damage: &Damage, random: &mut Random) -> (DrawnDisk, Expected) {
    for _ in 0..1_000 {
        let mut disk = disks::draw(random);
        if let Some((_, outcome)) = somewhere(damage, &mut disk, random) {
            return (disk, outcome);
        }
    }
    panic!("no drawn disk allows: {}", damage.title);
}

/// A drawn disk with two damages or more, so that the order decides between them.
pub fn several(random: &mut Random) -> (DrawnDisk, Expected) {
    let all = all();
    loop {
        let mut disk = disks::draw(random);
        let (first, second) = (random.pick(&all), random.pick(&all));
        let Some((i, one)) = somewhere(first, &mut disk, random) else {
            continue;
        };
        let Some((j, other)) = somewhere(second, &mut disk, random) else {
            continue;
        };
        let mut outcome = if i != j && first.own && second.own {
            earlier(one, other)
        } else {
            Expected::Open
        };
        while random.one_in(3) {
            if somewhere(random.pick(&all), &mut disk, random).is_some() {
                outcome = Expected::Open;
            }
        }
        return (disk, outcome);
    }
}

/// At the first file that allows it, from a drawn one on. Damages to directories take these alone, and all others files.
fn somewhere(damage: &Damage, disk: &mut DrawnDisk, random: &mut Random) -> Option<(usize, Expected)> {
    let files = disk.files.len();
    let from = if files == 0 { return None } else { random.below(files) };
    let to_directory = directories::ALL.iter().any(|other| other.title == damage.title);
    let fits: Vec<bool> = disk.files.iter().map(|file| file.chain.is_empty() == to_directory).collect();
    (0..files)
        .map(|i| (from + i) % files)
        .filter(|&index| fits[index])
        .find_map(|index| Some((index, (damage.apply)(disk, index, random)?)))
}

/// 24 comes first; then all slots for 2 to 9, before all slots for 10, 11 and 25; then the lowest slot, and at a slot the lowest
/// number. What stands behind the directory's end is not seen.
fn earlier(one: Expected, other: Expected) -> Expected {
    let (one, other) = (seen_before(one, other), seen_before(other, one));
    let rank = |outcome: Expected| match outcome {
        Expected::Refused(number, slot) => Some((matches!(number, 10 | 11 | 25), slot, number)),
        _ => None,
    };
    match (rank(one), rank(other)) {
        _ if one == Expected::Open || other == Expected::Open => Expected::Open,
        (Some(a), Some(b)) => {
            if a <= b {
                one
            } else {
                other
            }
        }
        (Some(_), None) => one,
        _ => other,
    }
}

/// The outcome of a damage beside another that may end the directory before it.
fn seen_before(outcome: Expected, beside: Expected) -> Expected {
    match (outcome, beside) {
        (Expected::Refused(_, slot), Expected::Ends(end)) if slot > end => Expected::Accepted,
        _ => outcome,
    }
}
