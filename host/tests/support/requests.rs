//! Drawn requests around the boundaries: names that are and are not there, buffers that just do and just do not suffice.

use super::calls::{Call, IMAGE, NAME, NEW, OUT, Request, SLICES, TWO};
use super::directories;
use super::erase_many;
use super::facts::Facts;
use super::geometry;
use super::names;
use super::random::Random;
use super::readers;
use super::recordings;
use super::reports;
use super::save_requests;

/// A request with slices of its own; the image is added when it is asked.
pub struct OwnedRequest {
    pub call: Call,
    pub numbers: [u32; 3],
    pub slices: [Vec<u8>; SLICES],
}

impl OwnedRequest {
    pub fn new(call: Call) -> OwnedRequest {
        OwnedRequest {
            call,
            numbers: [0; 3],
            slices: Default::default(),
        }
    }

    pub fn with(mut self, role: usize, bytes: impl Into<Vec<u8>>) -> OwnedRequest {
        assert!(
            role != IMAGE && self.call.takes().contains(&role),
            "no slice for {:?}",
            self.call
        );
        self.slices[role] = bytes.into();
        self
    }

    pub fn on<'a>(&'a self, image: &'a [u8]) -> Request<'a> {
        let mut request = Request::new(self.call, image).numbers(self.numbers);
        for &role in self.call.takes().iter().filter(|&&role| role != IMAGE) {
            request = request.with(role, &self.slices[role]);
        }
        request
    }
}

pub fn draw(call: Call, facts: &Facts, random: &mut Random) -> OwnedRequest {
    let asked = OwnedRequest::new(call);
    match call {
        Call::Check | Call::CheckRelease => asked,
        Call::List => asked.with(OUT, buffer(258 * facts.live.len(), random)),
        Call::Open | Call::Start => asked.with(NAME, asked_name(facts, random)),
        Call::Next => readers::draw(facts, random),
        Call::Tree => directories::draw(facts, random),
        Call::Read => {
            let name = asked_name(facts, random);
            let need = facts.find(&name).map_or(random.below(2_000), |live| live.length);
            asked.with(NAME, name).with(OUT, buffer(need, random))
        }
        Call::Sector => sector(random),
        Call::ReportAdd | Call::ReportJoin => reports::draw(call, random),
        Call::Save => save_requests::draw(facts, random),
        Call::EraseMany => erase_many::draw(facts, random),
        Call::Rename => {
            let name = asked_name(facts, random);
            let new = match random.below(8) {
                0 => name.clone(),
                1 | 2 => facts
                    .find(&name)
                    .map_or(name.clone(), |live| names::turned(live.name, random).to_vec()),
                _ => new_name(facts, random),
            };
            asked.with(NAME, name).with(NEW, new).with(OUT, list(1, random))
        }
        Call::RecordOpen => recordings::draw_open(facts, random),
        Call::RecordAdd => recordings::draw_piece(facts, random),
        Call::RecordClose => recordings::draw_close(facts, random),
        Call::Gather => {
            let name = asked_name(facts, random);
            let need = 1 + facts.find(&name).map_or(0, |live| live.sectors.len());
            asked.with(NAME, name).with(OUT, list(need, random))
        }
        _ => asked.with(NAME, asked_name(facts, random)).with(OUT, list(1, random)),
    }
}

/// Bytes to write into, around the number that is needed; they hold rubbish, so that the rest can be seen to stay.
pub fn buffer(need: usize, random: &mut Random) -> Vec<u8> {
    let length = match random.below(8) {
        0 => need.saturating_sub(1),
        1 => need + 1,
        2 => need + random.below(600),
        3 => 0,
        4 => random.below(need + 1),
        _ => need,
    };
    random.bytes(length)
}

/// A list for so many sector numbers, two bytes to each; also an odd byte more or less, none, one, and far too many.
pub fn list(sectors: usize, random: &mut Random) -> Vec<u8> {
    let need = 2 * sectors;
    let length = match random.below(12) {
        0 => need - 1,
        1 => need + 1,
        2 => need - 2,
        3 => random.below(2),
        4 => need + random.below(4_000),
        5 => random.below(need),
        6 => need + 2,
        _ => need,
    };
    random.bytes(length)
}

/// A name asked for: mostly a live one, in one of its spellings.
pub fn asked_name(facts: &Facts, random: &mut Random) -> Vec<u8> {
    let live = facts.live.iter().map(|live| live.name).collect::<Vec<_>>();
    if live.is_empty() {
        return names::usable(random);
    }
    let name = random.pick(&live);
    match random.below(20) {
        0 => Vec::new(),
        1 => [&name[..], &[random.pick(&[32, 0, 65])]].concat(),
        2 => [&[0], &name[1..]].concat(),
        3 => names::changed(name, random).to_vec(),
        4 if !facts.erased.is_empty() => random.pick(&facts.erased).to_vec(),
        5 => names::usable(random),
        6 => name[..9].to_vec(),
        7 => long_name(random),
        _ => spelled(name, random),
    }
}

/// Any bytes of any length up to some hundreds.
fn long_name(random: &mut Random) -> Vec<u8> {
    let length = random.below(400);
    random.bytes(length)
}

/// Some of the spaces at the end may be left out, and some of the letters turned.
pub fn spelled(name: names::Name, random: &mut Random) -> Vec<u8> {
    let name = names::turned(name, random);
    let least = names::without_spaces(&name).len().max(1);
    let length = if random.coin() { 10 } else { random.between(least, 10) };
    name[..length].to_vec()
}

/// A new name: mostly usable and mostly not there.
pub fn new_name(facts: &Facts, random: &mut Random) -> Vec<u8> {
    let mut name = names::usable(random);
    let at = random.below(name.len());
    match random.below(20) {
        0 => name[at] = random.pick(&[31, 127]),
        1 => name[at] = random.pick(&[0, 1, 128, 255]),
        2 => name[0] = random.pick(&[32, 0, 31, 127]),
        3 => name = [names::filled(&name).as_slice(), &[32]].concat(),
        4 => name.clear(),
        5..8 => name = taken_name(facts, random).unwrap_or(name),
        8 if !facts.live.is_empty() => name = facts.live[random.below(facts.live.len())].name.to_vec(),
        _ => {}
    }
    name
}

/// A live slot's name that would be usable as a new one, in one of its spellings.
pub fn taken_name(facts: &Facts, random: &mut Random) -> Option<Vec<u8>> {
    let usable = |name: &names::Name| name[0] != 32 && name.iter().all(|byte| (32..=126).contains(byte));
    let taken: Vec<_> = facts.live.iter().map(|live| live.name).filter(usable).collect();
    (!taken.is_empty()).then(|| spelled(random.pick(&taken), random))
}

/// The raw sector call: the second image too, either of them seldom of a wrong length, and numbers at the edges.
fn sector(random: &mut Random) -> OwnedRequest {
    let length = if random.one_in(4) {
        wrong_length(random)
    } else {
        geometry::IMAGE
    };
    let drive = random.pick(&[1, 1, 1, 2, 2, 2, 0, 3, 257, 1 << 16 | 2, u32::MAX]);
    let track = match random.below(3) {
        0 => random.below(256) as u32,
        1 => random.pick(&[0, 3, 4, 79, 128, 207]),
        _ => random.pick(&[80, 127, 208, 255, 256, 1 << 16, 1 << 31, u32::MAX]),
    };
    let sector = if random.one_in(4) {
        random.pick(&[0, 11, 255, 257, 1 << 31, u32::MAX])
    } else {
        random.between(1, 10) as u32
    };
    let mut asked = OwnedRequest::new(Call::Sector).with(TWO, vec![random.byte(); length]);
    asked.numbers = [drive, track, sector];
    asked
}

pub const WRONG_LENGTHS: [usize; 13] = [
    0, 1, 255, 256, 511, 512, 40_959, 40_960, 40_961, 819_199, 819_201, 819_712, 1_000_000,
];

pub fn wrong_length(random: &mut Random) -> usize {
    random.pick(&WRONG_LENGTHS)
}
