//! Which request comes next on a journey.

use crate::support::calls::{ANSWERS, BODY, CHANGES, Call, NAME, NAMES, NEW, OUT};
use crate::support::erase_many;
use crate::support::facts::{Facts, LiveSlot};
use crate::support::fields;
use crate::support::names::{self, Name};
use crate::support::random::Random;
use crate::support::requests::{self, OwnedRequest};
use crate::support::save_requests;

pub enum Event {
    /// One of those that are entered as a whole.
    Change(Call),
    EraseMany,
    /// A recording is opened, gets a piece, is closed.
    Open,
    Piece,
    Close,
}

/// Most recordings are left alone but for marks and names, since they stand no change of the used map.
pub fn next_event(open: usize, facts: &Facts, random: &mut Random) -> Event {
    let marks = [
        Call::Hide,
        Call::Show,
        Call::Protect,
        Call::Release,
        Call::Release,
        Call::Rename,
        Call::Rename,
    ];
    match random.below(100) {
        0..35 if open > 0 => Event::Piece,
        35..50 if open > 0 => Event::Close,
        50..58 if (1..4).contains(&open) => Event::Open,
        58..80 if open > 0 => Event::Change(random.pick(&marks)),
        0..12 if open == 0 => Event::Open,
        12..18 => Event::EraseMany,
        18..40 => Event::Change(random.pick(&marks)),
        40..60 => Event::Change(Call::Gather),
        60..70 => Event::Change(Call::Erase),
        // A disk that is nearly full is emptied, and one that is nearly empty is filled.
        _ if facts.free < 20 && random.coin() => Event::Change(random.pick(&[Call::Erase, Call::Release])),
        _ => Event::Change(Call::Save),
    }
}

/// A change of this sort: one that is likely to be accepted, or any.
pub fn change(call: Call, facts: &Facts, random: &mut Random) -> OwnedRequest {
    assert!(CHANGES.contains(&call), "{call:?} is not entered as a whole");
    let Some(name) = some_name(facts, call, random).filter(|_| random.below(5) > 1) else {
        return requests::draw(call, facts, random);
    };
    let asked = OwnedRequest::new(call);
    match call {
        Call::Save => {
            let mut asked = save_requests::accepted(facts, random);
            if random.below(4) > 0 {
                asked.slices[BODY].truncate(random.pick(&[0, 501, 502, 3_000, 8_000]));
            }
            asked
        }
        Call::Rename => asked
            .with(NAME, name)
            .with(NEW, save_requests::unused_name(facts, random))
            .with(OUT, vec![0x5c; 2]),
        Call::Gather => asked.with(NAME, name).with(OUT, vec![0x5c; 2 * 1_561]),
        _ => asked.with(NAME, name).with(OUT, vec![0x5c; 2]),
    }
}

/// The name of a file that is there. Those that no save makes are seldom erased, so that they stay a while.
fn some_name(facts: &Facts, call: Call, random: &mut Random) -> Option<Name> {
    let (any, directories) = (random.one_in(10), random.one_in(20));
    let fit = |live: &&LiveSlot| match call {
        Call::Erase if directories => live.is_directory(),
        Call::Erase => any || fields::is_carried(live.kind) && !live.protected,
        Call::Gather => any || live.sectors.len() > 1,
        _ => true,
    };
    let names: Vec<Name> = facts.live.iter().filter(fit).map(|live| live.name).collect();
    (!names.is_empty()).then(|| random.pick(&names))
}

/// Some names, one of them twice, with what is not there among them; seldom any that can be asked for.
pub fn names_to_erase(facts: &Facts, random: &mut Random) -> OwnedRequest {
    if random.one_in(12) {
        return erase_many::draw(facts, random);
    }
    let mut all: Vec<Name> = Vec::new();
    for _ in 0..random.between(1, 8) {
        all.extend(some_name(facts, Call::Erase, random).map(|name| names::turned(name, random)));
    }
    if random.one_in(3) {
        all.push(names::filled(&names::usable(random)));
    }
    if random.one_in(3) && !all.is_empty() {
        all.push(names::turned(all[0], random));
    }
    let mut bytes = all.concat();
    if random.one_in(8) {
        bytes.push(65);
    }
    let list = if random.one_in(8) { random.below(4) } else { 778 };
    OwnedRequest::new(Call::EraseMany)
        .with(ANSWERS, vec![0x5c; bytes.len() / 10])
        .with(NAMES, bytes)
        .with(OUT, vec![0xc5; list])
}
