//! What an accepted change leaves, written once more from document 01, "What each change does", and from document 02, M-103,
//! M-106 and M-112; and what is seen of it.

use crate::change::AcceptedChange;
use crate::support::calls::{BODY, Call, EXEC, INFO, NAME, NEW, OUT, refusal, value};
use crate::support::compare::{self, Returned};
use crate::support::fields;
use crate::support::gathers::{self, GatherResult};
use crate::support::geometry::{
    BITS, PAYLOAD, SECTOR, SLOT, address, bit_place, is_data, number, sectors_for, slot_place, slots,
};
use crate::support::margins::Margins;
use crate::support::names;
use crate::support::requests::OwnedRequest;

/// The new disk and the sectors named are what the paper says, byte for byte.
pub fn examine(change: &AcceptedChange) {
    let (new, named) = match change.asked.call {
        Call::Save => saved(change),
        Call::Gather => gathered(change),
        _ => edited(change),
    };
    assert_eq!(change.named, named, "{:?} names other sectors", change.asked.call);
    assert!(change.new == new, "{:?} leaves another disk", change.asked.call);
    seen(change);
}

/// A saved file reads back with the start asked for; an erased one is gone; a renamed one answers to its new name alone,
/// unless the old one is the same with other capitals.
fn seen(change: &AcceptedChange) {
    let slices = &change.asked.slices;
    match change.asked.call {
        Call::Save => {
            let [_, page, offset] = change.asked.numbers;
            let read = ask(Call::Read, &slices[NAME], slices[BODY].len(), &change.new);
            assert_eq!((refusal(read.answer), value(read.answer)), (0, slices[BODY].len()));
            assert!(read.out == slices[BODY], "the saved body reads back otherwise");
            let start = ask(Call::Start, &slices[NAME], 0, &change.new).answer;
            assert_eq!(
                (refusal(start), value(start)),
                (0, (page * 16_384 + offset - 16_384) as usize)
            );
        }
        Call::Erase => assert_eq!(ask(Call::Start, &slices[NAME], 0, &change.new).answer, 15),
        Call::Rename => {
            let old = ask(Call::Start, &slices[NAME], 0, change.old).answer;
            assert_eq!(ask(Call::Start, &slices[NEW], 0, &change.new).answer, old);
            let by_old_name = if change.turns_letters() { old } else { 15 };
            assert_eq!(ask(Call::Start, &slices[NAME], 0, &change.new).answer, by_old_name);
        }
        Call::Gather => {
            // The file's own answers, and those of some others.
            let own = change.facts.find(&slices[NAME]);
            for live in own.into_iter().chain(change.facts.live.iter().take(8)) {
                for call in [Call::Start, Call::Read, Call::Open] {
                    let [old, new] = [change.old, &change.new].map(|disk| ask(call, &live.name, live.length, disk));
                    // Where its bytes begin is another matter for the file that moved.
                    let same = call == Call::Open || old.answer == new.answer;
                    assert!(same && value(old.answer) == value(new.answer) && old.out == new.out);
                    assert_eq!(refusal(old.answer), refusal(new.answer));
                }
            }
            let again = OwnedRequest::new(Call::Gather).with(NAME, slices[NAME].clone());
            let left = compare::ask(&again.on(&change.new), &mut Margins::default());
            assert_eq!(left.answer, 0, "gathered again, the file is left, with no room in the list");
        }
        _ => {}
    }
}

fn ask(call: Call, name: &[u8], length: usize, image: &[u8]) -> Returned {
    let mut asked = OwnedRequest::new(call).with(NAME, name);
    if call == Call::Read {
        asked = asked.with(OUT, vec![0x5c; length]);
    }
    compare::ask(&asked.on(image), &mut Margins::default())
}

/// A change of bytes in the slot that it finds.
fn edited(change: &AcceptedChange) -> (Vec<u8>, Vec<usize>) {
    let place = slot_place(change.found().expect("it is found by name"));
    let mut new = change.old.to_vec();
    let slot = &mut new[place..place + SLOT];
    match change.asked.call {
        Call::Erase => slot[0] = 0,
        Call::Rename => slot[fields::NAME..fields::COUNT].copy_from_slice(&names::filled(&change.asked.slices[NEW])),
        Call::Hide => slot[0] |= fields::HIDDEN,
        Call::Show => slot[0] &= !fields::HIDDEN,
        Call::Protect => slot[0] |= fields::PROTECTED,
        Call::Release => slot[0] &= !fields::PROTECTED,
        call => unreachable!("{call:?}"),
    }
    (new, vec![number(place)])
}

/// The payload of each sector, in the order of the chain, on the lowest run of free bits, chained rising; of the slot its first
/// address and its map; and the slot's sector last. A file in a row is left.
fn gathered(change: &AcceptedChange) -> (Vec<u8>, Vec<usize>) {
    let live = change.facts.find(&change.asked.slices[NAME]).expect("it is found by name");
    let mut new = change.old.to_vec();
    let start = match gathers::gather_result(change.old, &change.facts, live) {
        GatherResult::InPlace => return (new, Vec::new()),
        GatherResult::MovedTo(start) => start,
        GatherResult::NoRun => panic!("it has nowhere to go"),
    };
    let old = gathers::chain(change.old, live);
    let run: Vec<usize> = (start..start + old.len()).collect();
    for (i, (&from, &to)) in old.iter().zip(&run).enumerate() {
        let sector = &mut new[bit_place(to)..][..SECTOR];
        sector[..PAYLOAD].copy_from_slice(&change.old[bit_place(from)..][..PAYLOAD]);
        sector[PAYLOAD..].copy_from_slice(&run.get(i + 1).map_or([0, 0], |&next| address(next)));
    }
    let slot = &mut new[slot_place(live.slot)..][..SLOT];
    slot[fields::FIRST..fields::MAP].copy_from_slice(&address(start));
    fields::set_map(slot, &run);
    let data = run.iter().map(|&bit| number(bit_place(bit)));
    (new, data.chain([number(slot_place(live.slot))]).collect())
}

/// The lowest free slot, and the lowest free sectors, rising, as chain. A slot is free where it is erased, and from the first on
/// whose first name byte is 0; where that one is taken, an old name in the next goes.
fn saved(change: &AcceptedChange) -> (Vec<u8>, Vec<usize>) {
    let mut new = change.old.to_vec();
    let bits = lowest_free(change);
    let nameless = |slot: usize| change.old[slot_place(slot) + fields::NAME] == 0;
    let free = |slot: &usize| change.old[slot_place(*slot)] == 0 || nameless(*slot);
    let last = slots(change.facts.extra);
    let slot = (1..=last).find(free).expect("a slot is free");
    let old_name = Some(slot + 1).filter(|&next| nameless(slot) && next <= last && !nameless(next));
    let payload = payload(change, bits.len());
    for (i, &bit) in bits.iter().enumerate() {
        let sector = &mut new[bit_place(bit)..][..SECTOR];
        sector[..PAYLOAD].copy_from_slice(&payload[i * PAYLOAD..][..PAYLOAD]);
        sector[PAYLOAD..].copy_from_slice(&bits.get(i + 1).map_or([0, 0], |&next| address(next)));
    }
    let mut bytes = new_slot(change, &bits);
    for at in fields::KEPT.into_iter().flatten().filter(|_| slot == 1) {
        bytes[at] = change.old[at];
    }
    new[slot_place(slot)..][..SLOT].copy_from_slice(&bytes);
    let mut named: Vec<usize> = bits.iter().map(|&bit| number(bit_place(bit))).collect();
    if let Some(next) = old_name {
        new[slot_place(next)..][..2].fill(0);
        // Two slots fill a sector, and the first of a pair has the next one beside it.
        named.extend((slot % 2 == 0).then_some(number(slot_place(next))));
    }
    named.push(number(slot_place(slot)));
    (new, named)
}

fn lowest_free(change: &AcceptedChange) -> Vec<usize> {
    let live = change
        .facts
        .live
        .iter()
        .map(|live| &change.old[slot_place(live.slot)..][..SLOT]);
    let maps: Vec<&[u8]> = live.collect();
    let data = (0..BITS).filter(|&bit| is_data(bit, change.facts.extra));
    let free = data.filter(|&bit| !maps.iter().any(|slot| fields::has_bit(slot, bit)));
    free.take(sectors_for(change.asked.slices[BODY].len())).collect()
}

/// The nine bytes, the body, and 0 behind it.
fn payload(change: &AcceptedChange, sectors: usize) -> Vec<u8> {
    let body = &change.asked.slices[BODY];
    let [kind, page, offset] = change.asked.numbers;
    let [low, high] = fields::remainder(body.len(), 0);
    let [offset_low, offset_high] = (offset as u16).to_le_bytes();
    let pages = (body.len() / 16_384) as u8;
    let mut payload = vec![kind as u8, low, high, offset_low, offset_high, 0, 0, pages, page as u8];
    payload.extend(body);
    payload.resize(sectors * PAYLOAD, 0);
    payload
}

fn new_slot(change: &AcceptedChange, bits: &[usize]) -> [u8; SLOT] {
    let [kind, page, offset] = change.asked.numbers;
    let length = change.asked.slices[BODY].len();
    let mut slot = [0; SLOT];
    slot[0] = kind as u8;
    slot[fields::NAME..fields::COUNT].copy_from_slice(&names::filled(&change.asked.slices[NAME]));
    fields::set_count(&mut slot, bits.len());
    slot[fields::FIRST..fields::MAP].copy_from_slice(&address(bits[0]));
    bits.iter().for_each(|&bit| fields::set_bit(&mut slot, bit, true));
    slot[fields::INFO..fields::INFO + 11]
        .iter_mut()
        .zip(&change.asked.slices[INFO])
        .for_each(|(byte, info)| *byte = *info);
    slot[fields::PAGE] = page as u8;
    slot[fields::OFFSET..fields::PAGES].copy_from_slice(&(offset as u16).to_le_bytes());
    slot[fields::PAGES] = (length / 16_384) as u8;
    slot[fields::REMAINDER..fields::EXEC].copy_from_slice(&fields::remainder(length, 0));
    slot[fields::EXEC..fields::EXEC + 3]
        .iter_mut()
        .zip(&change.asked.slices[EXEC])
        .for_each(|(byte, exec)| *byte = *exec);
    slot[245] = 255;
    slot
}
