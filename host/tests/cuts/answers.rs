//! The questions to the old disk and to a cut one: the listing, whether it may go out, body and start address for every live
//! name, for the names of the change, and for some that are not there; and what lies beneath the root and every directory.

use crate::change::AcceptedChange;
use crate::support::calls::{Call, NAME, NEW, OUT, RECORD, Request};
use crate::support::compare;
use crate::support::facts::{Facts, LiveSlot};
use crate::support::margins::Margins;
use crate::support::names;
use crate::support::random::Random;
use crate::support::recordings::{EXECUTION, OWN_NAME};
use crate::support::requests::{self, OwnedRequest};

/// Questions, and what the old disk answers: the packed answer and the output buffer at return.
pub struct Answers(Vec<(OwnedRequest, u64, Vec<u8>)>);

impl Answers {
    pub fn of(change: &AcceptedChange, random: &mut Random) -> Answers {
        let mut lender = Margins::default();
        let answered = questions(change, random).into_iter().map(|asked| {
            let left = compare::ask(&asked.on(change.old), &mut lender);
            (asked, left.answer, left.out)
        });
        Answers(answered.collect())
    }

    /// The disk is accepted, and the answers are the same. Gives how many there were.
    pub fn same_on(&self, disk: &[u8]) -> usize {
        accepted(disk);
        let mut lender = Margins::default();
        for (asked, answer, out) in &self.0 {
            let request = asked.on(disk);
            let left = compare::ask(&request, &mut lender);
            assert!(left.answer == *answer, "{}", other_answer(&request, *answer, left.answer));
            assert!(
                left.out == *out,
                "another output buffer than on the old disk\n{}",
                compare::describe(&request)
            );
        }
        self.0.len()
    }
}

pub fn accepted(disk: &[u8]) {
    let answer = compare::ask(&Request::new(Call::Check, disk), &mut Margins::default()).answer;
    assert_eq!(answer, 0, "the disk is refused: {}", compare::read_out(answer));
}

fn other_answer(request: &Request, old: u64, cut: u64) -> String {
    format!(
        "the old disk {}, the cut one {}\n{}",
        compare::read_out(old),
        compare::read_out(cut),
        compare::describe(request)
    )
}

fn questions(change: &AcceptedChange, random: &mut Random) -> Vec<OwnedRequest> {
    let facts = &change.facts;
    let all = 258 * facts.live.len();
    let lengths = [all, all + 258, random.below(all + 1)];
    let mut questions: Vec<OwnedRequest> = lengths.into_iter().map(|length| listing(length, random)).collect();
    questions.push(OwnedRequest::new(Call::CheckRelease));
    for name in asked_names(change, random) {
        let length = facts.find(&name).map_or(700, |live| live.length);
        let out = if random.one_in(4) {
            requests::buffer(length, random)
        } else {
            random.bytes(length + 3)
        };
        questions.push(OwnedRequest::new(Call::Read).with(NAME, name.clone()).with(OUT, out));
        questions.push(OwnedRequest::new(Call::Start).with(NAME, name.clone()));
        if name.is_empty() || facts.find(&name).is_some_and(LiveSlot::is_directory) {
            questions.push(tree(name, facts, random));
        }
    }
    questions
}

/// The tree of a directory, or of the root: it is a function of the look, as the others are.
fn tree(name: Vec<u8>, facts: &Facts, random: &mut Random) -> OwnedRequest {
    let length = 2 * facts.live.len() + random.below(4);
    OwnedRequest::new(Call::Tree).with(NAME, name).with(OUT, random.bytes(length))
}

fn listing(length: usize, random: &mut Random) -> OwnedRequest {
    OwnedRequest::new(Call::List).with(OUT, random.bytes(length))
}

/// Of more live names than so many, some are asked for.
const MANY: usize = 80;

fn asked_names(change: &AcceptedChange, random: &mut Random) -> Vec<Vec<u8>> {
    let Facts { live, erased, .. } = &change.facts;
    let mut asked: Vec<Vec<u8>> = live.iter().map(|live| live.name.to_vec()).collect();
    if asked.len() > MANY {
        random.shuffle(&mut asked);
        asked.truncate(MANY);
    }
    asked.extend([
        change.asked.slices[NAME].clone(),
        change.asked.slices[NEW].clone(),
        Vec::new(),
    ]);
    let record = &change.asked.slices[RECORD];
    asked.extend(record.get(OWN_NAME..EXECUTION).map(<[u8]>::to_vec));
    asked.extend((0..2).map(|_| names::usable(random)));
    asked.extend(erased.first().map(|name| name.to_vec()));
    asked
}
