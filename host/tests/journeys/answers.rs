//! What the disk answers, and what the ledger does.

use crate::coverage::Coverage;
use crate::in_place::{ask, refused};
use crate::journey::Journey;
use crate::support::calls::{self, Call, NAME, OUT};
use crate::support::facts::Facts;
use crate::support::random::Random;
use crate::support::readers;
use crate::support::requests::{self, OwnedRequest};
use crate::support::tally::Tally;
use paper::{Ledger, Refused};

/// So many names are asked for after a change; at times all.
const SOME: usize = 3;

impl Journey {
    /// Asks the disk and the ledger the same, and fails where they differ. Names are drawn from before the change too.
    pub fn answers_as_the_ledger(&mut self, whole: bool, facts: &Facts, coverage: &mut Coverage, random: &mut Random) {
        let mut names: Vec<Vec<u8>> = self.ledger.names().into_iter().map(|name| name.to_vec()).collect();
        if !whole {
            random.shuffle(&mut names);
            names.truncate(SOME);
            names.extend((0..2).map(|_| requests::asked_name(facts, random)));
        }
        let tally = &mut coverage.tally;
        self.checks_and_lists(tally);
        for name in &names {
            self.reads(name, tally, random);
            self.starts(name, tally);
            self.trees(name, tally);
        }
        self.trees(&[], tally);
        if whole {
            let own = Ledger::of(&self.image);
            assert!(own.as_ref() == Ok(&self.ledger), "another ledger than the disk's");
        }
        coverage.answers += 4 + 4 * names.len();
    }

    fn put(&mut self, mut asked: OwnedRequest, tally: &mut Tally) -> (u64, OwnedRequest) {
        let answer = ask(&mut asked, &mut self.image);
        tally.count(asked.call, answer);
        (answer, asked)
    }

    fn checks_and_lists(&mut self, tally: &mut Tally) {
        let (answer, _) = self.put(OwnedRequest::new(Call::Check), tally);
        assert_eq!(refused(answer), Ok(()), "the disk is refused");
        let (answer, _) = self.put(OwnedRequest::new(Call::CheckRelease), tally);
        assert_eq!(refused(answer), self.ledger.check_release(), "the check before a release");
        let (bytes, listed) = self.ledger.list();
        let (answer, asked) = self.put(OwnedRequest::new(Call::List).with(OUT, vec![0x5c; bytes.len()]), tally);
        assert_eq!(
            (calls::value(answer), calls::free(answer)),
            (listed.files, listed.free),
            "files and free sectors"
        );
        assert!(asked.slices[OUT] == bytes, "another listing than the ledger's");
    }

    /// In one, and in pieces.
    fn reads(&mut self, name: &[u8], tally: &mut Tally, random: &mut Random) {
        let body = self.ledger.read(name).map(<[u8]>::to_vec);
        let length = body.as_ref().map_or(0, Vec::len);
        let read = OwnedRequest::new(Call::Read).with(NAME, name).with(OUT, vec![0x5c; length]);
        let (answer, asked) = self.put(read, tally);
        same(&body, answer, || asked.slices[OUT].clone(), name);
        let (answer, _) = self.put(OwnedRequest::new(Call::Open).with(NAME, name), tally);
        same(&body, answer, || self.pieces(answer, random), name);
    }

    /// What comes of a reader that was opened, in pieces of drawn lengths.
    fn pieces(&mut self, opened: u64, random: &mut Random) -> Vec<u8> {
        let (mut answer, mut left, mut all) = (opened, calls::value(opened), Vec::new());
        while left > 0 {
            let room = readers::room(left, random).max(left / 4);
            let mut next = OwnedRequest::new(Call::Next).with(OUT, vec![0x5c; room]);
            next.numbers = [calls::slot(answer), calls::free(answer), left].map(|number| number as u32);
            answer = ask(&mut next, &mut self.image);
            let came = calls::value(answer);
            assert_eq!(came, room.min(left), "less came than there is");
            all.extend(&next.slices[OUT][..came]);
            left -= came;
        }
        all
    }

    fn starts(&mut self, name: &[u8], tally: &mut Tally) {
        let (answer, _) = self.put(OwnedRequest::new(Call::Start).with(NAME, name), tally);
        let start = refused(answer).map(|()| calls::value(answer) as u32);
        assert_eq!(start, self.ledger.start(name), "the start address of {name:?}");
    }

    fn trees(&mut self, name: &[u8], tally: &mut Tally) {
        let room = 2 * self.ledger.files();
        let (answer, asked) = self.put(
            OwnedRequest::new(Call::Tree).with(NAME, name).with(OUT, vec![0x5c; room]),
            tally,
        );
        let slots = asked.slices[OUT].chunks(2).take(calls::value(answer));
        let slots = slots.map(|pair| u16::from_le_bytes([pair[0], pair[1]]));
        let tree = refused(answer).map(|()| slots.collect());
        assert_eq!(tree, self.ledger.tree(name), "the tree of {name:?}");
    }
}

/// The body that the ledger gives, or its refusal.
fn same(expected: &Result<Vec<u8>, Refused>, answer: u64, body: impl FnOnce() -> Vec<u8>, name: &[u8]) {
    match expected {
        Ok(expected) => {
            assert_eq!(refused(answer), Ok(()), "the body of {name:?}");
            assert_eq!(calls::value(answer), expected.len(), "the length of {name:?}");
            assert!(body() == *expected, "another body of {name:?}");
        }
        Err(expected) => assert_eq!(refused(answer), Err(*expected), "the body of {name:?}"),
    }
}
