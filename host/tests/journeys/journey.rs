//! The disk on its way, and the ledger beside it.

use crate::coverage::Coverage;
use crate::drawing::{self, Event};
use crate::in_place::{ask, named, refused};
use crate::recording::OpenRecording;
use crate::support::calls::{self, ANSWERS, BODY, Call, EXEC, INFO, NAME, NAMES, NEW};
use crate::support::facts::Facts;
use crate::support::geometry::SECTOR;
use crate::support::random::Random;
use crate::support::requests::OwnedRequest;
use paper::{Change, Ledger, Mark, Refused, SaveRequest};

pub struct Journey {
    pub image: Vec<u8>,
    /// The same bytes while nothing is asked; a change is asked here, and goes to the image as far as it is not cut.
    pub new: Vec<u8>,
    pub ledger: Ledger,
    pub open: Vec<OpenRecording>,
}

impl Journey {
    pub fn from(image: Vec<u8>) -> Journey {
        Journey {
            ledger: Ledger::of(&image).expect("an accepted disk"),
            new: image.clone(),
            image,
            open: Vec::new(),
        }
    }

    /// The next request. Gives what the disk showed before it.
    pub fn step(&mut self, coverage: &mut Coverage, random: &mut Random) -> Facts {
        let facts = Facts::of(&self.image);
        match drawing::next_event(self.open.len(), &facts, random) {
            Event::Change(call) => {
                let mut asked = drawing::change(call, &facts, random);
                if call == Call::Rename && !self.open.is_empty() && random.coin() {
                    // To the name of a recording, which then cannot be closed.
                    asked.slices[NEW] = self.open[0].name().to_vec();
                }
                self.change(asked, coverage, random);
            }
            Event::EraseMany => self.erase_many(drawing::names_to_erase(&facts, random), coverage, random),
            Event::Open => self.open(&facts, coverage, random),
            Event::Piece => self.piece(coverage, random),
            Event::Close => self.close(coverage, random),
        }
        facts
    }

    /// A change that is entered as a whole.
    fn change(&mut self, mut asked: OwnedRequest, coverage: &mut Coverage, random: &mut Random) {
        let expected = self.ledger.refuses(&change(&asked));
        let answer = ask(&mut asked, &mut self.new);
        if !self.is_taken(asked.call, answer, expected, coverage) {
            return;
        }
        let sectors = named(answer, &asked);
        let k = written(sectors.len(), random);
        self.write(&sectors, k);
        coverage.ended(asked.call, k, sectors.len());
        self.touch(None, k);
        if k == sectors.len() {
            self.ledger.enter(&change(&asked)).expect("it is accepted");
        }
    }

    /// Names erased at once: each sector counts as a change of its own.
    fn erase_many(&mut self, mut asked: OwnedRequest, coverage: &mut Coverage, random: &mut Random) {
        let expected = self.ledger.refuses_many(&asked.slices[NAMES]);
        let answer = ask(&mut asked, &mut self.new);
        if !self.is_taken(Call::EraseMany, answer, expected, coverage) {
            return;
        }
        let (answers, _) = self.ledger.without(&asked.slices[NAMES]);
        assert!(asked.slices[ANSWERS].starts_with(&answers), "other answers than the ledger's");
        let sectors = named(answer, &asked);
        let k = written(sectors.len(), random);
        self.write(&sectors, k);
        coverage.ended(Call::EraseMany, k, sectors.len());
        self.touch(None, k);
        self.ledger.enter_many(&asked.slices[NAMES], k);
    }

    /// Whether it is accepted. It is refused what the ledger says; with 20 the ledger says nothing against it, and of a disk on
    /// which it is refused 30 the ledger knows nothing. A refused call changes no byte.
    pub fn is_taken(&self, call: Call, answer: u64, expected: Result<(), Refused>, coverage: &mut Coverage) -> bool {
        coverage.tally.count(call, answer);
        match calls::refusal(answer) {
            30 => {}
            20 => assert_eq!(expected, Ok(()), "{call:?} is refused 20"),
            _ => assert_eq!(refused(answer), expected, "{call:?}"),
        }
        let taken = calls::refusal(answer) == 0;
        assert!(taken || self.new == self.image, "{call:?}: a refused call changed the disk");
        taken
    }

    /// Writes the first k of the sectors that were named, and no other.
    pub fn write(&mut self, sectors: &[usize], k: usize) {
        for (i, sector) in sectors
            .iter()
            .map(|number| number * SECTOR..(number + 1) * SECTOR)
            .enumerate()
        {
            if i < k {
                self.image[sector.clone()].copy_from_slice(&self.new[sector]);
            } else {
                self.new[sector.clone()].copy_from_slice(&self.image[sector]);
            }
        }
        assert!(self.new == self.image, "a sector is changed and not named");
    }

    /// Something came between the calls of every recording but this.
    pub fn touch(&mut self, but: Option<usize>, written: usize) {
        for (_, open) in (0..).zip(&mut self.open).filter(|(i, _)| Some(*i) != but) {
            open.touched |= written > 0;
        }
    }
}

/// How many of the sectors are written: all, all but one, none, or any number.
pub fn written(named: usize, random: &mut Random) -> usize {
    match random.below(12) {
        0 | 1 => named.saturating_sub(1),
        2 => 0,
        3 | 4 => random.below(named + 1),
        _ => named,
    }
}

/// The change that a request asks for.
fn change(asked: &OwnedRequest) -> Change<'_> {
    let name = &asked.slices[NAME][..];
    match asked.call {
        Call::Save => Change::Save(save_request(asked)),
        Call::Erase => Change::Erase(name),
        Call::Rename => Change::Rename(name, &asked.slices[NEW]),
        Call::Hide => Change::Mark(Mark::Hide, name),
        Call::Show => Change::Mark(Mark::Show, name),
        Call::Protect => Change::Mark(Mark::Protect, name),
        Call::Release => Change::Mark(Mark::Release, name),
        Call::Gather => Change::Gather(name),
        call => unreachable!("{call:?} is not entered as a whole"),
    }
}

/// What a save or the opening of a recording asks for.
pub fn save_request(asked: &OwnedRequest) -> SaveRequest<'_> {
    let [kind, page, offset] = asked.numbers;
    SaveRequest {
        kind,
        name: &asked.slices[NAME],
        page,
        offset,
        exec: &asked.slices[EXEC],
        info: &asked.slices[INFO],
        body: &asked.slices[BODY],
    }
}
