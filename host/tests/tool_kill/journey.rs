//! A journey over one image: the tool alone changes it, killed or not, and each change begins with what the last one left.
//! A ledger in plain Rust goes beside it. After a kill the listing shows which changes were made; the rest must follow from
//! these.
use super::{Fixture, borrowed};
use crate::disk::{self, FileChange, SaveRequest};
use crate::killed_process::{self, End, Line};
use crate::pace::Pace;
use crate::tally::Tally;
use paper::{Change, Ledger, Mark};
use std::path::Path;
use std::time::Duration;

pub struct Journey {
    fixture: Fixture,
    ledger: Ledger,
}

/// One change by the tool.
struct Step {
    words: Vec<String>,
    /// The file that is its standard input, if one is.
    input: Option<String>,
    /// The ledgers that it may leave where it is killed; the last where it comes to its end.
    after: Vec<Ledger>,
    /// The disk that it makes, and the sectors that it writes.
    made: (Vec<u8>, Vec<usize>),
}

impl Journey {
    pub fn new(seed: u64) -> Journey {
        let fixture = Fixture::new(seed);
        let ledger = Ledger::of(&fixture.image).expect("an accepted disk");
        Journey { fixture, ledger }
    }

    pub fn measure(&mut self) -> Pace {
        self.fixture.measure()
    }

    /// A change, mostly killed. What it left is the disk for the next one.
    pub fn round(&mut self, pace: &mut Pace, tally: &mut Tally) {
        let step = self.step(pace);
        let (new, sectors) = &step.made;
        let (image, words) = (self.fixture.path("image"), borrowed(&step.words));
        let line = Line {
            words: &words,
            input: step.input.as_deref(),
        };
        let killed = self.fixture.draw.number(0, 5) > 0;
        let end = if killed {
            let moment = match sectors.len() {
                1 => pace.short_moment(&mut self.fixture.draw),
                many => pace.moment(&mut self.fixture.draw, many),
            };
            killed_process::kill_at(line, moment, Path::new(&image), sectors[0])
        } else {
            run(line)
        };
        let left = self.fixture.stored();
        let same = |sector: &&usize| left[512 * **sector..][..512] == new[512 * **sector..][..512];
        let k = sectors.iter().take_while(same).count();
        tally.count(&end, k, sectors.len());
        if killed && sectors.len() > 1 {
            pace.learn(&end, k, sectors.len());
        }
        self.ledger = judged(&left, step.after, end.killed);
        self.fixture.image = left;
    }

    /// A change that the ledger refuses: the tool does too, and leaves every byte.
    pub fn refused_round(&mut self) {
        if self.ledger.files() == 0 {
            return;
        }
        let name = self.any_name();
        let request = SaveRequest {
            name: name.clone(),
            ..self.fixture.request(1)
        };
        let (image, there) = (self.fixture.path("image"), text(&name));
        let absent = ["erase", &image, "NOBODY"].map(String::from).to_vec();
        let onto_itself = ["rename", &image, &there, &there].map(String::from).to_vec();
        for (words, change, number) in [
            (absent, Change::Erase(b"NOBODY"), 15),
            (onto_itself, Change::Rename(&name, &name), 16),
            (self.fixture.save_words(&request), Change::Save(asked(&request)), 16),
        ] {
            let refused = self.ledger.refuses(&change).map_err(|refused| refused.number);
            assert_eq!(refused, Err(number), "{words:?}");
            let output = killed_process::run(killed_process::line(&borrowed(&words)));
            assert_eq!(output.status.code(), Some(1), "{words:?}");
            assert!(self.fixture.stored() == self.fixture.image, "{words:?}: a refused change");
        }
    }

    fn step(&mut self, pace: &Pace) -> Step {
        let size = self.fixture.draw.number(20, pace.most_sectors() + 1);
        if self.ledger.files() == 0 {
            return self.save(size);
        }
        if self.ledger.free() < size || self.ledger.files() > 40 {
            return self.erase();
        }
        match self.fixture.draw.number(0, 12) {
            0..3 => self.record(size),
            3..6 => self.gather().unwrap_or_else(|| self.save(size)),
            6 => self.erase(),
            7..9 => self.single(),
            _ => self.save(size),
        }
    }

    /// The ledger with this change made, beside the one without it.
    fn either(&self, change: &Change) -> Vec<Ledger> {
        let mut after = self.ledger.clone();
        after.enter(change).expect("the ledger takes it");
        vec![self.ledger.clone(), after]
    }

    fn save(&mut self, size: usize) -> Step {
        let request = self.fixture.request(size);
        Step {
            words: self.fixture.save_words(&request),
            input: None,
            after: self.either(&Change::Save(asked(&request))),
            made: disk::save(&self.fixture.image, &request),
        }
    }

    /// It leaves the disk of a save: the first sector of the file is written after its last.
    fn record(&mut self, size: usize) -> Step {
        let request = self.fixture.request(size);
        let (new, mut sectors) = disk::save(&self.fixture.image, &request);
        sectors[..size].rotate_left(1);
        Step {
            words: self.fixture.words_of(&request, &["record", &self.fixture.path("image")]),
            input: Some(self.fixture.path("body")),
            after: self.either(&Change::Save(asked(&request))),
            made: (new, sectors),
        }
    }

    /// Of the first scattered file that can move, if there is one.
    fn gather(&mut self) -> Option<Step> {
        let moved = |name: [u8; 10]| Some((name, disk::gather(&self.fixture.image, &name)?));
        let (name, made) = self.ledger.names().into_iter().find_map(moved)?;
        Some(Step {
            words: vec!["gather".into(), self.fixture.path("image"), text(&name)],
            input: None,
            after: self.either(&Change::Gather(&name)),
            made,
        })
    }

    /// Of several files: those are gone whose sectors were written.
    fn erase(&mut self) -> Step {
        let mut names: Vec<Vec<u8>> = (0..self.fixture.draw.number(1, 7)).map(|_| self.any_name()).collect();
        names.sort();
        names.dedup();
        let made = disk::erase_many(&self.fixture.image, &names);
        let after = |sectors: usize| {
            let mut after = self.ledger.clone();
            after.enter_many(&names.concat(), sectors);
            after
        };
        let given = names.iter().map(|name| text(name));
        Step {
            words: ["erase".into(), self.fixture.path("image")]
                .into_iter()
                .chain(given)
                .collect(),
            input: None,
            after: (0..=made.1.len()).map(after).collect(),
            made,
        }
    }

    /// A rename or a mark.
    fn single(&mut self) -> Step {
        let (name, new) = (self.any_name(), self.fixture.request(1).name);
        let (word, change, one) = match self.fixture.draw.number(0, 3) {
            0 => ("hide", Change::Mark(Mark::Hide, &name), FileChange::Hide),
            1 => ("show", Change::Mark(Mark::Show, &name), FileChange::Show),
            _ => ("rename", Change::Rename(&name, &new), FileChange::Rename(new.clone())),
        };
        let mut words = vec![word.into(), self.fixture.path("image"), text(&name)];
        words.extend((word == "rename").then(|| text(&new)));
        Step {
            words,
            input: None,
            after: self.either(&change),
            made: disk::change(&self.fixture.image, &name, &one),
        }
    }

    /// Of a file that is there; there must be one.
    fn any_name(&mut self) -> Vec<u8> {
        let names = self.ledger.names();
        names[self.fixture.draw.number(0, names.len())].to_vec()
    }
}

/// The tool at its own pace.
fn run(line: Line) -> End {
    let output = killed_process::run(line);
    assert!(
        output.status.success(),
        "{:?}: {}",
        line.words,
        String::from_utf8_lossy(&output.stderr)
    );
    End {
        killed: false,
        lived: Duration::ZERO,
    }
}

/// The one of the ledgers that the listing shows: the last where the tool was not killed. Every file reads as it says.
fn judged(left: &[u8], after: Vec<Ledger>, killed: bool) -> Ledger {
    assert_eq!(disk::check(left), (0, 0), "the disk left is accepted");
    let (listing, free) = disk::list(left);
    let shows = |ledger: &Ledger| {
        let (bytes, listed) = ledger.list();
        bytes == listing && listed.free == free
    };
    let at = after.iter().rposition(shows).expect("the disk lists as one of its ledgers");
    assert!(
        killed || at + 1 == after.len(),
        "a tool that ends by itself has made its change"
    );
    let ledger = after[at].clone();
    for name in ledger.names() {
        let body = ledger.read(&name).map(<[u8]>::to_vec).map_err(|refused| refused.number);
        assert!(disk::read(left, &name) == body, "{} reads as it did", text(&name));
    }
    ledger
}

/// What a save asks of the ledger.
fn asked(request: &SaveRequest) -> paper::SaveRequest<'_> {
    paper::SaveRequest {
        kind: request.kind,
        name: &request.name,
        page: request.page,
        offset: request.offset,
        exec: &request.exec,
        info: &request.info,
        body: &request.body,
    }
}

/// A name as a word for the tool.
fn text(name: &[u8]) -> String {
    String::from_utf8_lossy(name).trim_end().to_string()
}
