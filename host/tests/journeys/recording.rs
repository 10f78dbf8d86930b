//! Recordings on a journey, several open at once. One is entered at its close: as the joined pieces where no other change and no
//! cut came since its opening, else as what its sectors then read.

use crate::coverage::Coverage;
use crate::in_place::{ask, named};
use crate::journey::{Journey, save_request, written};
use crate::support::calls::{BODY, Call, OUT, RECORD};
use crate::support::facts::Facts;
use crate::support::geometry::{PAYLOAD, bit_place, fills};
use crate::support::names::Name;
use crate::support::random::Random;
use crate::support::recordings::{self, Recording};
use crate::support::requests::{self, OwnedRequest};
use crate::support::save_requests;
use paper::{Change, SaveRequest};

pub struct OpenRecording {
    /// What it was opened with, and the joined pieces.
    recording: Recording,
    /// Its record, as the calls gave it back.
    record: Vec<u8>,
    /// Whether another change or a cut came since it was opened.
    pub touched: bool,
}

impl OpenRecording {
    pub fn name(&self) -> &Name {
        &self.recording.name
    }
}

impl Journey {
    pub fn open(&mut self, facts: &Facts, coverage: &mut Coverage, random: &mut Random) {
        let mut asked = if random.one_in(3) {
            recordings::draw_open(facts, random)
        } else {
            recordings::opening(save_requests::accepted(facts, random), random.bytes(recordings::LENGTH))
        };
        let expected = self.ledger.refuses_save(&save_request(&asked), 0);
        let answer = ask(&mut asked, &mut self.new);
        if self.is_taken(Call::RecordOpen, answer, expected, coverage) {
            self.open.push(OpenRecording {
                recording: Recording::of(&asked, facts),
                record: asked.slices[RECORD].clone(),
                touched: false,
            });
        }
    }

    /// A piece for one of those that are open. Nothing is entered.
    pub fn piece(&mut self, coverage: &mut Coverage, random: &mut Random) {
        let at = random.below(self.open.len());
        let came = self.open[at].recording.body.len();
        let length = piece(self.ledger.free(), came, random);
        let list = if random.one_in(12) { random.below(8) } else { 3_116 };
        let mut asked = OwnedRequest::new(Call::RecordAdd)
            .with(BODY, random.bytes(length))
            .with(RECORD, self.open[at].record.clone())
            .with(OUT, vec![0x5c; list]);
        let expected = self.ledger.has_room(came + asked.slices[BODY].len());
        let answer = ask(&mut asked, &mut self.new);
        if !self.is_taken(Call::RecordAdd, answer, expected, coverage) {
            self.give_up(at, answer, random);
            return;
        }
        let sectors = named(answer, &asked);
        let k = written(sectors.len(), random);
        self.write(&sectors, k);
        coverage.ended(Call::RecordAdd, k, sectors.len());
        self.touch(Some(at), k);
        let open = &mut self.open[at];
        open.recording = open.recording.with(&asked.slices[BODY]);
        open.record = asked.slices[RECORD].clone();
        open.touched |= k < sectors.len();
    }

    pub fn close(&mut self, coverage: &mut Coverage, random: &mut Random) {
        let at = random.below(self.open.len());
        let room = if random.one_in(6) { random.below(8) } else { 8 };
        let mut asked = OwnedRequest::new(Call::RecordClose)
            .with(RECORD, self.open[at].record.clone())
            .with(OUT, requests::buffer(room, random));
        let recording = self.open[at].recording.clone();
        let save_request = particulars(&recording);
        let expected = self.ledger.refuses_save(&save_request, recording.body.len());
        let answer = ask(&mut asked, &mut self.new);
        if !self.is_taken(Call::RecordClose, answer, expected, coverage) {
            self.give_up(at, answer, random);
            return;
        }
        let sectors = named(answer, &asked);
        let k = written(sectors.len(), random);
        self.write(&sectors, k);
        coverage.ended(Call::RecordClose, k, sectors.len());
        self.touch(Some(at), k);
        self.open[at].touched |= k < sectors.len();
        if k == sectors.len() {
            let touched = self.open.swap_remove(at).touched;
            coverage.closes[usize::from(touched)] += 1;
            self.enter(&save_request, touched);
        }
    }

    fn enter(&mut self, save_request: &SaveRequest, touched: bool) {
        let entered = if touched {
            let sector = |bit: usize| &self.image[bit_place(bit)..][..PAYLOAD];
            let chain = self.ledger.chain_for(save_request.body.len());
            let payload = chain.into_iter().flat_map(sector).copied().collect();
            self.ledger.enter_recording(save_request, payload)
        } else {
            self.ledger.enter(&Change::Save(*save_request))
        };
        entered.expect("it is accepted");
    }

    /// A recording that the disk no longer takes is given up at some time, and any other seldom.
    fn give_up(&mut self, at: usize, answer: u64, random: &mut Random) {
        if random.one_in(if answer as u8 == 30 { 2 } else { 8 }) {
            self.open.swap_remove(at);
        }
    }
}

/// The length of the next piece: at the edges of sectors, none, to the last byte of the room and one above it, or anything.
fn piece(free: usize, came: usize, random: &mut Random) -> usize {
    match random.below(12) {
        0 => 0,
        1 | 2 => random.pick(&[1, 9, 500, 501, 502, 509, 510, 511, 512]),
        3 if random.coin() => (fills(free.max(1)) + random.below(2)).saturating_sub(came),
        _ => random.below(4_000),
    }
}

/// What a save of the whole would ask for.
fn particulars(recording: &Recording) -> SaveRequest<'_> {
    let [kind, page, offset] = recording.numbers;
    SaveRequest {
        kind,
        name: &recording.name,
        page,
        offset,
        exec: &recording.exec,
        info: &recording.info,
        body: &recording.body,
    }
}
