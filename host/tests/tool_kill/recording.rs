//! A recording, killed: the old files are there until its last sector is written.
use super::{Fixture, borrowed};
use crate::disk;
use crate::killed_process::{self, Line};
use crate::pace::Pace;
use crate::tally::Tally;
use std::path::Path;

impl Fixture {
    /// A recording of drawn size, killed. It leaves the disk of a save, and writes the same sectors: the first of the file after
    /// its last.
    pub fn record_round(&mut self, pace: &mut Pace, tally: &mut Tally) {
        let most = pace.most_sectors();
        let size = self.draw.number(20, most + 1);
        self.make_room(size);
        let request = self.request(size);
        let free = disk::list(&self.image).1;
        let (new, mut sectors) = disk::save(&self.image, &request);
        sectors[..size].rotate_left(1);
        let words = self.words_of(&request, &["record", &self.path("image")]);
        let (words, body) = (borrowed(&words), self.path("body"));
        let line = Line {
            words: &words,
            input: Some(&body),
        };
        let moment = pace.moment(&mut self.draw, sectors.len());
        let end = killed_process::kill_at(line, moment, Path::new(&self.path("image")), sectors[0]);
        let k = self.judge(&new, &sectors, &request.name);
        self.judge_new(&request, k == sectors.len(), free, size);
        tally.count(&end, k, sectors.len());
        pace.learn(&end, k, sectors.len());
        self.again(line, new, k == sectors.len(), true);
        self.bodies.insert(request.name, request.body);
    }
}
