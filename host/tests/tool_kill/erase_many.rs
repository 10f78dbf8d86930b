//! Several files erased at once, killed: each sector written is a change of its own.
use super::{Fixture, borrowed};
use crate::disk;
use crate::killed_process::{self, line};
use crate::pace::Pace;
use crate::tally::Tally;
use std::path::Path;

impl Fixture {
    /// An erase of some files, killed: those of the sectors written are gone, and the others read as they were saved. The same
    /// names again do the rest, and those that are gone already are refused.
    pub fn erase_round(&mut self, pace: &mut Pace, tally: &mut Tally) {
        let names = self.some_names();
        let (new, sectors) = disk::erase_many(&self.image, &names);
        let given = names
            .iter()
            .map(|name| String::from_utf8(name.clone()).expect("a plain name"));
        let words: Vec<String> = ["erase".into(), self.path("image")].into_iter().chain(given).collect();
        let words = borrowed(&words);
        let moment = pace.moment(&mut self.draw, sectors.len());
        let end = killed_process::kill_at(line(&words), moment, Path::new(&self.path("image")), sectors[0]);
        let k = self.judge_erase_many(&new, &sectors, &names);
        tally.count(&end, k, sectors.len());
        self.again(line(&words), new, k > 0, true);
        self.bodies.retain(|name, _| !names.contains(name));
        self.make_room(20);
    }

    /// Two to six names of files that are there, in a drawn order; all of them where there are fewer, as there may be beside long
    /// files.
    fn some_names(&mut self) -> Vec<Vec<u8>> {
        let many = self.draw.number(2, 7).min(self.bodies.len());
        let mut names = Vec::new();
        while names.len() < many {
            let name = self.any_name();
            if !names.contains(&name) {
                names.push(name);
            }
        }
        names
    }

    /// What the kill left: an accepted disk that is the old one with the first k sectors named taken from the new one. Of the
    /// names those whose slot is in one of them are gone; every other file reads as it was saved.
    fn judge_erase_many(&self, new: &[u8], sectors: &[usize], names: &[Vec<u8>]) -> usize {
        let left = self.stored();
        assert_eq!(disk::check(&left), (0, 0), "the disk left is accepted");
        let same = |sector: &&usize| left[512 * **sector..][..512] == new[512 * **sector..][..512];
        let k = sectors.iter().take_while(same).count();
        let of = sectors.len();
        assert!(
            left == disk::cut(&self.image, new, sectors, k),
            "the first {k} of {of} sectors, and no other"
        );
        for (name, body) in &self.bodies {
            let gone = names.contains(name) && sectors[..k].contains(&disk::sector_of(&self.image, name));
            let expected = if gone { Err(15) } else { Ok(body.clone()) };
            assert!(
                disk::read(&left, name) == expected,
                "{k} of {of}: {}",
                String::from_utf8_lossy(name)
            );
        }
        k
    }
}
