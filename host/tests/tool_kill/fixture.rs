//! A disk in a file, what is known to be on it, and the rounds: a change by the tool, killed, judged, and made again.
#[path = "erase_many.rs"]
mod erase_many;
#[path = "journey.rs"]
pub mod journey;
#[path = "recording.rs"]
mod recording;

use crate::disk::{self, FileChange, SaveRequest};
use crate::draw::Draw;
use crate::killed_process::{self, Line, line};
use crate::pace::Pace;
use crate::tally::Tally;
use std::collections::BTreeMap;
use std::fs;
use std::path::{Path, PathBuf};
use std::time::Instant;

pub struct Fixture {
    folder: PathBuf,
    /// What the image's file holds.
    image: Vec<u8>,
    /// Every file on it.
    bodies: BTreeMap<Vec<u8>, Vec<u8>>,
    draw: Draw,
    named: usize,
}

impl Fixture {
    /// A disk with some files, and holes between them.
    pub fn new(seed: u64) -> Fixture {
        let folder = Path::new(env!("CARGO_TARGET_TMPDIR")).join(format!("kills-{}", std::process::id()));
        fs::create_dir_all(&folder).expect("a temporary folder");
        let draw = Draw::new(seed);
        let mut fixture = Fixture {
            folder,
            image: old_directory(),
            bodies: BTreeMap::new(),
            draw,
            named: 0,
        };
        for _ in 0..16 {
            let sectors = fixture.draw.number(1, 40);
            let request = fixture.request(sectors);
            fixture.image = disk::save(&fixture.image, &request).0;
            fixture.bodies.insert(request.name, request.body);
        }
        for _ in 0..5 {
            fixture.erase_one();
        }
        fixture.store();
        fixture
    }

    fn path(&self, name: &str) -> String {
        self.folder
            .join(name)
            .to_str()
            .expect("a folder with a plain name")
            .to_string()
    }

    fn store(&self) {
        fs::write(self.path("image"), &self.image).expect("the image is stored");
    }

    fn stored(&self) -> Vec<u8> {
        fs::read(self.path("image")).expect("the image is there")
    }

    /// A file of so many sectors, all else drawn, with a name that no file has.
    fn request(&mut self, sectors: usize) -> SaveRequest {
        self.named += 1;
        let draw = &mut self.draw;
        let len = if sectors == 1 {
            draw.number(0, 502)
        } else {
            draw.number(510 * (sectors - 1) - 8, 510 * sectors - 8)
        };
        SaveRequest {
            kind: draw.number(16, 21) as u32,
            name: format!("F{}", self.named).into_bytes(),
            page: draw.number(0, 32) as u32,
            offset: draw.number(32_768, 49_152) as u32,
            exec: draw.bytes(3),
            info: draw.bytes(11),
            body: draw.bytes(len),
        }
    }

    fn any_name(&mut self) -> Vec<u8> {
        let at = self.draw.number(0, self.bodies.len());
        self.bodies.keys().nth(at).expect("a file").clone()
    }

    /// Erases a drawn file in memory.
    fn erase_one(&mut self) {
        let name = self.any_name();
        self.image = disk::change(&self.image, &name, &FileChange::Erase).0;
        self.bodies.remove(&name);
    }

    /// Erases files until so many sectors are free.
    fn make_room(&mut self, sectors: usize) {
        while disk::list(&self.image).1 < sectors || self.bodies.len() > 40 {
            self.erase_one();
        }
        self.store();
    }

    /// The tool's words for a save; the body goes to a file.
    fn save_words(&self, request: &SaveRequest) -> Vec<String> {
        self.words_of(request, &["save", &self.path("image"), &self.path("body")])
    }

    /// The tool's words for a save or a recording: the command and its places but for the name, which is the second.
    fn words_of(&self, request: &SaveRequest, places: &[&str]) -> Vec<String> {
        fs::write(self.path("body"), &request.body).expect("the body is stored");
        let hex = |bytes: &[u8]| bytes.iter().map(|byte| format!("{byte:02x}")).collect::<String>();
        let name = String::from_utf8(request.name.clone()).expect("a plain name");
        let (kind, page, offset) = (request.kind.to_string(), request.page.to_string(), request.offset.to_string());
        let (exec, info) = (hex(&request.exec), hex(&request.info));
        let mut places: Vec<String> = places.iter().map(|place| place.to_string()).collect();
        places.insert(2, name);
        let options = [
            ("--kind", kind),
            ("--page", page),
            ("--offset", offset),
            ("--exec", exec),
            ("--info", info),
        ];
        places
            .into_iter()
            .chain(options.into_iter().flat_map(|(name, value)| [name.to_string(), value]))
            .collect()
    }

    /// Measures the tool: a mark, which writes one sector, and a save, both run to their end.
    pub fn measure(&mut self) -> Pace {
        let sectors = 100;
        let name = String::from_utf8(self.any_name()).expect("a plain name");
        let (mut short, mut long) = (Vec::new(), Vec::new());
        for _ in 0..3 {
            self.store();
            let start = Instant::now();
            assert!(
                killed_process::run(line(&["hide", &self.path("image"), &name]))
                    .status
                    .success()
            );
            short.push(start.elapsed());
            let request = self.request(sectors);
            let words = self.save_words(&request);
            let start = Instant::now();
            assert!(killed_process::run(line(&borrowed(&words))).status.success());
            long.push(start.elapsed());
        }
        self.store();
        short.sort();
        long.sort();
        Pace::new(short[1], long[1], sectors)
    }

    /// What the kill left: an accepted disk that is the old one with the first k sectors named taken from the new one, that
    /// lists as the old one or, with all of them, as the new one, and on which every other file reads as it was saved.
    fn judge(&self, new: &[u8], sectors: &[usize], changed: &[u8]) -> usize {
        let left = self.stored();
        assert_eq!(disk::check(&left), (0, 0), "the disk left is accepted");
        let same = |sector: &&usize| left[512 * **sector..][..512] == new[512 * **sector..][..512];
        let k = sectors.iter().take_while(same).count();
        assert!(
            left == disk::cut(&self.image, new, sectors, k),
            "the first {k} of {} sectors, and no other",
            sectors.len()
        );
        let as_if = if k < sectors.len() { &self.image[..] } else { new };
        assert!(
            disk::list(&left) == disk::list(as_if),
            "{k} of {}: the old listing or the new one",
            sectors.len()
        );
        for (name, body) in self.bodies.iter().filter(|(name, _)| name.as_slice() != changed) {
            assert!(
                disk::read(&left, name).as_ref() == Ok(body),
                "{} reads as saved",
                String::from_utf8_lossy(name)
            );
        }
        k
    }

    /// The tool makes the change again, on what the kill left. It does it, or is refused where it was done already; either
    /// way the new disk is there, byte for byte.
    fn again(&mut self, line: Line, new: Vec<u8>, done_already: bool, refused: bool) {
        let (words, output) = (line.words, killed_process::run(line));
        let status = if done_already && refused { 1 } else { 0 };
        assert_eq!(
            output.status.code(),
            Some(status),
            "{words:?}: {}",
            String::from_utf8_lossy(&output.stderr)
        );
        assert!(self.stored() == new, "{words:?}: the new disk");
        self.image = new;
    }

    /// A save of drawn size, killed.
    pub fn save_round(&mut self, pace: &mut Pace, tally: &mut Tally) {
        let most = pace.most_sectors();
        let size = self.draw.number(20, most + 1);
        self.make_room(size);
        let request = self.request(size);
        let free = disk::list(&self.image).1;
        let (new, sectors) = disk::save(&self.image, &request);
        let words = self.save_words(&request);
        let words = borrowed(&words);
        let moment = pace.moment(&mut self.draw, sectors.len());
        let end = killed_process::kill_at(line(&words), moment, Path::new(&self.path("image")), sectors[0]);
        let k = self.judge(&new, &sectors, &request.name);
        self.judge_new(&request, k == sectors.len(), free, size);
        tally.count(&end, k, sectors.len());
        pace.learn(&end, k, sectors.len());
        self.again(line(&words), new, k == sectors.len(), true);
        assert_eq!(
            disk::list(&self.image).1,
            free - size,
            "what the cut save wrote is used again"
        );
        self.bodies.insert(request.name, request.body);
    }

    /// The new file is there and has its sectors, or is not and has none.
    fn judge_new(&self, request: &SaveRequest, all: bool, free: usize, size: usize) {
        let left = self.stored();
        let (body, free_left) = match all {
            false => (Err(15), free),
            true => (Ok(request.body.clone()), free - size),
        };
        assert!(disk::read(&left, &request.name) == body, "all written: {all}: the new file");
        assert_eq!(disk::list(&left).1, free_left, "all written: {all}: free sectors");
    }

    /// A gather of the first scattered file that can move, killed; where there is none, none.
    pub fn gather_round(&mut self, pace: &mut Pace, tally: &mut Tally) {
        let gathered = |name: &Vec<u8>| disk::gather(&self.image, name).map(|after| (name.clone(), after));
        let Some((name, (new, sectors))) = self.bodies.keys().find_map(gathered) else {
            return;
        };
        let given = String::from_utf8(name).expect("a plain name");
        let image = self.path("image");
        let words = ["gather", &image, &given];
        let moment = pace.moment(&mut self.draw, sectors.len());
        let end = killed_process::kill_at(line(&words), moment, Path::new(&image), sectors[0]);
        // It reads as it was saved too, wherever its sectors are.
        let k = self.judge(&new, &sectors, b"");
        tally.count(&end, k, sectors.len());
        pace.learn(&end, k, sectors.len());
        self.again(line(&words), new, k == sectors.len(), false);
    }

    /// An erase, a rename or a mark, killed.
    pub fn change_round(&mut self, pace: &Pace, tally: &mut Tally) {
        self.named += 1;
        let new_name = format!("R{}", self.named);
        let name = self.any_name();
        let given = String::from_utf8(name.clone()).expect("a plain name");
        let image = self.path("image");
        let (change, words) = match self.draw.number(0, 4) {
            0 => (FileChange::Erase, vec!["erase", &image, &given]),
            1 => (FileChange::Hide, vec!["hide", &image, &given]),
            2 => (FileChange::Show, vec!["show", &image, &given]),
            _ => (
                FileChange::Rename(new_name.clone().into_bytes()),
                vec!["rename", &image, &given, &new_name],
            ),
        };
        let (new, sectors) = disk::change(&self.image, &name, &change);
        assert_eq!(sectors.len(), 1);
        let moment = pace.short_moment(&mut self.draw);
        let end = killed_process::kill_at(line(&words), moment, Path::new(&image), sectors[0]);
        let k = self.judge(&new, &sectors, &name);
        tally.count(&end, k, 1);
        self.again(
            line(&words),
            new,
            k == 1,
            matches!(change, FileChange::Erase | FileChange::Rename(_)),
        );
        let body = self.bodies.remove(&name).expect("its body");
        match change {
            FileChange::Erase => assert_eq!(disk::read(&self.image, &name), Err(15)),
            FileChange::Rename(new) => drop(self.bodies.insert(new, body)),
            FileChange::Hide | FileChange::Show => drop(self.bodies.insert(name, body)),
        }
        self.make_room(20);
    }
}

impl Drop for Fixture {
    fn drop(&mut self) {
        let _ = fs::remove_dir_all(&self.folder);
    }
}

/// A disk with no file and six directory tracks: its directory ends at slot 1, and every slot behind holds old bytes, so that
/// saves clear names.
fn old_directory() -> Vec<u8> {
    let mut image = vec![0; 819_200];
    for track in 0..6 {
        image[track * 10_240..][..5_120].fill(99);
    }
    image[1] = 0;
    image[255] = 2;
    image
}

fn borrowed(words: &[String]) -> Vec<&str> {
    words.iter().map(String::as_str).collect()
}
