//! Many files erased at once, cut after every sector (document 02, M-104): each sector counts as a change of its own. What is
//! left after k of them is accepted; the files erased in those are gone, and every other keeps its slot and its sectors and
//! answers as before; the directory ends where it ended, and what slot 1 says of the disk stays.

use crate::answers::accepted;
use crate::support::calls::{Call, NAME, OUT, Request, free, refusal, value};
use crate::support::compare::{self, Returned};
use crate::support::disks;
use crate::support::erase_many::{self, EraseOutcome};
use crate::support::facts::{self, Facts, LiveSlot};
use crate::support::fields;
use crate::support::geometry::{MOST_EXTRA, SECTOR, SLOT, slot_place, slot_sector, slots};
use crate::support::margins::Margins;
use crate::support::names::Name;
use crate::support::random::Random;
use crate::support::requests::OwnedRequest;
use crate::support::settings::{Round, Rounds};
use crate::support::shapes::{Background, Order, Shape};

/// An accepted erase of many files.
struct EraseMany<'a> {
    names: &'a [Name],
    old: &'a [u8],
    new: Vec<u8>,
    facts: Facts,
    outcome: EraseOutcome,
    sectors: Vec<usize>,
}

#[derive(Default, Debug)]
struct Counts {
    calls: usize,
    cuts: usize,
    /// The cuts that leave something erased and something that is still to be erased.
    halfway: usize,
    /// Those among them that leave a file whose directory is gone.
    left_alone: usize,
    answers: usize,
}

#[test]
fn drawn_names_cut_anywhere() {
    let mut counts = Counts::default();
    let rounds = Rounds::new(9_500_000, 150);
    for seed in rounds.seeds() {
        let _round = Round(seed);
        let random = &mut Random::new(seed);
        let mut disk = disks::draw(random);
        if random.coin() {
            disk.release_all();
        }
        for _ in 0..2 {
            let names = erase_many::names(&Facts::of(&disk.image), random);
            EraseMany::of(&disk.image, &names).cut(&mut counts, random);
        }
    }
    println!("{counts:?}");
    assert!(
        !rounds.enough() || counts.halfway.min(20 * counts.left_alone) >= 100,
        "too few such cuts"
    );
}

/// All files of full directories, in a drawn order.
#[test]
fn full_directories_cut_anywhere() {
    let mut counts = Counts::default();
    for extra in [0, 1, MOST_EXTRA] {
        let random = &mut Random::new(9_600_000 + extra as u64);
        let shape = Shape {
            extra,
            files: (1..=slots(extra)).map(|slot| (slot, 1)).collect(),
            end: None,
            order: Order::Scattered,
            background: Background::Rubbish,
            tidy: false,
        };
        let mut disk = disks::of_shape(&shape, random);
        disk.release_all();
        let mut names = disk.names();
        random.shuffle(&mut names);
        let erase = EraseMany::of(&disk.image, &names);
        assert_eq!(erase.sectors.len(), slots(extra) / 2);
        erase.cut(&mut counts, random);
    }
    println!("{counts:?}");
}

impl EraseMany<'_> {
    /// Erases the names at once, on both sides.
    fn of<'a>(old: &'a [u8], names: &'a [Name]) -> EraseMany<'a> {
        let facts = Facts::of(old);
        let outcome = EraseOutcome::of(&facts, names);
        let sectors = outcome.sectors();
        let left = ask(&erase_many::exact(names, sectors.len()), old);
        let listed = left
            .out
            .chunks(2)
            .map(|pair| usize::from(pair[0]) + 256 * usize::from(pair[1]));
        assert!(listed.eq(sectors.iter().copied()), "other sectors are named");
        assert!(left.answers == outcome.answers, "other answers");
        EraseMany {
            names,
            old,
            new: left.image.expect("a drawn disk takes any names"),
            facts,
            outcome,
            sectors,
        }
    }

    /// Cuts it after every sector; of many sectors some cuts are asked about.
    fn cut(&self, counts: &mut Counts, random: &mut Random) {
        counts.calls += 1;
        let mut disk = self.old.to_vec();
        for k in 0..=self.sectors.len() {
            if k > 0 {
                let sector = self.sectors[k - 1] * SECTOR..(self.sectors[k - 1] + 1) * SECTOR;
                disk[sector.clone()].copy_from_slice(&self.new[sector]);
            }
            assert!(disk == self.outcome.disk(self.old, &self.sectors[..k]), "cut after {k}");
            if self.sectors.len() > 40 && !random.one_in(20) {
                continue;
            }
            self.keeps_the_rest(&disk, k);
            counts.answers += self.answers(&disk, k, random);
            counts.cuts += 1;
            counts.halfway += usize::from(k > 0 && k < self.sectors.len());
            counts.left_alone += usize::from(self.leaves_alone(k));
        }
        assert!(disk == self.new, "cut after all sectors, the disk is not the new one");
    }

    /// Whether this file is erased in one of the first k sectors.
    fn gone(&self, live: &LiveSlot, k: usize) -> bool {
        self.outcome.erased.contains(&live.slot) && self.sectors[..k].contains(&slot_sector(live.slot))
    }

    /// Slots and sectors of all other files, the directory's end, and what slot 1 says of the disk.
    fn keeps_the_rest(&self, disk: &[u8], k: usize) {
        accepted(disk);
        for live in self.facts.live.iter().filter(|live| !self.gone(live, k)) {
            let slot = slot_place(live.slot)..slot_place(live.slot) + SLOT;
            assert!(disk[slot.clone()] == self.old[slot], "slot {} is changed", live.slot);
            for sector in live.sectors.iter().map(|number| number * SECTOR..(number + 1) * SECTOR) {
                assert!(
                    disk[sector.clone()] == self.old[sector],
                    "a sector of slot {} is changed",
                    live.slot
                );
            }
        }
        assert_eq!(facts::end(disk), self.facts.end, "the directory ends elsewhere");
        for at in fields::KEPT.into_iter().flatten() {
            assert_eq!(disk[at], self.old[at], "byte {at} of slot 1 is changed");
        }
    }

    /// The listing is the old one without those that are gone, whose sectors are free; they are not found, and some of the
    /// others read and start as before. Gives how many answers were compared.
    fn answers(&self, disk: &[u8], k: usize, random: &mut Random) -> usize {
        let (gone, there): (Vec<&LiveSlot>, Vec<&LiveSlot>) = self.facts.live.iter().partition(|live| self.gone(live, k));
        let room = vec![0; 258 * there.len()];
        let listing = ask(&OwnedRequest::new(Call::List).with(OUT, room), disk);
        assert_eq!((refusal(listing.answer), value(listing.answer)), (0, there.len()));
        let freed: usize = gone.iter().map(|live| live.sectors.len()).sum();
        assert_eq!(free(listing.answer), self.facts.free + freed);
        let numbers = listing
            .out
            .chunks(258)
            .map(|entry| usize::from(entry[0]) + 256 * usize::from(entry[1]));
        assert!(numbers.eq(there.iter().map(|live| live.slot)), "other files are there");
        let some = |live: Vec<&LiveSlot>, random: &mut Random| -> Vec<Name> {
            (0..live.len().min(3)).map(|_| live[random.below(live.len())].name).collect()
        };
        let (gone, there) = (some(gone, random), some(there, random));
        for name in &gone {
            assert_eq!(ask(&OwnedRequest::new(Call::Start).with(NAME, *name), disk).answer, 15);
        }
        for name in &there {
            let length = self.facts.find(name).map_or(0, |live| live.length);
            let read = OwnedRequest::new(Call::Read).with(NAME, *name).with(OUT, vec![0x5c; length]);
            for asked in [read, OwnedRequest::new(Call::Start).with(NAME, *name)] {
                let (old, now) = (ask(&asked, self.old), ask(&asked, disk));
                assert!(old.answer == now.answer && old.out == now.out, "it reads otherwise");
            }
        }
        self.again(disk, k);
        1 + gone.len() + 2 * there.len()
    }

    /// The same names once more does the rest, where no directory was refused for what was in it.
    fn again(&self, disk: &[u8], k: usize) {
        if self.outcome.answers.contains(&29) {
            return;
        }
        let left = ask(&erase_many::exact(self.names, self.sectors.len() - k), disk);
        assert!(left.image.is_some_and(|image| image == self.new), "the rest is not done");
    }

    /// Whether a directory is gone after k sectors and something that was in it is not, which the tree refuses 27.
    fn leaves_alone(&self, k: usize) -> bool {
        let disk = self.outcome.disk(self.old, &self.sectors[..k]);
        let [old, cut] = [self.old, &disk].map(|disk| {
            let room = vec![0; 2 * self.facts.live.len()];
            let request = Request::new(Call::Tree, disk).with(OUT, &room);
            refusal(compare::ask(&request, &mut Margins::default()).answer)
        });
        let whole = k == self.sectors.len();
        assert!(
            old != 0 || cut == 0 || cut == 27 && !whole,
            "the tree of the cut disk is refused {cut}"
        );
        old == 0 && cut == 27
    }
}

fn ask(asked: &OwnedRequest, disk: &[u8]) -> Returned {
    compare::ask(&asked.on(disk), &mut Margins::default())
}
