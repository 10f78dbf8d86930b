//! A shelf in numbers: what was drawn is what is counted, joins are reports over both lists in either order, a refused call
//! changes no byte, and a report of any bytes gets an answer.

use crate::support::calls::{Call, OUT, Request, TWO};
use crate::support::compare;
use crate::support::damage::{self, Expected};
use crate::support::disks::{self, DrawnDisk};
use crate::support::geometry::{data, extra};
use crate::support::margins::Margins;
use crate::support::random::Random;
use crate::support::reports::{
    DISKS, KEPT, MOST, NUMBERS, REPORT, ReportCounts, disks as disks_in, number, report, set, with_disks,
};
use crate::support::settings::{Round, Rounds};
use crate::support::tally::possible;

/// Adds a disk to a report on both sides; gives the answer and the report after it.
fn add(image: &[u8], report: &[u8]) -> (u64, Vec<u8>) {
    let left = compare::ask(
        &Request::new(Call::ReportAdd, image).with(OUT, report),
        &mut Margins::default(),
    );
    (left.answer, left.out)
}

fn join(report: &[u8], other: &[u8]) -> (u64, Vec<u8>) {
    let request = Request::new(Call::ReportJoin, &[]).with(OUT, report).with(TWO, other);
    let left = compare::ask(&request, &mut Margins::default());
    (left.answer, left.out)
}

/// Accepted, with so many disks in the report.
fn holds(disks: usize) -> u64 {
    (disks as u64) << 24
}

/// A drawn image, and what is counted of it: known from the drawing, or by the check's number alone.
fn image(random: &mut Random, all: &[&'static damage::Damage]) -> (Vec<u8>, Option<ReportCounts>) {
    if random.one_in(3) {
        let disk = disks::draw(random);
        let counts = ReportCounts::accepted(&disk.files, disk.data());
        return (disk.image, Some(counts));
    }
    let (mut disk, outcome) = damage::one(random.pick(all), random);
    if random.one_in(12) {
        disk.image.truncate(random.pick(&[0, 1, 40_960, 819_199]));
        return (disk.image, Some(ReportCounts::refused(1)));
    }
    let counts = known(&disk, outcome);
    (disk.image, counts)
}

/// What is counted of a damaged disk, where that is known: files behind an end that the damage made are none.
fn known(disk: &DrawnDisk, outcome: Expected) -> Option<ReportCounts> {
    match outcome {
        Expected::Refused(number, _) => Some(ReportCounts::refused(number)),
        Expected::Ends(end) => {
            let before = disk.files.partition_point(|file| file.slot < end);
            Some(ReportCounts::accepted(&disk.files[..before], disk.data()))
        }
        Expected::Open | Expected::Accepted => None,
    }
}

/// Reports over some disks, whole and damaged: every number is what was drawn, the classes add up to the files, and every cut
/// of the list in two gives the same report, joined in either order.
#[test]
fn drawn_disks_are_counted() {
    let (all, rounds) = (damage::all(), Rounds::new(9_000_000, 200));
    let mut numbers = [0_u32; DISKS];
    for seed in rounds.seeds() {
        let _round = Round(seed);
        let random = &mut Random::new(seed);
        let many = random.between(1, 8);
        let images: Vec<_> = (0..many).map(|_| image(random, &all)).collect();
        let whole = over(&images);
        let sum = |from: usize, to: usize| (from..to).map(|at| number(&whole, at)).sum::<u32>();
        assert_eq!(sum(33, 97), sum(99, KEPT), "the classes add up to the files");
        assert_eq!(
            sum(97, 99) as usize,
            data_sectors_of(&images),
            "a data sector is a file's or free"
        );
        assert_eq!(disks_in(&whole), many as u64);
        assert!(whole[4 * KEPT..].iter().all(|byte| *byte == 0));
        let cut = random.below(many + 1);
        let (one, two) = (over(&images[..cut]), over(&images[cut..]));
        assert_eq!(join(&one, &two), (holds(many), whole.clone()));
        assert_eq!(join(&two, &one), (holds(many), whole.clone()));
        random_order(&images, &whole, random);
        (0..DISKS).for_each(|at| numbers[at] += number(&whole, at));
    }
    println!("disks accepted, and refused by number: {numbers:?}");
    let all_given = possible(Call::Check)
        .into_iter()
        .all(|number| numbers[usize::from(number)] > 0);
    assert!(!rounds.enough() || all_given, "{numbers:?}");
}

/// How many data sectors the accepted disks of these have.
fn data_sectors_of(images: &[(Vec<u8>, Option<ReportCounts>)]) -> usize {
    let accepted = |image: &&Vec<u8>| compare::ask(&Request::new(Call::Check, image), &mut Margins::default()).answer == 0;
    let images = images.iter().map(|(image, _)| image).filter(accepted);
    images.map(|image| data(extra(image))).sum()
}

/// The report over a list of drawn images, each number followed.
fn over(images: &[(Vec<u8>, Option<ReportCounts>)]) -> Vec<u8> {
    let mut report = vec![0; REPORT];
    for (before, (image, counts)) in images.iter().enumerate() {
        let (answer, after) = add(image, &report);
        assert_eq!(answer, holds(before + 1));
        if let Some(counts) = counts {
            assert_eq!(ReportCounts::of(&after), ReportCounts::of(&report).and(counts));
        }
        report = after;
    }
    report
}

/// The same disks in another order.
fn random_order(images: &[(Vec<u8>, Option<ReportCounts>)], whole: &[u8], random: &mut Random) {
    let mut order: Vec<_> = images.to_vec();
    random.shuffle(&mut order);
    assert!(over(&order) == whole, "another order gives another report");
}

/// Every sort of damage with a known number is counted there and nowhere else; and where the damage ends the directory, the
/// files before the end are.
#[test]
fn refused_by_number() {
    for (at, damage) in damage::all().into_iter().enumerate() {
        let (disk, outcome) = damage::one(damage, &mut Random::new(9_100_000 + at as u64));
        let (answer, after) = add(&disk.image, &[0; REPORT]);
        assert_eq!(answer, holds(1), "{}", damage.title);
        match known(&disk, outcome) {
            Some(counts) => assert_eq!(ReportCounts::of(&after), counts, "{}", damage.title),
            None if outcome == Expected::Accepted => assert_eq!(number(&after, 0), 1, "{}", damage.title),
            None => {}
        }
    }
}

/// Reports of any bytes: sums modulo 2^32, numbers 111 to 123 and what is behind the report as they were; refused 31 by the
/// number of disks alone, and then no byte changed.
#[test]
fn reports_of_any_bytes() {
    let (rounds, mut tally) = (Rounds::new(9_200_000, 3_000), [[0_usize; 2]; 2]);
    let (small, long) = (disks::draw(&mut Random::new(1)), disks::draw(&mut Random::new(2)));
    for seed in rounds.seeds() {
        let _round = Round(seed);
        let random = &mut Random::new(seed);
        let (mut one, mut two) = (report(random), report(random));
        let rest = random.below(9);
        one.extend(random.bytes(rest));
        two.extend(random.bytes(rest));
        let disk = random.pick(&[&small, &long]);
        for (at, more, by, (answer, after)) in [
            (0, 1, ReportCounts::accepted(&disk.files, disk.data()), add(&disk.image, &one)),
            (0, 1, ReportCounts::refused(1), add(&one, &one)),
            (1, disks_in(&two), ReportCounts::of(&two), join(&one, &two)),
        ] {
            let together = disks_in(&one) + more;
            tally[at][usize::from(together > MOST)] += 1;
            if together > MOST {
                assert!(answer == 31 && after == one);
                continue;
            }
            assert_eq!(answer, holds(together as usize));
            assert_eq!(ReportCounts::of(&after), ReportCounts::of(&one).and(&by));
            assert!(after[4 * KEPT..] == one[4 * KEPT..], "what is kept is changed");
        }
    }
    println!("added and joined, accepted and refused 31: {tally:?}");
    assert!(!rounds.enough() || tally.iter().flatten().all(|many| *many > 100));
}

/// 65,535 disks are the most, wherever they are counted.
#[test]
fn the_last_disk() {
    let random = &mut Random::new(9_300_000);
    let image = disks::draw(random).image;
    for place in 0..DISKS {
        for (there, more) in [
            (0, 0),
            (0, 1),
            (65_533, 1),
            (65_534, 1),
            (65_535, 0),
            (65_535, 1),
            (65_536, 0),
        ] {
            let (mut report, mut other) = (vec![0; REPORT], vec![0; REPORT]);
            set(&mut report, place, there);
            set(&mut other, random.below(DISKS), more);
            let fits = |disks: u32| if disks <= 65_535 { holds(disks as usize) } else { 31 };
            assert_eq!(join(&report, &other).0, fits(there + more), "{there} and {more} at {place}");
            assert_eq!(join(&other, &report).0, fits(there + more), "{more} and {there} at {place}");
            assert_eq!(add(&image, &report).0, fits(there + 1), "{there} at {place}");
            assert_eq!(add(&[], &report).0, fits(there + 1), "{there} at {place}");
        }
    }
    // Spread over all 33 numbers, in both reports.
    for (there, more) in [(65_535, 0), (65_000, 535), (65_000, 536), (40_000, 25_536), (1, 65_535)] {
        let mut both = [there, more].map(|wanted| {
            let mut report = random.bytes(REPORT);
            with_disks(&mut report, wanted, random);
            report
        });
        both[0].extend([7; 5]);
        let expected = if there + more <= 65_535 { holds(65_535) } else { 31 };
        assert_eq!(join(&both[0], &both[1]).0, expected, "{there} and {more}");
    }
    // So many that they are few modulo 2^32: in one report, and in two.
    let mut wrapped = vec![0; REPORT];
    set(&mut wrapped, 0, u32::MAX);
    let mut one = vec![0; REPORT];
    set(&mut one, 1, 1);
    assert_eq!(
        (join(&wrapped, &one).0, join(&one, &wrapped).0, add(&image, &wrapped).0),
        (31, 31, 31)
    );
    for (place, number) in [(1, 1), (32, 1), (0, 0)] {
        set(&mut wrapped, place, number);
        set(&mut wrapped, 7, if number == 0 { u32::MAX } else { 0 });
        assert_eq!((add(&image, &wrapped).0, join(&wrapped, &vec![0; REPORT]).0), (31, 31));
    }
}

/// Too short by any number of bytes, before 31; the front of a longer buffer, whatever its length.
#[test]
fn lengths_of_reports() {
    let random = &mut Random::new(9_400_000);
    let image = disks::draw(random).image;
    let mut full = random.bytes(REPORT);
    with_disks(&mut full, 65_536, random);
    let mut small = random.bytes(REPORT);
    with_disks(&mut small, 7, random);
    for length in 0..REPORT {
        for report in [&full, &small] {
            assert_eq!(add(&image, &report[..length]).0, 20, "{length}");
            assert_eq!(join(&report[..length], &small).0, 20, "{length}");
            assert_eq!(join(report, &small[..length]).0, 20, "{length}");
        }
    }
    assert_eq!(join(&full[..495], &small[..495]).0, 20);
    assert_eq!(
        (add(&image, &full).0, join(&full, &small).0, join(&small, &full).0),
        (31, 31, 31)
    );
    for more in [0, 1, 2, 3, 4, 100, 496, 900_000] {
        let mut long = small.clone();
        long.extend(random.bytes(more));
        let (answer, after) = add(&image, &long);
        assert!(answer == holds(8) && after[REPORT..] == long[REPORT..], "{more} behind it");
        let (answer, after) = join(&long, &long);
        assert!(
            answer == holds(14) && after[4 * KEPT..] == long[4 * KEPT..],
            "{more} behind it"
        );
    }
    assert_eq!(4 * NUMBERS, REPORT);
}
