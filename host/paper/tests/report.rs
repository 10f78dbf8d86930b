//! A shelf in numbers: what a report counts, where it is refused, and that joins are reports over both lists.

mod common;
use common::*;
use paper::{REPORT_BYTES, report_add, report_join};

/// The number at a place of a report.
fn number(report: &[u8], at: usize) -> u32 {
    u32::from_le_bytes(report[4 * at..][..4].try_into().expect("four bytes"))
}

fn set(report: &mut [u8], at: usize, number: u32) {
    report[4 * at..][..4].copy_from_slice(&number.to_le_bytes());
}

/// The places whose number is not 0, with it.
fn counted(report: &[u8]) -> Vec<(usize, u32)> {
    let numbers = (0..REPORT_BYTES / 4).map(|at| (at, number(report, at)));
    numbers.filter(|(_, number)| *number != 0).collect()
}

fn empty() -> Vec<u8> {
    vec![0; REPORT_BYTES]
}

/// The report over some disks.
fn over(disks: &[&[u8]]) -> Vec<u8> {
    let mut report = empty();
    for (before, disk) in disks.iter().enumerate() {
        assert_eq!(report_add(disk, &mut report), Ok(before + 1));
    }
    report
}

/// Files of 1, 2, 3, 4, 300 and 1,024 sectors, and none.
fn some_images() -> [Vec<u8>; 4] {
    let [mut one, mut two, mut three] = [(); 3].map(|()| blank());
    put(&mut one, b"ONE", 100);
    put(&mut one, b"TWO", 900);
    put(&mut one, b"THREE", 1_200);
    put(&mut one, b"FOUR", 2_000);
    put(&mut two, b"300", 300 * 510 - 9);
    put(&mut two, b"1024", 1_024 * 510 - 9);
    two[slot_place(2)] = 0xc0 | 19;
    put(&mut three, b"FIVE", 100);
    three[slot_place(1)] = 5;
    [blank(), one, two, three]
}

#[test]
fn what_is_counted() {
    let [none, one, two, three] = some_images();
    assert_eq!(counted(&over(&[])), []);
    assert_eq!(counted(&over(&[&none])), [(0, 1), (98, 1_560)]);
    let files = [(0, 1), (33 + 19, 4), (97, 10), (98, 1_550), (100, 1), (101, 2), (102, 1)];
    assert_eq!(counted(&over(&[&one])), files);
    let files = [(0, 1), (33 + 19, 2), (97, 1_324), (98, 236), (108, 1), (110, 1)];
    assert_eq!(counted(&over(&[&two])), files);
    assert_eq!(
        counted(&over(&[&three])),
        [(0, 1), (33 + 5, 1), (97, 1), (98, 1_559), (100, 1)]
    );
    let all = over(&[&none, &one, &two, &three]);
    assert_eq!((number(&all, 0), number(&all, 52), number(&all, 97)), (4, 6, 1_335));
    assert_eq!(number(&all, 97) + number(&all, 98), 4 * 1_560);
    let sum = |from: usize, to: usize| (from..to).map(|at| number(&all, at)).sum::<u32>();
    assert_eq!((sum(33, 97), sum(99, 111)), (7, 7), "the classes add up to the files");
}

/// A refused disk is counted by its number and by nothing else.
#[test]
fn refused_disks() {
    let [_, one, ..] = some_images();
    let with = |at: usize, byte: u8| {
        let mut image = one.clone();
        image[slot_place(2) + at] = byte;
        image
    };
    for (image, refusal) in [
        (&one[1..], 1),
        (&[], 1),
        (&with(0, 13), 2),
        (&with(12, 0), 4),
        (&with(12, 3), 5),
        (&with(13, 3), 6),
        (&with(239, 1), 7),
    ] {
        assert_eq!(paper::check(image).map_err(|refused| refused.number), Err(refusal));
        assert_eq!(counted(&over(&[image])), [(refusal.into(), 1)]);
    }
    let mixed = over(&[&one[1..], &one, &with(0, 13), &[]]);
    assert_eq!((number(&mixed, 0), number(&mixed, 1), number(&mixed, 2)), (1, 2, 1));
}

/// A disk is counted as the check has it: waste sectors are not refused there, a Spectrum file whose length is too great is,
/// and what stands behind the directory's end is no file.
#[test]
fn as_the_check_has_it() {
    let mut waste = blank();
    let list = put(&mut waste, b"WASTE", 900);
    for place in [slot_place(1) + 240, list[0] * 512 + 1] {
        waste[place..place + 2].copy_from_slice(&[100, 0]);
    }
    assert_eq!(paper::check_release(&waste), refused(22, 1));
    assert_eq!(
        counted(&over(&[&waste])),
        [(0, 1), (33 + 19, 1), (97, 2), (98, 1_558), (101, 1)]
    );

    let mut spectrum = blank();
    let list = put(&mut spectrum, b"ZX", 900);
    spectrum[slot_place(1)] = 3;
    let mut with_length = |length: u16| {
        spectrum[list[0] * 512 + 1..][..2].copy_from_slice(&length.to_le_bytes());
        counted(&over(&[&spectrum]))
    };
    assert_eq!(with_length(1_012), [(25, 1)]);
    assert_eq!(with_length(1_011), [(0, 1), (33 + 3, 1), (97, 2), (98, 1_558), (101, 1)]);

    let [_, mut ended, ..] = some_images();
    ended[slot_place(3) + 1] = 0;
    ended[slot_place(4)] = 63;
    assert_eq!(
        counted(&over(&[&ended])),
        [(0, 1), (33 + 19, 2), (97, 3), (98, 1_557), (100, 1), (101, 1)]
    );
}

#[test]
fn joins_are_reports_over_both_lists() {
    let images = some_images();
    let disks: Vec<&[u8]> = images.iter().map(Vec::as_slice).chain([&[7; 9][..]]).collect();
    let whole = over(&disks);
    for cut in 0..=disks.len() {
        let (one, two) = (over(&disks[..cut]), over(&disks[cut..]));
        let (mut there, mut back) = (one.clone(), two.clone());
        assert_eq!(report_join(&mut there, &two), Ok(disks.len()));
        assert_eq!(report_join(&mut back, &one), Ok(disks.len()));
        assert!(there == whole && back == whole, "in either order, cut at {cut}");
    }
}

/// 65,535 disks are the most; a refused call leaves the report as it was.
#[test]
fn full_reports() {
    let image = blank();
    let mut report = empty();
    set(&mut report, 0, 65_000);
    set(&mut report, 32, 534);
    assert_eq!(report_add(&image, &mut report), Ok(65_535));
    let full = report.clone();
    assert_eq!(report_add(&image, &mut report), refused(31, 0));
    assert_eq!(report_add(&[], &mut report), refused(31, 0));
    assert_eq!(report_join(&mut report, &empty()), Ok(65_535));
    assert_eq!(report_join(&mut report, &over(&[&[]])), refused(31, 0));
    assert!(report == full);
    let mut little = over(&[&[]]);
    assert_eq!(report_join(&mut little, &full), refused(31, 0));
    assert_eq!(counted(&little), [(1, 1)]);
}

/// The front of a longer buffer is the report. What is behind it, and numbers 111 to 123, stay; so does all of a short one.
#[test]
fn what_stays() {
    let image = blank();
    for length in [0, 1, 3, 492, 495] {
        let mut short = vec![9; length];
        assert_eq!(report_add(&image, &mut short), refused(20, 0));
        assert_eq!(report_join(&mut short, &empty()), refused(20, 0));
        assert!(short == vec![9; length]);
        let mut report = empty();
        assert_eq!(report_join(&mut report, &short), refused(20, 0));
        assert_eq!(counted(&report), []);
    }
    let mut long = vec![0; REPORT_BYTES + 3];
    long[444..].fill(9);
    assert_eq!(report_add(&image, &mut long), Ok(1));
    let other = long.clone();
    assert_eq!(report_join(&mut long, &other), Ok(2));
    assert!(long[444..].iter().all(|byte| *byte == 9));
    assert_eq!((number(&long, 0), number(&long, 98)), (2, 3_120));
    // 20 comes before 31.
    set(&mut long, 0, u32::MAX);
    assert_eq!(report_join(&mut long, &other[..495]), refused(20, 0));
    assert_eq!(report_join(&mut long, &other), refused(31, 0));
}

/// Numbers that no call gave: sums are taken modulo 2^32.
#[test]
fn other_reports_get_an_answer() {
    let [_, one, ..] = some_images();
    let mut report = empty();
    for at in 33..124 {
        set(&mut report, at, u32::MAX);
    }
    assert_eq!(report_add(&one, &mut report), Ok(1));
    assert_eq!((number(&report, 52), number(&report, 97), number(&report, 98)), (3, 9, 1_549));
    assert_eq!(
        (number(&report, 101), number(&report, 99), number(&report, 111)),
        (1, u32::MAX, u32::MAX)
    );
    let other = report.clone();
    assert_eq!(report_join(&mut report, &other), Ok(2));
    assert_eq!((number(&report, 99), number(&report, 111)), (u32::MAX - 1, u32::MAX));
    // But not the number of disks: these are more than 65,535, and not one.
    set(&mut report, 0, u32::MAX);
    set(&mut report, 7, 2);
    let full = report.clone();
    assert_eq!(report_add(&one, &mut report), refused(31, 0));
    assert_eq!(report_join(&mut report, &empty()), refused(31, 0));
    assert!(report == full);
}
