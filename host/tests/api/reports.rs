//! Reports: what they count, how they join, and where they are full.
use super::*;
use std::thread;
use varnucht::{Kind, MOST_DISKS, REPORT_LENGTH, Refusal, Report};

/// A report over these images.
fn over<'a>(images: impl IntoIterator<Item = &'a [u8]>) -> Report {
    let mut report = Report::new();
    for (before, image) in images.into_iter().enumerate() {
        assert_eq!(report.add(image), Ok(before as u32 + 1));
    }
    report
}

/// A report of as many disks as one can hold, all refused 1.
pub fn full() -> Report {
    let mut report = over([&b"no disk"[..]]);
    while report.disks() <= MOST_DISKS / 2 {
        let same = report;
        report.join(&same).expect("it has room");
    }
    while report.disks() < MOST_DISKS {
        report.add(b"").expect("it has room");
    }
    report
}

/// Images of every sort: blank, with files of several kinds and sizes, refused, too short.
fn some_images() -> Vec<Vec<u8>> {
    let mut many = blank();
    for (at, sectors) in [1, 1, 2, 3, 4, 7, 8, 300].into_iter().enumerate() {
        save(&mut many, &code(&format!("FILE {at}"), &body(sectors * 510 - 9)));
    }
    let mut whole = blank();
    save(&mut whole, &code("WHOLE", &body(varnucht::LONGEST_BODY)));
    let images = [
        blank().into_image(),
        pair().into_image(),
        damaged(&[(0, 5)]),
        damaged(&[(0, 13)]),
        damaged(&[(12, 0)]),
        many.into_image(),
        whole.into_image(),
    ];
    let mut all: Vec<Vec<u8>> = images.into_iter().map(Image::into_bytes).collect();
    all.push(b"no disk".to_vec());
    all.push(vec![0; 819_201]);
    all
}

#[test]
fn what_a_report_counts() {
    let all = some_images();
    let report = over(all.iter().map(Vec::as_slice));
    assert_eq!((report.disks(), report.accepted()), (9, 5));
    let refusals: Vec<_> = report.refusals().collect();
    let expected = [(Refusal::ImageLength, 2), (Refusal::UnknownKind, 1), (Refusal::Count, 1)];
    assert_eq!(refusals, expected);
    assert_eq!(
        (report.refused(Refusal::ImageLength), report.refused(Refusal::BrokenChain)),
        (2, 0)
    );
    assert_eq!(report.refused(Refusal::Unlisted(200)), 0);
    let kinds: Vec<_> = report.kinds().map(|(kind, files)| (kind.number(), files)).collect();
    assert_eq!(kinds, [(5, 1), (19, 12)]);
    assert_eq!((report.of_kind(Kind::new(19)), report.of_kind(Kind::new(255))), (12, 0));
    assert_eq!(report.files(), 13);
    assert_eq!(report.file_sectors(), 4 + 4 + 326 + 1_560);
    assert_eq!(report.file_sectors() + report.free_sectors(), 5 * 1_560);
    let classes: Vec<_> = report.classes().map(|(class, files)| (class.to_string(), files)).collect();
    let words = [
        "0",
        "1",
        "2 to 3",
        "4 to 7",
        "8 to 15",
        "16 to 31",
        "32 to 63",
        "64 to 127",
        "128 to 255",
        "256 to 511",
        "512 to 1023",
        "1024 and more",
    ];
    let files = [0, 2, 6, 2, 1, 0, 0, 0, 0, 1, 0, 1];
    assert_eq!(classes, words.map(String::from).into_iter().zip(files).collect::<Vec<_>>());
    let ends: Vec<_> = report.classes().map(|(class, _)| (class.first(), class.last())).collect();
    assert_eq!(
        (ends[0], ends[1], ends[10], ends[11]),
        ((0, Some(0)), (1, Some(1)), (512, Some(1_023)), (1_024, None))
    );
    assert!(
        ends.windows(2).all(|pair| pair[0].1 == Some(pair[1].0 - 1)),
        "no count is between two classes"
    );
    assert_eq!(format!("{report:?}"), "Report { disks: 9, accepted: 5, files: 13, .. }");
}

/// A disk is counted as the check has it: waste sectors are not refused there, a Spectrum file whose length is too great is,
/// and what stands behind the directory's end is no file.
#[test]
fn as_the_check_has_it() {
    let waste = shortened(501);
    assert_eq!(waste.check_release().unwrap_err().refusal, Refusal::WasteSectors);
    let images = [
        waste.into_image(),
        spectrum(4, 1_012, 0),
        spectrum(4, 1_011, 0),
        pair_that_ends(),
        damaged(&[(1, 0)]),
    ];
    let report = over(images.iter().map(|image| &image.as_bytes()[..]));
    let refusals: Vec<_> = report.refusals().collect();
    assert_eq!((report.accepted(), refusals), (4, vec![(Refusal::BodyTooLong, 1)]));
    let kinds: Vec<_> = report.kinds().map(|(kind, files)| (kind.number(), files)).collect();
    assert_eq!(kinds, [(4, 1), (19, 6)]);
    assert_eq!((report.file_sectors(), report.free_sectors()), (14, 4 * 1_560 - 14));
}

/// In whatever parts the images are counted, on however many threads.
#[test]
fn joins_are_reports_over_both() {
    let all = some_images();
    let whole = over(all.iter().map(Vec::as_slice));
    for cut in 0..=all.len() {
        let (one, two) = all.split_at(cut);
        let [one, two] = [one, two].map(|part| over(part.iter().map(Vec::as_slice)));
        for (mut report, other) in [(one, two), (two, one)] {
            assert_eq!(report.join(&other), Ok(9));
            assert_eq!(report, whole);
        }
    }
    let joined = thread::scope(|scope| {
        let count = |part| scope.spawn(move || over(<[Vec<u8>]>::iter(part).map(Vec::as_slice)));
        let parts: Vec<_> = all.chunks(2).map(count).collect();
        let mut all = Report::default();
        for part in parts {
            all.join(&part.join().unwrap()).unwrap();
        }
        all
    });
    assert_eq!(joined, whole);
    assert_eq!(Report::from_bytes(*whole.as_bytes()), whole);
}

#[test]
fn a_full_report_stays_as_it_is() {
    let mut report = full();
    assert_eq!((report.disks(), report.refused(Refusal::ImageLength)), (65_535, 65_535));
    let before = report;
    let refused = report.add(Image::blank().as_bytes()).unwrap_err();
    assert_eq!(
        parts(refused),
        (31, 0, "refusal 31: a disk or join that would pass 65,535 disks".into())
    );
    let mut one = over([&b""[..]]);
    assert_eq!(report.join(&one).unwrap_err().refusal, Refusal::ReportFull);
    assert_eq!(one.join(&report).unwrap_err().refusal, Refusal::ReportFull);
    assert_eq!((report, one.disks()), (before, 1));
    assert_eq!(report.join(&Report::new()), Ok(65_535));
    assert_eq!(report, before);
}

/// Bytes that no report had are answered too.
#[test]
fn other_bytes_are_answered() {
    let mut report = Report::from_bytes([255; REPORT_LENGTH]);
    assert_eq!(
        (report.disks(), report.files(), report.classes().len()),
        (u32::MAX, u32::MAX, 12)
    );
    assert_eq!((report.refusals().count(), report.kinds().count()), (32, 64));
    assert_eq!(report.add(b"").unwrap_err().refusal, Refusal::ReportFull);
    assert_eq!(report.as_bytes(), &[255; REPORT_LENGTH]);
}
