//! Save while recording: pieces that are stored as they come make the disk that one save makes.
use super::*;
use std::io::{self, ErrorKind, Write};
use varnucht::{LONGEST_BODY, Particulars, Record, RecordError, Recording, Refusal, SECTOR_LENGTH, Store, WriteError};

/// An image in memory that takes so many sectors and then no more.
struct Kept {
    image: Image,
    left: usize,
}

impl Kept {
    fn of(disk: &Disk, left: usize) -> Kept {
        Kept {
            image: disk.image().clone(),
            left,
        }
    }
}

impl Store for Kept {
    fn write_sector(&mut self, number: SectorNumber, bytes: &[u8; SECTOR_LENGTH]) -> io::Result<()> {
        self.left = self.left.checked_sub(1).ok_or_else(|| io::Error::other("no more"))?;
        self.image.as_bytes_mut()[number.place()..][..SECTOR_LENGTH].copy_from_slice(bytes);
        Ok(())
    }
}

fn tune(text: &str) -> Particulars {
    let file = code(text, b"");
    Particulars::new(file.kind, file.name, file.start)
}

/// The number of a refusal, and its slot.
fn number(refused: Refused) -> (u8, u16) {
    let (number, slot, _) = parts(refused);
    (number, slot)
}

#[test]
fn pieces_make_the_disk_of_one_save() {
    for length in [0, 1, 501, 502, 1_011, 1_012, 4_000] {
        let bytes = body(length);
        for piece in [1, 510, 511, 4_096] {
            let mut saved = pair();
            let sectors = save(&mut saved, &tune("TUNE").with_body(&bytes)).len();
            let mut disk = pair();
            let mut store = Kept::of(&disk, sectors);
            let mut recording = disk.record(&tune("TUNE"), &mut store).expect("there is room");
            for piece in bytes.chunks(piece) {
                recording.write_all(piece).expect("it fits");
                recording.flush().expect("there is nothing to do");
            }
            assert_eq!(recording.bytes(), length as u64);
            let closed = recording.close().expect("nothing stands against it");
            assert_eq!(closed, if length > 501 { 3 } else { 2 });
            assert!(disk == saved, "{length} bytes in pieces of {piece}");
            assert!(store.image == *saved.image(), "each sector is written once");
            assert_eq!(store.left, 0);
            assert_eq!(disk.listing().entries().len(), 3);
        }
    }
}

/// All that the disk holds, copied from a source that has no end of its own.
#[test]
fn a_whole_disk() {
    let bytes = body(LONGEST_BODY);
    let mut disk = blank();
    let mut store = Kept::of(&disk, usize::MAX);
    let mut recording = disk.record(&tune("TUNE"), &mut store).expect("there is room");
    assert_eq!(
        io::copy(&mut &bytes[..], &mut recording).expect("it fits"),
        bytes.len() as u64
    );
    let full = recording.write(b"!").unwrap_err();
    assert_eq!(full.kind(), ErrorKind::StorageFull);
    let inside = full.get_ref().and_then(|error| error.downcast_ref::<RecordError>());
    assert!(matches!(inside, Some(RecordError::Refused(refused)) if refused.refusal == Refusal::NoRoom));
    assert_eq!(full.to_string(), "refusal 19: fewer free sectors than the save takes");
    // What does not fit is not there, and what came before is.
    assert_eq!(recording.bytes(), bytes.len() as u64);
    recording.close().expect("nothing stands against it");
    assert!(disk.read(&name("TUNE")).expect("it is there") == bytes);
    assert!(store.image == *disk.image());
}

/// Wherever the writing fails, in a piece or in the close, the files that are stored are the old ones.
#[test]
fn cut_anywhere() {
    let old = pair();
    for left in 0..=6 {
        let mut disk = old.clone();
        let mut store = Kept::of(&disk, left);
        let mut recording = disk.record(&tune("TUNE"), &mut store).expect("there is room");
        let added = recording.add(&body(2_300));
        match added {
            Ok(many) => assert!(many == 3 && left >= 3),
            Err(RecordError::Unwritten(error)) => {
                assert!(matches!(error, WriteError::Piece { written, of: 3, .. } if written == left));
                assert!(!error.at_last(), "nothing that is seen has changed");
                let words = format!("{left} of 3 sectors were written, and then: no more. All files are there as before");
                assert!(error.to_string().starts_with(&words), "{error}");
                let skipped = recording.add(b"la");
                assert!(matches!(skipped, Err(RecordError::Unwritten(WriteError::Skipped))));
            }
            Err(refused) => panic!("{refused}"),
        }
        match recording.close() {
            Ok(many) => assert!(many == 3 && left == 6),
            Err(RecordError::Unwritten(WriteError::Skipped)) => assert!(left < 3),
            Err(RecordError::Unwritten(WriteError::Stopped { written, of: 3, .. })) => assert_eq!(written, left - 3),
            Err(error) => panic!("{error}"),
        }
        let stored = Disk::open(store.image).expect("it is accepted");
        match left {
            6 => assert!(stored == disk),
            _ => {
                assert_eq!(stored.listing().entries().len(), 2);
                for file in ["ONE", "TWO"] {
                    assert_eq!(stored.read(&name(file)), old.read(&name(file)));
                }
            }
        }
    }
}

/// The disk of a pair with a recording that has come to five sectors, three of them written.
fn begun() -> (Disk, Kept, Record, u64) {
    let mut disk = pair();
    let mut store = Kept::of(&disk, usize::MAX);
    let mut recording = disk.record(&tune("TUNE"), &mut store).expect("there is room");
    assert_eq!(recording.add(&body(2_300)).expect("it fits"), 3);
    let (record, bytes) = recording.pause();
    (disk, store, record, bytes)
}

/// GatherResult on with it, and gives what the close gives.
fn closed(disk: &mut Disk, store: &mut Kept, record: Record, bytes: u64) -> Result<usize, RecordError> {
    let mut recording = Recording::resume(disk, store, record, bytes);
    recording.add(b"la la")?;
    assert_eq!(recording.bytes(), 2_305);
    recording.close()
}

#[test]
fn changes_in_between() {
    // One that moves no sector.
    let (mut disk, mut store, record, bytes) = begun();
    let mut hidden = disk.hide(&name("ONE")).expect("it is there");
    hidden.write_to(&mut store, |_, _| {}).expect("it is written");
    assert_eq!(closed(&mut disk, &mut store, record, bytes).expect("it closes"), 3);
    assert_eq!(
        disk.read(&name("TUNE")).expect("it is there"),
        [&body(2_300)[..], b"la la"].concat()
    );
    assert!(store.image == *disk.image());
    // One that takes the recording's sectors.
    let (mut disk, mut store, record, bytes) = begun();
    let mut saved = disk.save(&code("OTHER", b"")).expect("there is room");
    saved.write_to(&mut store, |_, _| {}).expect("it is written");
    let refused = closed(&mut disk, &mut store, record.clone(), bytes).unwrap_err();
    assert!(
        matches!(&refused, RecordError::Refused(refused) if number(*refused) == (30, 0)),
        "{refused}"
    );
    // Given back, they hold what the links say.
    let mut erased = disk.erase(&name("OTHER")).expect("it is there");
    erased.write_to(&mut store, |_, _| {}).expect("it is written");
    assert_eq!(closed(&mut disk, &mut store, record, bytes).expect("it closes"), 3);
    // One that takes the name.
    let (mut disk, _, record, _) = begun();
    drop(disk.rename(&name("TWO"), &NewName::new("Tune").unwrap()).expect("it is free"));
    assert_eq!(number(disk.close_record(&record).unwrap_err()), (16, 2));
}

/// Both have the same sectors; the one that closes has them.
#[test]
fn two_at_once() {
    let mut disk = pair();
    let (mut one, mut two) = (
        disk.open_record(&tune("TUNE 1")).expect("there is room"),
        disk.open_record(&tune("TUNE 2")).expect("there is room"),
    );
    assert_eq!(disk.add_piece(&mut one, &[1; 1_600]).expect("it fits").numbers().len(), 2);
    assert_eq!(disk.add_piece(&mut two, &[2; 1_012]).expect("it fits").numbers().len(), 1);
    assert_eq!(disk.close_record(&one).expect("it closes").numbers().len(), 3);
    let mut expected = vec![1; 1_600];
    expected[501..1_011].fill(2);
    assert_eq!(disk.read(&name("TUNE 1")).expect("it is there"), expected);
    let before = two.clone();
    assert_eq!(number(disk.add_piece(&mut two, b"la").unwrap_err()), (30, 0));
    assert!(two == before, "a refused piece leaves the record as it was");
    assert_eq!(number(disk.close_record(&two).unwrap_err()), (30, 0));
}

#[test]
fn opening_is_refused_as_an_empty_save_is() {
    assert_eq!(number(pair().open_record(&tune("one")).unwrap_err()), (16, 1));
    let mut full = blank();
    for slot in 1..=80 {
        save(&mut full, &code(&format!("F{slot}"), b""));
    }
    assert_eq!(number(full.open_record(&tune("TUNE")).unwrap_err()), (18, 0));
    let mut full = blank();
    save(&mut full, &code("LONG", &body(LONGEST_BODY)));
    assert_eq!(number(full.open_record(&tune("TUNE")).unwrap_err()), (19, 0));
}

/// The refusal of a recording whose sectors are another's by now.
pub fn moved() -> Refused {
    let mut disk = pair();
    let record = disk.open_record(&tune("TUNE")).expect("there is room");
    save(&mut disk, &code("OTHER", b""));
    disk.close_record(&record).unwrap_err()
}

#[test]
fn shown_without_its_bytes() {
    let mut disk = blank();
    let record = disk.open_record(&tune("TUNE")).expect("there is room");
    assert_eq!(format!("{record:?}"), "Record { .. }");
    let mut store = Kept::of(&disk, 0);
    let recording = disk.record(&tune("TUNE"), &mut store).expect("there is room");
    assert_eq!(format!("{recording:?}"), "Recording { bytes: 0, .. }");
}
