//! Readers: the pieces joined are the body, and what is left is told exactly.
use super::*;
use std::io::{self, Read, copy};
use varnucht::LONGEST_BODY;

/// A disk with a file of this length between two others.
fn between(length: usize) -> Disk {
    let mut disk = pair();
    save(&mut disk, &code("FILE", &body(length)));
    let rest = disk.listing().room().map_or(0, |room| room.min(2_000));
    save(&mut disk, &code("LAST", &body(rest as usize)));
    disk
}

#[test]
fn pieces_joined_are_the_body() {
    let rooms: [&[usize]; 7] = [
        &[1],
        &[0, 1, 9, 509, 510, 511, 512],
        &[510],
        &[512],
        &[4_096],
        &[300, 0, 700],
        &[LONGEST_BODY],
    ];
    for length in [0, 1, 501, 502, 1_011, 1_012, 16_384, 100_000] {
        let disk = between(length);
        let whole = disk.read(&name("FILE")).unwrap();
        for rooms in rooms {
            let mut reader = disk.reader(&name("FILE")).unwrap();
            let mut joined: Vec<u8> = vec![];
            for room in rooms.iter().cycle() {
                let (left, mut piece) = (reader.left(), vec![7; *room]);
                assert_eq!(left, length - joined.len());
                let came = reader.read(&mut piece).unwrap();
                assert_eq!((came, reader.left()), (left.min(*room), left - came));
                assert!(piece[came..].iter().all(|byte| *byte == 7), "what isn't filled stays");
                joined.extend(&piece[..came]);
                if left == 0 {
                    break;
                }
            }
            assert!(joined == whole, "{length} bytes by {rooms:?}");
        }
    }
}

/// Whatever reads from a `Read` reads from a reader.
#[test]
fn readers_are_read_by_others() {
    for length in [0, 700, LONGEST_BODY] {
        let mut disk = blank();
        save(&mut disk, &code("FILE", &body(length)));
        let reader = disk.reader(&name("FILE")).unwrap();
        let (mut poured, mut whole, mut exact) = (Vec::new(), Vec::new(), vec![0; length]);
        assert_eq!(copy(&mut reader.clone(), &mut poured).unwrap(), length as u64);
        assert_eq!(reader.clone().read_to_end(&mut whole).unwrap(), length);
        reader.clone().read_exact(&mut exact).unwrap();
        assert!(poured == body(length) && whole == poured && exact == poured);
        let short = reader.clone().read_exact(&mut vec![0; length + 1]).unwrap_err();
        assert_eq!(short.kind(), io::ErrorKind::UnexpectedEof);
        let bytes: Result<Vec<u8>, _> = io::BufReader::new(reader.clone()).bytes().collect();
        assert!(bytes.unwrap() == poured);
        assert_eq!(reader.left(), length, "a clone goes its own way");
    }
}

#[test]
fn several_readers_of_one_disk() {
    let disk = pair();
    let (mut one, mut two) = (disk.reader(&name("ONE")).unwrap(), disk.reader(&name("TWO")).unwrap());
    let (mut first, mut second) = (vec![], vec![]);
    while one.left() + two.left() > 0 {
        one.by_ref().take(7).read_to_end(&mut first).unwrap();
        two.by_ref().take(600).read_to_end(&mut second).unwrap();
    }
    assert!(first == body(1_000) && second == body(900));
    assert_eq!(format!("{one:?}"), "Reader { left: 0, .. }");
}

/// A reader is refused as reading is, with the slot.
#[test]
fn readers_are_refused_as_reading_is() {
    let strange = Disk::open(damaged(&[(0, 5)])).expect("a snapshot is accepted");
    for (asked, number, slot) in [("TWO", 13, 2), ("THREE", 15, 0)] {
        let refused = strange.reader(&name(asked)).map(|_| ()).unwrap_err();
        assert_eq!(Err(refused), strange.read(&name(asked)).map(|_| ()));
        let (given, at, _) = parts(refused);
        assert_eq!((given, at), (number, slot));
    }
}
