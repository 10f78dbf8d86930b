//! A file's body piece by piece: the pieces joined are the body that one read gives, however the asking is cut.

mod common;
use common::*;
use paper::Reader;

/// The rooms that a body is asked for with, in turn, over and over.
const CUTS: [&[usize]; 9] = [
    &[1],
    &[0, 1, 9, 509, 510, 511, 512],
    &[509],
    &[510],
    &[511],
    &[512],
    &[4_096, 0],
    &[501, 510],
    &[800_000],
];

#[test]
fn pieces_joined_are_one_read() {
    for length in [0, 1, 9, 500, 501, 502, 1_011, 1_012, 10_000, 16_384, 795_591] {
        let mut image = blank();
        let list = put(&mut image, b"BODY", length);
        let mut whole = vec![0; length];
        assert_eq!(paper::read(&image, b"BODY", &mut whole), Ok(length));
        for rooms in CUTS {
            let mut reader = paper::open(&image, b"BODY").expect("it is there");
            let began = (reader.sector as usize, reader.offset, reader.left as usize);
            assert_eq!(began, (list[0], 9, length));
            let mut joined: Vec<u8> = vec![];
            for &room in rooms.iter().cycle() {
                let (left, mut out) = (reader.left as usize, vec![7; room]);
                let came = paper::next(&image, &mut reader, &mut out);
                assert_eq!((came, reader.left as usize), (left.min(room), left - left.min(room)));
                assert!(out[came..].iter().all(|byte| *byte == 7), "what isn't filled stays");
                joined.extend(&out[..came]);
                if left == 0 {
                    break;
                }
            }
            assert!(joined == whole, "{length} bytes by {rooms:?}");
        }
    }
}

/// After the last byte of a sector the reader stands at the first of the next one; after that of the last, nowhere.
#[test]
fn a_reader_stands_at_the_next_byte() {
    let mut image = blank();
    let list = put(&mut image, b"BODY", 501 + 510);
    let mut reader = paper::open(&image, b"BODY").expect("it is there");
    let mut stands = |room: usize| {
        paper::next(&image, &mut reader, &mut vec![0; room]);
        (reader.sector as usize, reader.offset, reader.left)
    };
    assert_eq!(stands(500), (list[0], 509, 511));
    assert_eq!(stands(0), (list[0], 509, 511));
    assert_eq!(stands(1), (list[1], 0, 510));
    assert_eq!(stands(1), (list[1], 1, 509));
    assert_eq!(stands(509), (1_600, 0, 0));
    assert_eq!(stands(9), (1_600, 0, 0));
}

#[test]
fn opening_refuses_as_reading_does_but_for_the_buffer() {
    let mut image = blank();
    put(&mut image, b"ONE", 900);
    put(&mut image, b"TWO", 900);
    assert_eq!(paper::open(&image[1..], b"ONE"), refused(1, 0));
    assert_eq!(paper::open(&image, b""), refused(12, 0));
    assert_eq!(paper::open(&image, b"THREE"), refused(15, 0));
    assert!(paper::open(&image, b"TWO ").is_ok());
    image[slot_place(2)] = 0x80 | 5;
    assert_eq!(paper::open(&image, b"TWO"), refused(13, 2));
    image[slot_place(1) + 1] = 0;
    assert_eq!(paper::open(&image, b"TWO"), refused(15, 0), "the directory ends before it");
    image[slot_place(1)..][..2].copy_from_slice(&[13, b'O']);
    assert_eq!(paper::open(&image, b"TWO"), refused(2, 1));
}

/// Numbers that can be no reader's, and an image of another length: nothing comes, and nothing changes.
#[test]
fn nothing_comes_of_what_can_be_no_reader() {
    let mut image = blank();
    put(&mut image, b"BODY", 795_591);
    let none = |image: &[u8], sector: u32, offset: u32, left: u32| {
        let (mut reader, mut out) = (Reader { sector, offset, left }, [7; 20]);
        assert_eq!(paper::next(image, &mut reader, &mut out), 0, "{sector} {offset} {left}");
        assert_eq!(
            (out, reader),
            (
                [7; 20],
                Reader {
                    sector: 1_600,
                    offset: 0,
                    left
                }
            )
        );
    };
    for high in [0, 1 << 16, 1 << 31] {
        none(&image, high | 1_600, 0, 1);
        none(&image, 80, high | 510, 1);
        none(&image, 80, 0, high | 795_592);
    }
    for high in [1 << 16, 1 << 31] {
        none(&image, high | 80, 0, 1);
        none(&image, 80, high | 9, 1);
    }
    none(&image, u32::MAX, u32::MAX, u32::MAX);
    for length in [0, 512, IMAGE - 1] {
        none(&image[..length], 80, 9, 1);
    }
    none(&[&image[..], &[0]].concat(), 80, 9, 1);
}

/// Other numbers lead along the links: round in a ring, or to an end before all has come.
#[test]
fn other_numbers_lead_along_the_links() {
    let mut image = blank();
    let list = put(&mut image, b"BODY", 1_500);
    let places: Vec<usize> = list[..3].iter().map(|number| number * 512).collect();
    let [sector, offset] = [list[1] as u32, 500];
    let mut out = [7; 1_000];
    let mut reader = Reader {
        sector,
        offset,
        left: 795_591,
    };
    assert_eq!(paper::next(&image, &mut reader, &mut out), 520, "the chain ends");
    let expected = [&image[places[1] + 500..][..10], &image[places[2]..][..510]].concat();
    assert!(out[..520] == expected && out[520..] == [7; 480]);
    assert_eq!((reader.sector, reader.offset, reader.left), (1_600, 0, 795_071));

    image[places[2] + 510..][..2].copy_from_slice(&[4, 2]);
    let mut reader = Reader {
        sector,
        offset,
        left: 795_591,
    };
    assert_eq!(paper::next(&image, &mut reader, &mut out), 1_000, "a ring has no end");
    assert!(out[520..] == image[places[1]..][..480]);
    assert_eq!((reader.sector, reader.offset, reader.left), (list[1] as u32, 480, 794_591));

    // The directory's sectors are read as they stand, but no link leads there.
    image[510..512].copy_from_slice(&[4, 1]);
    let mut reader = Reader {
        sector: 0,
        offset: 0,
        left: 600,
    };
    assert_eq!(paper::next(&image, &mut reader, &mut out), 600);
    assert!(out[..510] == image[..510] && out[510..600] == image[places[0]..][..90]);
    image[510..512].copy_from_slice(&[0, 2]);
    let mut reader = Reader {
        sector: 0,
        offset: 0,
        left: 600,
    };
    assert_eq!(paper::next(&image, &mut reader, &mut out), 510);
}
