//! Kinds 1 to 4: a Plus D header of nine bytes, with length and start in it.

mod common;
use common::*;

/// A disk with a file of so many sectors of this kind behind another file, and the place of its header.
fn spectrum(kind: u8, sectors: usize) -> (Vec<u8>, usize) {
    let mut image = blank();
    put(&mut image, b"ONE", 900);
    let list = put(&mut image, b"ZX", 510 * sectors - 9);
    assert_eq!(list.len(), sectors + 1);
    image[slot_place(2)] = kind;
    (image, list[0] * 512)
}

/// Writes a header: any bytes, with this length and this start in it.
fn head(image: &mut [u8], place: usize, length: u16, start: u16) {
    let ([length_low, length_high], [start_low, start_high]) = (length.to_le_bytes(), start.to_le_bytes());
    image[place..place + 9].copy_from_slice(&[99, length_low, length_high, start_low, start_high, 77, 88, 66, 55]);
}

#[test]
fn bodies_and_starts_come_from_the_header() {
    for kind in [1, 2, 3, 4, 4 | 0x80, 1 | 0x40] {
        for (length, sectors) in [
            (0, 1),
            (1, 1),
            (501, 1),
            (502, 2),
            (1_011, 2),
            (16_384, 33),
            (65_535, 129),
            (300, 129),
        ] {
            for start in [0, 1, 255, 256, 16_384, 23_755, 32_768, 49_152, 65_535] {
                let (mut image, place) = spectrum(kind, sectors);
                head(&mut image, place, length, start);
                assert_eq!(paper::check(&image), Ok(()));
                assert_eq!(paper::check_release(&image), Ok(()), "22 looks at the carried kinds alone");
                assert_eq!(paper::start(&image, b"ZX"), Ok(start.into()));
                let length = usize::from(length);
                let mut out = vec![7; length + 2];
                assert_eq!(paper::read(&image, b"zx", &mut out), Ok(length));
                assert_eq!(
                    (&out[..length], &out[length..]),
                    (&body(510 * sectors - 9)[..length], &[7, 7][..])
                );
                let mut reader = paper::open(&image, b"ZX").expect("it is there");
                let began = (reader.sector as usize * 512, reader.offset, reader.left as usize);
                assert_eq!(began, (place, 9, length));
                let mut pieces = vec![7; length + 2];
                let (first, rest) = pieces.split_at_mut(length / 3);
                assert_eq!(paper::next(&image, &mut reader, first), first.len());
                assert_eq!(paper::next(&image, &mut reader, rest), length - length / 3);
                assert!(pieces == out && reader.left == 0);
                if length > 0 {
                    assert_eq!(paper::read(&image, b"ZX", &mut vec![0; length - 1]), refused(20, 0));
                }
            }
        }
    }
}

#[test]
fn a_length_above_the_sectors_is_refused() {
    for (kind, sectors) in [(1, 1), (2, 2), (3, 5), (4, 128)] {
        let (mut image, place) = spectrum(kind, sectors);
        let full = (510 * sectors - 9) as u16;
        for (length, number) in [(0, 0), (full - 1, 0), (full, 0), (full + 1, 25), (65_535, 25)] {
            head(&mut image, place, length, 65_535);
            let expected = if number == 0 { Ok(()) } else { refused(number, 2) };
            assert_eq!(paper::check(&image), expected, "{length} bytes in {sectors} sectors");
        }
        // Kind 5 has no such header, and no body.
        image[slot_place(2)] = 5;
        assert_eq!(paper::check(&image), Ok(()));
        assert_eq!(paper::read(&image, b"ZX", &mut []), refused(13, 2));
        assert_eq!(paper::start(&image, b"ZX"), refused(13, 2));
    }
}

#[test]
fn it_comes_after_10_and_11_of_the_same_and_of_earlier_slots() {
    let (mut image, place) = spectrum(3, 2);
    let one = 80 * 512;
    put(&mut image, b"THREE", 900);
    head(&mut image, place, 1_012, 0);
    assert_eq!(paper::check(&image), refused(25, 2));
    let three = usize::from(image[slot_place(3) + 14] - 1) * 512 + 80 * 512;
    image[three + 510] = 99;
    assert_eq!(paper::check(&image), refused(25, 2), "10 at a later slot comes after it");
    image[one + 7] ^= 1;
    assert_eq!(paper::check(&image), refused(11, 1));
    image[one + 7] ^= 1;
    image[place + 510] = 99;
    assert_eq!(paper::check(&image), refused(10, 2), "10 comes before it at its slot");
    image[place + 510] = 4;
    image[slot_place(3)] = 63;
    assert_eq!(paper::check(&image), refused(2, 3), "the directory comes first");
}

#[test]
fn they_cannot_be_saved() {
    let mut image = blank();
    for kind in 1..=4 {
        let request = paper::SaveRequest {
            kind,
            ..request(b"ZX", &[])
        };
        assert_eq!(paper::save(&mut image, &request, &mut [0; 4]), refused(13, 0));
    }
}
