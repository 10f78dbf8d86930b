//! The check before a release: waste sectors behind a file of a carried kind are refused, and in this check alone.

mod common;
use common::*;

/// Adds a sector behind the first file of a disk: its map, its count and its chain go together.
fn lengthen(image: &mut [u8], chain: &[usize], bit: usize) {
    let last = chain[chain.len() - 1] * 512;
    let (track, sector) = ((4 + bit / 10) as u8, (bit % 10 + 1) as u8);
    let added = (2 * usize::from(track) * 10 + usize::from(sector) - 1) * 512;
    image[last + 510..][..2].copy_from_slice(&[track, sector]);
    image[added + 510..][..2].copy_from_slice(&[0, 0]);
    image[slot_place(1) + 15 + bit / 8] |= 1 << (bit % 8);
    image[slot_place(1) + 12] += 1;
}

#[test]
fn the_least_count_is_accepted_and_one_above_is_not() {
    for length in [0, 1, 501, 502, 1_011, 1_012, 10_000] {
        let mut image = blank();
        let list = put(&mut image, b"TEXT", length);
        put(&mut image, b"OTHER", 600);
        assert_eq!(paper::check_release(&image), Ok(()), "{length} bytes");
        lengthen(&mut image, &list[..list.len() - 1], 100);
        assert_eq!(paper::check(&image), Ok(()), "{length} bytes");
        assert_eq!(paper::check_release(&image), refused(22, 1), "{length} bytes");
        let mut body = vec![0; length];
        assert_eq!(paper::read(&image, b"TEXT", &mut body), Ok(length));
        // A kind that is not carried has no length, and so no waste.
        image[slot_place(1)] = 5;
        assert_eq!(paper::check_release(&image), Ok(()), "{length} bytes");
    }
}

#[test]
fn it_stands_directly_after_7() {
    let mut image = blank();
    let list = put(&mut image, b"ONE", 100);
    put(&mut image, b"TWO", 1_500);
    lengthen(&mut image, &list[..1], 100);
    let two = slot_place(2);
    let both = |image: &[u8]| (paper::check(image), paper::check_release(image));
    assert_eq!(both(&image), (Ok(()), refused(22, 1)));

    // What is wrong at a later slot, or in any chain, comes after it.
    image[two + 239] = 1;
    assert_eq!(both(&image), (refused(7, 2), refused(22, 1)));
    image[two + 239] = 0;
    image[list[0] * 512] = 7;
    assert_eq!(both(&image), (refused(11, 1), refused(22, 1)));
    image[list[0] * 512] = 19;

    // At its own slot 7 comes before it, 8 and 9 after it; and all of an earlier slot before it.
    let waste = image[..256].to_vec();
    image.copy_within(two..two + 256, 0);
    image[two..two + 256].copy_from_slice(&waste);
    assert_eq!(both(&image), (Ok(()), refused(22, 2)));
    image.copy_within(1..11, two + 1);
    assert_eq!(both(&image), (refused(9, 2), refused(22, 2)));
    let bit = image[15] & image[15].wrapping_neg();
    image[two + 15] |= bit;
    image[two + 12] += 1;
    assert_eq!(both(&image), (refused(8, 2), refused(22, 2)));
    image[two + 239] = 1;
    assert_eq!(both(&image), (refused(7, 2), refused(7, 2)));
    image[two + 239] = 0;
    image[0] = 63;
    assert_eq!(both(&image), (refused(2, 1), refused(2, 1)));
}
