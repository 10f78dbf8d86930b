//! Where the directory ends (document 02, M-103): at the first slot whose first name byte is 0.

mod common;
use common::*;
use paper::Listed;

const FIRST_NAME_BYTE: usize = 1;

/// A disk with a file of one sector in each slot before this one.
fn files_before(end: usize) -> Vec<u8> {
    let mut image = blank();
    for slot in 1..end {
        put(&mut image, &name(slot), 0);
    }
    image
}

fn name(slot: usize) -> [u8; 2] {
    [b'A' + slot as u8 / 10, b'0' + slot as u8 % 10]
}

/// The same, and old bytes in every slot from this one on, which has no name.
fn ending(end: usize, byte_0: u8) -> Vec<u8> {
    let mut image = files_before(end);
    for slot in end..=80 {
        image[slot_place(slot)..][..256].fill(99);
    }
    if end == 1 {
        image[255] = 255;
    }
    image[slot_place(end)..][..2].copy_from_slice(&[byte_0, 0]);
    image
}

fn listed(image: &[u8]) -> Listed {
    paper::list(image, &mut [0; 80 * 258]).expect("it is accepted")
}

/// What makes slot `faulty` give a number, beside the accepted file in slot `twin`; both have three sectors.
fn damage(image: &mut [u8], number: u8, faulty: usize, twin: usize) {
    let (at, like) = (slot_place(faulty), slot_place(twin));
    let sector = |image: &[u8]| (usize::from(image[at + 13]) * 20 + usize::from(image[at + 14]) - 1) * 512;
    match number {
        2 => image[at] = 13,
        4 => image[at + 11..at + 13].fill(255),
        5 => image[at + 12] += 1,
        6 => image[at + 13] = 3,
        7 => image[at + 239] = 255,
        8 => image.copy_within(like + 11..like + 210, at + 11),
        9 => image.copy_within(like + 1..like + 11, at + 1),
        10 => image[sector(image) + 510] = 77,
        _ => image[sector(image)] = 20,
    }
}

#[test]
fn rubbish_behind_the_end_is_unread() {
    for end in [1, 2, 3, 19, 20, 21, 40, 41, 60, 61, 78, 79] {
        let faulty = (end + 2).min(80);
        let twin = if faulty == end + 2 { end + 1 } else { 1 };
        for number in [2, 4, 5, 6, 7, 8, 9, 10, 11] {
            let mut image = blank();
            for slot in 1..=faulty {
                put(&mut image, &name(slot), 1_500);
            }
            damage(&mut image, number, faulty, twin);
            image[slot_place(end)] = 0;
            assert_eq!(paper::check(&image), refused(number, faulty), "slot {end} is erased");
            for byte_0 in [0, 19, 255] {
                image[slot_place(end)..][..2].copy_from_slice(&[byte_0, 0]);
                assert_eq!(paper::check(&image), Ok(()), "slot {end} is the end");
                let (files, free) = (end - 1, 1_560 - 3 * (end - 1));
                assert_eq!(listed(&image), Listed { files, free });
                for slot in end..=faulty {
                    assert_eq!(paper::start(&image, &name(slot)), refused(15, 0));
                }
            }
        }
    }
}

/// Slot by slot: what a save into the end changes beside its data sector, and what it names.
#[test]
fn a_save_into_the_end_clears_the_old_name_behind_it() {
    for end in 1..=80 {
        for byte_0 in [0, 19, 255] {
            let (mut image, free) = (ending(end, byte_0), 1_561 - end);
            let mut expected = image.clone();
            let data = expected_save(&mut expected, end);
            let here = slot_place(end) / 512;
            let mut named = vec![data];
            if end < 80 {
                expected[slot_place(end + 1)..][..2].fill(0);
                named.extend(Some(slot_place(end + 1) / 512).filter(|next| *next != here));
            }
            named.push(here);
            assert_eq!(listed(&image), Listed { files: end - 1, free });
            let mut short = vec![7; 2 * named.len() - 1];
            let old = image.clone();
            assert_eq!(paper::save(&mut image, &request(b"NEW", &[]), &mut short), refused(20, 0));
            assert!(image == old && short.iter().all(|byte| *byte == 7));
            assert_eq!(put(&mut image, b"NEW", 0), named);
            assert!(image == expected, "slot {end}");
            assert_eq!(
                listed(&image),
                Listed {
                    files: end,
                    free: free - 1
                }
            );
        }
    }
}

/// The saved slot and its one sector, as a save on a disk without rubbish writes them; what slot 1 says of the disk stays.
/// Gives the sector's number.
fn expected_save(image: &mut [u8], slot: usize) -> usize {
    let mut clean = files_before(slot);
    let data = put(&mut clean, b"NEW", 0)[0];
    for at in (0..256).filter(|at| slot > 1 || !is_kept(*at)) {
        image[slot_place(slot) + at] = clean[slot_place(slot) + at];
    }
    image[data * 512..][..512].copy_from_slice(&clean[data * 512..][..512]);
    data
}

/// A next slot without a name ends the directory as it is: nothing is cleared, whatever its byte 0.
#[test]
fn a_next_slot_without_a_name_stays() {
    for end in [1, 2, 19, 20, 21, 40, 79] {
        for byte_0 in [0, 19, 255] {
            let mut image = ending(end, 0);
            let next = slot_place(end + 1);
            image[next..next + 2].copy_from_slice(&[byte_0, 0]);
            let mut expected = image.clone();
            let data = expected_save(&mut expected, end);
            assert_eq!(put(&mut image, b"NEW", 0), [data, slot_place(end) / 512]);
            assert!(image == expected, "slot {end}");
        }
    }
}

/// Byte 0 of the next slot is 0 already: its name is cleared all the same, or the slot would be read as an erased one and those
/// behind it too.
#[test]
fn an_erased_next_slot_is_cleared_too() {
    for end in [1, 2, 19, 20, 21, 40, 79] {
        let mut image = ending(end, 0);
        image[slot_place(end + 1)] = 0;
        let before = image.clone();
        put(&mut image, b"NEW", 0);
        let next = slot_place(end + 1);
        assert_eq!(image[next..next + 2], [0, 0]);
        assert_eq!(image[next + 2..next + 256], before[next + 2..next + 256]);
        assert_eq!(listed(&image).files, end);
    }
}

/// An erased slot before the end is taken first, and what stands behind it stays.
#[test]
fn erased_slots_come_before_the_end() {
    for (end, erased) in [(3, 1), (3, 2), (21, 20), (22, 20), (80, 79), (80, 1)] {
        let mut image = ending(end, 255);
        paper::erase(&mut image, &name(erased), &mut [0; 2]).expect("it is there");
        let old = image.clone();
        let named = put(&mut image, b"NEW", 1);
        assert_eq!(named[1..], [slot_place(erased) / 512]);
        assert_eq!(changed(&old, &image), [named[1], named[0]]);
        let next = slot_place(erased + 1);
        assert_eq!(image[next..next + 256], old[next..next + 256]);
    }
}

#[test]
fn no_slot_is_left_only_where_none_is_erased_and_there_is_no_end() {
    let mut image = ending(80, 19);
    assert_eq!(put(&mut image, b"LAST", 0).len(), 2);
    assert_eq!(paper::save(&mut image, &request(b"NEW", &[]), &mut [0; 4]), refused(18, 0));
    for slot in [1, 40, 79] {
        let mut erased = image.clone();
        paper::erase(&mut erased, &name(slot), &mut [0; 2]).expect("it is there");
        assert_eq!(put(&mut erased, b"NEW", 0)[1], slot_place(slot) / 512);
        let mut ended = image.clone();
        ended[slot_place(slot) + FIRST_NAME_BYTE] = 0;
        assert_eq!(listed(&ended).files, slot - 1);
        put(&mut ended, b"NEW", 0);
        assert_eq!(listed(&ended).files, slot);
    }
}

/// Saves fill the directory from the end on, each one slot further, over whatever stands there.
#[test]
fn saves_walk_over_old_slots() {
    let mut image = ending(1, 19);
    for slot in 1..=80 {
        put(&mut image, &name(slot), 0);
        let (files, free) = (slot, 1_560 - slot);
        assert_eq!(listed(&image), Listed { files, free });
    }
    assert_eq!(paper::save(&mut image, &request(b"NEW", &[]), &mut [0; 6]), refused(18, 0));
}

/// The longest list that has two sectors of the directory: a file of one sector in slot 1, and the end at slot 2. Without that
/// file a save of all 1,560 data sectors takes slot 1, and the next slot is in its sector.
#[test]
fn the_longest_list_with_two_directory_sectors() {
    let mut image = ending(2, 255);
    let (long, mut list) = (body(795_591 - 510), vec![7; 2 * 1_561 - 1]);
    assert_eq!(paper::save(&mut image, &request(b"LONG", &long), &mut list), refused(20, 0));
    list.push(7);
    assert_eq!(paper::save(&mut image, &request(b"LONG", &long), &mut list), Ok(1_561));
    assert_eq!(numbers(&list)[1_559..], [1, 0], "slot 3's sector, then that of slot 2");
}
