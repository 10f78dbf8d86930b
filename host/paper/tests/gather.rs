//! Gathering a scattered file (document 02, M-112).

mod common;
use common::*;

/// Track and sector of a map bit.
fn address(bit: usize) -> [u8; 2] {
    let track = if bit < 760 { 4 + bit / 10 } else { 128 + (bit - 760) / 10 };
    [track as u8, (bit % 10 + 1) as u8]
}

/// The number of the sector of a map bit.
fn number(bit: usize) -> usize {
    let [track, sector] = address(bit).map(usize::from);
    (2 * (track % 128) + track / 128) * 10 + sector - 1
}

/// The payload of the i-th sector of a file of code whose body takes all its sectors but the last byte.
fn payload(i: usize, sectors: usize) -> [u8; 510] {
    let mut bytes: [u8; 510] = std::array::from_fn(|at| (i * 7 + at * 3 + 1) as u8);
    if i == 0 {
        let length = 510 * sectors - 10;
        let [low, high] = ((length % 16_384) as u16).to_le_bytes();
        bytes[..9].copy_from_slice(&[19, low, high, 0, 128, 8, 9, (length / 16_384) as u8, 1]);
    }
    bytes
}

/// Puts a file of code into a slot, with these map bits as its chain.
fn lay(image: &mut [u8], slot: usize, name: &[u8], chain: &[usize]) {
    let length = 510 * chain.len() - 10;
    let kept = image[255];
    let bytes = &mut image[slot_place(slot)..][..256];
    bytes.copy_from_slice(&std::array::from_fn::<u8, 256, _>(|at| at as u8 ^ 0x55));
    bytes[0] = 19;
    bytes[1..11].fill(32);
    bytes[1..1 + name.len()].copy_from_slice(name);
    bytes[11..13].copy_from_slice(&(chain.len() as u16).to_be_bytes());
    bytes[13..15].copy_from_slice(&address(chain[0]));
    bytes[15..210].fill(0);
    chain.iter().for_each(|bit| bytes[15 + bit / 8] |= 1 << (bit % 8));
    bytes[239] = (length / 16_384) as u8;
    bytes[240..242].copy_from_slice(&((length % 16_384) as u16).to_le_bytes());
    image[255] = kept;
    for (i, &bit) in chain.iter().enumerate() {
        let sector = &mut image[512 * number(bit)..][..512];
        sector[..510].copy_from_slice(&payload(i, chain.len()));
        sector[510..].copy_from_slice(&chain.get(i + 1).map_or([0, 0], |&next| address(next)));
    }
}

/// A blank disk with files A, B, .. on these bits.
fn disk(chains: &[&[usize]]) -> Vec<u8> {
    disk_with(0, chains)
}

fn disk_with(extra: u8, chains: &[&[usize]]) -> Vec<u8> {
    let mut image = blank_with(extra);
    for (i, chain) in chains.iter().enumerate() {
        lay(&mut image, i + 1, &[b'A' + i as u8], chain);
    }
    assert_eq!(paper::check(&image), Ok(()));
    image
}

/// Bits from the first to before the last.
fn row(from: usize, to: usize) -> Vec<usize> {
    (from..to).collect()
}

/// Gathers A and compares every byte: it must lie on the run that begins at this bit.
fn moves_to(old: &[u8], start: usize) {
    let mut image = old.to_vec();
    let count = usize::from(u16::from_be_bytes([old[11], old[12]]));
    let mut list = vec![0x5c; 2 * count + 5];
    assert_eq!(paper::gather(&mut image, b"a", &mut list), Ok(count + 1));
    let run = row(start, start + count);
    let named: Vec<usize> = run.iter().map(|&bit| number(bit)).chain([0]).collect();
    assert_eq!(numbers(&list[..2 * count + 2]), named);
    assert_eq!(list[2 * count + 2..], [0x5c; 3], "the rest stays");
    let mut expected = old.to_vec();
    lay(&mut expected, 1, b"A", &run);
    expected[..13].copy_from_slice(&old[..13]);
    expected[210..256].copy_from_slice(&old[210..256]);
    assert!(
        image == expected,
        "only the named sectors change, and of the slot bytes 13 to 209"
    );
    let mut again = image.clone();
    assert_eq!(paper::gather(&mut again, b"A", &mut []), Ok(0));
    assert!(again == image);
    let read = |image: &[u8]| {
        let mut out = vec![0; 510 * count];
        let length = paper::read(image, b"A", &mut out);
        (length, out, paper::start(image, b"A"))
    };
    assert_eq!(read(&image), read(old));
}

/// Gathering A is answered so, and changes nothing.
fn stays(image: &[u8], answer: Result<usize, paper::Refused>) {
    for room in [0, 2, 4_000] {
        let (mut after, mut list) = (image.to_vec(), vec![0x5c; room]);
        assert_eq!(paper::gather(&mut after, b"A", &mut list), answer);
        assert!(after == image && list == vec![0x5c; room]);
    }
}

#[test]
fn to_the_lowest_run() {
    moves_to(&disk(&[&[5, 9, 7]]), 0);
    // Holes of one and two bits before one of three.
    moves_to(&disk(&[&[4, 20, 8], &[1], &[5], &[9, 10]]), 11);
    moves_to(&disk(&[&[30, 28], &[0, 2, 4, 7]]), 5);
    // What is left of a hole that is longer stays free.
    moves_to(&disk(&[&[30, 28], &[0, 1]]), 2);
    // Bits from a byte to the next, and many bytes that are full or empty.
    let (low, high) = (row(0, 6), row(8, 800));
    moves_to(&disk(&[&[1_000, 1_001, 900], &low, &high]), 800);
    moves_to(&disk(&[&[1_000, 900], &low, &high]), 6);
}

#[test]
fn at_the_end_of_the_disk() {
    let wall = row(3, 1_557);
    let exactly = disk(&[&[0, 2, 1], &wall]);
    moves_to(&exactly, 1_557);
    let wall = row(3, 1_558);
    stays(&disk(&[&[0, 2, 1], &wall]), refused(32, 0));
    let wall = row(3, 1_560);
    stays(&disk(&[&[0, 2, 1], &wall]), refused(32, 0));
}

#[test]
fn across_the_sides() {
    let (low, high) = (row(4, 758), row(762, 1_560));
    let image = disk(&[&[0, 1, 3, 2], &low, &high]);
    moves_to(&image, 758);
    // The two bits do not lie beside each other in the image.
    assert_eq!((number(759), number(760)), (1_589, 10));
}

/// Its own sectors do not count as free, though they would make the hole long enough.
#[test]
fn its_own_sectors_are_in_use() {
    // Of bits 10 to 15 two are the file's, and four are free, no three in a row.
    let (low, high) = (row(0, 10), row(16, 1_556));
    moves_to(&disk(&[&[12, 15, 1_556], &low, &high]), 1_557);
    let high = row(16, 1_557);
    stays(&disk(&[&[12, 15, 1_557], &low, &high]), refused(32, 0));
    let high = row(16, 1_560);
    stays(&disk(&[&[12, 10, 14], &low, &high]), refused(32, 0));
}

#[test]
fn chains_in_a_row_and_not() {
    stays(&disk(&[&[700]]), Ok(0));
    stays(&disk(&[&[5, 6]]), Ok(0));
    stays(&disk(&[&[758, 759, 760, 761]]), Ok(0));
    stays(&disk(&[&row(0, 1_560)]), Ok(0));
    stays(&disk(&[&row(1, 1_560)]), Ok(0));
    // Falling on consecutive bits, and rising with a gap or a turn.
    moves_to(&disk(&[&[761, 760, 759, 758]]), 0);
    moves_to(&disk(&[&[6, 5]]), 0);
    moves_to(&disk(&[&[0, 1, 2, 4]]), 5);
    moves_to(&disk(&[&[0, 2, 1, 3]]), 4);
    moves_to(&disk(&[&[1, 2, 3, 0]]), 4);
    let falling: Vec<usize> = (0..1_560).rev().collect();
    stays(&disk(&[&falling]), refused(32, 0));
}

/// The longest list: half of the sectors and one of the directory.
#[test]
fn the_largest_file_that_moves() {
    let falling = |from, to| (from..to).rev().collect::<Vec<usize>>();
    moves_to(&disk(&[&falling(0, 780)]), 780);
    moves_to(&disk(&[&falling(780, 1_560)]), 0);
    stays(&disk(&[&falling(0, 781)]), refused(32, 0));
    // Beside a bigger directory track 4 sector 1 is no part of any run but its own.
    moves_to(&disk_with(1, &[&falling(10, 785)]), 785);
    stays(&disk_with(1, &[&falling(10, 786)]), refused(32, 0));
}

#[test]
fn bigger_directories() {
    for (extra, first) in [(1, 10), (2, 20), (35, 350)] {
        moves_to(&disk_with(extra, &[&[1_000, 0]]), first);
        moves_to(&disk_with(extra, &[&[0, first, first + 1], &[first + 2]]), first + 3);
        stays(&disk_with(extra, &[&[0]]), Ok(0));
        stays(&disk_with(extra, &[&[first, first + 1]]), Ok(0));
        let wall = row(first + 2, 1_559);
        stays(&disk_with(extra, &[&[first + 1, first], &wall]), refused(32, 0));
    }
    // With four tracks bits 0 and 1 are beside each other.
    moves_to(&disk(&[&[1_000, 2]]), 0);
}

/// What erased and unread slots say is in use by nobody.
#[test]
fn only_live_slots_take_sectors() {
    let mut image = disk(&[&[9, 8], &[0, 1], &[2, 3], &[4, 5]]);
    image[slot_place(2)] = 0;
    moves_to(&image, 0);
    let mut image = disk(&[&[9, 8], &[0, 1], &[2, 3], &[4, 5]]);
    image[slot_place(3) + 1] = 0;
    moves_to(&image, 2);
}

#[test]
fn the_list_has_room_or_20() {
    let image = disk(&[&[2, 1, 0]]);
    for (room, answer) in [
        (0, refused(20, 0)),
        (1, refused(20, 0)),
        (7, refused(20, 0)),
        (8, Ok(4)),
        (9, Ok(4)),
    ] {
        let (mut after, mut list) = (image.clone(), vec![0x5c; room]);
        assert_eq!(paper::gather(&mut after, b"A", &mut list), answer, "{room}");
        assert_eq!(after == image, answer.is_err());
        assert!(answer.is_ok() || list == vec![0x5c; room]);
    }
    // 32 comes before 20.
    let falling: Vec<usize> = (0..1_000).rev().collect();
    stays(&disk(&[&falling]), refused(32, 0));
}

#[test]
fn refusals_in_their_order() {
    let mut image = disk(&[&[2, 1, 0], &[9]]);
    let gather = |image: &[u8], name: &[u8]| paper::gather(&mut image.to_vec(), name, &mut []);
    assert_eq!(gather(&image[1..], b"A"), refused(1, 0));
    assert_eq!(gather(&image, b""), refused(12, 0));
    assert_eq!(gather(&image, b"\0A"), refused(12, 0));
    assert_eq!(gather(&image, b"ELEVEN BYTE"), refused(12, 0));
    assert_eq!(gather(&image, b"NONE"), refused(15, 0));
    assert_eq!(gather(&image, b"A"), refused(20, 0));
    // B as a directory, which has no sectors.
    let slot = &mut image[slot_place(2)..][..256];
    (slot[0], slot[12]) = (21, 0);
    slot[15..210].fill(0);
    assert_eq!(paper::check(&image), Ok(()));
    assert_eq!(gather(&image, b"b"), refused(13, 2));
    image[255] = 99;
    assert_eq!(gather(&image, b""), refused(24, 0));
}

/// Every kind with sectors, hidden and protected too; a kind of the Spectrum keeps its header and so its length and start.
#[test]
fn every_kind_with_sectors() {
    for kind in (1..=12).chain(16..=23).filter(|kind| *kind != 21) {
        for marks in [0, 64, 128, 192] {
            let mut image = disk(&[&[20, 10, 15]]);
            image[0] = kind | marks;
            // The header of a carried kind says the kind; that of the Spectrum kinds says length and start in bytes 1 to 4.
            if (16..=20).contains(&kind) {
                image[512 * number(20)] = kind;
            }
            let mut after = image.clone();
            assert_eq!(paper::gather(&mut after, b"A", &mut [0; 8]), Ok(4), "{kind}");
            assert_eq!(paper::check(&after), Ok(()));
            let answers = |image: &[u8]| {
                let mut out = vec![0; 2_000];
                (paper::read(image, b"A", &mut out), out, paper::start(image, b"A"))
            };
            assert_eq!(answers(&after), answers(&image), "{kind}");
            assert_eq!((after[0], &after[13..15]), (kind | marks, &address(0)[..]));
        }
    }
}
