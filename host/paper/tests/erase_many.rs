//! Erasing many files at once (document 02, M-104).

mod common;
use common::*;
use paper::Refused;

const CODE: usize = 250;
const PARENT: usize = 254;
const PROTECTED: u8 = 64;

/// What a call leaves: the disk, the answers and the sectors named.
#[derive(Debug, PartialEq)]
struct EraseResult {
    image: Vec<u8>,
    answers: Vec<u8>,
    sectors: Vec<usize>,
}

/// The names end to end, each filled with 32.
fn joined(names: &[&[u8]]) -> Vec<u8> {
    let filled = names.iter().map(|name| {
        let mut bytes = [32; 10];
        bytes[..name.len()].copy_from_slice(name);
        bytes
    });
    filled.collect::<Vec<_>>().concat()
}

/// One call with room for everything; what it does not fill stays.
fn at_once(image: &[u8], names: &[&[u8]]) -> Result<EraseResult, Refused> {
    let mut image = image.to_vec();
    let (mut answers, mut list) = (vec![0x5c; names.len() + 3], vec![0x5c; 781]);
    let many = paper::erase_many(&mut image, &joined(names), &mut answers, &mut list)?;
    assert!(answers.drain(names.len()..).all(|byte| byte == 0x5c));
    assert!(list.drain(2 * many..).all(|byte| byte == 0x5c));
    Ok(EraseResult {
        image,
        answers,
        sectors: numbers(&list),
    })
}

/// The names one after the other.
fn one_by_one(image: &[u8], names: &[&[u8]]) -> EraseResult {
    let mut new = image.to_vec();
    let mut erase = |name: &&[u8]| match paper::erase(&mut new, name, &mut [0; 2]) {
        Ok(sectors) => {
            assert_eq!(sectors, 1);
            0
        }
        Err(refused) => refused.number,
    };
    let answers = names.iter().map(&mut erase).collect();
    EraseResult {
        answers,
        sectors: changed(image, &new),
        image: new,
    }
}

/// Both ways leave the same; gives the answers and the sectors.
fn both(image: &[u8], names: &[&[u8]]) -> (Vec<u8>, Vec<usize>) {
    let left = at_once(image, names).expect("nothing refuses the whole call");
    assert_eq!(left, one_by_one(image, names));
    assert_eq!(paper::check(&left.image), Ok(()));
    (left.answers, left.sectors)
}

/// A disk with so many files, F1 and so on, in as many slots.
fn files(extra: u8, many: usize) -> Vec<u8> {
    let mut image = blank_with(extra);
    for file in 1..=many {
        put(&mut image, format!("F{file}").as_bytes(), 0);
    }
    image
}

fn owned(names: &[String]) -> Vec<&[u8]> {
    names.iter().map(|name| name.as_bytes()).collect()
}

#[test]
fn in_order_and_each_sector_once() {
    let image = files(0, 6);
    assert_eq!(both(&image, &[]), (vec![], vec![]));
    assert_eq!(both(&image, &[b"F3"]), (vec![0], vec![1]));
    assert_eq!(both(&image, &[b"F4", b"F3"]), (vec![0, 0], vec![1]));
    assert_eq!(both(&image, &[b"F6", b"F1", b"F5"]), (vec![0; 3], vec![0, 2]));
    assert_eq!(both(&image, &[b"F2", b"f2", b"F2"]), (vec![0, 15, 15], vec![0]));
    assert_eq!(both(&image, &[b"f1", b"X", b"F3"]), (vec![0, 15, 0], vec![0, 1]));
}

/// Each name has its number, and refuses nothing of the others.
#[test]
fn each_name_has_its_number() {
    let mut image = files(0, 6);
    image[slot_place(2)] |= PROTECTED;
    image[slot_place(3)] |= PROTECTED;
    let names: [&[u8]; 7] = [b"\0F1", b"F2", b"none", b"F1", b"f3", b"\0", b"F4"];
    assert_eq!(both(&image, &names), (vec![12, 17, 15, 0, 17, 12, 0], vec![0, 1]));
    let refused: [&[u8]; 3] = [b"F2", b"none", b"\0"];
    assert_eq!(both(&image, &refused), (vec![17, 15, 12], vec![]), "nothing is changed");
}

/// A directory that is emptied by the names before it can go; before that it cannot.
#[test]
fn directories() {
    let mut image = files(0, 8);
    for (slot, code, parent) in [(2, 7, 0), (5, 9, 7)] {
        let bytes = &mut image[slot_place(slot)..][..256];
        bytes[0] = 21;
        bytes[11..210].fill(0);
        (bytes[CODE], bytes[PARENT]) = (code, parent);
    }
    for (slot, parent) in [(1, 7), (7, 9), (8, 9)] {
        image[slot_place(slot) + PARENT] = parent;
    }
    assert_eq!(paper::tree(&image, b"F2", &mut [0; 20]), Ok(4));
    let inside_out: [&[u8]; 5] = [b"F7", b"F8", b"F5", b"F1", b"F2"];
    assert_eq!(both(&image, &inside_out), (vec![0; 5], vec![0, 2, 3]));
    let outside_in: [&[u8]; 5] = [b"F2", b"F1", b"F5", b"F7", b"F8"];
    assert_eq!(both(&image, &outside_in), (vec![29, 0, 29, 0, 0], vec![0, 3]));
    let again: [&[u8]; 6] = [b"F5", b"F8", b"F5", b"F7", b"F5", b"F5"];
    assert_eq!(both(&image, &again), (vec![29, 0, 29, 0, 0, 15], vec![2, 3]));
    image[slot_place(2)] |= PROTECTED;
    assert_eq!(both(&image, &[b"F2", b"F5"]), (vec![17, 29], vec![]), "17 before 29");
    image[slot_place(5) + PARENT] = 9;
    assert_eq!(
        both(&image, &inside_out[..3]),
        (vec![0; 3], vec![2, 3]),
        "it is in itself alone"
    );
    image[slot_place(5) + CODE] = 0;
    assert_eq!(both(&image, &[b"F5"]), (vec![0], vec![2]), "the root's code holds nothing");
}

/// A cut between the sectors may leave a file whose directory is gone, which the tree alone refuses.
#[test]
fn a_cut_between_a_directory_and_what_was_in_it() {
    let mut image = files(0, 4);
    image[slot_place(1)] = 21;
    image[slot_place(1) + 11..][..199].fill(0);
    image[slot_place(1) + CODE] = 7;
    image[slot_place(3) + PARENT] = 7;
    let left = at_once(&image, &[b"F3", b"F1"]).expect("nothing refuses the whole call");
    assert_eq!((left.answers, left.sectors), (vec![0, 0], vec![0, 1]));
    let mut cut = image.clone();
    cut[..512].copy_from_slice(&left.image[..512]);
    assert_eq!(paper::check(&cut), Ok(()));
    assert_eq!(paper::start(&cut, b"F3"), paper::start(&image, b"F3"));
    assert_eq!(paper::tree(&cut, b"", &mut [0; 20]), refused(27, 3));
}

/// Full directories: a sector holds two slots, and the greatest list has 389 sectors.
#[test]
fn all_of_them() {
    for (extra, slots, sectors) in [(0, 80, 40), (1, 98, 49), (35, 778, 389)] {
        let image = files(extra, slots);
        let mut names: Vec<String> = (1..=slots).map(|file| format!("f{file}")).collect();
        names.reverse();
        let (answers, named) = both(&image, &owned(&names));
        assert_eq!(answers, vec![0; slots]);
        assert_eq!(named.len(), sectors);
        assert!(named.is_sorted(), "{named:?}");
        let last = if extra == 0 { 69 } else { 20 * usize::from(3 + extra) + 9 };
        assert_eq!((named[0], named[sectors - 1]), (0, last));
        assert!(!named.contains(&80), "track 4 sector 1 is data");
        let odd: Vec<&[u8]> = names.iter().step_by(2).map(|name| name.as_bytes()).collect();
        assert_eq!(both(&image, &odd), (vec![0; slots / 2], named));
    }
}

/// More names than there can be files, each twice and more often.
#[test]
fn more_names_than_files() {
    let image = files(0, 80);
    let names: Vec<String> = (0..2_000).map(|name| format!("F{}", name % 90 + 1)).collect();
    let (answers, sectors) = both(&image, &owned(&names));
    let done = answers.iter().filter(|&&answer| answer == 0).count();
    assert_eq!((done, sectors.len()), (80, 40));
    assert!(answers[90..].iter().all(|&answer| answer == 15));
}

/// The disk's own numbers first, then 23, then 20; and nothing lent changes.
#[test]
fn refused_whole() {
    let image = files(0, 4);
    let tried = |image: &[u8], names: &[u8], answers: usize, list: usize| {
        let (mut new, mut answers, mut list) = (image.to_vec(), vec![0x5c; answers], vec![0x5c; list]);
        let answer = paper::erase_many(&mut new, names, &mut answers, &mut list);
        let same = new == image && answers.iter().chain(&list).all(|&byte| byte == 0x5c);
        assert!(answer.is_ok() || same, "a refused call changed something");
        answer
    };
    let names = joined(&[b"F1", b"F2", b"F3"]);
    assert_eq!(tried(&image, &names, 3, 4), Ok(2));
    assert_eq!(tried(&image, &names, 2, 4), refused(20, 0));
    assert_eq!(tried(&image, &names, 3, 3), refused(20, 0));
    assert_eq!(tried(&image, &names[..20], 2, 2), Ok(1), "two in one sector");
    assert_eq!(tried(&image, &names[..20], 2, 1), refused(20, 0));
    assert_eq!(tried(&image, &joined(&[b"none"]), 1, 0), Ok(0));
    assert_eq!(tried(&image, &joined(&[b"none"]), 0, 0), refused(20, 0));
    assert_eq!(tried(&image, &[], 0, 0), Ok(0));
    for over in 1..10 {
        assert_eq!(tried(&image, &names[..20 + over], 3, 4), refused(23, 0));
        assert_eq!(tried(&image, &names[..over], 0, 0), refused(23, 0), "before 20");
        assert_eq!(tried(&image, &[0; 9][..over], 9, 9), refused(23, 0), "and before 12");
    }
    let mut wrong = image.clone();
    wrong[slot_place(4)] = 63;
    assert_eq!(tried(&wrong, &names[..9], 0, 0), refused(2, 4));
    assert_eq!(tried(&image[1..], &names[..9], 0, 0), refused(1, 0));
    wrong[255] = 36;
    assert_eq!(tried(&wrong, &names[..9], 0, 0), refused(24, 0));
}
