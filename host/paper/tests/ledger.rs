//! The ledger of slots (document 02, M-113) beside an image, by hand.

mod common;
use common::*;
use paper::{Change, Ledger, Mark};

fn ledger(image: &[u8]) -> Ledger {
    Ledger::of(image).expect("an accepted disk")
}

/// Each change entered is the ledger of the changed disk.
#[test]
fn each_change_is_entered() {
    let mut image = blank_with(1);
    image[210..220].copy_from_slice(b"Mrs Farrow");
    let mut entered = ledger(&image);
    let (long, short) = (body(2_000), body(3));
    let mut list = vec![0; 3_124];
    for (name, body) in [(b"A", &long), (b"B", &short), (b"C", &long)] {
        let request = request(name, body);
        paper::save(&mut image, &request, &mut list).expect("there is room");
        entered.enter(&Change::Save(request)).expect("there is room");
        assert_eq!(entered, ledger(&image), "{name:?}");
    }
    paper::erase(&mut image, b"a", &mut list).expect("it is there");
    entered.enter(&Change::Erase(b"a")).expect("it is there");
    assert_eq!(entered, ledger(&image));
    // Into slot 1, on the sectors of A and some behind: scattered.
    let scattered = body(4_000);
    paper::save(&mut image, &request(b"D", &scattered), &mut list).expect("there is room");
    entered
        .enter(&Change::Save(request(b"D", &scattered)))
        .expect("there is room");
    assert_eq!(entered, ledger(&image));
    assert_eq!(paper::gather(&mut image, b"D", &mut list), Ok(9));
    entered.enter(&Change::Gather(b"D")).expect("there is a run");
    assert_eq!(entered, ledger(&image));
    paper::rename(&mut image, b"d", b"Dawn", &mut list).expect("it is free");
    paper::protect(&mut image, b"DAWN", &mut list).expect("it is there");
    entered.enter(&Change::Rename(b"D", b"Dawn")).expect("it is free");
    entered.enter(&Change::Mark(Mark::Protect, b"dawn")).expect("it is there");
    assert_eq!(entered, ledger(&image));
    assert_eq!(entered.read(b"dawn"), Ok(&scattered[..]));
    assert_eq!(entered.refuses(&Change::Erase(b"dawn")), refused(17, 1));
    assert_eq!(entered.start(b"B"), Ok(491_520));
    assert_eq!(entered.tree(b""), Ok(vec![1, 2, 3]));
}

/// An erase of many files is entered sector by sector: two slots lie in one.
#[test]
fn many_erased_sector_by_sector() {
    let mut image = blank();
    for name in [b"A", b"B", b"C", b"D", b"E"] {
        put(&mut image, name, 10);
    }
    let old = ledger(&image);
    let names = b"E         A         b         A         C         ";
    assert_eq!(old.without(names).0, [0, 0, 0, 15, 0]);
    for (sectors, left) in [(0, &b"ABCDE"[..]), (1, b"CDE"), (2, b"DE"), (3, b"D"), (9, b"D")] {
        let mut entered = old.clone();
        entered.enter_many(names, sectors);
        let firsts: Vec<u8> = entered.names().iter().map(|name| name[0]).collect();
        assert_eq!(firsts, left, "{sectors} written");
    }
}

/// A recording that something came in between is entered as its sectors read.
#[test]
fn a_recording_as_its_sectors_read() {
    let mut entered = ledger(&blank());
    let (joined, other) = (body(700), vec![7; 1_020]);
    assert_eq!(entered.chain_for(700), [0, 1]);
    let mut payload = [&[19, 188, 2, 0, 128, 0, 0, 0, 29], &other[9..]].concat();
    entered
        .enter_recording(&request(b"R", &joined), payload.clone())
        .expect("there is room");
    assert_eq!(entered.read(b"r"), Ok(&payload.split_off(9)[..700]));
    assert_eq!(entered.free(), 1_558);
    assert_eq!(entered.refuses(&Change::Save(request(b"r", b""))), refused(16, 1));
}
