//! The answers on a drawn disk are what was drawn. Here the expectation comes from the drawing alone: `paper` and the C layer
//! cannot be wrong together.

use crate::support::calls::{self, Call, NAME, OUT, Request};
use crate::support::compare;
use crate::support::directories;
use crate::support::disks::{self, DrawnDisk, DrawnFile};
use crate::support::facts::Facts;
use crate::support::fields;
use crate::support::geometry::{bit_place, number};
use crate::support::margins::Margins;
use crate::support::random::Random;
use crate::support::settings::{Round, Rounds};

#[test]
fn drawn_disks_answer_what_was_drawn() {
    let (mut lender, mut files, mut trees) = (Margins::default(), 0, 0);
    let rounds = Rounds::new(6_000_000, 150);
    for seed in rounds.seeds() {
        let _round = Round(seed);
        let disk = disks::draw(&mut Random::new(seed));
        listed(&disk, &mut lender);
        trees += nested(&disk, &mut lender);
        for file in &disk.files {
            read(&disk, file, &mut lender);
            opened(&disk, file, &mut lender);
            started(&disk, file, &mut lender);
        }
        files += disk.files.len();
    }
    println!("{} drawn disks with {files} files and {trees} trees", rounds.seeds().count());
}

/// 258 bytes for each live slot, rising: its number, low byte first, and its bytes; then what stood there.
fn listed(disk: &DrawnDisk, lender: &mut Margins) {
    let mut expected = Vec::new();
    for file in &disk.files {
        expected.extend((file.slot as u16).to_le_bytes());
        expected.extend(disk.slot(file.slot));
    }
    expected.extend([0x5c; 9]);
    let out = vec![0x5c; expected.len()];
    let left = compare::ask(&Request::new(Call::List, &disk.image).with(OUT, &out), lender);
    assert_eq!(calls::refusal(left.answer), 0);
    assert_eq!(
        (calls::value(left.answer), calls::free(left.answer)),
        (disk.files.len(), disk.free())
    );
    assert!(left.out == expected, "the listing is not what was drawn");
}

/// The tree of the root and of each directory, and 13 for each file; or what refuses them all. Gives how many trees there are.
fn nested(disk: &DrawnDisk, lender: &mut Margins) -> usize {
    let facts = Facts::of(&disk.image);
    let refused = directories::refused(&facts);
    let mut trees = 0;
    for live in [None].into_iter().chain(facts.live.iter().map(Some)) {
        let name = live.map_or(&[][..], |live| &live.name);
        let out = vec![0x5c; 2 * facts.live.len() + 3];
        let request = Request::new(Call::Tree, &disk.image).with(NAME, name).with(OUT, &out);
        let left = compare::ask(&request, lender);
        let given = (calls::refusal(left.answer), calls::slot(left.answer));
        match (refused, live) {
            (Some(refused), _) => assert_eq!(given, refused),
            (None, Some(live)) if !live.is_directory() => assert_eq!(given, (13, live.slot)),
            (None, _) => {
                let slots = directories::beneath(&facts, live);
                let mut expected: Vec<u8> = slots.iter().flat_map(|&slot| (slot as u16).to_le_bytes()).collect();
                expected.resize(out.len(), 0x5c);
                assert_eq!((given, calls::value(left.answer)), ((0, 0), slots.len()));
                assert!(left.out == expected, "the tree is not what was drawn");
                trees += 1;
            }
        }
    }
    trees
}

fn read(disk: &DrawnDisk, file: &DrawnFile, lender: &mut Margins) {
    let out = vec![0x5c; file.body.len() + 9];
    let left = compare::ask(
        &Request::new(Call::Read, &disk.image).with(NAME, &file.name).with(OUT, &out),
        lender,
    );
    if !fields::is_readable(file.kind) {
        return assert_eq!((calls::refusal(left.answer), calls::slot(left.answer)), (13, file.slot));
    }
    assert_eq!((calls::refusal(left.answer), calls::value(left.answer)), (0, file.body.len()));
    assert!(
        left.out == [&file.body[..], &[0x5c; 9]].concat(),
        "the body is not what was drawn"
    );
}

/// The body's length, and where it begins.
fn opened(disk: &DrawnDisk, file: &DrawnFile, lender: &mut Margins) {
    let answer = compare::ask(&Request::new(Call::Open, &disk.image).with(NAME, &file.name), lender).answer;
    if !fields::is_readable(file.kind) {
        return assert_eq!((calls::refusal(answer), calls::slot(answer)), (13, file.slot));
    }
    let given = (
        calls::refusal(answer),
        calls::value(answer),
        calls::slot(answer),
        calls::free(answer),
    );
    assert_eq!(given, (0, file.body.len(), number(bit_place(file.chain[0])), 9));
}

fn started(disk: &DrawnDisk, file: &DrawnFile, lender: &mut Margins) {
    let answer = compare::ask(&Request::new(Call::Start, &disk.image).with(NAME, &file.name), lender).answer;
    let given = (calls::refusal(answer), calls::slot(answer), calls::value(answer));
    let expected = match fields::start(disk.slot(file.slot)) {
        _ if fields::is_spectrum(file.kind) => (0, 0, fields::plus_d(disk.first(file), fields::PLUS_D_START)),
        _ if !fields::is_carried(file.kind) => (13, file.slot, 0),
        Some(address) => (0, 0, address),
        None => (14, file.slot, 0),
    };
    assert_eq!(given, expected);
}
