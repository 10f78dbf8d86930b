//! Lengths that no memory has, such as a failed read gives: about 2^63 and more, up to 2^64 - 1. A slice that is refused by
//! its length stands in a closed page, so that one byte read of it is a fault. Of a slice that may be longer than the call
//! needs the front is there, flush with a closed page.

use crate::support::calls::{
    self, ANSWERS, BODY, CALLS, Call, EXEC, IMAGE, INFO, NAME, NAMES, NEW, NOTHING, OUT, RECORD, ROLES, Request, SLICES,
    TWO, ask_c, ask_paper,
};
use crate::support::compare::{self, Lend};
use crate::support::directories;
use crate::support::disks::DrawnDisk;
use crate::support::facts::Facts;
use crate::support::geometry::{bit_place, number};
use crate::support::guarded::{Edge, Empty, Guarded};
use crate::support::random::Random;
use crate::support::recordings::{self, Recording};
use crate::support::reports;
use crate::support::requests::OwnedRequest;
use crate::wide;
use std::env;
use std::process::Command;

/// 2^64 - n.
const fn below(n: usize) -> usize {
    n.wrapping_neg()
}

/// Around 2^63, and below the lengths that follow.
const HUGE: [usize; 8] = [
    isize::MAX as usize,
    1 << 63,
    (1 << 63) + 1,
    3 << 62,
    below(819_200),
    below(20_640),
    below(520),
    below(519),
];

/// Those to which the 518 that a save or a recording adds before it divides by 510 cannot be added.
const HUGEST: [usize; 10] = [
    below(518),
    below(517),
    below(511),
    below(510),
    below(509),
    below(258),
    below(11),
    below(9),
    below(2),
    below(1),
];

/// The refusal that such a length alone brings about, where it does. Of a report the front is enough, and an image of any
/// length is counted.
fn refusal(call: Call, role: usize, length: usize) -> Option<u64> {
    match role {
        _ if call.is_report() => None,
        IMAGE | TWO => Some(1),
        NAME | NEW => Some(12),
        BODY => Some(19),
        // More names than there are answers, or no whole number of them.
        NAMES => Some(if length % 10 == 0 { 20 } else { 23 }),
        _ => None,
    }
}

/// A request that is accepted, with no byte more than it needs.
fn accepted(call: Call, disk: &DrawnDisk, i: usize) -> OwnedRequest {
    let (file, asked) = (&disk.files[i], OwnedRequest::new(call));
    match call {
        Call::Check | Call::CheckRelease => asked,
        Call::List => asked.with(OUT, vec![0x5c; 258 * disk.files.len()]),
        Call::Read => asked.with(NAME, file.name).with(OUT, vec![0x5c; file.body.len()]),
        Call::Open | Call::Start => asked.with(NAME, file.name),
        Call::Tree => {
            let facts = Facts::of(&disk.image);
            let (directory, many) = directories::some_directory(&facts).expect("there is one");
            asked.with(NAME, directory.name).with(OUT, vec![0x5c; 2 * many])
        }
        Call::Next => OwnedRequest {
            numbers: [number(bit_place(file.chain[0])), 9, file.body.len()].map(|number| number as u32),
            ..asked.with(OUT, vec![0x5c; file.body.len()])
        },
        Call::Sector => OwnedRequest {
            numbers: [2, 4, 1],
            ..asked.with(TWO, disk.image.clone())
        },
        Call::Save => save(disk, 600),
        Call::RecordOpen => recordings::opening(save(disk, 0), vec![0x5c; recordings::LENGTH]),
        // Four sectors, two of which it completes.
        Call::RecordAdd => Recording::of(&save(disk, 0), &Facts::of(&disk.image)).add(&[5; 1_600], 4),
        Call::RecordClose => {
            let facts = Facts::of(&disk.image);
            let recording = Recording::of(&save(disk, 0), &facts).with(&[5; 600]);
            recording.close(2 * recording.close_sectors(&facts))
        }
        Call::EraseMany => asked.with(NAMES, file.name).with(ANSWERS, [0x5c]).with(OUT, [0x5c; 2]),
        Call::Rename => asked.with(NAME, file.name).with(NEW, b"unlike all").with(OUT, [0x5c; 2]),
        Call::Gather => asked.with(NAME, file.name).with(OUT, vec![0x5c; 2 * (file.chain.len() + 1)]),
        Call::ReportAdd => asked.with(OUT, report(9)),
        Call::ReportJoin => asked.with(TWO, report(8)).with(OUT, report(7)),
        _ => asked.with(NAME, file.name).with(OUT, [0x5c; 2]),
    }
}

/// A save of so many bytes.
fn save(disk: &DrawnDisk, length: usize) -> OwnedRequest {
    let list = vec![0x5c; 2 * Facts::of(&disk.image).save_sectors(length)];
    let asked = OwnedRequest::new(Call::Save)
        .with(NAME, b"unlike all")
        .with(BODY, vec![5; length])
        .with(OUT, list);
    OwnedRequest {
        numbers: [19, 1, 40_000],
        ..asked.with(EXEC, [1, 2, 3]).with(INFO, [4; 11])
    }
}

/// A report of so many disks, with rubbish elsewhere.
fn report(disks: u32) -> Vec<u8> {
    let random = &mut Random::new(19_000_000);
    let mut report = random.bytes(reports::REPORT);
    reports::with_disks(&mut report, disks, random);
    report
}

/// Asks with slices of that length in these roles; the answer and every slice at return are as they should be.
fn ask(request: &Request, roles: &[usize], length: usize) {
    // An image that no disk has the length of is counted like one of no bytes.
    let request = &match request.call == Call::ReportAdd && roles.contains(&IMAGE) {
        true => request.with(IMAGE, &[]),
        false => *request,
    };
    let mut lender = Guarded::new(Edge::End, Empty::Closed);
    let mut parts = [NOTHING; SLICES];
    let refused = roles
        .iter()
        .filter_map(|&role| refusal(request.call, role, length))
        .min()
        .map(|number| match request.call {
            Call::Next => request.call.answer_to_no_image(),
            _ => number,
        });
    let there = |role: usize| match roles.contains(&role) && refusal(request.call, role, length).is_some() {
        true => &[],
        false => request.slices[role],
    };
    for &role in request.call.takes() {
        parts[role] = lender.lend(role, there(role), request.call.changes(role));
        if roles.contains(&role) {
            parts[role].length = length;
        }
    }
    // Safety: what the call may touch is there, and apart from all else. Anything else that it touches is a fault.
    let answer = unsafe { ask_c(request.call, request.numbers, &parts) };
    let paper = ask_paper(request);
    let what = || {
        let of: Vec<&str> = roles.iter().map(|&role| ROLES[role]).collect();
        format!("{of:?} of {length} bytes: {}", compare::describe(request))
    };
    assert_eq!(calls::refusal(paper.packed), 0, "{}", what());
    assert_eq!(answer, refused.unwrap_or(paper.packed), "{}", what());
    for &role in request.call.takes() {
        let left = match role {
            OUT if refused.is_none() => &paper.out,
            ANSWERS if refused.is_none() => &paper.answers,
            RECORD if refused.is_none() => &paper.record,
            IMAGE if refused.is_none() => paper.image.as_deref().unwrap_or(there(role)),
            _ => there(role),
        };
        assert!(
            lender.bytes(role) == left && lender.around(role),
            "{}: {}",
            ROLES[role],
            what()
        );
    }
}

/// Asks every call that takes one of these slices, with each of the lengths in turn.
fn each(roles: &[usize], lengths: &[usize]) {
    let (disk, i) = wide::disk();
    let mut asked = 0;
    for call in CALLS {
        let with = accepted(call, &disk, i);
        for &role in roles.iter().filter(|role| call.takes().contains(role)) {
            for &length in lengths {
                ask(&with.on(&disk.image), &[role], length);
                asked += 1;
            }
        }
    }
    println!("{asked} calls");
}

#[test]
fn images() {
    each(&[IMAGE, TWO], &[&HUGE[..], &HUGEST].concat());
}

#[test]
fn names() {
    each(&[NAME, NEW], &[&HUGE[..], &HUGEST].concat());
}

/// Of many names neither a whole number of tens nor any other is looked at.
#[test]
fn many_names() {
    each(&[NAMES], &[&HUGE[..], &HUGEST, &[(1 << 63) + 2, below(6)]].concat());
}

/// Execution bytes, information and a record are read at their front alone, a listing, a body, a list, answers and a record
/// written there alone.
#[test]
fn what_may_be_longer_than_is_needed() {
    each(&[EXEC, INFO, OUT, ANSWERS, RECORD], &[&HUGE[..], &HUGEST].concat());
}

#[test]
fn bodies() {
    each(&[BODY], &HUGE);
}

/// The disk is looked at first: all that a call takes has such a length.
#[test]
fn every_slice_at_once() {
    let (disk, i) = wide::disk();
    for call in CALLS {
        for length in [&HUGE[..], &HUGEST].concat() {
            ask(&accepted(call, &disk, i).on(&disk.image), call.takes(), length);
        }
    }
}

#[test]
#[ignore = "run by the test below, in a program of its own"]
fn hugest_bodies_here() {
    each(&[BODY], &HUGEST);
}

/// In a program of its own, because a save that counts too few sectors for such a body, or a recording for such a piece, reads
/// where nothing is.
#[test]
fn hugest_bodies() {
    let program = env::current_exe().expect("the program knows itself");
    let output = Command::new(program)
        .args(["--exact", "huge::hugest_bodies_here", "--ignored", "--nocapture"])
        .output()
        .expect("it starts again");
    let said = String::from_utf8_lossy(&output.stdout) + String::from_utf8_lossy(&output.stderr);
    assert!(
        output.status.success() && said.contains("1 passed"),
        "{}\n{said}",
        output.status
    );
}
