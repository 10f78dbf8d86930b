//! That the guard works: a program that touches a closed page, or writes where only reading is open, ends by a signal. Each
//! touch runs in a program of its own, this one started again.

use crate::support::compare::Lend;
use crate::support::guarded::{Edge, Empty, Guarded};
use std::env;
use std::os::unix::process::ExitStatusExt;
use std::process::{Command, Stdio};

const VARIABLE: &str = "VARNUCHT_TOUCH";
const SIGSEGV: i32 = 11;

/// A lent slice of three bytes, and what is done to it.
fn touch(what: &str) {
    let (edge, may_change) = match what {
        "read behind" | "write behind" => (Edge::End, true),
        "write a byte that is only read" => (Edge::End, false),
        _ => (Edge::Front, true),
    };
    let mut lender = Guarded::new(edge, Empty::Closed);
    let part = lender.lend(0, &[1, 2, 3], may_change);
    let empty = lender.lend(1, &[], true);
    // Safety: none. Each of these is the fault that the closed pages are there for, but for the two that stay inside.
    unsafe {
        match what {
            "inside" => part.front.write_volatile(part.front.read_volatile()),
            "read behind" => drop(part.front.add(3).read_volatile()),
            "write behind" => part.front.add(3).write_volatile(0),
            "read before" => drop(part.front.sub(1).read_volatile()),
            "write before" => part.front.sub(1).write_volatile(0),
            "read of nothing" => drop(empty.front.read_volatile()),
            "write a byte that is only read" => part.front.write_volatile(0),
            other => panic!("no such touch: {other}"),
        }
    }
    assert!(lender.around(0));
}

#[test]
#[ignore = "run by the test below, in a program of its own"]
fn touches() {
    touch(&env::var(VARIABLE).expect("it says what to do"));
}

fn signal(what: &str) -> Option<i32> {
    let program = env::current_exe().expect("the program knows itself");
    let mut command = Command::new(program);
    command.args(["--exact", "closed::touches", "--ignored"]).env(VARIABLE, what);
    let status = command
        .stdout(Stdio::null())
        .stderr(Stdio::null())
        .status()
        .expect("it starts again");
    assert!(status.success() || status.signal().is_some(), "{what}: {status}");
    status.signal()
}

#[test]
fn closed_pages_end_the_program() {
    assert_eq!(signal("inside"), None);
    let faults = [
        "read behind",
        "write behind",
        "read before",
        "write before",
        "read of nothing",
        "write a byte that is only read",
    ];
    for fault in faults {
        assert_eq!(signal(fault), Some(SIGSEGV), "{fault}");
    }
}
