//! The same request to the C layer and to `paper`, each with copies of its own of all buffers: equal answers, and every buffer
//! equal at return, those too that are only read.

use super::calls::{
    self, ANSWERS, BODY, Call, IMAGE, OUT, PaperAnswer, RECORD, ROLES, RawSlice, Request, SLICES, ask_c, ask_paper,
};

/// A way to lend buffers to the C layer.
pub trait Lend {
    /// A copy of the bytes, for this role of a request.
    fn lend(&mut self, role: usize, bytes: &[u8], may_change: bool) -> RawSlice;
    /// What stands in it now.
    fn bytes(&self, role: usize) -> &[u8];
    /// Whether the bytes around it are untouched.
    fn around(&self, role: usize) -> bool;
    /// Stands for slices that the call does not take.
    fn nothing(&self) -> RawSlice;
}

/// What a request left, the same on both sides.
pub struct Returned {
    pub answer: u64,
    /// None: unchanged, or the call does not change it.
    pub image: Option<Vec<u8>>,
    pub out: Vec<u8>,
    pub answers: Vec<u8>,
    pub record: Vec<u8>,
}

/// Asks both and fails where they differ.
pub fn ask(request: &Request, lender: &mut impl Lend) -> Returned {
    let answer = ask_lent(request, lender);
    let paper = ask_paper(request);
    assert!(answer == paper.packed, "{}", differ(request, answer, paper.packed));
    form(request, answer);
    for &role in request.call.takes() {
        let old = request.slices[role];
        let left = left(&paper, role, old);
        same(
            request,
            role,
            lender.bytes(role),
            left,
            "at return the C layer and the paper differ",
        );
        assert!(
            lender.around(role),
            "bytes around it are changed: {}\n{}",
            ROLES[role],
            describe(request)
        );
        if calls::refusal(answer) != 0 {
            same(request, role, left, old, "a refused call changed a slice");
        }
    }
    let image = if calls::refusal(answer) == 0 { paper.image } else { None };
    Returned {
        answer,
        image,
        out: paper.out,
        answers: paper.answers,
        record: paper.record,
    }
}

/// Asks the C layer alone, on lent copies.
pub fn ask_lent(request: &Request, lender: &mut impl Lend) -> u64 {
    let mut parts = [lender.nothing(); SLICES];
    for &role in request.call.takes() {
        parts[role] = lender.lend(role, request.slices[role], request.call.changes(role));
    }
    // Safety: every slice that the call takes is a copy of its own, readable, and writable where the call may change it.
    unsafe { ask_c(request.call, request.numbers, &parts) }
}

fn left<'a>(paper: &'a PaperAnswer, role: usize, old: &'a [u8]) -> &'a [u8] {
    match role {
        OUT => &paper.out,
        ANSWERS => &paper.answers,
        RECORD => &paper.record,
        IMAGE => paper.image.as_deref().unwrap_or(old),
        _ => old,
    }
}

/// Accepted: the slot is 0, or the place of a reader's next byte stands there. Refused: value and free are 0.
fn form(request: &Request, answer: u64) {
    let accepted = calls::refusal(answer) == 0;
    let has_form = if accepted {
        match request.call {
            Call::Open => calls::slot(answer) < 1_600 && calls::free(answer) == 9,
            Call::Next => calls::slot(answer) <= 1_600 && calls::free(answer) < 510,
            _ => calls::slot(answer) == 0,
        }
    } else {
        calls::value(answer) == 0 && calls::free(answer) == 0
    };
    assert!(
        has_form,
        "the answer {} has no such form\n{}",
        read_out(answer),
        describe(request)
    );
}

fn same(request: &Request, role: usize, one: &[u8], other: &[u8], fault: &str) {
    if one == other {
        return;
    }
    assert_eq!(one.len(), other.len());
    let at = one.iter().zip(other).position(|(a, b)| a != b).expect("a byte differs");
    panic!(
        "{fault}: {} byte {at} is {} and {}\n{}",
        ROLES[role],
        one[at],
        other[at],
        describe(request)
    );
}

fn differ(request: &Request, c: u64, paper: u64) -> String {
    format!(
        "the C layer answers {}, the paper {}\n{}",
        read_out(c),
        read_out(paper),
        describe(request)
    )
}

pub fn read_out(answer: u64) -> String {
    let (refusal, slot) = (calls::refusal(answer), calls::slot(answer));
    format!(
        "refusal {refusal} slot {slot} value {} free {}",
        calls::value(answer),
        calls::free(answer)
    )
}

/// The request in words; of long slices the length alone.
pub fn describe(request: &Request) -> String {
    let mut text = format!("{:?}", request.call);
    if matches!(request.call, Call::Save | Call::RecordOpen | Call::Sector | Call::Next) {
        text += &format!(" numbers {:?}", request.numbers);
    }
    for &role in request.call.takes() {
        let bytes = request.slices[role];
        let shown = role != BODY && bytes.len() <= 16;
        let bytes = if shown {
            format!("{bytes:?}")
        } else {
            format!("{} bytes", bytes.len())
        };
        text += &format!("; {} {bytes}", ROLES[role]);
    }
    text
}
