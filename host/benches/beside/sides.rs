//! The two sides behind one set of calls. Both answer the word of the C layer.

use paper::{Reader, Refused, SaveRequest};
use std::hint::black_box;
use varnucht::calls;

/// The calls that are measured.
#[derive(Clone, Copy)]
pub struct Side {
    pub check: fn(&[u8]) -> u64,
    pub check_release: fn(&[u8]) -> u64,
    pub list: fn(&[u8], &mut [u8]) -> u64,
    pub read: fn(&[u8], &[u8], &mut [u8]) -> u64,
    pub open: fn(&[u8], &[u8]) -> u64,
    pub next: fn(&[u8], Reader, &mut [u8]) -> u64,
    pub tree: fn(&[u8], &[u8], &mut [u8]) -> u64,
    pub save: fn(&mut [u8], &SaveRequest, &mut [u8]) -> u64,
    pub erase: fn(&mut [u8], &[u8], &mut [u8]) -> u64,
    pub erase_many: fn(&mut [u8], &[u8], &mut [u8], &mut [u8]) -> u64,
    pub gather: fn(&mut [u8], &[u8], &mut [u8]) -> u64,
    pub record_open: fn(&[u8], &SaveRequest, &mut [u8]) -> u64,
    pub record_add: fn(&mut [u8], &[u8], &mut [u8], &mut [u8]) -> u64,
    pub record_close: fn(&mut [u8], &[u8], &mut [u8]) -> u64,
    pub report_add: fn(&[u8], &mut [u8]) -> u64,
    pub report_join: fn(&mut [u8], &[u8]) -> u64,
}

/// The proved library. The compiler does not see which functions these are.
pub fn ours() -> Side {
    black_box(Side {
        check: |image| calls::check(image).number(),
        check_release: |image| calls::check_release(image).number(),
        list: |image, out| calls::list(image, out).number(),
        read: |image, name, out| calls::read(image, name, out).number(),
        open: |image, name| calls::open(image, name).number(),
        next: |image, at, out| calls::next(image, at.sector, at.offset, at.left, out).number(),
        tree: |image, name, slots| calls::tree(image, name, slots).number(),
        save: |image, request, list| calls::save(image, &our(request), list).number(),
        erase: |image, name, list| calls::erase(image, name, list).number(),
        erase_many: |image, names, answers, list| calls::erase_many(image, names, answers, list).number(),
        gather: |image, name, list| calls::gather(image, name, list).number(),
        record_open: |image, request, record| calls::record_open(image, &our(request), record).number(),
        record_add: |image, piece, record, list| calls::record_add(image, piece, record, list).number(),
        record_close: |image, record, list| calls::record_close(image, record, list).number(),
        report_add: |image, report| calls::report_add(image, report).number(),
        report_join: |report, other| calls::report_join(report, other).number(),
    })
}

/// Document 01 in plain Rust, hidden from the compiler in the same way.
pub fn theirs() -> Side {
    black_box(Side {
        check: |image| word(paper::check(image), |()| (0, 0)),
        check_release: |image| word(paper::check_release(image), |()| (0, 0)),
        list: |image, out| word(paper::list(image, out), |listed| (listed.files, listed.free)),
        read: |image, name, out| word(paper::read(image, name, out), |length| (length, 0)),
        open: |image, name| match paper::open(image, name) {
            Ok(reader) => placed(reader, reader.left as usize),
            Err(refused) => word(Err::<(), _>(refused), |()| (0, 0)),
        },
        next: |image, mut reader, out| {
            let came = paper::next(image, &mut reader, out);
            placed(reader, came)
        },
        tree: |image, name, slots| word(paper::tree(image, name, slots), |many| (many, 0)),
        save: |image, request, list| word(paper::save(image, request, list), |count| (count, 0)),
        erase: |image, name, list| word(paper::erase(image, name, list), |count| (count, 0)),
        erase_many: |image, names, answers, list| word(paper::erase_many(image, names, answers, list), |count| (count, 0)),
        gather: |image, name, list| word(paper::gather(image, name, list), |count| (count, 0)),
        record_open: |image, request, record| word(paper::record_open(image, request, record), |()| (0, 0)),
        record_add: |image, piece, record, list| word(paper::record_add(image, piece, record, list), |count| (count, 0)),
        record_close: |image, record, list| word(paper::record_close(image, record, list), |count| (count, 0)),
        report_add: |image, report| word(paper::report_add(image, report), |disks| (disks, 0)),
        report_join: |report, other| word(paper::report_join(report, other), |disks| (disks, 0)),
    })
}

/// The answer of the C layer: refusal + 256 × slot + 2^24 × value + 2^48 × free.
fn word<T>(answer: Result<T, Refused>, values: impl FnOnce(T) -> (usize, usize)) -> u64 {
    match answer {
        Ok(answer) => {
            let (value, free) = values(answer);
            (value as u64) << 24 | (free as u64) << 48
        }
        Err(refused) => u64::from(refused.number) | u64::from(refused.slot) << 8,
    }
}

/// The answer of a call that says where a reader stands.
fn placed(reader: Reader, value: usize) -> u64 {
    u64::from(reader.sector) << 8 | (value as u64) << 24 | u64::from(reader.offset) << 48
}

/// The reader that such an answer leaves, if so many bytes are left.
pub fn reader(word: u64, left: usize) -> Reader {
    Reader {
        sector: (word >> 8 & 0xffff) as u32,
        offset: (word >> 48) as u32,
        left: left as u32,
    }
}

/// The refusal in an answer; 0 for none.
pub fn refusal(word: u64) -> u8 {
    word as u8
}

/// The value in an answer.
pub fn value(word: u64) -> usize {
    (word >> 24 & 0xff_ffff) as usize
}

/// The same request, as the library takes it.
fn our<'a>(request: &SaveRequest<'a>) -> calls::SaveRequest<'a> {
    calls::SaveRequest {
        kind: request.kind,
        name: request.name,
        page: request.page,
        offset: request.offset,
        execution: request.exec,
        information: request.info,
        body: request.body,
    }
}
