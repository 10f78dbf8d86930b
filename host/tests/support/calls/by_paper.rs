//! A request to `paper`, on copies of what a call may change.

use super::packed::{Parts, pack};
use super::{ANSWERS, Call, IMAGE, NAMES, OUT, RECORD, Request};
use paper::{Reader, Refused, SaveRequest};

/// What `paper` answers, and what it leaves of the slices that a call may change.
pub struct PaperAnswer {
    pub packed: u64,
    /// None: the call does not change it.
    pub image: Option<Vec<u8>>,
    pub out: Vec<u8>,
    pub answers: Vec<u8>,
    pub record: Vec<u8>,
}

pub fn ask_paper(request: &Request) -> PaperAnswer {
    let lent = |role: usize| request.slices[role].to_vec();
    let mut answer = PaperAnswer {
        packed: 0,
        image: request.call.is_change().then(|| lent(IMAGE)),
        out: lent(OUT),
        answers: lent(ANSWERS),
        record: lent(RECORD),
    };
    let given = match answer.image.take() {
        Some(mut image) => {
            let sectors = change(request, &mut image, &mut answer);
            answer.image = Some(image);
            sectors.map(|sectors| [0, sectors, 0])
        }
        None => query(request, &mut answer),
    };
    answer.packed = pack(given);
    answer
}

/// The calls that read.
fn query(request: &Request, lent: &mut PaperAnswer) -> Result<Parts, Refused> {
    let out = &mut lent.out[..];
    let [image, two, name, ..] = request.slices;
    let [a, b, c] = request.numbers;
    match request.call {
        Call::Check => paper::check(image).map(|()| [0, 0, 0]),
        Call::CheckRelease => paper::check_release(image).map(|()| [0, 0, 0]),
        Call::List => paper::list(image, out).map(|listed| [0, listed.files, listed.free]),
        Call::Read => paper::read(image, name, out).map(|length| [0, length, 0]),
        Call::Open => paper::open(image, name).map(|reader| at(reader, reader.left as usize)),
        Call::Next => {
            let [sector, offset, left] = [a, b, c];
            let mut reader = Reader { sector, offset, left };
            let came = paper::next(image, &mut reader, out);
            Ok(at(reader, came))
        }
        Call::Tree => paper::tree(image, name, out).map(|slots| [0, slots, 0]),
        Call::Start => paper::start(image, name).map(|address| [0, address as usize, 0]),
        Call::Sector => paper::sector(image, two, a, b, c).map(|place| [0, place, 0]),
        Call::RecordOpen => paper::record_open(image, &save_request(request), &mut lent.record).map(|()| [0, 0, 0]),
        Call::ReportAdd => paper::report_add(image, out).map(|disks| [0, disks, 0]),
        Call::ReportJoin => paper::report_join(out, two).map(|disks| [0, disks, 0]),
        call => unreachable!("{call:?} is a change"),
    }
}

/// Where a reader stands, and a value.
fn at(reader: Reader, value: usize) -> Parts {
    [reader.sector as usize, value, reader.offset as usize]
}

/// The changes: how many sectors.
fn change(request: &Request, image: &mut [u8], lent: &mut PaperAnswer) -> Result<usize, Refused> {
    let [_, _, name, new, _, _, body, ..] = request.slices;
    let list = &mut lent.out[..];
    match request.call {
        Call::Save => paper::save(image, &save_request(request), list),
        Call::Erase => paper::erase(image, name, list),
        Call::EraseMany => paper::erase_many(image, request.slices[NAMES], &mut lent.answers, list),
        Call::Rename => paper::rename(image, name, new, list),
        Call::Hide => paper::hide(image, name, list),
        Call::Show => paper::show(image, name, list),
        Call::Protect => paper::protect(image, name, list),
        Call::Release => paper::release(image, name, list),
        Call::Gather => paper::gather(image, name, list),
        Call::RecordAdd => paper::record_add(image, body, &mut lent.record, list),
        Call::RecordClose => paper::record_close(image, &lent.record, list),
        call => unreachable!("{call:?} changes nothing"),
    }
}

/// What a save or a recording asks for.
fn save_request<'a>(request: &Request<'a>) -> SaveRequest<'a> {
    let [_, _, name, _, exec, info, body, ..] = request.slices;
    let [kind, page, offset] = request.numbers;
    SaveRequest {
        kind,
        name,
        page,
        offset,
        exec,
        info,
        body,
    }
}
