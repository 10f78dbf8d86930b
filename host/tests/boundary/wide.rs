//! Slices longer than 32 bits can count: the low 32 bits of such a length are a length that would do. The pages take no memory
//! until they are touched, so a call that answers at once costs nothing.

use crate::support::calls::{
    self, ANSWERS, BODY, Call, EXEC, IMAGE, INFO, NAME, NAMES, NEW, NOTHING, OUT, RECORD, RawSlice, SLICES, TWO, ask_c,
    value,
};
use crate::support::compare::Lend;
use crate::support::directories;
use crate::support::disks::{self, DrawnDisk};
use crate::support::facts::Facts;
use crate::support::fields;
use crate::support::gathers::{self, GatherResult};
use crate::support::geometry;
use crate::support::guarded::{Edge, Empty, Guarded, PAGE, Pages};
use crate::support::random::Random;
use crate::support::recordings::{self, Recording};
use crate::support::reports;
use crate::support::requests::OwnedRequest;
use crate::support::waste;

const WIDE: usize = 1 << 32;

/// Pages with these bytes at their front and 0 behind; lent over 2^32 bytes more than `length`.
struct Wide(Pages);

impl Wide {
    fn new(front: &[u8]) -> Wide {
        let pages = Pages::new(WIDE + geometry::IMAGE + PAGE);
        // Safety: the pages are open and longer than the bytes.
        unsafe { std::ptr::copy_nonoverlapping(front.as_ptr(), pages.front(), front.len()) };
        Wide(pages)
    }

    fn part(&self, length: usize) -> RawSlice {
        RawSlice {
            length: WIDE + length,
            ..self.0.part(length, Edge::Front)
        }
    }

    fn front(&self, length: usize) -> &[u8] {
        // Safety: the pages are open, and no call runs while the reference lives.
        unsafe { std::slice::from_raw_parts(self.0.front(), length) }
    }
}

/// A recording on this disk that nothing came to.
fn recording(disk: &DrawnDisk) -> Recording {
    let mut save = OwnedRequest::new(Call::Save).with(NAME, b"unlike all");
    save.numbers = [19, 1, 40_000];
    Recording::of(&save, &Facts::of(&disk.image))
}

/// Slices of usual length for every role, between closed pages.
struct Usual {
    lender: Guarded,
    parts: [RawSlice; SLICES],
}

impl Usual {
    fn new(disk: &DrawnDisk, name: &[u8]) -> Usual {
        let mut usual = Usual {
            lender: Guarded::new(Edge::End, Empty::Closed),
            parts: [NOTHING; SLICES],
        };
        let slices: [&[u8]; SLICES] = [
            &disk.image,
            &disk.image,
            name,
            b"new",
            &[1, 2, 3],
            &[4; 11],
            &[5; 600],
            &vec![0x5c; geometry::IMAGE],
            name,
            &[0x5c; 16],
            &recording(disk).record(),
        ];
        for (role, bytes) in slices.into_iter().enumerate() {
            let may_change = matches!(role, IMAGE | OUT | ANSWERS | RECORD);
            usual.parts[role] = usual.lender.lend(role, bytes, may_change);
        }
        usual
    }

    /// Asks with one slice made wide.
    fn ask(&self, call: Call, numbers: [u32; 3], role: usize, part: RawSlice) -> u64 {
        let mut parts = self.parts;
        parts[role] = part;
        // Safety: the slices stand apart from each other and may all be read; image and output may be written.
        unsafe { ask_c(call, numbers, &parts) }
    }
}

/// A drawn disk with a free slot, room for three sectors, no waste sectors, a directory that something lies beneath, and a file
/// of some length that starts inside the range, is not protected, is scattered and can be gathered.
pub fn disk() -> (DrawnDisk, usize) {
    let fits = |disk: &DrawnDisk, i: usize| {
        let slot = disk.slot(disk.files[i].slot);
        let changes = slot[0] & fields::PROTECTED == 0 && disk.files.len() < disk.slots() && disk.free() > 3;
        let facts = Facts::of(&disk.image);
        let moves = matches!(
            gathers::gather_result(&disk.image, &facts, &facts.live[i]),
            GatherResult::MovedTo(_)
        );
        changes && moves && disk.files[i].body.len() > 9 && fields::start(slot).is_some()
    };
    let drawn = (16_000_000..).map(|seed| disks::draw(&mut Random::new(seed)));
    drawn
        .filter(|disk| waste::lowest(&disk.image).is_none())
        .filter(|disk| directories::some_directory(&Facts::of(&disk.image)).is_some())
        .filter_map(|disk| (0..disk.files.len()).find(|&i| fits(&disk, i)).map(|i| (disk, i)))
        .next()
        .expect("one is found")
}

/// An image whose length is right in its low 32 bits is not 819,200 bytes.
#[test]
fn images() {
    let (disk, i) = disk();
    let usual = Usual::new(&disk, &disk.files[i].name);
    let image = Wide::new(&disk.image);
    for call in calls::CALLS.into_iter().filter(|call| !call.is_report()) {
        assert_eq!(
            usual.ask(call, [19, 1, 40_000], IMAGE, image.part(geometry::IMAGE)),
            call.answer_to_no_image(),
            "{call:?}"
        );
    }
    assert_eq!(usual.ask(Call::Sector, [1, 4, 1], TWO, image.part(geometry::IMAGE)), 1);
    assert!(image.front(geometry::IMAGE) == disk.image);
}

/// Names of more than ten bytes are not usable.
#[test]
fn names() {
    let (disk, i) = disk();
    let usual = Usual::new(&disk, &disk.files[i].name);
    let (name, new) = (Wide::new(&disk.files[i].name), Wide::new(b"new"));
    for call in calls::CALLS.into_iter().filter(|call| call.takes().contains(&NAME)) {
        let is_new = matches!(call, Call::Save | Call::RecordOpen);
        let part = if is_new { new.part(3) } else { name.part(10) };
        assert_eq!(usual.ask(call, [19, 1, 40_000], NAME, part), 12, "{call:?}");
    }
    assert_eq!(usual.ask(Call::Rename, [0; 3], NEW, new.part(3)), 12);
    assert_eq!(usual.ask(Call::Tree, [0; 3], NAME, name.part(0)), 12, "that is not the root");
    assert!(usual.lender.bytes(IMAGE) == disk.image);
}

/// A buffer whose low 32 bits are too few is long enough.
#[test]
fn output_buffers() {
    let (disk, i) = disk();
    let (file, files) = (&disk.files[i], disk.files.len());
    let usual = Usual::new(&disk, &file.name);
    let out = Wide::new(&[]);
    let read = usual.ask(Call::Read, [0; 3], OUT, out.part(1));
    assert_eq!((calls::refusal(read), value(read)), (0, file.body.len()));
    assert!(out.front(file.body.len()) == file.body);
    let out = Wide::new(&[]);
    let open = usual.ask(Call::Open, [0; 3], OUT, NOTHING);
    let numbers = [calls::slot(open), calls::free(open), value(open)].map(|number| number as u32);
    let next = usual.ask(Call::Next, numbers, OUT, out.part(1));
    assert_eq!((calls::refusal(next), value(next)), (0, file.body.len()));
    assert!(out.front(file.body.len()) == file.body);
    let out = Wide::new(&[]);
    let list = usual.ask(Call::List, [0; 3], OUT, out.part(1));
    assert_eq!(
        (calls::refusal(list), value(list), calls::free(list)),
        (0, files, disk.free())
    );
    assert!(out.front(258 * files + 1)[258 * files - 256..] == [disk.slot(disk.files[files - 1].slot), &[0]].concat());
    let out = Wide::new(&[]);
    let facts = Facts::of(&disk.image);
    let (directory, many) = directories::some_directory(&facts).expect("there is one");
    let tree = Usual::new(&disk, &directory.name).ask(Call::Tree, [0; 3], OUT, out.part(1));
    assert_eq!((calls::refusal(tree), value(tree)), (0, many));
    assert!(
        out.front(2 * many).as_chunks().0.iter().all(|slot| *slot != [0, 0])
            && out.front(2 * many + 2)[2 * many..] == [0, 0]
    );
    let out = Wide::new(&[]);
    let hide = usual.ask(Call::Hide, [0; 3], OUT, out.part(1));
    assert_eq!((calls::refusal(hide), value(hide)), (0, 1));
    assert_eq!(out.front(4)[2..], [0, 0]);
}

/// Names whose low 32 bits are a whole number of tens are not, and of more names than there are answers nothing is looked at;
/// answers and a list whose low 32 bits are too few are long enough.
#[test]
fn many_names() {
    let (disk, i) = disk();
    let file = &disk.files[i];
    let usual = Usual::new(&disk, &file.name);
    let names = Wide::new(&file.name);
    assert_eq!(usual.ask(Call::EraseMany, [0; 3], NAMES, names.part(10)), 23);
    assert_eq!(WIDE % 10, 6);
    assert_eq!(usual.ask(Call::EraseMany, [0; 3], NAMES, names.part(14)), 20);
    assert!(usual.lender.bytes(IMAGE) == disk.image && usual.lender.bytes(ANSWERS) == [0x5c; 16]);
    for role in [ANSWERS, OUT] {
        let (usual, wide) = (Usual::new(&disk, &file.name), Wide::new(&[0x5c; 4]));
        assert_eq!(usual.ask(Call::EraseMany, [0; 3], role, wide.part(0)), 1 << 24);
        assert_eq!(usual.lender.bytes(IMAGE)[geometry::slot_place(file.slot)], 0);
        let done = if role == ANSWERS { 1 } else { 2 };
        assert_eq!(wide.front(4)[done..], [0x5c; 4][done..]);
    }
}

/// Execution bytes and information beyond 3 and 11 are ignored; a body that long has no room.
#[test]
fn what_is_saved() {
    let (disk, i) = disk();
    let numbers = [19, 1, 40_000];
    for (role, field, length) in [(EXEC, fields::EXEC, 3), (INFO, fields::INFO, 11)] {
        let usual = Usual::new(&disk, b"unlike all");
        let wide = Wide::new(&[9; 20]);
        assert_eq!(calls::refusal(usual.ask(Call::Save, numbers, role, wide.part(1))), 0);
        let free = Facts::of(&disk.image).taken.expect("a slot is free");
        let slot = &usual.lender.bytes(IMAGE)[geometry::slot_place(free)..][..geometry::SLOT];
        assert_eq!(slot[field..field + length], [9; 11][..length]);
    }
    let usual = Usual::new(&disk, b"unlike all");
    assert_eq!(usual.ask(Call::Save, numbers, BODY, Wide::new(&[]).part(10)), 19);
    assert!(usual.lender.bytes(IMAGE) == disk.image);
    assert!(disk.files[i].body.len() > 9);
}

/// A piece that long has no room, though its low 32 bits are few; a record and a list whose low 32 bits are too few are long
/// enough.
#[test]
fn recordings() {
    let (disk, _) = disk();
    let opened = recording(&disk);
    let usual = Usual::new(&disk, b"unlike all");
    assert_eq!(usual.ask(Call::RecordAdd, [0; 3], BODY, Wide::new(&[]).part(10)), 19);
    assert!(usual.lender.bytes(IMAGE) == disk.image && usual.lender.bytes(RECORD) == opened.record());
    let wide = Wide::new(&[]);
    assert_eq!(usual.ask(Call::RecordOpen, [19, 1, 40_000], RECORD, wide.part(1)), 0);
    let mut expected = opened.record();
    expected[recordings::EXECUTION..recordings::INFORMATION].copy_from_slice(&[1, 2, 3]);
    expected[recordings::INFORMATION..recordings::USED].fill(4);
    assert!(wide.front(recordings::LENGTH) == expected);
    assert_eq!(wide.front(recordings::LENGTH + 4)[recordings::LENGTH..], [0; 4]);
    // The usual body is 600 bytes, of which no sector is complete.
    assert_eq!(usual.ask(Call::RecordAdd, [0; 3], RECORD, wide.part(1)), 0);
    assert_eq!(usual.ask(Call::RecordAdd, [0; 3], OUT, Wide::new(&[]).part(0)), 0);
    let closed = usual.ask(Call::RecordClose, [0; 3], RECORD, wide.part(1));
    assert_eq!(calls::refusal(closed), 0);
    assert!(value(closed) >= 3 && usual.lender.bytes(IMAGE) != disk.image);
}

/// An image whose length is right in its low 32 bits is counted as refused 1; a report whose low 32 bits are too few is long
/// enough, the one that is added to and the one that is joined.
#[test]
fn reports() {
    let (disk, _) = disk();
    let lend = |bytes: &[u8], may_change: bool| {
        let mut lender = Guarded::new(Edge::End, Empty::Closed);
        let part = lender.lend(0, bytes, may_change);
        (lender, part)
    };
    let counted = |report: &[u8]| [0, 1, 98].map(|at| reports::number(report, at) as usize);
    let ask = |call: Call, image: RawSlice, two: RawSlice, out: RawSlice| {
        let mut parts = [NOTHING; SLICES];
        (parts[IMAGE], parts[TWO], parts[OUT]) = (image, two, out);
        // Safety: the slices stand apart from each other, and the report may be written.
        unsafe { ask_c(call, [0; 3], &parts) }
    };
    let (_image, whole) = lend(&disk.image, false);
    let (report, own) = lend(&[0; reports::REPORT], true);
    let wide_image = Wide::new(&disk.image);
    assert_eq!(ask(Call::ReportAdd, wide_image.part(geometry::IMAGE), NOTHING, own), 1 << 24);
    assert_eq!(counted(report.bytes(0)), [0, 1, 0]);
    let wide = Wide::new(&[]);
    assert_eq!(ask(Call::ReportAdd, whole, NOTHING, wide.part(1)), 1 << 24);
    assert_eq!(counted(wide.front(reports::REPORT)), [1, 0, disk.free()]);
    assert_eq!(ask(Call::ReportJoin, NOTHING, wide.part(1), own), 2 << 24);
    assert_eq!(counted(report.bytes(0)), [1, 1, disk.free()]);
    let (_other, other) = lend(report.bytes(0), false);
    assert_eq!(ask(Call::ReportJoin, NOTHING, other, wide.part(1)), 3 << 24);
    assert_eq!(counted(wide.front(reports::REPORT)), [2, 1, 2 * disk.free()]);
}
