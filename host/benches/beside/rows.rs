//! What is measured: a call, a disk, and the refusal that the call must give there (0: accepted).

use crate::disks::{self, BenchDisk, ERASE_LIST_BYTES, LIST_BYTES, LONGEST};
use crate::sides::{Side, reader, refusal, value};
use paper::{RECORD_BYTES, REPORT_BYTES, Reader};

/// A call with what it is asked for.
pub enum Work {
    Check,
    CheckRelease,
    List,
    /// Reads the disk's last file.
    Read,
    /// Opens the disk's last file.
    Open,
    /// Reads the file of this reader, which was opened before, in pieces of so many bytes, laid end to end.
    Pieces(Reader, usize),
    /// Lists all that lies beneath the root.
    Tree,
    /// Saves a new file with this body.
    Save(Vec<u8>),
    /// Erases the disk's last file.
    Erase,
    /// Erases the files of these names by one call.
    EraseMany(Vec<u8>),
    /// Gathers the disk's last file, which moves or not.
    Gather(bool),
    /// Records a new file with this body in pieces of so many bytes: opens, adds and closes.
    Record(Vec<u8>, usize),
    /// Adds the disk to a report that has no disk yet.
    Report,
}

pub struct Row {
    pub disk: BenchDisk,
    pub work: Work,
    pub refusal: u8,
}

/// Every row, in the order of the table.
pub fn all() -> Vec<Row> {
    let (blank, eighty, seventy_eight, one) = (disks::blank(), disks::eighty(), disks::seventy_eight(), disks::one());
    let (eighty_alike, scattered) = (disks::eighty_alike(), disks::scattered());
    let (three, three_and_old) = (disks::three(), disks::three_and_old());
    let (biggest, biggest_alike, biggest_drawn) = (disks::biggest(), disks::biggest_alike(), disks::biggest_drawn());
    let disks = [&blank, &eighty, &seventy_eight, &one];
    let row = |disk: &BenchDisk, work, refusal| Row {
        disk: disk.clone(),
        work,
        refusal,
    };
    let mut rows = vec![];
    rows.extend([&blank, &three, &three_and_old].map(|disk| row(disk, Work::Check, 0)));
    rows.extend([&eighty, &eighty_alike, &seventy_eight, &one, &scattered].map(|disk| row(disk, Work::Check, 0)));
    rows.extend([&disks::twenty_tracks(), &biggest, &biggest_alike, &biggest_drawn].map(|disk| row(disk, Work::Check, 0)));
    rows.extend([&eighty, &one].map(|disk| row(disk, Work::CheckRelease, 0)));
    rows.extend(disks.map(|disk| row(disk, Work::List, 0)));
    rows.push(row(&biggest, Work::List, 0));
    rows.extend(disks.map(|disk| row(disk, Work::Read, if disk.title == blank.title { 15 } else { 0 })));
    rows.extend([&biggest, &scattered].map(|disk| row(disk, Work::Read, 0)));
    rows.push(row(&disks::spectrum(), Work::Read, 0));
    rows.extend(disks.map(|disk| row(disk, Work::Open, if disk.title == blank.title { 15 } else { 0 })));
    for disk in [&one, &scattered] {
        let opened = paper::open(&disk.image, &disk.last).expect("the file is there");
        rows.extend([512, 4_096].map(|room| row(disk, Work::Pieces(opened, room), 0)));
    }
    rows.extend([&eighty, &biggest, &disks::nested(), &disks::deepest()].map(|disk| row(disk, Work::Tree, 0)));
    rows.extend(saves(&blank, &eighty, &seventy_eight, &one));
    let last = disks::less_one(&biggest, "778 x 100 less one");
    rows.extend([&three, &three_and_old, &last].map(|disk| row(disk, Work::Save(disks::body(900)), 0)));
    rows.extend(disks.map(|disk| row(disk, Work::Erase, if disk.title == blank.title { 15 } else { 0 })));
    rows.push(row(&biggest, Work::Erase, 0));
    rows.extend([&eighty, &biggest, &biggest_alike].map(|disk| row(disk, Work::EraseMany(disk.names()), 0)));
    rows.extend([&eighty, &biggest].map(|disk| row(disk, Work::EraseMany(disk.last.clone()), 0)));
    rows.extend([&disks::half_scattered(), &disks::holes()].map(|disk| row(disk, Work::Gather(true), 0)));
    rows.extend([&eighty, &one].map(|disk| row(disk, Work::Gather(false), 0)));
    rows.push(row(&scattered, Work::Gather(false), 32));
    let record = |length| Work::Record(disks::body(length), 4_096);
    rows.push(row(&blank, record(LONGEST), 0));
    // All that 79 files of two sectors leave.
    rows.push(row(
        &disks::less_one(&eighty, "80 x 900 less one"),
        record(LONGEST - 510 * 158),
        0,
    ));
    rows.extend([&blank, &eighty, &eighty_alike, &seventy_eight, &one, &scattered].map(|disk| row(disk, Work::Report, 0)));
    rows
}

/// The disks that are added to reports.
pub fn reported(rows: &[Row]) -> Vec<&BenchDisk> {
    let added = rows.iter().filter(|row| matches!(row.work, Work::Report));
    added.map(|row| &row.disk).collect()
}

/// The rows of pieces, each behind the check and the read of its disk, and how much more than the one read without the check
/// its pieces may cost.
pub fn pieces(rows: &[Row]) -> Vec<([&Row; 3], f64)> {
    let same = |of: &Row, call: &str| {
        let found = rows.iter().find(|row| row.disk.title == of.disk.title && row.call() == call);
        found.expect("it is measured too")
    };
    let pieces = rows.iter().filter_map(|row| match row.work {
        Work::Pieces(_, room) => Some((row, if room < 4_096 { 1.4 } else { 1.15 })),
        _ => None,
    });
    pieces
        .map(|(row, most)| ([same(row, "check"), same(row, "read"), row], most))
        .collect()
}

/// Saves: on the blank disk, on disks that have no slot or no sector left, and on those disks less one file.
fn saves(blank: &BenchDisk, eighty: &BenchDisk, seventy_eight: &BenchDisk, one: &BenchDisk) -> [Row; 9] {
    let seventy_nine = disks::less_one(eighty, "80 x 900 less one");
    let seventy_seven = disks::less_one(seventy_eight, "78 x 10,191 less one");
    let erased = disks::less_one(one, "1 x 795,591, erased");
    let save = |disk: &BenchDisk, length, refusal| Row {
        disk: disk.clone(),
        work: Work::Save(disks::body(length)),
        refusal,
    };
    [
        save(blank, 900, 0),
        save(blank, LONGEST, 0),
        save(eighty, 900, 18),
        save(&seventy_nine, 900, 0),
        save(seventy_eight, 900, 19),
        save(&seventy_seven, 900, 0),
        save(one, 900, 19),
        save(&erased, 900, 0),
        save(&erased, LONGEST, 0),
    ]
}

impl Row {
    /// The name that a save gives. No disk has it.
    const NEW: &'static [u8] = b"new";

    pub fn call(&self) -> String {
        match &self.work {
            Work::Check => "check".into(),
            Work::CheckRelease => "release check".into(),
            Work::List => "list".into(),
            Work::Read => "read".into(),
            Work::Open => "open".into(),
            Work::Pieces(_, room) => format!("pieces {room}"),
            Work::Tree => "tree".into(),
            Work::Save(body) => format!("save {}", body.len()),
            Work::Erase => "erase".into(),
            Work::EraseMany(names) => format!("erase many {}", names.len() / 10),
            Work::Gather(_) => "gather".into(),
            Work::Record(_, piece) => format!("record {piece}"),
            Work::Report => "report add".into(),
        }
    }

    /// Whether the image changes. Then it is put back after every call.
    pub fn changes(&self) -> bool {
        self.refusal == 0
            && matches!(
                self.work,
                Work::Save(_) | Work::Erase | Work::EraseMany(_) | Work::Gather(true) | Work::Record(..)
            )
    }

    /// How long the lent output buffer is. The list of a change is two bytes for each sector named.
    pub fn buffer_bytes(&self) -> usize {
        match &self.work {
            Work::Check | Work::CheckRelease | Work::Open => 0,
            Work::List => 778 * 258,
            Work::Read | Work::Pieces(..) => LONGEST,
            Work::Tree => 2 * 778,
            Work::Save(_) | Work::Erase | Work::Gather(_) => LIST_BYTES,
            Work::EraseMany(names) => ERASE_LIST_BYTES + names.len() / 10,
            Work::Record(..) => LIST_BYTES + RECORD_BYTES,
            Work::Report => REPORT_BYTES,
        }
    }

    /// Does the work once.
    pub fn run(&self, side: &Side, image: &mut [u8], buffer: &mut [u8]) -> u64 {
        match &self.work {
            Work::Check => (side.check)(image),
            Work::CheckRelease => (side.check_release)(image),
            Work::List => (side.list)(image, buffer),
            Work::Read => (side.read)(image, &self.disk.last, buffer),
            Work::Open => (side.open)(image, &self.disk.last),
            Work::Pieces(opened, room) => read_on(side, image, *opened, *room, buffer),
            Work::Tree => (side.tree)(image, &[], buffer),
            Work::Save(body) => (side.save)(image, &disks::request(Row::NEW, body), buffer),
            Work::Erase => (side.erase)(image, &self.disk.last, buffer),
            Work::EraseMany(names) => {
                let (list, answers) = buffer.split_at_mut(ERASE_LIST_BYTES);
                (side.erase_many)(image, names, answers, list)
            }
            Work::Gather(_) => (side.gather)(image, &self.disk.last, buffer),
            Work::Record(body, piece) => record(side, image, body, *piece, buffer),
            Work::Report => {
                // The numbers that count disks begin at 0 again, so that the report is never full.
                buffer[..4 * 33].fill(0);
                (side.report_add)(image, buffer)
            }
        }
    }
}

/// Records a body, and lays the lists of all calls end to end. Answers how many sectors they name.
fn record(side: &Side, image: &mut [u8], body: &[u8], piece: usize, buffer: &mut [u8]) -> u64 {
    let (list, record) = buffer.split_at_mut(LIST_BYTES);
    let opened = (side.record_open)(image, &disks::request(Row::NEW, &[]), record);
    assert_eq!(refusal(opened), 0, "it is opened");
    let mut named = 0;
    for piece in body.chunks(piece) {
        let answer = (side.record_add)(image, piece, record, &mut list[2 * named..]);
        assert_eq!(refusal(answer), 0, "a piece is added");
        named += value(answer);
    }
    let closed = (side.record_close)(image, record, &mut list[2 * named..]);
    assert_eq!(refusal(closed), 0, "it is closed");
    ((named + value(closed)) as u64) << 24
}

/// Reads on from here until the body ends. Answers how many bytes came.
fn read_on(side: &Side, image: &[u8], mut here: Reader, room: usize, buffer: &mut [u8]) -> u64 {
    let mut at = 0;
    while here.left > 0 {
        let end = buffer.len().min(at + room);
        let answer = (side.next)(image, here, &mut buffer[at..end]);
        let came = value(answer);
        assert!(came > 0, "the body ends too early");
        at += came;
        here = reader(answer, here.left as usize - came);
    }
    (at as u64) << 24
}
