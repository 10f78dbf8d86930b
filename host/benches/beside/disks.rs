//! The disks of the benchmark, made by `paper::save` and `paper::erase`; in two the sectors of the file are then shuffled, in
//! one the last file is made one of the Spectrum, and in two some files are made directories.

use crate::geometry::{address, bit_place, extra, slot_place, slots};
use crate::random::Random;
use paper::SaveRequest;
use std::rc::Rc;

/// The longest body that a blank disk takes: 1,560 sectors.
pub const LONGEST: usize = 795_591;

const SECTORS: usize = 1_560;

/// Room for the numbers of the longest list.
pub const LIST_BYTES: usize = 2 * 1_562;

/// Room for the numbers of every directory sector, as an erase of many names them.
pub const ERASE_LIST_BYTES: usize = 778;

/// A disk, what the table calls it, and the name of its last file (of any name, if it has none).
#[derive(Clone)]
pub struct BenchDisk {
    pub title: &'static str,
    pub image: Rc<[u8]>,
    pub last: Vec<u8>,
}

impl BenchDisk {
    /// The names of all its files, by rising slot, laid end to end.
    pub fn names(&self) -> Vec<u8> {
        let last = slots(extra(&self.image));
        let slots = (1..=last).map(|slot| &self.image[slot_place(slot)..][..256]);
        let live = slots.take_while(|slot| slot[1] != 0).filter(|slot| slot[0] != 0);
        live.flat_map(|slot| slot[1..11].to_vec()).collect()
    }
}

pub fn blank() -> BenchDisk {
    made("blank", 0, 0, 0, unlike)
}

/// A nearly empty disk.
pub fn three() -> BenchDisk {
    made("3 x 900", 0, 3, 900, unlike)
}

/// The same with old bytes from the directory's end on, slot 4: a save there clears slot 5, which is in another sector.
pub fn three_and_old() -> BenchDisk {
    let BenchDisk { image, last, .. } = three();
    let mut image = image.to_vec();
    image[3 * 256..20 * 256].fill(99);
    image[3 * 256 + 1] = 0;
    BenchDisk {
        title: "3 x 900, old slots",
        image: image.into(),
        last,
    }
}

pub fn eighty() -> BenchDisk {
    made("80 x 900", 0, 80, 900, unlike)
}

pub fn eighty_alike() -> BenchDisk {
    made("80 x 900, names alike", 0, 80, 900, alike)
}

/// The biggest directory, full: 39 tracks.
pub fn biggest() -> BenchDisk {
    made("778 x 100", 35, 778, 100, unlike)
}

pub fn biggest_alike() -> BenchDisk {
    made("778 x 100, names alike", 35, 778, 100, alike)
}

pub fn biggest_drawn() -> BenchDisk {
    made("778 x 100, names drawn", 35, 778, 100, drawn)
}

/// A full directory of 20 tracks.
pub fn twenty_tracks() -> BenchDisk {
    made("398 x 100", 16, 398, 100, unlike)
}

/// The same with 100 directories, three in each but the innermost, and the files spread over all of them.
pub fn nested() -> BenchDisk {
    in_directories("678 in 100", 100, |code| (code + 1) / 3, |file| (file % 101) as u8)
}

/// The same with 255 directories, each in the one before, and all files in the innermost.
pub fn deepest() -> BenchDisk {
    in_directories("523 in 255 nested", 255, |code| code - 1, |_| 255)
}

/// The biggest directory with this many directories in its first slots, of codes 1 on, and files in the rest; and the codes of
/// the directories around each of them.
fn in_directories(title: &'static str, many: u16, around: fn(u8) -> u8, of_file: fn(u16) -> u8) -> BenchDisk {
    let BenchDisk { image, last, .. } = biggest();
    let mut image = image.to_vec();
    for slot in 1..=778 {
        let bytes = &mut image[slot_place(slot.into())..][..256];
        if slot <= many {
            let code = slot as u8;
            bytes[0] = 21;
            bytes[11..210].fill(0);
            (bytes[250], bytes[254]) = (code, around(code));
        } else {
            bytes[254] = of_file(slot);
        }
    }
    BenchDisk {
        title,
        image: image.into(),
        last,
    }
}

pub fn seventy_eight() -> BenchDisk {
    made("78 x 10,191", 0, 78, 10_191, unlike)
}

pub fn one() -> BenchDisk {
    made("1 x 795,591", 0, 1, LONGEST, unlike)
}

/// A disk whose last file is one of the Spectrum, kind 4, with the longest body that a header can say. Eight files of code
/// stand before it.
pub fn spectrum() -> BenchDisk {
    let mut disk = made("9 x 65,535, kind 4", 0, 9, 65_535, unlike);
    let mut image = disk.image.to_vec();
    // Slot 9, and the first of its 129 sectors.
    image[8 * 256] = 4;
    let header = bit_place(8 * 129);
    image[header + 1..header + 5].copy_from_slice(&[255, 255, 0, 128]);
    disk.image = image.into();
    disk
}

/// The disk of one file with its sectors in a drawn order.
pub fn scattered() -> BenchDisk {
    shuffled("1 x 795,591, scattered", one(), SECTORS)
}

/// A file of half of the data sectors, the most that a gather moves, with these in a drawn order.
pub fn half_scattered() -> BenchDisk {
    let half = made("1 x 397,791", 0, 1, 510 * (SECTORS / 2) - 9, unlike);
    shuffled("1 x 397,791, scattered", half, SECTORS / 2)
}

/// Every other of eighty files erased, and a file of three sectors in the first two holes, which have two each.
pub fn holes() -> BenchDisk {
    let mut image = eighty().image.to_vec();
    for file in (0..80).step_by(2) {
        paper::erase(&mut image, &unlike(file), &mut [0; 2]).expect("it is there");
    }
    let last = unlike(80);
    paper::save(&mut image, &request(&last, &body(1_400)), &mut [0; LIST_BYTES]).expect("the file has room");
    BenchDisk {
        title: "40 x 900, holes, 1,400",
        image: image.into(),
        last: last.to_vec(),
    }
}

/// The disk of one file, which has the first so many sectors, with these in a drawn order: some half of the links lead to the
/// next sector, which a guess at the next place finds, and the rest anywhere.
fn shuffled(title: &'static str, disk: BenchDisk, sectors: usize) -> BenchDisk {
    let BenchDisk { image: whole, last, .. } = disk;
    let mut random = Random::new(1);
    let mut runs: Vec<Vec<usize>> = vec![];
    for bit in 0..sectors {
        match runs.last_mut() {
            Some(run) if random.coin() => run.push(bit),
            _ => runs.push(vec![bit]),
        }
    }
    for end in (1..runs.len()).rev() {
        runs.swap(end, random.below(end + 1));
    }
    let order = runs.concat();
    let mut image = whole.to_vec();
    image[13..15].copy_from_slice(&address(order[0]));
    for (turn, &bit) in order.iter().enumerate() {
        let (from, to) = (bit_place(turn), bit_place(bit));
        image[to..to + 510].copy_from_slice(&whole[from..from + 510]);
        let link = order.get(turn + 1).map_or([0, 0], |&next| address(next));
        image[to + 510..to + 512].copy_from_slice(&link);
    }
    BenchDisk {
        title,
        image: image.into(),
        last,
    }
}

/// The disk with its last file erased.
pub fn less_one(disk: &BenchDisk, title: &'static str) -> BenchDisk {
    let mut image = disk.image.to_vec();
    paper::erase(&mut image, &disk.last, &mut [0; 2]).expect("the last file is there");
    BenchDisk {
        title,
        image: image.into(),
        last: disk.last.clone(),
    }
}

/// Ten bytes that differ from file to file in the first two bytes.
fn unlike(file: u16) -> [u8; 10] {
    let mut name = *b"--disk one";
    name[..2].copy_from_slice(&sign(file));
    name
}

/// Ten bytes that differ from file to file in the last two bytes alone.
fn alike(file: u16) -> [u8; 10] {
    let mut name = *b"disk one--";
    name[8..].copy_from_slice(&sign(file));
    name
}

/// Ten bytes that can be printed, drawn for each file.
fn drawn(file: u16) -> [u8; 10] {
    let mut random = Random::new(file.into());
    [0; 10].map(|_: u8| random.between(33, 126) as u8)
}

/// Two bytes for each file. The first are not enough alone, because capitals or not a letter is the same.
fn sign(file: u16) -> [u8; 2] {
    let (turn, of_eighty) = ((file / 80) as u8, (file % 80) as u8);
    [b'!' + of_eighty / 2, b'0' + of_eighty % 2 + 2 * turn]
}

/// Bytes without a short period, so that no sector is like the next.
pub fn body(length: usize) -> Vec<u8> {
    (0..length as u32)
        .map(|at| (at.wrapping_mul(2_654_435_761) >> 24) as u8)
        .collect()
}

/// A request for a machine code file.
pub fn request<'a>(name: &'a [u8], body: &'a [u8]) -> SaveRequest<'a> {
    SaveRequest {
        kind: 19,
        name,
        page: 1,
        offset: 32_768,
        exec: &[255, 255, 255],
        info: &[],
        body,
    }
}

/// A disk with so many directory tracks beyond four, and so many files of one length.
fn made(title: &'static str, extra: u8, files: u16, length: usize, name: fn(u16) -> [u8; 10]) -> BenchDisk {
    let mut image = vec![0; 819_200];
    image[255] = extra;
    let body = body(length);
    for file in 0..files {
        paper::save(&mut image, &request(&name(file), &body), &mut [0; LIST_BYTES]).expect("the file has room");
    }
    BenchDisk {
        title,
        image: image.into(),
        last: name(files.saturating_sub(1)).to_vec(),
    }
}
