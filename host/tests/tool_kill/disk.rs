//! A disk in memory, asked and changed through the raw calls. The tool under test is not used for that.
use std::ptr::null;
use varnucht::raw;

/// What a save takes.
#[derive(Clone)]
pub struct SaveRequest {
    pub kind: u32,
    pub name: Vec<u8>,
    pub page: u32,
    pub offset: u32,
    pub exec: Vec<u8>,
    pub info: Vec<u8>,
    pub body: Vec<u8>,
}

/// A change of a file that is there.
#[derive(Clone)]
pub enum FileChange {
    Erase,
    Rename(Vec<u8>),
    Hide,
    Show,
}

/// The four parts of an answer: refusal, slot, value, free.
fn parts(answer: u64) -> (u8, u16, usize, usize) {
    (
        answer as u8,
        (answer >> 8) as u16,
        (answer >> 24 & 0xff_ffff) as usize,
        (answer >> 48) as usize,
    )
}

/// The value of an answer that must be an accepted one.
fn value(what: &str, answer: u64) -> usize {
    let (refusal, slot, value, _) = parts(answer);
    assert_eq!((refusal, slot), (0, 0), "{what} is accepted");
    value
}

/// The refusal and slot of a disk.
pub fn check(image: &[u8]) -> (u8, u16) {
    let (refusal, slot, ..) = parts(unsafe { raw::varnucht_check(image.as_ptr(), image.len()) });
    (refusal, slot)
}

/// The listing, byte for byte, and the free sectors.
pub fn list(image: &[u8]) -> (Vec<u8>, usize) {
    let mut out = vec![0; 20_640];
    let answer = unsafe { raw::varnucht_list(image.as_ptr(), image.len(), out.as_mut_ptr(), out.len()) };
    out.truncate(258 * value("a listing", answer));
    (out, parts(answer).3)
}

/// A file's body, or the refusal.
pub fn read(image: &[u8], name: &[u8]) -> Result<Vec<u8>, u8> {
    let mut out = vec![0; 795_591];
    let answer = unsafe {
        raw::varnucht_read(
            image.as_ptr(),
            image.len(),
            name.as_ptr(),
            name.len(),
            out.as_mut_ptr(),
            out.len(),
        )
    };
    match parts(answer) {
        (0, _, length, _) => Ok(out[..length].to_vec()),
        (refusal, ..) => Err(refusal),
    }
}

/// The numbers of a list.
fn numbers(list: &[u8], many: usize) -> Vec<usize> {
    list[..2 * many]
        .chunks(2)
        .map(|two| usize::from(two[0]) + 256 * usize::from(two[1]))
        .collect()
}

/// The disk after a save, and the sectors named.
pub fn save(old: &[u8], request: &SaveRequest) -> (Vec<u8>, Vec<usize>) {
    let (mut image, mut list) = (old.to_vec(), vec![0; 3124]);
    let answer = unsafe {
        raw::varnucht_save(
            image.as_mut_ptr(),
            image.len(),
            request.kind,
            request.name.as_ptr(),
            request.name.len(),
            request.page,
            request.offset,
            request.exec.as_ptr(),
            request.exec.len(),
            request.info.as_ptr(),
            request.info.len(),
            request.body.as_ptr(),
            request.body.len(),
            list.as_mut_ptr(),
            list.len(),
        )
    };
    let many = value("a save", answer);
    (image, numbers(&list, many))
}

/// The disk after another change, and the sectors named.
pub fn change(old: &[u8], name: &[u8], change: &FileChange) -> (Vec<u8>, Vec<usize>) {
    let (mut image, mut list) = (old.to_vec(), vec![0; 2]);
    let (at, len) = (image.as_mut_ptr(), image.len());
    let (list_at, list_len) = (list.as_mut_ptr(), list.len());
    let (new, new_len) = if let FileChange::Rename(new) = change {
        (new.as_ptr(), new.len())
    } else {
        (null(), 0)
    };
    let answer = unsafe {
        match change {
            FileChange::Erase => raw::varnucht_erase(at, len, name.as_ptr(), name.len(), list_at, list_len),
            FileChange::Hide => raw::varnucht_hide(at, len, name.as_ptr(), name.len(), list_at, list_len),
            FileChange::Show => raw::varnucht_show(at, len, name.as_ptr(), name.len(), list_at, list_len),
            FileChange::Rename(_) => {
                raw::varnucht_rename(at, len, name.as_ptr(), name.len(), new, new_len, list_at, list_len)
            }
        }
    };
    let many = value("a change", answer);
    (image, numbers(&list, many))
}

/// The disk after an erase of several files, and the sectors named. Every one of the names is there.
pub fn erase_many(old: &[u8], names: &[Vec<u8>]) -> (Vec<u8>, Vec<usize>) {
    let names: Vec<u8> = names.iter().flat_map(|name| filled(name)).collect();
    let (mut image, mut answers, mut list) = (old.to_vec(), vec![99; names.len() / 10], vec![0; 778]);
    let answer = unsafe {
        raw::varnucht_erase_many(
            image.as_mut_ptr(),
            image.len(),
            names.as_ptr(),
            names.len(),
            answers.as_mut_ptr(),
            answers.len(),
            list.as_mut_ptr(),
            list.len(),
        )
    };
    let many = value("an erase of many", answer);
    assert!(answers.iter().all(|answer| *answer == 0), "{answers:?}");
    (image, numbers(&list, many))
}

/// A name with the spaces that fill it.
fn filled(name: &[u8]) -> [u8; 10] {
    let mut ten = [32; 10];
    ten[..name.len()].copy_from_slice(name);
    ten
}

/// The directory's sector that has a file's slot.
pub fn sector_of(image: &[u8], name: &[u8]) -> usize {
    let (listing, _) = list(image);
    let mut entries = listing.chunks(258);
    let entry = entries.find(|entry| entry[3..13] == filled(name)).expect("a file");
    let slot = usize::from(entry[0]) + 256 * usize::from(entry[1]);
    let past = if slot > 80 { slot + 1 } else { slot - 1 };
    past / 20 * 20 + past % 20 / 2
}

/// The disk after a gather, and the sectors named; none where the file is left or cannot move.
pub fn gather(old: &[u8], name: &[u8]) -> Option<(Vec<u8>, Vec<usize>)> {
    let (mut image, mut list) = (old.to_vec(), vec![0; 1562]);
    let answer = unsafe {
        raw::varnucht_gather(
            image.as_mut_ptr(),
            image.len(),
            name.as_ptr(),
            name.len(),
            list.as_mut_ptr(),
            list.len(),
        )
    };
    let (refusal, _, many, _) = parts(answer);
    (refusal == 0 && many > 0).then(|| (image, numbers(&list, many)))
}

/// The old disk with the first `k` of the sectors named taken from the new one.
pub fn cut(old: &[u8], new: &[u8], sectors: &[usize], k: usize) -> Vec<u8> {
    let mut image = old.to_vec();
    for sector in &sectors[..k] {
        image[512 * sector..][..512].copy_from_slice(&new[512 * sector..][..512]);
    }
    image
}
