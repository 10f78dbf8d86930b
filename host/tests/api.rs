//! The safe interface, by subject. Here is what the subjects share.
#[path = "api/bigger.rs"]
mod bigger;
#[path = "api/changing.rs"]
mod changing;
#[path = "api/conversions.rs"]
mod conversions;
#[path = "api/erase_many.rs"]
mod erase_many;
#[path = "api/file.rs"]
mod file;
#[path = "api/gathering.rs"]
mod gathering;
#[path = "api/pieces.rs"]
mod pieces;
#[path = "api/reading.rs"]
mod reading;
#[path = "api/recording.rs"]
mod recording;
#[path = "api/reports.rs"]
mod reports;
#[path = "support/table.rs"]
mod table;
#[path = "api/texts.rs"]
mod texts;
#[path = "api/tree.rs"]
mod tree;
#[path = "api/types.rs"]
mod types;
#[path = "api/words.rs"]
mod words;

use varnucht::{CarriedKind, Disk, Image, Name, NewFile, NewName, Refused, SectorNumber, Slot, Start};

/// A disk with no file.
fn blank() -> Disk {
    Disk::open(Image::blank()).expect("a blank disk is accepted")
}

/// A file of code with this name and body.
fn code<'a>(name: &str, body: &'a [u8]) -> NewFile<'a> {
    let (name, start) = (
        NewName::new(name).expect("a usable name"),
        Start::new(1, 32_768).expect("a usable start"),
    );
    NewFile::new(CarriedKind::Code, name, start, body)
}

/// Saves a file, and gives the numbers of its sectors.
fn save(disk: &mut Disk, file: &NewFile) -> Vec<SectorNumber> {
    disk.save(file).expect("the file is saved").into_numbers()
}

/// A name asked for.
fn name(text: &str) -> Name {
    Name::new(text).expect("a usable name")
}

/// A body that repeats nowhere soon.
fn body(length: usize) -> Vec<u8> {
    (0..length as u64)
        .map(|place| (place.wrapping_mul(0x9e37_79b9_7f4a_7c15) >> 56) as u8)
        .collect()
}

/// The place of a slot's bytes in an image.
fn slot_place(slot: usize) -> usize {
    (slot - 1) / 20 * 10_240 + (slot - 1) % 20 * 256
}

/// A disk with a file of two sectors in each of slots 1 and 2, opened as from a file.
fn pair() -> Disk {
    let mut disk = blank();
    save(&mut disk, &code("ONE", &body(1_000)));
    save(&mut disk, &code("TWO", &body(900)));
    Disk::open(disk.into_image()).expect("it is accepted")
}

/// The pair with some bytes of slot 2 changed.
fn damaged(changes: &[(usize, u8)]) -> Image {
    let mut image = pair().into_image();
    for (place, byte) in changes {
        image.as_bytes_mut()[slot_place(2) + place] = *byte;
    }
    image
}

/// The pair with old bytes in every slot behind it; the directory ends at slot 3.
fn pair_that_ends() -> Image {
    let mut image = pair().into_image();
    for slot in 3..=80 {
        image.as_bytes_mut()[slot_place(slot)..][..256].fill(99);
    }
    image.as_bytes_mut()[slot_place(3) + 1] = 0;
    image
}

/// The pair with a body of so many bytes in slot 2, which has two sectors: by its slot and by its header.
fn shortened(length: u16) -> Disk {
    let [low, high] = length.to_le_bytes();
    let mut image = damaged(&[(240, low), (241, high)]);
    // ONE has bits 0 and 1, so TWO begins at track 4, sector 3.
    image.as_bytes_mut()[82 * 512 + 1..][..2].copy_from_slice(&[low, high]);
    Disk::open(image).expect("it is accepted")
}

/// The pair with a file of the Spectrum in slot 2: its header has this length and this start, and it has two sectors.
fn spectrum(kind: u8, length: u16, start: u16) -> Image {
    let mut image = damaged(&[(0, kind)]);
    let ([low, high], [start_low, start_high]) = (length.to_le_bytes(), start.to_le_bytes());
    image.as_bytes_mut()[82 * 512..][..9].copy_from_slice(&[9, low, high, start_low, start_high, 9, 9, 9, 9]);
    image
}

/// The number, the slot and the words of a refusal.
fn parts(refused: Refused) -> (u8, u16, String) {
    (
        refused.refusal.number(),
        refused.slot.map_or(0, Slot::number),
        refused.to_string(),
    )
}
