//! Where sectors and slots stand in an image: document 01, "The disk", and document 02, M-106. There `extra` is the number n of
//! directory tracks beyond four.

pub const IMAGE: usize = 819_200;
pub const SECTOR: usize = 512;
pub const PAYLOAD: usize = 510;
pub const SECTORS: usize = 1_600;
pub const BITS: usize = 1_560;
/// The slots where `extra` is 0, and where it is greatest.
pub const SLOTS: usize = 80;
pub const MOST_SLOTS: usize = 778;
pub const MOST_EXTRA: usize = 35;
pub const SLOT: usize = 256;

/// Track t, sector s begins here.
pub fn place(track: usize, sector: usize) -> usize {
    ((2 * (track % 128) + track / 128) * 10 + sector - 1) * SECTOR
}

pub fn is_track(track: usize) -> bool {
    track <= 79 || (128..=207).contains(&track)
}

/// Where slot 1 says the number of directory tracks beyond four.
pub const EXTRA: usize = 255;

/// The directory tracks beyond four that an image gives; 0 where it gives no such number.
pub fn extra(image: &[u8]) -> usize {
    Some(usize::from(image[EXTRA]))
        .filter(|&extra| extra <= MOST_EXTRA)
        .unwrap_or(0)
}

pub fn slots(extra: usize) -> usize {
    if extra == 0 { SLOTS } else { 78 + 20 * extra }
}

/// How many sectors are data.
pub fn data(extra: usize) -> usize {
    if extra == 0 { BITS } else { 1_561 - 10 * extra }
}

/// Whether a map bit stands for a data sector: track 4 sector 1 always does, the directory's others never.
pub fn is_data(bit: usize, extra: usize) -> bool {
    bit == 0 || bit >= 10 * extra
}

/// Whether a sector is one of the directory's: on its tracks of the first side, but for track 4 sector 1.
pub fn is_directory(number: usize, extra: usize) -> bool {
    let (track, first_side) = (number / 20, number % 20 < 10);
    first_side && track < 4 + extra && number != 80
}

/// The first byte of slot 1 to 778. Slots run on past track 4 sector 1.
pub fn slot_place(slot: usize) -> usize {
    let at = if slot <= SLOTS { slot - 1 } else { slot + 1 };
    at / 20 * 10_240 + at % 20 * SLOT
}

/// The number of the sector that holds slot 1 to 778.
pub fn slot_sector(slot: usize) -> usize {
    number(slot_place(slot))
}

/// Track and sector of a map bit.
pub fn address(bit: usize) -> [u8; 2] {
    let track = if bit < 760 { 4 + bit / 10 } else { 128 + (bit - 760) / 10 };
    [track as u8, (bit % 10 + 1) as u8]
}

pub fn bit_place(bit: usize) -> usize {
    let [track, sector] = address(bit);
    place(track.into(), sector.into())
}

/// The map bit of a data sector; none for what is no data sector.
pub fn bit_of([track, sector]: [u8; 2]) -> Option<usize> {
    let (track, sector) = (usize::from(track), usize::from(sector));
    let first = match track {
        4..=79 => (track - 4) * 10,
        128..=207 => 760 + (track - 128) * 10,
        _ => return None,
    };
    (1..=10).contains(&sector).then(|| first + sector - 1)
}

/// The number of the sector that begins at or holds this place.
pub fn number(place: usize) -> usize {
    place / SECTOR
}

/// The least number of sectors for a body of this length.
pub fn sectors_for(length: usize) -> usize {
    (9 + length).div_ceil(PAYLOAD)
}

/// The longest body that a disk holds.
pub const LONGEST: usize = BITS * PAYLOAD - 9;

/// A body's length that fills this many sectors to the last byte.
pub fn fills(sectors: usize) -> usize {
    sectors * PAYLOAD - 9
}
