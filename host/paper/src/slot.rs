//! What the 256 bytes of a directory slot say.

use crate::extent::Extent;
use crate::geometry::{Address, Image, PAYLOAD_BYTES, SLOT_BYTES, slot_place};
use crate::map::{MAP_BYTES, Map};
use crate::name::{Name, folded};

pub const HIDDEN: u8 = 0x80;
pub const PROTECTED: u8 = 0x40;
pub const NAME_AT: usize = 1;
pub const COUNT_AT: usize = 11;
pub const FIRST_AT: usize = 13;
pub const MAP_AT: usize = 15;
pub const INFO_AT: usize = 221;
pub const PAGE_AT: usize = 236;
pub const OFFSET_AT: usize = 237;
pub const PAGES_AT: usize = 239;
pub const REMAINDER_AT: usize = 240;
pub const EXEC_AT: usize = 242;
pub const DATE_AT: usize = 245;
pub const CODE_AT: usize = 250;
pub const PARENT_AT: usize = 254;

/// The kind of a MasterDOS directory: it takes a slot and no sectors.
const DIRECTORY: u8 = 21;

/// The bytes before the body in a file's first sector.
pub const HEADER_BYTES: usize = 9;

/// A page of memory: lengths are pages and a remainder.
pub const PAGE_BYTES: usize = 16_384;

/// How many sectors a body of this length takes with its header: the least n with 510 × n ≥ 9 + length.
pub fn sectors_for(length: usize) -> usize {
    (HEADER_BYTES + length).div_ceil(PAYLOAD_BYTES)
}

/// The kinds whose length and body this paper carries.
pub fn is_carried(kind: u32) -> bool {
    (16..=20).contains(&kind)
}

/// A slot by its number, 1 to 778, with its bytes.
#[derive(Clone, Copy)]
pub struct Slot<'a> {
    pub number: u16,
    pub bytes: &'a [u8; SLOT_BYTES],
}

/// Every slot of a directory, rising.
pub fn slots(image: &Image, extent: Extent) -> impl Iterator<Item = Slot<'_>> {
    let pieces = image.as_chunks().0;
    (1..=extent.slots()).map(move |number| Slot {
        number,
        bytes: &pieces[slot_place(number) / SLOT_BYTES],
    })
}

/// The slots that hold a file, rising. Reading stops at the directory's end: what stands from there on is no file, whatever
/// it says.
pub fn live_slots(image: &Image, extent: Extent) -> impl Iterator<Item = Slot<'_>> {
    slots(image, extent)
        .take_while(|slot| !slot.ends_directory())
        .filter(|slot| !slot.is_erased())
}

/// The lowest slot that holds no file: an erased one before the end, else the end.
pub fn free_slot(image: &Image, extent: Extent) -> Option<Slot<'_>> {
    slots(image, extent).find(|slot| slot.is_erased() || slot.ends_directory())
}

/// The live slot of that name, capitals or not. A checked disk has one at most.
pub fn find<'a>(image: &'a Image, extent: Extent, name: &Name) -> Option<Slot<'a>> {
    let name = folded(name);
    live_slots(image, extent).find(|slot| folded(slot.name()) == name)
}

impl<'a> Slot<'a> {
    pub fn is_erased(&self) -> bool {
        self.bytes[0] == 0
    }

    /// Whether the first name byte is 0: the slot was never used, and directory reading stops here.
    pub fn ends_directory(&self) -> bool {
        self.bytes[NAME_AT] == 0
    }

    pub fn is_protected(&self) -> bool {
        self.bytes[0] & PROTECTED != 0
    }

    pub fn kind(&self) -> u8 {
        self.bytes[0] & !(HIDDEN | PROTECTED)
    }

    pub fn is_carried(&self) -> bool {
        is_carried(self.kind().into())
    }

    pub fn is_directory(&self) -> bool {
        self.kind() == DIRECTORY
    }

    /// The code by which live slots name a directory; of a file it says nothing.
    pub fn code(&self) -> u8 {
        self.bytes[CODE_AT]
    }

    /// The code of the directory that the slot is in, 0 for the root.
    pub fn parent(&self) -> u8 {
        self.bytes[PARENT_AT]
    }

    pub fn name(&self) -> &'a Name {
        self.part(NAME_AT)
    }

    /// The sector count: the one number of a slot that has its high byte first.
    pub fn count(&self) -> usize {
        u16::from_be_bytes(*self.part(COUNT_AT)).into()
    }

    pub fn first(&self) -> Address {
        let [track, sector] = *self.part(FIRST_AT);
        Address { track, sector }
    }

    pub fn map(&self) -> Map {
        Map::from_bytes(self.part::<MAP_BYTES>(MAP_AT))
    }

    pub fn page(&self) -> u8 {
        self.bytes[PAGE_AT] & 31
    }

    pub fn offset(&self) -> u16 {
        u16::from_le_bytes(*self.part(OFFSET_AT))
    }

    pub fn pages(&self) -> u8 {
        self.bytes[PAGES_AT]
    }

    /// The length mod 16,384. Bits 14 and 15 of the two bytes say nothing.
    pub fn remainder(&self) -> u16 {
        remainder(*self.part(REMAINDER_AT))
    }

    /// The body's length, for a carried kind.
    pub fn length(&self) -> usize {
        usize::from(self.pages()) * PAGE_BYTES + usize::from(self.remainder())
    }

    fn part<const N: usize>(&self, at: usize) -> &'a [u8; N] {
        self.bytes[at..].first_chunk().expect("the part lies inside the slot")
    }
}

/// The remainder that two bytes of a slot or of a header give.
pub fn remainder(bytes: [u8; 2]) -> u16 {
    u16::from_le_bytes(bytes) % PAGE_BYTES as u16
}

#[cfg(test)]
mod tests {
    use super::*;

    #[test]
    fn numbers_of_a_slot() {
        let mut bytes = [0; SLOT_BYTES];
        bytes[0] = 0xc0 | 19;
        bytes[COUNT_AT..FIRST_AT].copy_from_slice(&[1, 44]);
        bytes[PAGE_AT] = 0xe0 | 29;
        bytes[OFFSET_AT..PAGES_AT].copy_from_slice(&[0, 128]);
        bytes[PAGES_AT] = 1;
        bytes[REMAINDER_AT..EXEC_AT].copy_from_slice(&[0, 0xc0]);
        let slot = Slot {
            number: 1,
            bytes: &bytes,
        };
        assert_eq!((slot.kind(), slot.count(), slot.page(), slot.offset()), (19, 300, 29, 32_768));
        assert_eq!((slot.length(), slot.remainder()), (16_384, 0));
        assert!(!slot.is_erased() && slot.is_protected() && slot.is_carried());
    }

    #[test]
    fn the_papers_sector_counts() {
        for (length, sectors) in [(0, 1), (501, 1), (502, 2), (10_000, 20), (795_591, 1_560), (795_592, 1_561)] {
            assert_eq!(sectors_for(length), sectors);
        }
    }

    /// A disk with this number of directory tracks beyond four, and in each slot a status byte and a first name byte.
    fn disk(extra: u8, first: u8) -> (Vec<u8>, Extent) {
        let mut image = vec![0; crate::geometry::IMAGE_BYTES];
        image[255] = extra;
        let extent = Extent::of(whole(&image)).expect("a size that the paper knows");
        for slot in 1..=extent.slots() {
            image[slot_place(slot)..][..2].copy_from_slice(&[first, b'A']);
        }
        (image, extent)
    }

    fn whole(image: &[u8]) -> &Image {
        crate::geometry::whole(image).expect("a whole image")
    }

    #[test]
    fn slots_skip_the_second_side() {
        let (mut image, extent) = disk(0, 19);
        for slot in 1..=80 {
            image[slot_place(slot)] = slot as u8;
        }
        image[slot_place(7)] = 0;
        let image = whole(&image);
        assert!(slots(image, extent).all(|slot| slot.number == slot.bytes[0].into() || slot.number == 7));
        assert_eq!(live_slots(image, extent).count(), 79);
    }

    #[test]
    fn reading_stops_at_the_end() {
        for extra in [0, 1, 35] {
            let (mut image, extent) = disk(extra, 19);
            for end in 1..=extent.slots() {
                for byte_0 in [0, 19, 255] {
                    image[slot_place(end)..][..2].copy_from_slice(&[byte_0, 0]);
                    let whole = whole(&image);
                    assert!(live_slots(whole, extent).map(|slot| slot.number).eq(1..end));
                    assert_eq!(free_slot(whole, extent).map(|slot| slot.number), Some(end));
                }
                image[slot_place(end)..][..2].copy_from_slice(&[19, b'A']);
            }
            let whole = whole(&image);
            assert_eq!(live_slots(whole, extent).count(), extent.slots().into());
            assert!(free_slot(whole, extent).is_none());
        }
    }
}
