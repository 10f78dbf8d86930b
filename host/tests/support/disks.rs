//! Drawn disks that the rules accept, written byte by byte from document 01, with what was written kept beside the image.

use super::directories;
use super::fields;
use super::geometry::{self, EXTRA, PAYLOAD, SECTOR, SLOT, address, bit_place, fills, slot_place};
use super::names::{self, Name};
use super::random::Random;
use super::shapes::Shape;

#[derive(Clone)]
pub struct DrawnFile {
    pub slot: usize,
    pub kind: u8,
    pub name: Name,
    /// The map bits in the order of the chain; a directory has none.
    pub chain: Vec<usize>,
    /// Empty for a kind that cannot be read.
    pub body: Vec<u8>,
}

#[derive(Clone)]
pub struct DrawnDisk {
    pub image: Vec<u8>,
    /// The directory tracks beyond four.
    pub extra: usize,
    /// By rising slot.
    pub files: Vec<DrawnFile>,
    /// The first slot whose first name byte is 0; no file stands there or behind it.
    pub end: Option<usize>,
}

pub fn draw(random: &mut Random) -> DrawnDisk {
    let shape = Shape::draw(random);
    of_shape(&shape, random)
}

pub fn of_shape(shape: &Shape, random: &mut Random) -> DrawnDisk {
    made(shape, None, random)
}

/// The same, where the files take these map bits, one after the other, whatever order the shape has.
pub fn on_bits(shape: &Shape, bits: Vec<usize>, random: &mut Random) -> DrawnDisk {
    made(shape, Some(bits), random)
}

fn made(shape: &Shape, bits: Option<Vec<usize>>, random: &mut Random) -> DrawnDisk {
    let mut disk = DrawnDisk {
        image: shape.background.image(random),
        extra: shape.extra,
        files: Vec::new(),
        end: shape.end,
    };
    let mut free = bits.unwrap_or_else(|| shape.free(random));
    for &(slot, count) in &shape.files {
        let chain = free.drain(..count).collect();
        let file = disk.write(slot, chain, shape, random);
        disk.files.push(file);
    }
    for slot in 1..=disk.slots() {
        if disk.files.iter().all(|file| file.slot != slot) {
            if disk.reads(slot) {
                disk.rubbish(slot, random);
            } else {
                disk.unread(slot, random);
            }
        }
    }
    directories::arrange(&mut disk, random);
    disk.image[EXTRA] = match shape.extra {
        0 => random.pick(&[0, 0, 255]),
        extra => extra as u8,
    };
    disk
}

impl DrawnDisk {
    pub fn slot(&self, slot: usize) -> &[u8] {
        &self.image[slot_place(slot)..][..SLOT]
    }

    pub fn slot_mut(&mut self, slot: usize) -> &mut [u8] {
        &mut self.image[slot_place(slot)..][..SLOT]
    }

    /// Takes every file's protection away.
    pub fn release_all(&mut self) {
        for slot in self.files.iter().map(|file| slot_place(file.slot)) {
            self.image[slot] &= !fields::PROTECTED;
        }
    }

    pub fn sector_mut(&mut self, bit: usize) -> &mut [u8] {
        &mut self.image[bit_place(bit)..][..SECTOR]
    }

    pub fn link(&mut self, bit: usize, next: [u8; 2]) {
        self.sector_mut(bit)[PAYLOAD..].copy_from_slice(&next);
    }

    pub fn slots(&self) -> usize {
        geometry::slots(self.extra)
    }

    /// How many sectors are data.
    pub fn data(&self) -> usize {
        geometry::data(self.extra)
    }

    /// Whether this slot stands before the directory's end.
    pub fn reads(&self, slot: usize) -> bool {
        self.end.is_none_or(|end| slot < end)
    }

    /// The slots before the end that are erased now.
    pub fn erased(&self) -> Vec<usize> {
        (1..=self.slots())
            .filter(|&slot| self.reads(slot) && self.slot(slot)[0] == 0)
            .collect()
    }

    pub fn names(&self) -> Vec<Name> {
        self.files.iter().map(|file| file.name).collect()
    }

    /// Free sectors: all that no file has.
    pub fn free(&self) -> usize {
        self.data() - self.files.iter().map(|file| file.chain.len()).sum::<usize>()
    }

    fn write(&mut self, slot: usize, chain: Vec<usize>, shape: &Shape, random: &mut Random) -> DrawnFile {
        let kind = kind(&chain, random);
        let name = names::draw(random, &self.names());
        let mut bytes = shape.background.bytes(SLOT, random);
        bytes[0] = kind | random.byte() & (fields::HIDDEN | fields::PROTECTED);
        bytes[fields::NAME..fields::COUNT].copy_from_slice(&name);
        fields::set_count(&mut bytes, chain.len());
        if let Some(&first) = chain.first() {
            bytes[fields::FIRST..fields::MAP].copy_from_slice(&address(first));
        }
        fields::set_map(&mut bytes, &chain);
        start(&mut bytes, random);
        let body = if fields::is_carried(kind) {
            let length = if shape.tidy {
                tidy_length(chain.len(), random)
            } else {
                length(chain.len(), random)
            };
            bytes[fields::PAGES] = (length / 16_384) as u8;
            bytes[fields::REMAINDER..fields::EXEC].copy_from_slice(&fields::remainder(length, random.byte()));
            self.carry(kind, &chain, length, random)
        } else if fields::is_spectrum(kind) {
            self.spectrum(&chain, random)
        } else {
            self.fill(&chain, &random.bytes(chain.len() * PAYLOAD));
            Vec::new()
        };
        self.slot_mut(slot).copy_from_slice(&bytes);
        DrawnFile {
            slot,
            kind,
            name,
            chain,
            body,
        }
    }

    /// The nine bytes and the body of a carried file; its other payload is rubbish. Gives the body.
    fn carry(&mut self, kind: u8, chain: &[usize], length: usize, random: &mut Random) -> Vec<u8> {
        let mut payload = random.bytes(chain.len() * PAYLOAD);
        payload[0] = kind;
        payload[fields::HEADER_REMAINDER..fields::HEADER_OFFSET].copy_from_slice(&fields::remainder(length, random.byte()));
        payload[fields::HEADER_PAGES] = (length / 16_384) as u8;
        self.fill(chain, &payload);
        payload[fields::HEADER..fields::HEADER + length].to_vec()
    }

    /// The nine bytes and the body of a Spectrum file: length and start are there, and all else is rubbish. Gives the body.
    fn spectrum(&mut self, chain: &[usize], random: &mut Random) -> Vec<u8> {
        let mut payload = random.bytes(chain.len() * PAYLOAD);
        let length = length(chain.len(), random).min(random.pick(&[65_535, 65_535, 65_534, 16_384, 500]));
        let start = match random.below(4) {
            0 => random.pick(&[0, 1, 255, 256, 16_384, 32_767, 32_768, 49_151, 49_152, 65_535]),
            _ => random.below(65_536),
        };
        for (at, number) in [(fields::PLUS_D_LENGTH, length), (fields::PLUS_D_START, start)] {
            payload[at..at + 2].copy_from_slice(&(number as u16).to_le_bytes());
        }
        self.fill(chain, &payload);
        payload[fields::HEADER..fields::HEADER + length].to_vec()
    }

    /// The first sector of a file.
    pub fn first(&self, file: &DrawnFile) -> &[u8] {
        &self.image[bit_place(file.chain[0])..][..SECTOR]
    }

    /// Payload and links along a chain.
    fn fill(&mut self, chain: &[usize], payload: &[u8]) {
        for (i, &bit) in chain.iter().enumerate() {
            self.sector_mut(bit)[..PAYLOAD].copy_from_slice(&payload[i * PAYLOAD..][..PAYLOAD]);
            self.link(bit, chain.get(i + 1).map_or([0, 0], |&next| address(next)));
        }
    }

    /// An erased slot: byte 0 is 0, the first name byte is not, and behind them stands anything, a live slot's bytes too.
    fn rubbish(&mut self, slot: usize, random: &mut Random) {
        if random.one_in(3) {
            self.copy_of_a_file(slot, random);
        }
        let bytes = self.slot_mut(slot);
        bytes[0] = 0;
        if bytes[fields::NAME] == 0 {
            bytes[fields::NAME] = random.between(1, 255) as u8;
        }
    }

    /// A slot at the directory's end or behind it: anything, such as a live slot's bytes, whole, erased or damaged, which would
    /// be refused if they were read. The end itself has no name.
    fn unread(&mut self, slot: usize, random: &mut Random) {
        let background = random.below(5);
        if background > 1 {
            self.copy_of_a_file(slot, random);
        }
        let end = self.end == Some(slot);
        let bytes = self.slot_mut(slot);
        match background {
            0 => random.fill(bytes),
            2 => bytes[0] = 0,
            3 => {
                let (from, length) = (random.below(2), random.pick(&[1, 14, 100]));
                random.fill(&mut bytes[from..][..length]);
            }
            _ => {}
        }
        if end {
            bytes[fields::NAME] = 0;
        }
    }

    /// A file's slot once more in this slot, where there is a file.
    fn copy_of_a_file(&mut self, slot: usize, random: &mut Random) {
        if !self.files.is_empty() {
            let from = slot_place(self.files[random.below(self.files.len())].slot);
            self.image.copy_within(from..from + SLOT, slot_place(slot));
        }
    }
}

/// A kind for a live slot with these sectors: a directory has none, and a file has some.
fn kind(chain: &[usize], random: &mut Random) -> u8 {
    match random.below(6) {
        _ if chain.is_empty() => fields::DIRECTORY,
        0 => random.between(1, 5) as u8,
        1 => std::iter::repeat_with(|| random.pick(&fields::KNOWN))
            .find(|&kind| !fields::is_directory(kind))
            .expect("one is drawn at some time"),
        _ => random.between(16, 20) as u8,
    }
}

/// Start page and offset of a slot: mostly inside, else at the edges or anywhere. Bits 5 to 7 of the page are anything.
fn start(slot: &mut [u8], random: &mut Random) {
    slot[fields::PAGE] = random.byte();
    let offset = match random.below(4) {
        0 => random.pick(&[0, 16_384, 32_767, 32_768, 49_151, 49_152, 65_535]),
        1 => random.below(65_536),
        _ => random.between(32_768, 49_151),
    };
    slot[fields::OFFSET..fields::PAGES].copy_from_slice(&(offset as u16).to_le_bytes());
}

/// The length of a body in so many sectors: full, one less, least for them, none, whole pages, or anything between.
fn length(sectors: usize, random: &mut Random) -> usize {
    let full = fills(sectors);
    match random.below(7) {
        0 => full,
        1 => full - 1,
        2 if sectors > 1 => fills(sectors - 1) + 1,
        3 => 0,
        4 => full - full % 16_384,
        _ => random.between(0, full),
    }
}

/// The length of a body that needs all of so many sectors: the least, the most, or anything between.
fn tidy_length(sectors: usize, random: &mut Random) -> usize {
    let least = if sectors == 1 { 0 } else { fills(sectors - 1) + 1 };
    match random.below(3) {
        0 => least,
        1 => fills(sectors),
        _ => random.between(least, fills(sectors)),
    }
}
