//! Save: a new file in the lowest slot that holds none and the lowest free sectors.

use crate::calls::start_address;
use crate::check::{Survey, survey};
use crate::extent::Extent;
use crate::geometry::{Address, Image, PAYLOAD_BYTES, SECTOR_BYTES, SLOT_BYTES, Sector, sector_mut, slot_place, whole_mut};
use crate::map::Map;
use crate::name::{Name, new_name};
use crate::refusal::{Reason, Refused};
use crate::slot::{self, HEADER_BYTES, PAGE_BYTES, Slot, find, free_slot, is_carried, sectors_for, slots};

/// What a save asks for.
#[derive(Clone, Copy, Debug)]
pub struct SaveRequest<'a> {
    pub kind: u32,
    pub name: &'a [u8],
    pub page: u32,
    pub offset: u32,
    pub exec: &'a [u8],
    pub info: &'a [u8],
    pub body: &'a [u8],
}

impl<'a> SaveRequest<'a> {
    /// What is asked for beside the body's bytes.
    fn particulars(&self) -> Particulars<'a> {
        self.particulars_of(self.body.len())
    }

    /// The same for a body of another length.
    pub fn particulars_of(&self, length: usize) -> Particulars<'a> {
        Particulars {
            kind: self.kind,
            name: self.name,
            page: self.page,
            offset: self.offset,
            exec: self.exec,
            info: self.info,
            length,
        }
    }
}

/// What the directory is to say of a new file, and how long its body is.
pub struct Particulars<'a> {
    pub kind: u32,
    pub name: &'a [u8],
    pub page: u32,
    pub offset: u32,
    pub exec: &'a [u8],
    pub info: &'a [u8],
    pub length: usize,
}

/// Saves a file and answers how many sectors changed. The list names them: the file's sectors along its chain, then those of
/// the directory, the slot's last.
pub fn save(image: &mut [u8], request: &SaveRequest, list: &mut [u8]) -> Result<usize, Refused> {
    let image = whole_mut(image)?;
    let survey = survey(image)?;
    let file = request.particulars();
    let plan = plan_save(image, &survey, &file)?;
    let list = list
        .as_chunks_mut()
        .0
        .get_mut(..plan.count + plan.directory_sectors().count())
        .ok_or(Reason::BufferTooShort.alone())?;
    let (data, directory) = list.split_at_mut(plan.count);
    let map = write_body(image, request, &survey.used, data);
    write_entry(image, &plan, &file, &map, directory);
    Ok(list.len())
}

/// Where a new file goes.
pub struct SavePlan {
    name: Name,
    slot: u16,
    /// The next slot, where the save has to clear its old name.
    cleared: Option<u16>,
    /// How many sectors it takes.
    pub count: usize,
}

/// Where a new file goes on a disk that passes the check, or what a save of it is refused: 12, 13, 14, 16, 18, 19.
pub fn plan_save(image: &Image, survey: &Survey, file: &Particulars) -> Result<SavePlan, Refused> {
    let name = new_name(file.name).ok_or(Reason::NameNotUsable.alone())?;
    if !is_carried(file.kind) {
        return Err(Reason::WrongKind.alone());
    }
    if start_address(file.page, file.offset).is_none() {
        return Err(Reason::AddressOutOfRange.alone());
    }
    if let Some(taken) = find(image, survey.extent, &name) {
        return Err(Reason::NameTaken.at(taken.number));
    }
    let taken = free_slot(image, survey.extent).ok_or(Reason::NoFreeSlot.alone())?;
    let count = sectors_for(file.length);
    if survey.free() < count {
        return Err(Reason::DiskFull.alone());
    }
    Ok(SavePlan {
        name,
        slot: taken.number,
        cleared: old_name_behind(image, survey.extent, &taken),
        count,
    })
}

impl SavePlan {
    /// The directory's sectors in the order of writing: that of the next slot, where it is cleared, then that of the saved
    /// slot; once if they are the same.
    pub fn directory_sectors(&self) -> impl Iterator<Item = usize> + use<> {
        let saved = slot_place(self.slot) / SECTOR_BYTES;
        let before = self.cleared.map(|next| slot_place(next) / SECTOR_BYTES);
        before.filter(|sector| *sector != saved).into_iter().chain([saved])
    }
}

/// The next slot, where the one taken is the directory's end and the next has a first name byte that is not 0. Once the end
/// has a name that slot would be read, and its old name would come back.
fn old_name_behind(image: &Image, extent: Extent, taken: &Slot) -> Option<u16> {
    let next = slots(image, extent).nth(taken.number.into())?;
    (taken.ends_directory() && !next.ends_directory()).then_some(next.number)
}

/// Enters a file whose sectors are written, those of this map, into the directory, and names the directory's sectors.
pub fn write_entry(image: &mut Image, plan: &SavePlan, file: &Particulars, map: &Map, list: &mut [[u8; 2]]) {
    if let Some(next) = plan.cleared {
        image[slot_place(next)..][..2].fill(0);
    }
    write_slot(image, plan, file, map);
    for (entry, sector) in list.iter_mut().zip(plan.directory_sectors()) {
        *entry = number_bytes(sector);
    }
}

/// A sector number as the list has it.
pub fn number_bytes(number: usize) -> [u8; 2] {
    (number as u16).to_le_bytes()
}

/// Writes header and body to the lowest sectors that are not used, one for each place in the list. Answers their map.
fn write_body(image: &mut Image, request: &SaveRequest, used: &Map, list: &mut [[u8; 2]]) -> Map {
    let header = header(&request.particulars());
    let mut lead = &header[..];
    let mut body = request.body;
    let mut map = Map::CLEAR;
    let mut bits = used.clear_bits().take(list.len()).peekable();
    for entry in list {
        let Some(bit) = bits.next() else { break };
        let Some(number) = Address::of_bit(bit).number() else { break };
        let next = bits.peek().map_or(Address::END, |bit| Address::of_bit(*bit));
        let (now, later) = body.split_at(body.len().min(PAYLOAD_BYTES - lead.len()));
        fill(sector_mut(image, number), lead, now, next);
        (lead, body) = (&[], later);
        map.set(bit);
        *entry = number_bytes(number);
    }
    map
}

/// Writes one sector: what leads, a part of the body, zeros up to the link, the link.
pub fn fill(sector: &mut Sector, lead: &[u8], body: &[u8], next: Address) {
    let (front, rest) = sector.split_at_mut(lead.len());
    front.copy_from_slice(lead);
    let (middle, rest) = rest.split_at_mut(body.len());
    middle.copy_from_slice(body);
    rest.fill(0);
    sector[510] = next.track;
    sector[511] = next.sector;
}

/// The nine bytes before the body. Page and offset were tested, so they fit.
pub fn header(file: &Particulars) -> [u8; HEADER_BYTES] {
    let [low, high] = remainder(file);
    let [offset_low, offset_high] = (file.offset as u16).to_le_bytes();
    [
        file.kind as u8,
        low,
        high,
        offset_low,
        offset_high,
        0,
        0,
        pages(file),
        file.page as u8,
    ]
}

fn pages(file: &Particulars) -> u8 {
    (file.length / PAGE_BYTES) as u8
}

fn remainder(file: &Particulars) -> [u8; 2] {
    ((file.length % PAGE_BYTES) as u16).to_le_bytes()
}

/// Writes the whole slot. Bytes that have no meaning here are 0, and byte 245 says that there is no date. What slot 1 says of
/// the whole disk stays.
fn write_slot(image: &mut Image, plan: &SavePlan, file: &Particulars, map: &Map) {
    let mut bytes = [0; SLOT_BYTES];
    let mut put = |at: usize, part: &[u8]| bytes[at..][..part.len()].copy_from_slice(part);
    let first = map.lowest().map_or(Address::END, Address::of_bit);
    put(0, &[file.kind as u8]);
    put(slot::NAME_AT, &plan.name);
    put(slot::COUNT_AT, &(plan.count as u16).to_be_bytes());
    put(slot::FIRST_AT, &[first.track, first.sector]);
    put(slot::MAP_AT, &map.to_bytes());
    put(slot::INFO_AT, at_most(file.info, 11));
    put(slot::PAGE_AT, &[file.page as u8]);
    put(slot::OFFSET_AT, &(file.offset as u16).to_le_bytes());
    put(slot::PAGES_AT, &[pages(file)]);
    put(slot::REMAINDER_AT, &remainder(file));
    put(slot::EXEC_AT, at_most(file.exec, 3));
    put(slot::DATE_AT, &[255]);
    let at = slot_place(plan.slot);
    for kept in KEPT.into_iter().flatten().filter(|_| plan.slot == 1) {
        bytes[kept] = image[at + kept];
    }
    image[at..][..SLOT_BYTES].copy_from_slice(&bytes);
}

/// The bytes of slot 1 that are about the disk and not about a file: its name, its random word, and the number of its
/// directory tracks beyond four.
pub const KEPT: [std::ops::RangeInclusive<usize>; 3] = [210..=219, 252..=253, 255..=255];

/// The first bytes, up to a number of them.
fn at_most(bytes: &[u8], most: usize) -> &[u8] {
    &bytes[..bytes.len().min(most)]
}
