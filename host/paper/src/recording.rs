//! Document 02, M-109: save while recording.

use crate::check::{Survey, survey};
use crate::geometry::{Address, Image, PAYLOAD_BYTES, sector, sector_mut, whole, whole_mut};
use crate::map::Map;
use crate::record::{self, Record};
use crate::refusal::{Reason, Refused};
use crate::save::{SaveRequest, fill, header, number_bytes, plan_save, write_entry};
use crate::slot::{HEADER_BYTES, sectors_for};

/// Opens a recording with a save's particulars; the request's body is not looked at. The front of the buffer becomes its record.
pub fn record_open(image: &[u8], request: &SaveRequest, record: &mut [u8]) -> Result<(), Refused> {
    let image = whole(image)?;
    let survey = survey(image)?;
    let file = request.particulars_of(0);
    plan_save(image, &survey, &file)?;
    let record = record.first_chunk_mut().ok_or(Reason::BufferTooShort.alone())?;
    *record = record::new_record(&file, survey.extent.extra(), &survey.live_map().to_bytes());
    Ok(())
}

/// Adds a piece and answers how many sectors it completed. They are written and named, in the order of the chain: each after
/// the first that a byte beyond it has come to.
pub fn record_add(image: &mut [u8], piece: &[u8], record: &mut [u8], list: &mut [u8]) -> Result<usize, Refused> {
    let image = whole_mut(image)?;
    let survey = survey(image)?;
    let record = record.first_chunk_mut().ok_or(Reason::BufferTooShort.alone())?;
    let before = record::length(record);
    has_not_moved(image, &survey, record)?;
    let count = sectors_for(before + piece.len());
    if survey.free() < count {
        return Err(Reason::DiskFull.alone());
    }
    let completed = middle(sectors_for(before)).end..middle(count).end;
    let list = list
        .as_chunks_mut()
        .0
        .get_mut(..completed.len())
        .ok_or(Reason::BufferTooShort.alone())?;
    let mut bits = survey.used.clear_bits().skip(completed.start).peekable();
    for (entry, place) in list.iter_mut().zip(completed) {
        let (Some(bit), Some(next)) = (bits.next(), bits.peek()) else {
            break;
        };
        let (waiting, new) = payload(record, piece, place);
        let number = number_of(bit);
        fill(sector_mut(image, number), waiting, new, Address::of_bit(*next));
        *entry = number_bytes(number);
    }
    record::add(record, piece);
    Ok(list.len())
}

/// Closes a recording and answers how many sectors changed: the last, then the first if it is another, then those of the
/// directory as a save has them. The record stays as it is.
pub fn record_close(image: &mut [u8], record: &[u8], list: &mut [u8]) -> Result<usize, Refused> {
    let image = whole_mut(image)?;
    let survey = survey(image)?;
    let record = record.first_chunk().ok_or(Reason::BufferTooShort.alone())?;
    has_not_moved(image, &survey, record)?;
    let file = record::particulars(record);
    let plan = plan_save(image, &survey, &file)?;
    let ends = plan.count.min(2);
    let list = list
        .as_chunks_mut()
        .0
        .get_mut(..ends + plan.directory_sectors().count())
        .ok_or(Reason::BufferTooShort.alone())?;
    let (data, directory) = list.split_at_mut(ends);
    let chain: Vec<usize> = survey.used.clear_bits().take(plan.count).collect();
    write_ends(image, record, &chain, data);
    let mut map = Map::CLEAR;
    chain.iter().for_each(|bit| map.set(*bit));
    write_entry(image, &plan, &file, &map, directory);
    Ok(list.len())
}

/// Of a chain of so many sectors those that its pieces have written: all but the first and the last.
fn middle(count: usize) -> std::ops::Range<usize> {
    1..(count - 1).max(1)
}

/// Refusal 30: the used map or the number of tracks is not what it was at opening, or a sector that the pieces listed lacks
/// its link.
fn has_not_moved(image: &Image, survey: &Survey, record: &Record) -> Result<(), Refused> {
    let same = survey.extent.extra() == record::extra(record) && survey.live_map().to_bytes() == record::used(record);
    if same && is_linked(image, survey, sectors_for(record::length(record))) {
        Ok(())
    } else {
        Err(Reason::RecordingMoved.alone())
    }
}

/// Whether each sector of the chain between the first and the last leads to the next. The used map is that of opening here,
/// and so the chain is too.
fn is_linked(image: &Image, survey: &Survey, count: usize) -> bool {
    let mut chain = survey.used.clear_bits().take(count).skip(1);
    let Some(mut here) = chain.next() else { return true };
    chain.all(|next| {
        let from = std::mem::replace(&mut here, next);
        Address::link(sector(image, number_of(from))) == Address::of_bit(next)
    })
}

/// The payload of a sector after the first that a piece completes: what waited for it, and its part of the piece.
fn payload<'a>(record: &'a Record, piece: &'a [u8], place: usize) -> (&'a [u8], &'a [u8]) {
    let (before, from) = (record::length(record), PAYLOAD_BYTES * place - HEADER_BYTES);
    let waiting = if from < before { record::last(record) } else { &[] };
    let new = &piece[from + waiting.len() - before..][..PAYLOAD_BYTES - waiting.len()];
    (waiting, new)
}

/// Writes the last sector of the chain, then the first if it is another, and names them.
fn write_ends(image: &mut Image, record: &Record, chain: &[usize], list: &mut [[u8; 2]]) {
    let header = header(&record::particulars(record));
    let mut write = |place: usize, lead: &[u8], body: &[u8]| {
        let next = chain.get(place + 1).map_or(Address::END, |bit| Address::of_bit(*bit));
        let number = number_of(chain[place]);
        fill(sector_mut(image, number), lead, body, next);
        number_bytes(number)
    };
    if let [last, first] = list {
        *last = write(chain.len() - 1, &[], record::last(record));
        *first = write(0, &header, record::first(record));
    } else if let [only] = list {
        *only = write(0, &header, record::first(record));
    }
}

/// The sector number of a map bit below 1,560.
fn number_of(bit: usize) -> usize {
    Address::of_bit(bit).number().unwrap_or_default()
}
