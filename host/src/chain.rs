//! The chain of a file: its sectors in the order in which its bytes lie in them.
use crate::entry::Entry;
use crate::image::Image;
use crate::place::{Sector, SectorNumber, Track};

/// The sectors of a file of an accepted disk, from its first to its last, along the links at their ends.
pub(crate) fn chain(image: &Image, entry: &Entry) -> Vec<SectorNumber> {
    let slot = entry.as_bytes();
    let first = address(slot[13], slot[14]);
    let next = |number: &SectorNumber| {
        let sector = image.at(*number);
        address(sector[510], sector[511])
    };
    // Of an accepted disk it has as many as the count says. So it ends, whatever the entry is.
    std::iter::successors(first, next).take(entry.sector_count().into()).collect()
}

/// The sector that two bytes of a disk give; none for 0, 0, the link of a last sector.
fn address(track: u8, sector: u8) -> Option<SectorNumber> {
    let (track, sector) = (Track::new(track.into()).ok()?, Sector::new(sector.into()).ok()?);
    Some(SectorNumber::of(track, sector))
}

/// Whether these sectors lie on consecutive bits of a map, rising.
pub(crate) fn is_run(sectors: &[SectorNumber]) -> bool {
    let follows = |pair: &[SectorNumber]| pair[0].bit().is_some_and(|bit| pair[1].bit() == Some(bit + 1));
    sectors.windows(2).all(follows)
}
