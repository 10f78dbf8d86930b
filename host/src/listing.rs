//! The listing of an accepted disk.
use crate::calls;
use crate::directory::Directory;
use crate::entry::Entry;
use crate::image::Image;
use crate::name::Name;
use crate::refusal::Refused;

/// The files of a disk, hidden ones too, by rising slot, and how many sectors are free.
#[derive(Clone, Debug, PartialEq, Eq)]
pub struct Listing {
    entries: Vec<Entry>,
    free: u16,
    directory: Directory,
}

impl Listing {
    /// The library's listing of an image. Refused 2 to 11, 24 and 25 where the image is no accepted disk.
    pub(crate) fn of(image: &Image) -> Result<Listing, Refused> {
        // Where slot 1 says no size the library refuses the image, whatever the room.
        let directory = image.directory();
        let slots = directory.map_or(0, Directory::slots);
        let mut out = vec![0; slots * Entry::LISTED_LENGTH];
        let done = calls::list(image.as_bytes(), &mut out).decode()?;
        let many = usize::try_from(done.value).unwrap_or(usize::MAX);
        let entries = out.as_chunks().0.iter().take(many).filter_map(Entry::from_listed).collect();
        Ok(Listing {
            entries,
            free: done.free,
            directory: directory?,
        })
    }

    /// The files, by rising slot.
    pub fn entries(&self) -> &[Entry] {
        &self.entries
    }

    /// The file of this name, capitals or not, if there is one.
    pub fn find(&self, name: &Name) -> Option<&Entry> {
        self.entries.iter().find(|entry| entry.name() == *name)
    }

    /// How large the directory is: its tracks, its slots and the data sectors that it leaves.
    pub fn directory(&self) -> Directory {
        self.directory
    }

    /// How many of the data sectors are free.
    pub fn free(&self) -> u16 {
        self.free
    }

    /// How many of the slots are free: those that are erased, and all from the directory's end on.
    pub fn free_slots(&self) -> usize {
        self.directory.slots().saturating_sub(self.entries.len())
    }

    /// The length of the longest body that can be saved: the free sectors hold it and its nine header bytes. None where no
    /// sector or no slot is free.
    pub fn room(&self) -> Option<u32> {
        let free = if self.free_slots() == 0 { 0 } else { self.free };
        (510 * u32::from(free)).checked_sub(9)
    }
}
