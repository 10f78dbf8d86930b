//! Subdirectories: what lies beneath a directory, and which directory a file is in.
use crate::calls;
use crate::entry::Entry;
use crate::image::Image;
use crate::listing::Listing;
use crate::name::Name;
use crate::refusal::Refused;

/// The bytes of a list with room for every tree: 778 slots, two bytes to a number.
const TREE_LIST_LENGTH: usize = 2 * 778;

/// What lies beneath a directory or beneath the root: every file and every directory there, at whatever depth.
/// [`Disk::tree`](crate::Disk::tree) gives it.
///
/// It is kept as one list, so that nothing here goes deeper the deeper a disk is. Each level is by rising slot, and a directory
/// is directly followed by all that lies beneath it. On no disk is a tree deeper than 255 directories.
#[derive(Clone, Debug, PartialEq, Eq)]
pub struct Tree {
    nodes: Vec<Node>,
}

/// A slot of a tree, and how many of those behind it lie beneath it.
#[derive(Clone, Debug, PartialEq, Eq)]
struct Node {
    entry: Entry,
    depth: usize,
    beneath: usize,
}

impl Tree {
    /// The library's tree of a directory, or of the root where no name is given.
    pub(crate) fn of(image: &Image, listing: &Listing, directory: Option<&Name>) -> Result<Tree, Refused> {
        let name = directory.map_or(&[][..], |name| name.as_bytes());
        // With room for every slot there is the library need not count them first.
        let mut slots = [0; TREE_LIST_LENGTH];
        let done = calls::tree(image.as_bytes(), name, &mut slots).decode()?;
        let numbers = slots.as_chunks().0.iter().take(done.value as usize);
        let entries = numbers.filter_map(|number| entry_of_slot(listing, u16::from_le_bytes(*number)));
        Ok(Tree::of_entries(entries))
    }

    /// The tree of a list in which a directory is directly followed by what lies beneath it.
    fn of_entries<'a>(entries: impl Iterator<Item = &'a Entry>) -> Tree {
        let mut nodes: Vec<Node> = Vec::new();
        // The directories around the next entry: their places in the list and their codes.
        let mut around: Vec<(usize, u8)> = Vec::new();
        for entry in entries {
            while around.last().is_some_and(|(_, code)| *code != entry.parent_code()) {
                around.pop();
            }
            around.iter().for_each(|(place, _)| nodes[*place].beneath += 1);
            let (place, depth) = (nodes.len(), around.len());
            nodes.push(Node {
                entry: *entry,
                depth,
                beneath: 0,
            });
            around.extend(entry.code().map(|code| (place, code)));
        }
        Tree { nodes }
    }

    /// The files and directories directly beneath, by rising slot.
    pub fn branches(&self) -> impl Iterator<Item = Branch<'_>> {
        level(&self.nodes)
    }

    /// All files and directories, at whatever depth, a directory directly followed by what lies beneath it.
    pub fn all(&self) -> impl Iterator<Item = Branch<'_>> {
        let whole = |(place, node)| Branch {
            node,
            beneath: &self.nodes[place + 1..][..node.beneath],
        };
        self.nodes.iter().enumerate().map(whole)
    }

    /// How many files and directories it has.
    pub fn len(&self) -> usize {
        self.nodes.len()
    }

    /// Whether nothing lies beneath.
    pub fn is_empty(&self) -> bool {
        self.nodes.is_empty()
    }
}

/// A file, or a directory with what lies beneath it.
#[derive(Clone, Copy, Debug, PartialEq, Eq)]
pub struct Branch<'a> {
    node: &'a Node,
    beneath: &'a [Node],
}

impl<'a> Branch<'a> {
    /// The file or the directory itself. [`Entry::code`] tells which it is.
    pub fn entry(self) -> &'a Entry {
        &self.node.entry
    }

    /// How many directories of the tree are around it; 0 directly beneath that which was asked for.
    pub fn depth(self) -> usize {
        self.node.depth
    }

    /// The files and directories directly beneath it, by rising slot. A file has none.
    pub fn branches(self) -> impl Iterator<Item = Branch<'a>> {
        level(self.beneath)
    }

    /// How many files and directories lie beneath it, at whatever depth.
    pub fn len(self) -> usize {
        self.beneath.len()
    }

    /// Whether nothing lies beneath it.
    pub fn is_empty(self) -> bool {
        self.beneath.is_empty()
    }
}

/// The branches that follow each other in a list, without those beneath them.
fn level(mut nodes: &[Node]) -> impl Iterator<Item = Branch<'_>> {
    std::iter::from_fn(move || {
        let (node, rest) = nodes.split_first()?;
        let (beneath, later) = rest.split_at(node.beneath);
        nodes = later;
        Some(Branch { node, beneath })
    })
}

/// The entry of a slot.
fn entry_of_slot(listing: &Listing, number: u16) -> Option<&Entry> {
    let entries = listing.entries();
    let place = entries.binary_search_by_key(&number, |entry| entry.slot().number());
    place.ok().map(|place| &entries[place])
}

/// Where a file or a directory is, by the code in its slot.
#[derive(Clone, Copy, Debug, PartialEq, Eq)]
pub enum Within<'a> {
    /// In the root.
    Root,
    /// In this directory. Where several have its code, which [`Disk::tree`](crate::Disk::tree) refuses 26, it is the first.
    Directory(&'a Entry),
    /// In none: no directory has this code, which [`Disk::tree`](crate::Disk::tree) refuses 27.
    Nowhere(u8),
}

impl Listing {
    /// Which directory a file or a directory of this listing is in.
    pub fn within(&self, entry: &Entry) -> Within<'_> {
        let code = entry.parent_code();
        match self.entries().iter().find(|other| other.code() == Some(code)) {
            _ if code == 0 => Within::Root,
            Some(directory) => Within::Directory(directory),
            None => Within::Nowhere(code),
        }
    }

    /// Whether there is a directory among the entries.
    pub fn has_directories(&self) -> bool {
        self.entries().iter().any(|entry| entry.kind().is_directory())
    }
}
