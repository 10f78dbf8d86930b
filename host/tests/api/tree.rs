//! Subdirectories: trees, which directory a file is in, and the refusals that go with them.
use super::*;
use varnucht::{Branch, Directory, Kind, Tree, Within, calls};

/// Puts a directory into a slot of an image.
pub fn directory(image: &mut Image, slot: usize, name: &str, code: u8, parent: u8) {
    let place = if slot > 80 { slot + 1 } else { slot - 1 };
    let bytes = &mut image.as_bytes_mut()[place / 20 * 10_240 + place % 20 * 256..][..256];
    let tracks = bytes[255];
    bytes.fill(0);
    bytes[0] = 21;
    bytes[1..11].copy_from_slice(format!("{name:<10}").as_bytes());
    (bytes[250], bytes[254], bytes[255]) = (code, parent, tracks);
}

/// The pair, TWO in GAMES; GAMES in slot 3, ARCADE in it in slot 4, and EMPTY in slot 5.
pub fn nested_disk() -> Image {
    let mut image = damaged(&[(254, 7)]);
    directory(&mut image, 3, "GAMES", 7, 0);
    directory(&mut image, 4, "ARCADE", 255, 7);
    directory(&mut image, 5, "EMPTY", 1, 0);
    image
}

/// That disk with one byte of a slot changed.
pub fn spoilt(slot: usize, place: usize, byte: u8) -> Disk {
    let mut image = nested_disk();
    image.as_bytes_mut()[slot_place(slot) + place] = byte;
    Disk::open(image).expect("the check looks at no codes")
}

fn open(image: Image) -> Disk {
    Disk::open(image).expect("it is accepted")
}

/// The slots of a tree in their order, each with its depth.
fn slots(tree: &Tree) -> Vec<(u16, usize)> {
    tree.all()
        .map(|branch| (branch.entry().slot().number(), branch.depth()))
        .collect()
}

#[test]
fn trees_are_nested() {
    let disk = open(nested_disk());
    let root = disk.tree(None).unwrap();
    assert_eq!(slots(&root), [(1, 0), (3, 0), (2, 1), (4, 1), (5, 0)]);
    assert_eq!((root.len(), root.is_empty()), (5, false));
    let top: Vec<Branch> = root.branches().collect();
    let names: Vec<String> = top.iter().map(|branch| branch.entry().name().to_string()).collect();
    assert_eq!(names, ["ONE", "GAMES", "EMPTY"]);
    assert_eq!(top.iter().map(|branch| branch.len()).collect::<Vec<_>>(), [0, 2, 0]);
    assert!(top[1].branches().map(|branch| branch.entry().slot().number()).eq([2, 4]));
    assert!(top[0].is_empty() && top[2].branches().next().is_none());
    assert_eq!(slots(&disk.tree(Some(&name("games"))).unwrap()), [(2, 0), (4, 0)]);
    assert!(disk.tree(Some(&name("ARCADE"))).unwrap().is_empty());
    assert!(blank().tree(None).unwrap().is_empty());
}

#[test]
fn which_directory_a_file_is_in() {
    let disk = spoilt(1, 254, 9);
    let listing = disk.listing();
    let [one, two, games, arcade, empty] = listing.entries() else {
        panic!("five entries")
    };
    assert_eq!(listing.within(one), Within::Nowhere(9));
    assert_eq!(listing.within(two), Within::Directory(games));
    assert_eq!(listing.within(games), Within::Root);
    assert_eq!(listing.within(arcade), Within::Directory(games));
    assert_eq!((one.code(), games.code(), empty.code()), (None, Some(7), Some(1)));
    assert_eq!((one.parent_code(), two.parent_code(), games.parent_code()), (9, 7, 0));
    assert_eq!((games.sector_count(), games.sectors().count(), games.length()), (0, 0, None));
    assert_eq!(
        (games.kind(), games.kind().to_string()),
        (Kind::DIRECTORY, "directory".to_string())
    );
    assert!(listing.has_directories() && !pair().listing().has_directories());
    let directories = (0..=255).filter(|kind| Kind::new(*kind).is_directory());
    assert!(directories.eq([21]));
    // Of two with one code it is the first.
    let twice = spoilt(5, 250, 7);
    let within = twice.listing().within(&twice.listing().entries()[1]);
    assert_eq!(within, Within::Directory(&twice.listing().entries()[2]));
}

/// Every tree of the library's list: the depth is how many directories are around a slot, and each branch has the slots that lie
/// beneath it.
#[test]
fn as_the_library_lists_them() {
    let mut image = Image::blank_with(Directory::new(39).unwrap());
    for slot in 1..=255 {
        // Every third in the one before, every other in the one half as far.
        let parent = if slot % 3 == 0 { slot - 1 } else { slot / 2 };
        directory(&mut image, slot, &format!("D{slot}"), slot as u8, parent as u8);
    }
    let disk = open(image);
    for asked in [None, Some("D1"), Some("D2"), Some("D127"), Some("D255")] {
        let asked = asked.map(name);
        let tree = disk.tree(asked.as_ref()).unwrap();
        let mut out = [0; 2 * 255];
        let bytes = asked.as_ref().map_or(&[][..], |name| name.as_bytes());
        let done = calls::tree(disk.image().as_bytes(), bytes, &mut out).decode().unwrap();
        let numbers = out
            .as_chunks()
            .0
            .iter()
            .take(done.value as usize)
            .map(|pair| u16::from_le_bytes(*pair));
        assert!(tree.all().map(|branch| branch.entry().slot().number()).eq(numbers));
        for branch in tree.all() {
            let around = tree.all().filter(|other| {
                let slot = branch.entry().slot();
                slot != other.entry().slot() && within_branch(*other, slot.number())
            });
            assert_eq!(around.count(), branch.depth());
            let beneath = disk.tree(Some(&branch.entry().name())).unwrap();
            assert_eq!(branch.len(), beneath.len());
        }
    }
}

/// Whether a slot lies beneath a branch, by the branches alone.
fn within_branch(branch: Branch, slot: u16) -> bool {
    let mut waiting: Vec<Branch> = branch.branches().collect();
    while let Some(next) = waiting.pop() {
        if next.entry().slot().number() == slot {
            return true;
        }
        waiting.extend(next.branches());
    }
    false
}

/// As deep as codes go: nothing here is deeper for that.
#[test]
fn the_deepest_tree() {
    let mut image = Image::blank_with(Directory::new(39).unwrap());
    for slot in 1..=255 {
        directory(&mut image, slot, &format!("D{slot}"), slot as u8, slot as u8 - 1);
    }
    let disk = open(image);
    let tree = disk.tree(None).unwrap();
    assert!(
        slots(&tree)
            .into_iter()
            .eq((1..=255).map(|slot| (slot, usize::from(slot) - 1)))
    );
    let deepest = tree.all().last().unwrap();
    assert_eq!((deepest.depth(), deepest.is_empty()), (254, true));
    assert_eq!(tree, tree.clone());
}

#[test]
fn refusals_of_trees() {
    let tree = |disk: Disk, asked: Option<&str>| {
        let (number, slot, _) = parts(disk.tree(asked.map(name).as_ref()).unwrap_err());
        (number, slot)
    };
    assert_eq!(tree(spoilt(5, 250, 0), None), (26, 5));
    assert_eq!(tree(spoilt(5, 250, 255), None), (26, 5));
    assert_eq!(tree(spoilt(1, 254, 9), Some("NONE")), (27, 1));
    assert_eq!(tree(spoilt(3, 254, 255), None), (28, 3));
    assert_eq!(tree(open(nested_disk()), Some("ONE")), (13, 1));
    assert_eq!(tree(open(nested_disk()), Some("NONE")), (15, 0));
}

/// A directory is erased where nothing is in it; what is in a tree follows every change.
#[test]
fn erases_of_directories() {
    let mut disk = open(nested_disk());
    let before = disk.clone();
    let refused = disk.erase(&name("GAMES")).unwrap_err();
    assert_eq!(parts(refused).0, 29);
    assert!(disk == before);
    drop(disk.erase(&name("TWO")).unwrap());
    assert_eq!(parts(disk.erase(&name("GAMES")).unwrap_err()).0, 29);
    drop(disk.erase(&name("ARCADE")).unwrap());
    drop(disk.erase(&name("GAMES")).unwrap());
    assert_eq!(slots(&disk.tree(None).unwrap()), [(1, 0), (5, 0)]);
    assert_eq!(disk.listing().free(), 1_558);
    save(&mut disk, &code("NEW", b"new"));
    assert_eq!(slots(&disk.tree(None).unwrap()), [(1, 0), (2, 0), (5, 0)]);
    assert_eq!(parts(disk.read(&name("EMPTY")).unwrap_err()).0, 13);
}
