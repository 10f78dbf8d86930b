//! The map: all 1,600 sectors, drawn from the listing.
use crate::support::*;
use std::fs;
use varnucht::{LONGEST_BODY, Name, SectorNumber};

/// The signs of all sectors, by sector number, from what `map` prints.
pub fn signs(map: &str) -> Vec<char> {
    let lines: Vec<Vec<char>> = map.lines().map(|line| line.chars().collect()).collect();
    let sign = |number: SectorNumber| {
        let (track, sector) = (usize::from(number.track().number()), usize::from(number.sector().number()));
        // Two lines stand above each side, and a side has ten.
        let top = if track < 128 { 2 } else { 14 };
        assert_eq!(lines[top + sector - 1].len(), 80);
        lines[top + sector - 1][track % 128]
    };
    (0..1_600).filter_map(SectorNumber::new).map(sign).collect()
}

#[test]
fn every_sector_has_its_sign() {
    let folder = Folder::new();
    let mut disk = disk(&[("ONE", 2_000), ("TWO", 10_000), ("THREE", 300), ("LONG", 500_000)]);
    drop(disk.erase(&Name::new("TWO").unwrap()).unwrap());
    drop(disk.hide(&Name::new("LONG").unwrap()).unwrap());
    let map = on("map", &folder.image(&disk), NONE);
    let signs = signs(map.done());
    let mut expected = vec!['.'; 1_600];
    (0..4).for_each(|track| expected[20 * track..20 * track + 10].fill('#'));
    for (entry, sign) in disk.listing().entries().iter().zip(['A', 'B', 'C']) {
        entry
            .sectors()
            .for_each(|number| expected[usize::from(number.number())] = sign);
    }
    assert!(signs == expected, "{}", map.text());
    assert_eq!(
        signs.iter().filter(|sign| **sign == '.').count(),
        usize::from(disk.listing().free())
    );
    assert_eq!(signs.iter().filter(|sign| **sign == 'C').count(), 981);
    assert!(signs[10] == 'C', "track 128, sector 1 is on the second side");
    let legend: Vec<&str> = map.text().lines().skip(24).collect();
    assert_eq!(
        legend,
        [
            "# directory (40)  . free (574)",
            "A  1 ONE (4)     B  3 THREE (1)   C  4 LONG (981)"
        ]
    );
}

#[test]
fn empty_and_full_disks() {
    let folder = Folder::new();
    let map = on("map", &folder.image(&disk::<&str>(&[])), NONE);
    assert_eq!(signs(map.done()).iter().filter(|sign| **sign == '.').count(), 1_560);
    assert!(map.text().ends_with("\n# directory (40)  . free (1560)\n"));
    let map = on("map", &folder.image(&disk(&[("LONG", LONGEST_BODY)])), NONE);
    assert_eq!(signs(map.done()).iter().filter(|sign| **sign == 'A').count(), 1_560);
}

#[test]
fn eighty_files_have_eighty_signs() {
    let folder = Folder::new();
    let files: Vec<(String, usize)> = (1..=80).map(|number| (format!("FILE{number}"), 600)).collect();
    let map = on("map", &folder.image(&disk(&files)), NONE);
    let mut signs: Vec<char> = signs(map.done()).into_iter().filter(|sign| !"#.".contains(*sign)).collect();
    assert_eq!(signs.len(), 160);
    signs.sort();
    signs.dedup();
    assert_eq!(signs.len(), 80);
    assert!(map.text().lines().all(|line| line.len() <= 80));
}

#[test]
fn colour_only_where_it_is_wanted() {
    let folder = Folder::new();
    let image = folder.image(&disk(&[("ONE", 2_000), ("TWO", 10_000)]));
    let plainly = on("map", &image, NONE);
    assert!(!plainly.done().contains('\x1b'), "a pipe is no terminal");
    let coloured = on("map", &image, ["--color", "always"]);
    assert!(coloured.done().contains("\x1b[0;32mAAAA") || coloured.text().contains("\x1b[0;32mA"));
    assert_eq!(plain(coloured.text()), plainly.text());
    assert!(coloured.text().ends_with(['\n', 'm']));
    for when in ["never", "auto"] {
        assert_eq!(on("map", &image, ["--color", when]).done(), plainly.text());
    }
    fs::remove_file(&image).unwrap();
}
