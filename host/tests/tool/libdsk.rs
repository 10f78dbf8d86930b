//! A witness that nobody here wrote: libdsk, which knows this disk as mgt800. Its `dsktrans` turns an image of ours into EDSK,
//! in which every sector says its cylinder, its head and its number, and back. Where it is not installed nothing is tried.
use crate::support::*;
use std::fs;
use std::path::Path;
use std::process::Command;
use varnucht::{Image, Sector, Track};

/// Turns an image of one type into one of another. None: there is no `dsktrans`.
fn turned(from: (&str, &Path), to: (&str, &Path)) -> Option<()> {
    let mut command = Command::new("dsktrans");
    command
        .args(["-itype", from.0, "-otype", to.0, "-format", "mgt800"])
        .args([from.1, to.1]);
    let output = command.output().ok()?;
    assert!(output.status.success(), "{}", String::from_utf8_lossy(&output.stderr));
    Some(())
}

/// A sector of an EDSK image: its cylinder, head and number, and its bytes.
type Found<'a> = ((u8, u8, u8), &'a [u8]);

/// All sectors of an EDSK image.
fn sectors(edsk: &[u8]) -> Vec<Found<'_>> {
    assert!(edsk.starts_with(b"EXTENDED CPC DSK"));
    let tracks = usize::from(edsk[0x30]) * usize::from(edsk[0x31]);
    let mut sectors = Vec::new();
    let mut place = 256;
    for length in edsk[0x34..0x34 + tracks].iter().map(|pages| 256 * usize::from(*pages)) {
        let track = &edsk[place..place + length];
        assert!(track.starts_with(b"Track-Info\r\n"));
        let mut bytes = &track[256..];
        for about in track[0x18..].chunks(8).take(track[0x15].into()) {
            let (sector, rest) = bytes.split_at(u16::from_le_bytes([about[6], about[7]]).into());
            sectors.push(((about[0], about[1], about[2]), sector));
            bytes = rest;
        }
        place += length;
    }
    sectors
}

#[test]
fn libdsk_finds_every_sector_where_we_do() {
    let folder = Folder::new();
    // Every sector is unlike every other.
    let mut bytes = body(819_200);
    for (number, sector) in bytes.chunks_mut(512).enumerate() {
        sector[..2].copy_from_slice(&(number as u16).to_le_bytes());
    }
    let image = Image::from_bytes(bytes).unwrap();
    let raw = folder.file("disk.mgt", image.as_bytes());
    let (edsk, back) = (folder.path("disk.dsk"), folder.path("back.mgt"));
    if turned(("raw", &raw), ("edsk", &edsk)).is_none() {
        println!("dsktrans of libdsk-utils is not installed: nothing is tried");
        return;
    }
    let edsk_bytes = fs::read(&edsk).unwrap();
    let all = sectors(&edsk_bytes);
    let mut met = std::collections::BTreeSet::new();
    for ((cylinder, head, number), bytes) in &all {
        let track = Track::new(u32::from(*cylinder) + 128 * u32::from(*head)).unwrap();
        let sector = Sector::new((*number).into()).unwrap();
        assert!(
            *bytes == image.sector(track, sector).unwrap(),
            "cylinder {cylinder}, head {head}, sector {number}"
        );
        assert!(met.insert((*cylinder, *head, *number)));
    }
    assert_eq!(met.len(), 1_600);
    // The line that the tool names brings the image back.
    let run = on("check", &edsk, NONE);
    run.fails(1, "`dsktrans -itype edsk -otype raw -format mgt800 x.dsk x.mgt`");
    turned(("edsk", &edsk), ("raw", &back)).unwrap();
    assert!(fs::read(&back).unwrap() == image.as_bytes());
}
