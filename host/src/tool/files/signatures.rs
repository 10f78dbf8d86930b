//! Files that are no image of 819,200 bytes, but known by how they begin.

/// How a file begins, and what it then looks like and what is to be done with it. Containers and packed files are left to those
/// who know them: libdsk, whose `dsktrans` calls this disk mgt800, and SAMdisk for what that does not read.
const SIGNATURES: [(&[u8], &str); 7] = [
    (
        b"\x1f\x8b",
        "It looks like a file packed with gzip: unpack it first, with `gzip -dc x.mgt.gz > x.mgt`.",
    ),
    (
        b"PK\x03\x04",
        "It looks like a file packed with zip: unpack it first, with `unzip`.",
    ),
    (
        b"EXTENDED CPC DSK",
        "It looks like an EDSK image, which has headers between its tracks: make a plain one of it first, with \
         `dsktrans -itype edsk -otype raw -format mgt800 x.dsk x.mgt` (of libdsk).",
    ),
    (
        b"MV - CPC",
        "It looks like a DSK image, which has headers between its tracks: make a plain one of it first, with \
         `dsktrans -itype dsk -otype raw -format mgt800 x.dsk x.mgt` (of libdsk).",
    ),
    (
        b"TD\0",
        "It looks like a TD0 image of Teledisk: make a plain one of it first, with \
         `dsktrans -itype tele -otype raw -format mgt800 x.td0 x.mgt` (of libdsk).",
    ),
    (
        b"td\0",
        "It looks like a TD0 image of Teledisk: make a plain one of it first, with \
         `dsktrans -itype tele -otype raw -format mgt800 x.td0 x.mgt` (of libdsk).",
    ),
    (
        b"Aley's disk backup",
        "It looks like a SAD image, which begins with a header: turn it into a plain one (.mgt) first, with SAMdisk.",
    ),
];

/// What a file with these bytes looks like, if it is known.
pub fn recognized(bytes: &[u8]) -> Option<&'static str> {
    SIGNATURES
        .iter()
        .find(|(front, _)| bytes.starts_with(front))
        .map(|(_, words)| *words)
}
