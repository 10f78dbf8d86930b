/// The words of document 01's table by number, copied from it; and those of the rows that document 02 moves or adds.
#[rustfmt::skip]
pub const TABLE: [(u8, &str); 32] = [
    (1, "the image is not 819,200 bytes"),
    (2, "the kind is not known"),
    (3, "the first name byte is 0 (given no more)"),
    (4, "the count is not 1 to the number of data sectors, or a directory's is not 0"),
    (5, "the map's set bits are not as many as the count"),
    (6, "the first address is not a data sector, or its bit is clear, or the map has a bit inside the directory"),
    (7, "carried kind, and 510 × count is below 9 + length"),
    (8, "the map shares a bit with an earlier live slot"),
    (9, "the name is an earlier live slot's, capitals or not"),
    (10, "the chain is broken"),
    (11, "carried kind, and the header's first byte (whole), remainder (mod 16,384) or pages differ from the slot's kind, remainder, pages"),
    (12, "the name is not usable"),
    (13, "the kind asked for (save) or found (read, start address, tree, gather) is not one that this call takes"),
    (14, "start page above 31, or offset outside 32,768 to 49,151 (save, start address)"),
    (15, "no live slot has the name, capitals or not"),
    (16, "a live slot has the new name, capitals or not"),
    (17, "protected (erase, rename)"),
    (18, "no slot before the end is erased and there is no end (save)"),
    (19, "fewer free sectors than the save takes"),
    (20, "a lent output buffer is too short"),
    (21, "no such drive, track or sector"),
    (22, "carried kind, and the count is above the least that its length needs (waste sectors behind the file)"),
    (23, "the names are not a whole number of tens (erase many)"),
    (24, "the number of directory tracks beyond four, byte 255 of slot 1, is 36 to 254"),
    (25, "kind 1 to 4, and 510 × count is below 9 + the length in the header"),
    (26, "a directory with code 0 or an earlier directory's code (tree)"),
    (27, "a live slot's byte 254 is not 0 and no directory's code (tree)"),
    (28, "a directory lies inside itself at some depth (tree)"),
    (29, "a directory whose code, not 0, is another live slot's byte 254 (erase)"),
    (30, "the used map or n is not what it was at opening or a sector that its pieces listed lacks its link (recording)"),
    (31, "a disk or join that would pass 65,535 disks"),
    (32, "the file must move and no run of consecutive free map bits has its length (gather)"),
];

/// The words of a number, if it has any.
pub fn words(number: u8) -> Option<&'static str> {
    TABLE.iter().find(|(listed, _)| *listed == number).map(|(_, words)| *words)
}
