/* Varnucht: disk images of the SAM Coupé. Check a disk, list it, read a file's body, whole or piece by piece, give its start
 * address, tell what lies beneath a subdirectory, find a raw sector; save, erase, rename, hide, show, protect and release
 * files, erase many at once, gather a scattered one, save while recording; count a shelf of disks. C99 and C++. Link
 * libvarnucht.a.
 *
 * Contents: 1 what a call takes and answers, 2 sizes, 3 refusals, 4 the calls that read, 5 the calls that change, and how
 * to write what they changed, 6 reading a listing, and what a disk says of itself, 7 names and kinds, 8 what is proved and
 * where it runs. A whole program stands in examples/tunes.c, one that reads piece by piece in examples/play.c, one that saves
 * while it records in examples/record.c, and one that counts a shelf of disks in examples/report.c.
 *
 *
 * 1. WHAT A CALL TAKES AND ANSWERS
 *
 * A slice is a pointer and then its length in bytes. It may have any length and any content: every call on every input ends
 * and answers. NULL with length 0 is an empty slice. A length has 64 bits on every machine (varnucht_length), also where
 * size_t has 32: C widens a size_t by itself, and whoever declares these calls in another language must declare 64 bits.
 * Where pointers have 32 bits no slice may be longer than 2^31 - 1 bytes, as no object of C is there.
 *
 * A slice with a `const` pointer is only read. A slice without one (`out`, `slots`, `answers`, `list`, `record`, the
 * `image` of a change) may be changed, and must not overlap any other slice of the same call. Slices that are only read may
 * overlap each other. The likely mistake is a name that points into the image that the call changes, or into the buffer
 * that it fills: copy the name out first.
 *
 * You own every buffer before, during and after a call. The library allocates nothing, keeps no pointer and has no state:
 * what a call does depends on its arguments alone. So calls on different buffers may run at once on different threads, and
 * calls that only read may share an image. Nobody may read or write a buffer while a call that may change it is running.
 * Nothing outside is called but memcpy, memset and their like. On x86-64 a save needs less than 6 KiB of stack, the calls of
 * a recording less than 8 KiB, an erase of many less than 5 KiB, a gather less than 3 KiB, every other call less than 2 KiB;
 * but varnucht_tree less than 7 KiB where no more than ten subdirectories lie inside each other, and 48 bytes more for each
 * beyond them: less than 17 KiB on any disk. "Stack:" at a call is x86-64's too. README.md has a table of each call on each
 * target (section 8): on none is it 8 KiB, but of varnucht_tree less than 21 KiB on iOS and less than 17 KiB on other phones.
 *
 * Every call answers one number with four parts, which the functions below take apart:
 *
 *     answer = refusal + 256 * slot + 2^24 * value + 2^48 * free
 *
 *     refusal   0: accepted. Else a number of section 3; then value and free are 0, and no byte of any buffer has changed.
 *     slot      the slot of the directory, 1 to 778, that a refusal was found at (section 3 says with which numbers), else 0
 *     value     what the call says below
 *     free      the free sectors of a disk, from varnucht_list; else 0
 *
 * Two calls put other numbers into two parts when they accept, varnucht_open and varnucht_next: into slot a sector, and into
 * free a place in it. The functions beside them in section 4 see to that.
 *
 * An image is the whole disk in memory, 819,200 bytes. Its sectors have 512 bytes and are numbered 0 to 1,599; sector s is
 * the bytes from 512 * s. 40 of them are the directory: 80 slots of 256 bytes, on four tracks. MasterDOS makes bigger ones,
 * of up to 39 tracks: byte 255 of slot 1, erased or not looked at too, is the number n of tracks beyond four, 0 to 35, and
 * 255 there is read as 0. Where n is above 0 there are 78 + 20 * n slots, 778 at most, which run on in the order of tracks
 * and sectors past track 4 sector 1: that stays a data sector. The directory ends at the first slot whose first name byte
 * is 0: that slot was never used, and it and all later ones are free and are not looked at, whatever they hold. A slot
 * before the end is erased, and free too, when its byte 0 is zero; else it is live and holds a file. It says the file's kind
 * and name, how many sectors the file has (its count), which they are (its map, a bit for each sector that can be data) and
 * which is the first. The sectors that are not the directory's are the data sectors: 1,560, or 1,561 - 10 * n where n is
 * above 0. Each holds 510 bytes of a file and the address of the file's next sector; that is its chain. A file that can be
 * read (section 7) begins with a header of 9 bytes, and its body follows. A live slot of kind 21 is no file but a
 * subdirectory: it has a name and no sectors, and other live slots say that they are in it (section 7). What is said of files
 * below holds of it too. Every call on a disk but varnucht_sector and varnucht_next checks the whole disk first: you need not
 * call varnucht_check before it. varnucht_report_add refuses no disk: it counts it.
 */
#ifndef VARNUCHT_H
#define VARNUCHT_H

#include <stddef.h>
#include <stdint.h>

/* The version of header, archive and tool: `varnucht --version` prints the same. As a number it is
 * 10000 * major + 100 * minor + patch. */
#define VARNUCHT_VERSION "0.1.0"
#define VARNUCHT_VERSION_NUMBER 100

#ifdef __cplusplus
extern "C" {
#endif

/* The length of a slice, in bytes. It has 64 bits on every machine, also where size_t has 32, as on wasm32. */
typedef uint64_t varnucht_length;

static inline unsigned varnucht_refusal(uint64_t answer) { return (unsigned)(answer & 0xff); }
static inline unsigned varnucht_slot(uint64_t answer) { return (unsigned)(answer >> 8 & 0xffff); }
static inline uint32_t varnucht_value(uint64_t answer) { return (uint32_t)(answer >> 24 & 0xffffff); }
static inline unsigned varnucht_free(uint64_t answer) { return (unsigned)(answer >> 48); }

/* 2. SIZES. A buffer of the size given here is always long enough. */
enum varnucht_size {
    VARNUCHT_IMAGE_BYTES = 819200,      /* an image has exactly so many */
    VARNUCHT_SECTOR_BYTES = 512,
    VARNUCHT_DATA_SECTORS = 1560,       /* free on an empty disk with four directory tracks, where they are most */
    VARNUCHT_SLOTS = 778,               /* with 39 directory tracks, where they are most */
    VARNUCHT_NAME_BYTES = 10,
    VARNUCHT_INFO_BYTES = 11,           /* kind information of a save */
    VARNUCHT_EXEC_BYTES = 3,            /* execution bytes of a save */
    VARNUCHT_ENTRY_BYTES = 258,         /* one file of a listing */
    VARNUCHT_LISTING_BYTES = 200724,    /* `out` of varnucht_list: 778 * 258 */
    VARNUCHT_TREE_BYTES = 1556,         /* `slots` of varnucht_tree: 778 * 2 */
    VARNUCHT_BODY_BYTES = 795591,       /* `out` of varnucht_read; the longest body on an empty disk: 510 * 1,560 - 9 */
    VARNUCHT_SAVE_LIST_BYTES = 3124,    /* `list` of varnucht_save: 2 * 1,562, the data sectors and two of the directory */
    VARNUCHT_GATHER_LIST_BYTES = 1562,  /* `list` of varnucht_gather: 2 * 781, half of all data sectors and one of the
                                           directory, since a file moves to as many sectors as it leaves */
    VARNUCHT_ERASE_LIST_BYTES = 778,    /* `list` of varnucht_erase_many: 2 * 389, every sector of the biggest directory */
    VARNUCHT_PIECE_LIST_BYTES = 3116,   /* `list` of varnucht_record_add: 2 * 1,558, all data sectors but the first and the
                                           last of a recording */
    VARNUCHT_CLOSE_LIST_BYTES = 8,      /* `list` of varnucht_record_close: two data sectors and two of the directory */
    VARNUCHT_CHANGE_LIST_BYTES = 2,     /* `list` of every other change */
    VARNUCHT_RECORD_BYTES = 2048,       /* the record of a recording */
    VARNUCHT_REPORT_BYTES = 496         /* a report: 124 numbers of four bytes */
};

/* 3. REFUSALS, in the words of the rules (document 01), in the order in which they are tested: 1 first; then 24; then 2 to
 * 9 at every live slot, the lowest slot first and at a slot the lowest number; then 10, 11 and 25 likewise; then the lowest
 * that applies of 12 to 20. So 12 to 20 say that the disk itself is accepted. varnucht_check_release alone tests 22 too,
 * directly after 7 at a slot. varnucht_tree alone tests 26 at every live slot, the lowest slot first, and then 27 and 28
 * likewise; both come before 12 to 20. varnucht_erase alone tests 29, after 17 and before 20, and varnucht_gather alone 32,
 * after 15 and before 20. varnucht_erase_many tests 23 and then 20, and of each name 12, 15, 17 and 29, which it answers
 * for that name and which refuse nothing of the call. varnucht_record_add and varnucht_record_close alone test 30, before
 * 12 to 20; but where `record` is too short to be one, 20 comes before it. varnucht_sector tests 1 and then 21, and looks
 * at no directory. varnucht_next refuses nothing. The calls on reports test 20 and then 31. 3 is given no more, by any
 * call: its number stays reserved, and "1 to 11" below is without it.
 *
 * The slot comes with 2 to 11, 22 and 25 to 28; with 13 and 14 of varnucht_read, varnucht_open, varnucht_start,
 * varnucht_tree and varnucht_gather, where it is the file's; with 16, where it is that of the file which has the new name;
 * and with 17 and 29. With all others, 13 and 14 of varnucht_save and of a recording too, it is 0. */
enum varnucht_reason {
    VARNUCHT_ACCEPTED = 0,
    /* The disk is not accepted. Every call can give these, 24 and 25 but varnucht_sector, which can give 1, varnucht_next, and
       the calls on reports. */
    VARNUCHT_NOT_AN_IMAGE = 1,          /* the image is not 819,200 bytes */
    VARNUCHT_KIND_UNKNOWN = 2,          /* the kind is not known (1 to 12 and 16 to 23 are) */
    VARNUCHT_NAME_MISSING = 3,          /* reserved, given no more: where the first name byte is 0 the directory ends */
    VARNUCHT_COUNT_OUT_OF_RANGE = 4,    /* the count is not 1 to the number of data sectors, or a subdirectory's (kind 21) is
                                           not 0 */
    VARNUCHT_BITS_DIFFER = 5,           /* the map's set bits are not as many as the count */
    VARNUCHT_FIRST_NOT_OWN = 6,         /* the first address is not a data sector, or its bit is clear, or the map has a bit
                                           inside the directory (not given for kind 21) */
    VARNUCHT_LENGTH_TOO_GREAT = 7,      /* carried kind, and 510 * count is below 9 + length */
    VARNUCHT_SECTOR_SHARED = 8,         /* the map shares a bit with an earlier live slot */
    VARNUCHT_NAME_TWICE = 9,            /* the name is an earlier live slot's, capitals or not (section 7) */
    VARNUCHT_CHAIN_BROKEN = 10,         /* the chain of sectors is broken: a link that leads out of the file's own sectors or
                                           back to one already passed, or a last link that is not 0, 0 */
    VARNUCHT_HEADER_DIFFERS = 11,       /* carried kind, and the header's first byte, remainder or pages differ from the
                                           slot's kind, remainder, pages */
    /* The request is not usable, or cannot be met. Each call says which of these it can give. */
    VARNUCHT_NAME_NOT_USABLE = 12,      /* the name is not usable: section 7 */
    VARNUCHT_WRONG_KIND = 13,           /* the kind asked for (save, record: 16 to 20) or found (read, open, start: 16 to 20
                                           and 1 to 4; tree: 21; gather: any but 21) is not one that this call takes */
    VARNUCHT_START_OUT_OF_RANGE = 14,   /* start page above 31, or offset outside 32,768 to 49,151 (save, start of kinds 16
                                           to 20) */
    VARNUCHT_NAME_NOT_FOUND = 15,       /* no live slot has the name, capitals or not */
    VARNUCHT_NAME_TAKEN = 16,           /* a live slot has the new name, capitals or not; varnucht_rename says more */
    VARNUCHT_FILE_PROTECTED = 17,       /* protected (erase, rename) */
    VARNUCHT_NO_FREE_SLOT = 18,         /* no slot before the end is erased and there is no end: as many files are
                                           there as the directory has slots (save) */
    VARNUCHT_TOO_FEW_SECTORS = 19,      /* fewer free sectors than the save, or the recording, takes */
    VARNUCHT_BUFFER_TOO_SHORT = 20,     /* a lent output buffer is too short; tested last, and the buffer is unchanged. Or what
                                           is lent as a record or a report is too short to be one */
    VARNUCHT_NO_SUCH_SECTOR = 21,       /* no such drive, track or sector (varnucht_sector alone) */
    /* The disk is not fit to go out. */
    VARNUCHT_WASTE_SECTORS = 22,        /* carried kind, and the count is above the least that its length needs: the least n
                                           with 510 * n at least 9 + length (varnucht_check_release alone) */
    /* The names to varnucht_erase_many are not ten bytes each. */
    VARNUCHT_NAMES_NOT_TENS = 23,       /* the names are not a whole number of tens (varnucht_erase_many alone) */
    /* The disk is not accepted, as with 1 to 11; the same calls can give these, but varnucht_sector. */
    VARNUCHT_TRACKS_OUT_OF_RANGE = 24,  /* the number of directory tracks beyond four, byte 255 of slot 1, is 36 to 254 */
    VARNUCHT_BODY_TOO_LONG = 25,        /* kind 1 to 4, and 510 * count is below 9 + the length in the file's header */
    /* The subdirectories of the disk do not fit together (varnucht_tree alone). Every other call takes such a disk still. */
    VARNUCHT_CODE_NOT_OWN = 26,         /* a directory with code 0 or an earlier directory's code */
    VARNUCHT_DIRECTORY_MISSING = 27,    /* a live slot's byte 254 is not 0 and no directory's code: what it is in is gone */
    VARNUCHT_DIRECTORY_IN_ITSELF = 28,  /* a directory lies inside itself at some depth */
    /* A subdirectory is not empty. */
    VARNUCHT_DIRECTORY_NOT_EMPTY = 29,  /* a directory whose code, not 0, is another live slot's byte 254 (erase) */
    /* The disk is not the one that was recorded on. */
    VARNUCHT_RECORDING_MOVED = 30,      /* the used map or the number of directory tracks is not what it was at opening, or a
                                           sector that the recording's pieces listed lacks its link (record add, close) */
    /* The shelf is full. */
    VARNUCHT_REPORT_FULL = 31,          /* a disk or join that would pass 65,535 disks (the calls on reports alone) */
    /* A scattered file has nowhere to go. */
    VARNUCHT_NO_RUN = 32                /* the file must move, and no run of consecutive free map bits is as long as it is
                                           (gather) */
};

/* A refusal in the words of the rules, for a message; UTF-8. A string that lasts, never NULL, for any number. */
static inline const char *varnucht_words(unsigned refusal) {
    switch (refusal) {
    case VARNUCHT_ACCEPTED: return "accepted";
    case VARNUCHT_NOT_AN_IMAGE: return "the image is not 819,200 bytes";
    case VARNUCHT_KIND_UNKNOWN: return "the kind is not known";
    case VARNUCHT_NAME_MISSING: return "the first name byte is 0 (given no more)";
    case VARNUCHT_COUNT_OUT_OF_RANGE:
        return "the count is not 1 to the number of data sectors, or a directory's is not 0";
    case VARNUCHT_BITS_DIFFER: return "the map's set bits are not as many as the count";
    case VARNUCHT_FIRST_NOT_OWN:
        return "the first address is not a data sector, or its bit is clear, or the map has a bit inside the directory";
    case VARNUCHT_LENGTH_TOO_GREAT: /* with a multiplication sign */
        return "carried kind, and 510 \xc3\x97 count is below 9 + length";
    case VARNUCHT_SECTOR_SHARED: return "the map shares a bit with an earlier live slot";
    case VARNUCHT_NAME_TWICE: return "the name is an earlier live slot's, capitals or not";
    case VARNUCHT_CHAIN_BROKEN: return "the chain is broken";
    case VARNUCHT_HEADER_DIFFERS:
        return "carried kind, and the header's first byte (whole), remainder (mod 16,384) or pages differ from the slot's "
               "kind, remainder, pages";
    case VARNUCHT_NAME_NOT_USABLE: return "the name is not usable";
    case VARNUCHT_WRONG_KIND:
        return "the kind asked for (save) or found (read, start address, tree, gather) is not one that this call takes";
    case VARNUCHT_START_OUT_OF_RANGE:
        return "start page above 31, or offset outside 32,768 to 49,151 (save, start address)";
    case VARNUCHT_NAME_NOT_FOUND: return "no live slot has the name, capitals or not";
    case VARNUCHT_NAME_TAKEN: return "a live slot has the new name, capitals or not";
    case VARNUCHT_FILE_PROTECTED: return "protected (erase, rename)";
    case VARNUCHT_NO_FREE_SLOT: return "no slot before the end is erased and there is no end (save)";
    case VARNUCHT_TOO_FEW_SECTORS: return "fewer free sectors than the save takes";
    case VARNUCHT_BUFFER_TOO_SHORT: return "a lent output buffer is too short";
    case VARNUCHT_NO_SUCH_SECTOR: return "no such drive, track or sector";
    case VARNUCHT_WASTE_SECTORS:
        return "carried kind, and the count is above the least that its length needs (waste sectors behind the file)";
    case VARNUCHT_NAMES_NOT_TENS: return "the names are not a whole number of tens (erase many)";
    case VARNUCHT_TRACKS_OUT_OF_RANGE:
        return "the number of directory tracks beyond four, byte 255 of slot 1, is 36 to 254";
    case VARNUCHT_BODY_TOO_LONG: /* with a multiplication sign */
        return "kind 1 to 4, and 510 \xc3\x97 count is below 9 + the length in the header";
    case VARNUCHT_CODE_NOT_OWN: return "a directory with code 0 or an earlier directory's code (tree)";
    case VARNUCHT_DIRECTORY_MISSING: return "a live slot's byte 254 is not 0 and no directory's code (tree)";
    case VARNUCHT_DIRECTORY_IN_ITSELF: return "a directory lies inside itself at some depth (tree)";
    case VARNUCHT_DIRECTORY_NOT_EMPTY: return "a directory whose code, not 0, is another live slot's byte 254 (erase)";
    case VARNUCHT_RECORDING_MOVED:
        return "the used map or n is not what it was at opening or a sector that its pieces listed lacks its link "
               "(recording)";
    case VARNUCHT_REPORT_FULL: return "a disk or join that would pass 65,535 disks";
    case VARNUCHT_NO_RUN: return "the file must move and no run of consecutive free map bits has its length (gather)";
    default: return "not a number of refusal";
    }
}

/* 4. THE CALLS THAT READ. They change nothing but `out`, `slots` or `report`. `image` is the disk; anything but 819,200 bytes is
 * refused 1, but not by varnucht_next, which refuses nothing, nor by varnucht_report_add, which counts it. A name has 1 to 10
 * bytes (section 7). What a call does not fill of `out` or `slots` stays as it was. */

/* Whether the disk is accepted. Its directory up to its end, sector maps and chains agree exactly when this accepts. Value: 0.
 * Refusals: 1 to 11, 24, 25. */
uint64_t varnucht_check(const uint8_t *image, varnucht_length image_len);

/* Whether the disk is accepted and fit to go out: no file of a carried kind has waste sectors behind it, where old texts hide.
 * A file has them where its count is above the least that its length needs. Every other call accepts such a disk still.
 * Value: 0. Refusals: 1 to 11, 22, 24, 25. Stack: 1,704 bytes. */
uint64_t varnucht_check_release(const uint8_t *image, varnucht_length image_len);

/* Every file, hidden ones too, by rising slot, at 258 bytes each from the front of `out`; section 6 says how to read them.
 * Value: how many files, 0 to 778. Free: the free sectors, 0 to 1,560. `out`: 258 bytes for each file, and
 * VARNUCHT_LISTING_BYTES always suffice. Refusals: 1 to 11, 24, 25, 20. */
uint64_t varnucht_list(const uint8_t *image, varnucht_length image_len, uint8_t *out, varnucht_length out_len);

/* A file's body, of kind 16 to 20 or 1 to 4, to the front of `out`. Value: its length in bytes, 0 to 795,591, and of kinds 1
 * to 4 at most 65,535. `out`: as long as the body, and VARNUCHT_BODY_BYTES always suffice. varnucht_open tells the length of
 * every file that can be read, and a listing that of kinds 16 to 20 (varnucht_entry_length).
 * Refusals: 1 to 11, 24, 25, 12, 13, 15, 20. */
uint64_t varnucht_read(const uint8_t *image, varnucht_length image_len, const uint8_t *name, varnucht_length name_len,
                       uint8_t *out, varnucht_length out_len);

/* A file piece by piece: varnucht_open finds it, and varnucht_next gives the next bytes of its body. A reader is three
 * numbers that the app keeps between the calls. Two functions over them spare it taking these answers apart:
 *
 *     struct varnucht_reader tune;
 *     uint64_t answer = varnucht_reader_open(&tune, image, image_len, name, name_len);
 *     if (varnucht_refusal(answer) == VARNUCHT_ACCEPTED) {
 *         while (tune.left > 0) {
 *             size_t came = varnucht_reader_next(&tune, image, image_len, out, out_len);
 *             play the `came` bytes at `out`;
 *         }
 *     }
 *
 * The pieces joined are the body that varnucht_read gives, whatever the lengths of the buffers: a piece has as many bytes as
 * its buffer, and fewer only where the body ends. So with no room none come, and after the last byte none come.
 *
 * DO NOT CHANGE THE DISK WHILE A READER OF IT IS USED: nothing here can see that it was changed. After a change open the
 * file again. A reader may be copied, to come back to its place, and is given up by not using it any more.
 *
 * Of a reader that was not made by these calls alone, or of another image than the one it was opened on, no more is promised
 * than that the call answers and touches nothing but `out`. */

/* Finds a file. Value: the length of its body in bytes, 0 to 795,591. Slot: the sector that the body begins in, 0 to 1,599.
 * Free: the place of its first byte there, 9. Refusals: 1 to 11, 24, 25, 12, 13, 15, as varnucht_read has them.
 * Stack: 1,752 bytes. */
uint64_t varnucht_open(const uint8_t *image, varnucht_length image_len, const uint8_t *name, varnucht_length name_len);

/* The next bytes, to the front of `out`: as many as it holds or as are left.
 *   sector, offset   where the next byte stands: slot and free of the answer before
 *   left             how many are left: the value of varnucht_open less all that came since
 *   out              any length, 0 allowed
 * Value: how many came. Slot and free: sector and offset of the byte after them, which are 1,600 and 0 where none follows.
 * The disk is not checked. Of an image of another length, and of numbers that can be no reader's (a sector above 1,599, an
 * offset above 509, more than 795,591 left), nothing comes; of other numbers that no call gave, what stands there along the
 * links, or less. Refusals: none. Stack: 104 bytes. */
uint64_t varnucht_next(const uint8_t *image, varnucht_length image_len, uint32_t sector, uint32_t offset, uint32_t left,
                       uint8_t *out, varnucht_length out_len);

/* A reader. `left` is what an app may look at: how many bytes of the body are still to come. */
struct varnucht_reader {
    uint32_t sector;
    uint32_t offset;
    uint32_t left;
};

/* Opens a file by its name. The answer is varnucht_open's; where it is refused `reader` stays as it was. */
static inline uint64_t varnucht_reader_open(struct varnucht_reader *reader, const uint8_t *image, size_t image_len,
                                            const uint8_t *name, size_t name_len) {
    uint64_t answer = varnucht_open(image, image_len, name, name_len);
    if (varnucht_refusal(answer) == VARNUCHT_ACCEPTED) {
        reader->sector = varnucht_slot(answer);
        reader->offset = varnucht_free(answer);
        reader->left = varnucht_value(answer);
    }
    return answer;
}

/* The next bytes, to the front of `out`; how many came. */
static inline size_t varnucht_reader_next(struct varnucht_reader *reader, const uint8_t *image, size_t image_len,
                                          uint8_t *out, size_t out_len) {
    uint64_t answer = varnucht_next(image, image_len, reader->sector, reader->offset, reader->left, out, out_len);
    reader->sector = varnucht_slot(answer);
    reader->offset = varnucht_free(answer);
    reader->left -= varnucht_value(answer);
    return varnucht_value(answer);
}

/* The address that a file is loaded to. Value: page * 16,384 + offset - 16,384, which is 16,384 to 540,671; of kinds 1 to 4
 * the start in the file's header as it stands, 0 to 65,535, and never 14.
 * Refusals: 1 to 11, 24, 25, 12, 13, 14, 15. */
uint64_t varnucht_start(const uint8_t *image, varnucht_length image_len, const uint8_t *name, varnucht_length name_len);

/* What lies beneath a subdirectory: the files and subdirectories in it, those in these, and so on, to whatever depth. To the
 * front of `slots` come the numbers of their slots, each once, two bytes to a number, low byte first (varnucht_listed reads
 * them). Those in one directory come by rising slot, and a subdirectory is directly followed by all that lies beneath it.
 *   name   the subdirectory's; an empty one (length 0) is the root, and beneath it lies every file of the disk
 * Value: how many, 0 to 778. `slots`: two bytes for each, and VARNUCHT_TREE_BYTES always suffice; a buffer of L bytes has
 * room for L / 2 numbers. A listing has all else that the slots say, and varnucht_entry_code and varnucht_entry_parent tell
 * which of them is in which.
 * Refusals: 1 to 11, 24, 25, 26, 27, 28, 12, 13 (not a subdirectory), 15, 20. On a disk with 255 subdirectories, each inside
 * the one before, which are as many as there can be, Stack: 16,816 bytes. */
uint64_t varnucht_tree(const uint8_t *image, varnucht_length image_len, const uint8_t *name, varnucht_length name_len,
                       uint8_t *slots, varnucht_length slots_len);

/* A raw sector of one of two disks, whatever they hold: no directory is looked at.
 *   one, two   the images of drives 1 and 2. Both must have 819,200 bytes, whichever is chosen; they may be the same bytes
 *   drive      1 or 2
 *   track      0 to 79 on the first side, 128 to 207 on the second
 *   sector     1 to 10
 * Any other drive, track or sector is refused 21. Value: where the sector's 512 bytes begin in the image of that drive, a
 * multiple of 512. Nothing is copied. Refusals: 1, 21. */
uint64_t varnucht_sector(const uint8_t *one, varnucht_length one_len, const uint8_t *two, varnucht_length two_len,
                         uint32_t drive, uint32_t track, uint32_t sector);

/* A SHELF IN NUMBERS. A report counts disks: how many are accepted and how many refused, by number; and of the accepted ones
 * their files by kind, the sectors of these files, the free sectors, and the files by how many sectors they have. It is
 * VARNUCHT_REPORT_BYTES that the app lends: 124 numbers of four bytes, low byte first, at the places below. All zero is the
 * report over no disk. Of a longer buffer the front is used, and its rest stays. Disks are added one at a time:
 *
 *     static uint8_t report[VARNUCHT_REPORT_BYTES];          (all zero)
 *     for each image {
 *         answer = varnucht_report_add(image, image_len, report, sizeof report);
 *     }
 *     files = varnucht_report_number(report, VARNUCHT_REPORT_KINDS + VARNUCHT_KIND_CODE);
 *
 * Two reports join, and the join is the report over the disks of both, in whichever order they are joined: each thread can
 * count into a report of its own. Being bytes, a report may be kept in a file, and means the same on every machine.
 *
 * Of a report that was not made by these calls alone no more is promised than that the call answers, that it adds to each
 * number modulo 2^32 and touches nothing but `report`, and that a refused call changes nothing. */
enum varnucht_report_place {
    VARNUCHT_REPORT_ACCEPTED = 0,       /* how many disks are accepted */
    VARNUCHT_REPORT_REFUSED = 0,        /* + r, 1 to 32: how many are refused r (section 3) */
    VARNUCHT_REPORT_KINDS = 33,         /* + k, 0 to 63: how many files have kind k, hidden ones too */
    VARNUCHT_REPORT_FILE_SECTORS = 97,  /* the sectors of all files */
    VARNUCHT_REPORT_FREE_SECTORS = 98,  /* the free sectors of the accepted disks */
    VARNUCHT_REPORT_CLASSES = 99,       /* + c, 0 to 11: how many files have 0 sectors (subdirectories, kind 21), 1, 2 to 3,
                                           4 to 7, .., 512 to 1,023, 1,024 and more. They add up to the files. From 111 on
                                           nothing is counted, and what stands there stays */
    VARNUCHT_REPORT_CLASS_COUNT = 12
};

/* Adds a disk to a report: any bytes, which are only read. A disk that varnucht_check refuses is counted by the number that
 * it gives, and nowhere else. Value: how many disks are in the report then, 1 to 65,535. Refusals: 20 where `report` is too
 * short to be one, then 31 where 65,535 disks are in it. Stack: 1,752 bytes. */
uint64_t varnucht_report_add(const uint8_t *image, varnucht_length image_len, uint8_t *report, varnucht_length report_len);

/* Joins `other`, which is only read, to `report`. Value: how many disks are in the report then, 0 to 65,535. Refusals: 20
 * where one of them is too short to be a report, then 31 where they have more than 65,535 disks together.
 * Stack: 112 bytes. */
uint64_t varnucht_report_join(uint8_t *report, varnucht_length report_len, const uint8_t *other, varnucht_length other_len);

/* The number at a place of a report, 0 to 123. */
static inline uint32_t varnucht_report_number(const uint8_t *report, unsigned place) {
    const uint8_t *at = report + 4 * (size_t)place;
    return at[0] | (uint32_t)at[1] << 8 | (uint32_t)at[2] << 16 | (uint32_t)at[3] << 24;
}

/* The fewest sectors that a file of class c has, c below VARNUCHT_REPORT_CLASS_COUNT. */
static inline unsigned varnucht_report_class_first(unsigned c) { return c == 0 ? 0 : 1u << (c - 1); }

/* 5. THE CALLS THAT CHANGE, AND HOW TO WRITE WHAT THEY CHANGED
 *
 * A change is made whole in `image`, in memory. It fills `list` from the front with the numbers of the sectors it wrote, two
 * bytes to a number, low byte first (varnucht_listed reads them), and the rest of `list` stays. Value: how many numbers. No
 * number occurs twice, and a sector that is not named is unchanged. A list of L bytes has room for L / 2 numbers, and an odd
 * last byte holds none; where that is too few the call is refused 20 and changes nothing.
 *
 * Where the image is also kept in a file, write the named sectors there IN THE ORDER OF THE LIST, EACH WHOLE, and no other:
 *
 *     for (i = 0; i < varnucht_value(answer); i++) {
 *         size_t at = (size_t)VARNUCHT_SECTOR_BYTES * varnucht_listed(list, i);
 *         write the 512 bytes from image + at to the place `at` of the file, in one piece;
 *         flush them to the storage (fsync or its like);
 *     }
 *
 * Then, if that is stopped after any number of sectors, because the app is killed or the power fails, the file holds a disk
 * that varnucht_check accepts, and
 *   - if any sector is missing, varnucht_list, varnucht_read and varnucht_start answer exactly as before the change, free
 *     sectors included: it has not happened, nothing is lost or used up, and it can be asked for again;
 *   - if none is missing, it is the changed disk, byte for byte;
 *   - in either case every file that the change did not ask for by name keeps its slot and its sectors, byte for byte, and
 *     the disk its name and its directory tracks (section 6).
 * You may rely on that only if no sector reaches the storage before one that stands earlier in the list, and none reaches it
 * in part. Where a write fails, the image in memory is ahead of the file: read it again from there before the next change.
 *
 * varnucht_erase_many alone makes several changes at once, and each sector of its list is a change of its own: stopped
 * after some of them, the file holds a disk that varnucht_check accepts, on which the files erased in the sectors written
 * are gone, and every other is still there.
 *
 * `list`: VARNUCHT_SAVE_LIST_BYTES for a save, VARNUCHT_GATHER_LIST_BYTES for a gather, VARNUCHT_ERASE_LIST_BYTES for an
 * erase of many, VARNUCHT_PIECE_LIST_BYTES for a piece of a recording, VARNUCHT_CLOSE_LIST_BYTES for its close and
 * VARNUCHT_CHANGE_LIST_BYTES for any other change always suffice. */

/* The sector number at place i of a list, i below the value answered. */
static inline unsigned varnucht_listed(const uint8_t *list, size_t i) { return list[2 * i] + 256u * list[2 * i + 1]; }

/* Saves a new file into the lowest free slot, an erased one before the directory's end or else the end, and into the lowest
 * free sectors, neither hidden nor protected.
 *   kind     16 to 20
 *   name     a new name (section 7)
 *   page     start page, 0 to 31
 *   offset   32,768 to 49,151; varnucht_start will give page * 16,384 + offset - 16,384
 *   exec     execution bytes: where the SAM starts the file after loading; 255 in the first of three means nowhere. Three
 *            are kept and any beyond are ignored; fewer are filled with 0, so an empty slice is three zeros and not 255
 *   info     what the SAM keeps of the kind, such as the mode of a screen. Eleven bytes are kept and any beyond are ignored;
 *            fewer are filled with 0
 *   body     the file's bytes, none allowed, at most 795,591 on an empty disk with four directory tracks
 * The save takes the least n sectors with 510 * n at least 9 + body_len, and names those n and last the slot's. Where the
 * slot is the directory's end and an old name stands in the next one, that slot's bytes 0 and 1 are set to 0, so that the
 * name does not come back; its sector, if it is another, is named between them. A save into slot 1 keeps what that says of
 * the disk: its name, its random word and its directory tracks (bytes 210 to 219, 252, 253 and 255).
 * Value: n + 1 or n + 2. `list`: two bytes for each, 2 * (n + 2) always suffice. Refusals: 1 to 11, 24, 25, 12, 13, 14, 16,
 * 18, 19, 20. */
uint64_t varnucht_save(uint8_t *image, varnucht_length image_len, uint32_t kind,
                       const uint8_t *name, varnucht_length name_len, uint32_t page, uint32_t offset,
                       const uint8_t *exec, varnucht_length exec_len, const uint8_t *info, varnucht_length info_len,
                       const uint8_t *body, varnucht_length body_len, uint8_t *list, varnucht_length list_len);

/* Erases a file: its slot and its sectors are free from then on. A subdirectory is erased where nothing is in it, else it is
 * refused 29. Value: 1. Refusals: 1 to 11, 24, 25, 12, 15, 17, 29, 20. */
uint64_t varnucht_erase(uint8_t *image, varnucht_length image_len, const uint8_t *name, varnucht_length name_len,
                        uint8_t *list, varnucht_length list_len);

/* Erases many files at once: those of the names, one after the other, as varnucht_erase does. The disk is checked
 * once for all of them.
 *   names     any number of names, none too, of ten bytes each, laid end to end; fill a shorter one with spaces (32)
 *   answers   gets a byte for each name, in their order: 0 where its file is erased, else the number that varnucht_erase
 *             would have answered there, 12 (its first byte is 0), 15, 17 or 29. Such a number refuses nothing of the call.
 *             So a name that is given again is answered 15, and a subdirectory is erased where the names before it have
 *             emptied it
 *   list      gets the directory's sectors that changed, each once and rising
 * What is not filled of `answers` and `list` stays. Value: how many sectors, 0 to 389. `answers`: names_len / 10 bytes.
 * `list`: two bytes for each sector, and VARNUCHT_ERASE_LIST_BYTES always suffice.
 *
 * EACH SECTOR OF THE LIST IS A CHANGE OF ITS OWN. Where the writing is stopped, the files erased in the sectors written are
 * gone, all others are still there, and varnucht_check accepts the disk. A file may be left there whose subdirectory is
 * gone: varnucht_tree refuses such a disk 27, and the same names given again erase the rest.
 * Refusals: 1 to 11, 24, 25, 23, 20 (`answers` or `list` too short). Stack: 4,712 bytes. */
uint64_t varnucht_erase_many(uint8_t *image, varnucht_length image_len, const uint8_t *names, varnucht_length names_len,
                             uint8_t *answers, varnucht_length answers_len, uint8_t *list, varnucht_length list_len);

/* Gives a file a new name (section 7). It may be the file's own with other capitals. Refused 16 where another file has the
 * name, capitals or not (slot: that file's), or where the file has it already, byte for byte (slot: its own). Value: 1.
 * Refusals: 1 to 11, 24, 25, 12 (either name), 15, 16, 17, 20. */
uint64_t varnucht_rename(uint8_t *image, varnucht_length image_len, const uint8_t *name, varnucht_length name_len,
                         const uint8_t *new_name, varnucht_length new_name_len, uint8_t *list, varnucht_length list_len);

/* Mark a file: hide sets the mark that show clears, protect the one that release clears. Nothing else changes. Where the
 * mark is so already the call is accepted and names its sector all the same. A hidden file is listed and found like any
 * other. A protected one cannot be erased or renamed. Value: 1. Refusals: 1 to 11, 24, 25, 12, 15, 20. */
uint64_t varnucht_hide(uint8_t *image, varnucht_length image_len, const uint8_t *name, varnucht_length name_len,
                       uint8_t *list, varnucht_length list_len);
uint64_t varnucht_show(uint8_t *image, varnucht_length image_len, const uint8_t *name, varnucht_length name_len,
                       uint8_t *list, varnucht_length list_len);
uint64_t varnucht_protect(uint8_t *image, varnucht_length image_len, const uint8_t *name, varnucht_length name_len,
                          uint8_t *list, varnucht_length list_len);
uint64_t varnucht_release(uint8_t *image, varnucht_length image_len, const uint8_t *name, varnucht_length name_len,
                          uint8_t *list, varnucht_length list_len);

/* Gathers a scattered file, so that a drive need not click through it: moves it, all 510 bytes of each of its sectors in
 * their order, to the lowest run of consecutive free map bits that is as long as its count, chained rising. Its own sectors
 * do not count as free. A run may go on from the first side to the second, from map bit 759 to 760 (section 6:
 * VARNUCHT_ENTRY_MAP), and has no bit of the directory. Of its slot only the first address and the map change, bytes 13 to
 * 209, so that its body, its start address and all else that a listing says of it stay. What it leaves is free from then on.
 * A file that lies on consecutive bits already, its chain rising, is left as it is: nothing is written, and any `list` is
 * long enough. A protected file may be gathered, and any kind with sectors; a subdirectory is refused 13.
 * Value: the file's sectors and one of the directory, named in this order, the first in that of the chain; 0 where the file
 * is left. `list`: two bytes for each; a file that moves has at most 780 sectors, so VARNUCHT_GATHER_LIST_BYTES always
 * suffice. Refusals: 1 to 11, 24, 25, 12, 13 (kind 21), 15, 32, 20. Stack: 2,456 bytes. */
uint64_t varnucht_gather(uint8_t *image, varnucht_length image_len, const uint8_t *name, varnucht_length name_len,
                         uint8_t *list, varnucht_length list_len);

/* SAVE WHILE RECORDING. A save whose body comes in pieces, when nobody knows yet how many: varnucht_record_open begins it
 * with a save's particulars, varnucht_record_add adds a piece, and varnucht_record_close makes it a file. Between the calls
 * the app keeps a record: VARNUCHT_RECORD_BYTES that it lends to each of them, whose content is the library's. Of a longer
 * buffer the front is used, and its rest stays. It does not grow with the recording.
 *
 *     static uint8_t record[VARNUCHT_RECORD_BYTES], list[VARNUCHT_PIECE_LIST_BYTES];
 *     answer = varnucht_record_open(image, image_len, kind, name, .., record, sizeof record);
 *     while the user records {
 *         answer = varnucht_record_add(image, image_len, piece, piece_len, record, sizeof record, list, sizeof list);
 *         write the sectors of the list;
 *     }
 *     answer = varnucht_record_close(image, image_len, record, sizeof record, list, sizeof list);
 *     write the sectors of the list;
 *
 * The sectors are those that a save of the whole would take. A piece writes free sectors alone, so that nothing is seen of
 * the recording before its close: wherever the writing is stopped, before the close or in it, all files are there as
 * before, and a recording that is given up has used nothing. If nothing else changes the disk from opening to close, and
 * nothing was stopped, the closed disk is the one that varnucht_save of the joined pieces leaves, byte for byte, however
 * the body was cut.
 *
 * The disk may be changed in between, and two recordings may be open at once. Where that gave sectors to others, or took
 * what was recorded already, the next call is refused 30, and so it is where sectors of a piece were not written, unless an
 * erased file left the same links in them: open a new recording then. Where it is not refused, the close leaves an accepted
 * disk and alters no other file; the file then reads as its sectors do. So if a change in between wrote into them and gave
 * them back, the bytes there are that change's.
 *
 * A refused call leaves the record as it was, and a close never changes it: a close whose writing was stopped can be made
 * again. Of a record that was not made by these calls alone no more is promised than that each call answers, and that a
 * refused one changes nothing. */

/* Begins a recording: `record` gets its record. The image is only read. The arguments are those of varnucht_save, but for
 * the body and the list. Value: 0. `record`: VARNUCHT_RECORD_BYTES. Refusals: those of a save with an empty body, 1 to 11,
 * 24, 25, 12, 13, 14, 16, 18, 19; then 20 (`record` too short). Stack: 2,328 bytes. */
uint64_t varnucht_record_open(const uint8_t *image, varnucht_length image_len, uint32_t kind, const uint8_t *name,
                              varnucht_length name_len, uint32_t page, uint32_t offset, const uint8_t *exec,
                              varnucht_length exec_len, const uint8_t *info, varnucht_length info_len, uint8_t *record,
                              varnucht_length record_len);

/* Adds a piece, of any length, 0 allowed. Each sector after the first is written and named, with the address of the next,
 * when a byte beyond it comes; till then its bytes wait in the record. Value: how many sectors, in the order of the chain;
 * 0 is usual for a small piece. `list`: two bytes for each, and a piece of L bytes names at most L / 510 + 1;
 * VARNUCHT_PIECE_LIST_BYTES always suffice. Refusals: 1 to 11, 24, 25, 20 (`record` too short), 30, 19 (the joined pieces
 * take more sectors than are free), 20 (`list` too short). Stack: 7,016 bytes. */
uint64_t varnucht_record_add(uint8_t *image, varnucht_length image_len, const uint8_t *piece, varnucht_length piece_len,
                             uint8_t *record, varnucht_length record_len, uint8_t *list, varnucht_length list_len);

/* Makes the recording a file: writes and names its last sector, then its first if it is another, then the directory's as
 * varnucht_save does. The record is only read. Value: 2 to 4. `list`: VARNUCHT_CLOSE_LIST_BYTES always suffice. Refusals: 1
 * to 11, 24, 25, 20 (`record` too short), 30, 12, 13, 14, 16 (the name was given to a file since), 18 (the last slot was
 * taken since), 19, 20 (`list` too short); of a record made by these calls 12, 13, 14 and 19 do not come.
 * Stack: 7,368 bytes. */
uint64_t varnucht_record_close(uint8_t *image, varnucht_length image_len, const uint8_t *record,
                               varnucht_length record_len, uint8_t *list, varnucht_length list_len);

/* 6. READING A LISTING. An entry is the slot's number, 2 bytes, low byte first, and then the slot's 256 bytes. These are the
 * places of its fields in the entry; the functions below read them. */
enum varnucht_entry_field {
    VARNUCHT_ENTRY_SLOT = 0,            /* 2 bytes, low byte first */
    VARNUCHT_ENTRY_STATUS = 2,          /* bit 7 hidden, bit 6 protected, bits 0 to 5 the kind */
    VARNUCHT_ENTRY_NAME = 3,            /* 10 bytes, filled with spaces */
    VARNUCHT_ENTRY_SECTORS = 13,        /* 2 bytes, high byte first */
    VARNUCHT_ENTRY_FIRST_TRACK = 15,    /* where the file's first sector is */
    VARNUCHT_ENTRY_FIRST_SECTOR = 16,
    VARNUCHT_ENTRY_MAP = 17,            /* 195 bytes: bit b mod 8 of byte b / 8 says whether the sector of bit b is the
                                           file's: track 4 + b / 10, and from 760 on track 128 + (b - 760) / 10; sector
                                           b mod 10 + 1 */
    VARNUCHT_ENTRY_INFO = 223,          /* 11 bytes */
    VARNUCHT_ENTRY_PAGE = 238,          /* bits 0 to 4; this and the next three of kinds 16 to 20 alone */
    VARNUCHT_ENTRY_OFFSET = 239,        /* 2 bytes, low byte first */
    VARNUCHT_ENTRY_PAGES = 241,         /* whole pages of 16,384 bytes in the length */
    VARNUCHT_ENTRY_REMAINDER = 242,     /* 2 bytes, low byte first, bits 0 to 13: the rest of the length */
    VARNUCHT_ENTRY_EXEC = 244,          /* 3 bytes */
    VARNUCHT_ENTRY_CODE = 252,          /* of a subdirectory (kind 21) alone: its code */
    VARNUCHT_ENTRY_PARENT = 256         /* the code of the subdirectory that it is in, 0 for the root */
};

/* Entry i of a listing, i below the value that varnucht_list answered. */
static inline const uint8_t *varnucht_entry(const uint8_t *listing, size_t i) { return listing + VARNUCHT_ENTRY_BYTES * i; }

/* The slot's number, 1 to 778. */
static inline unsigned varnucht_entry_slot(const uint8_t *entry) {
    return entry[VARNUCHT_ENTRY_SLOT] + 256u * entry[VARNUCHT_ENTRY_SLOT + 1];
}

/* Whether the file is hidden; whether it is protected; its kind. */
static inline int varnucht_entry_hidden(const uint8_t *entry) { return entry[VARNUCHT_ENTRY_STATUS] >> 7; }
static inline int varnucht_entry_protected(const uint8_t *entry) { return entry[VARNUCHT_ENTRY_STATUS] >> 6 & 1; }
static inline unsigned varnucht_entry_kind(const uint8_t *entry) { return entry[VARNUCHT_ENTRY_STATUS] & 63u; }

/* Whether the kind is carried, 16 to 20: then the file can be read, and the entry has its length and its start. */
static inline int varnucht_entry_carried(const uint8_t *entry) {
    return varnucht_entry_kind(entry) >= 16 && varnucht_entry_kind(entry) <= 20;
}

/* Whether the kind is one of the Spectrum's that can be read, 1 to 4. The entry has neither the length nor the start of such
 * a file, because they stand in the file itself: varnucht_open answers the one and varnucht_start the other. */
static inline int varnucht_entry_spectrum(const uint8_t *entry) {
    return varnucht_entry_kind(entry) >= 1 && varnucht_entry_kind(entry) <= 4;
}

/* The name's ten bytes, with no 0 behind them; and how many are left without the spaces at the end. Given to a call, both
 * lengths ask for the same file. On a disk from elsewhere a name may hold any bytes, not text alone, and some give orders to
 * a terminal: examples/files.c shows how to print it. */
static inline const uint8_t *varnucht_entry_name(const uint8_t *entry) { return entry + VARNUCHT_ENTRY_NAME; }
static inline size_t varnucht_entry_name_len(const uint8_t *entry) {
    size_t len = VARNUCHT_NAME_BYTES;
    while (len > 1 && entry[VARNUCHT_ENTRY_NAME + len - 1] == 32) {
        len--;
    }
    return len;
}

/* Whether it is a subdirectory, kind 21; its code, 1 to 255, where it is one (0 on a disk that varnucht_tree refuses 26),
 * else 0; and the code of the subdirectory that it is in, 0 for the root. */
static inline int varnucht_entry_directory(const uint8_t *entry) { return varnucht_entry_kind(entry) == 21; }
static inline unsigned varnucht_entry_code(const uint8_t *entry) {
    return varnucht_entry_directory(entry) ? entry[VARNUCHT_ENTRY_CODE] : 0u;
}
static inline unsigned varnucht_entry_parent(const uint8_t *entry) { return entry[VARNUCHT_ENTRY_PARENT]; }

/* How many sectors the file takes, 1 to 1,560; a subdirectory takes 0. */
static inline unsigned varnucht_entry_sectors(const uint8_t *entry) {
    return 256u * entry[VARNUCHT_ENTRY_SECTORS] + entry[VARNUCHT_ENTRY_SECTORS + 1];
}

/* The length of the body in bytes, 0 to 795,591; of a kind that is not carried 0. For kinds 1 to 4 ask varnucht_open. */
static inline uint32_t varnucht_entry_length(const uint8_t *entry) {
    uint32_t low = entry[VARNUCHT_ENTRY_REMAINDER], high = entry[VARNUCHT_ENTRY_REMAINDER + 1] & 63u;
    return varnucht_entry_carried(entry) ? entry[VARNUCHT_ENTRY_PAGES] * UINT32_C(16384) + 256 * high + low : 0;
}

/* Start page, 0 to 31, and offset of a carried kind. varnucht_start joins them, or refuses an offset out of range. */
static inline unsigned varnucht_entry_page(const uint8_t *entry) { return entry[VARNUCHT_ENTRY_PAGE] & 31u; }
static inline unsigned varnucht_entry_offset(const uint8_t *entry) {
    return entry[VARNUCHT_ENTRY_OFFSET] + 256u * entry[VARNUCHT_ENTRY_OFFSET + 1];
}

/* The eleven bytes of kind information; the three execution bytes. */
static inline const uint8_t *varnucht_entry_info(const uint8_t *entry) { return entry + VARNUCHT_ENTRY_INFO; }
static inline const uint8_t *varnucht_entry_exec(const uint8_t *entry) { return entry + VARNUCHT_ENTRY_EXEC; }

/* WHAT A DISK SAYS OF ITSELF, in slot 1, whether a file is there or not. `image` is one that varnucht_check accepts, or any
 * whose first 256 bytes are there. */

/* How many tracks of the first side the directory has, 4 to 39; 0 where slot 1 gives no such number, which is refused 24. */
static inline unsigned varnucht_directory_tracks(const uint8_t *image) {
    unsigned more = image[255] == 255 ? 0 : image[255];
    return more <= 35 ? 4 + more : 0;
}

/* How many slots a directory of so many tracks has, 80 to 778, and how many data sectors are left, 1,211 to 1,560. */
static inline unsigned varnucht_directory_slots(unsigned tracks) { return tracks > 4 ? 20 * tracks - 2 : 80; }
static inline unsigned varnucht_directory_data(unsigned tracks) { return tracks > 4 ? 1601 - 10 * tracks : 1560; }

/* The disk's name, put into the VARNUCHT_NAME_BYTES at `name`; and how many bytes it has without the spaces and zeros at its
 * end. Bit 7 of its first byte is no part of it, and is given as 0. A disk without a name has 0 in its first byte, or 255 as
 * SAMDOS fills it, and this answers 0. Like any name it may hold any bytes. */
static inline size_t varnucht_disk_name(const uint8_t *image, uint8_t *name) {
    size_t len = VARNUCHT_NAME_BYTES;
    for (size_t i = 0; i < VARNUCHT_NAME_BYTES; i++) {
        name[i] = image[210 + i] & (i == 0 ? 127 : 255);
    }
    if (name[0] == 0 || name[0] == 127) {
        return 0;
    }
    while (len > 0 && (name[len - 1] == 32 || name[len - 1] == 0)) {
        len--;
    }
    return len;
}

/* 7. NAMES AND KINDS
 *
 * A name is given as 1 to 10 bytes with no 0 behind them, so "TUNES" has length 5. A shorter name is filled with spaces (32)
 * to ten bytes, and then names compare byte for byte, where a to z count as A to Z: "TUNES", "TUNES " and "tunes" are one
 * name, which no two files of a disk have. No other bytes are letters. A slot stores a new name as it was given, and the
 * listing shows it so. A name asked for may hold any bytes, but the first is not 0. A new name (save, rename) has bytes 32
 * to 126 alone, and the first is not 32. Anything else is refused 12.
 *
 * A kind is a number. 1 to 12 and 16 to 23 are known, and their files are listed, erased, renamed, marked and gathered. Only
 * the carried kinds, 16 to 20, and those of the Spectrum with a header of the Plus D, 1 to 4, have a body and a start
 * address for these calls. Only the carried kinds can be saved.
 *
 * Kind 21 is a subdirectory, which MasterDOS makes: a slot with a name and no sectors. It is listed, renamed, marked and,
 * where nothing is in it, erased like a file. Byte 250 of its slot is its code, and byte 254 of every live slot is the code
 * of the subdirectory that it is in, or 0: then it is in the root. Subdirectories may be in each other. A name is unique over
 * the whole disk, whatever it is in, so no call but varnucht_tree looks at the codes, and varnucht_erase and
 * varnucht_erase_many at those of a subdirectory. A save goes to the root. */
enum varnucht_kind {
    VARNUCHT_KIND_ZX_BASIC = 1,         /* kinds of the Spectrum */
    VARNUCHT_KIND_ZX_NUMBERS = 2,
    VARNUCHT_KIND_ZX_STRINGS = 3,
    VARNUCHT_KIND_ZX_GENERIC = 4,
    /* the carried kinds */
    VARNUCHT_KIND_BASIC = 16,
    VARNUCHT_KIND_NUMBERS = 17,         /* a numeric array */
    VARNUCHT_KIND_STRINGS = 18,         /* a string array */
    VARNUCHT_KIND_CODE = 19,            /* machine code, or any bytes */
    VARNUCHT_KIND_SCREEN = 20,
    /* a subdirectory */
    VARNUCHT_KIND_DIRECTORY = 21
};

/* 8. WHAT IS PROVED AND WHERE IT RUNS
 *
 * The library is written in Rattle. For every call and every input it is proved that the call ends, that its answer and
 * every lent buffer at return are those that the rules give, and that a stop between two writes leaves what section 5 says.
 * The proof is about the library's source. It takes for granted that the compiler keeps its meaning, and that the caller
 * keeps the rules on slices of section 1 and writes as section 5 says. The small functions of this header are plain C: they
 * are tested and not proved.
 *
 * libvarnucht.a for x86-64 is what the toolchain that proves the library also builds. cross/build compiles the same
 * proved module by the same compiler for aarch64 Linux, Android, iOS and wasm32: that is outside the toolchain's
 * verdict, and is tested instead, against the build for x86-64, with every call, every number that each can refuse, and
 * every buffer compared. Linux and Android run under an emulator there, wasm32 in node; iOS is compiled and was never
 * run. README.md says how much was compared. */

#ifdef __cplusplus
}
#endif

#endif
