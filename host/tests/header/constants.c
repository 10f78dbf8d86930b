/* Every constant has the number that document 01 gives. */
#include "expect.h"

static void check_reasons(void) {
    static const int reasons[] = {
        VARNUCHT_ACCEPTED,
        VARNUCHT_NOT_AN_IMAGE,
        VARNUCHT_KIND_UNKNOWN,
        VARNUCHT_NAME_MISSING,
        VARNUCHT_COUNT_OUT_OF_RANGE,
        VARNUCHT_BITS_DIFFER,
        VARNUCHT_FIRST_NOT_OWN,
        VARNUCHT_LENGTH_TOO_GREAT,
        VARNUCHT_SECTOR_SHARED,
        VARNUCHT_NAME_TWICE,
        VARNUCHT_CHAIN_BROKEN,
        VARNUCHT_HEADER_DIFFERS,
        VARNUCHT_NAME_NOT_USABLE,
        VARNUCHT_WRONG_KIND,
        VARNUCHT_START_OUT_OF_RANGE,
        VARNUCHT_NAME_NOT_FOUND,
        VARNUCHT_NAME_TAKEN,
        VARNUCHT_FILE_PROTECTED,
        VARNUCHT_NO_FREE_SLOT,
        VARNUCHT_TOO_FEW_SECTORS,
        VARNUCHT_BUFFER_TOO_SHORT,
        VARNUCHT_NO_SUCH_SECTOR,
        VARNUCHT_WASTE_SECTORS,
        VARNUCHT_NAMES_NOT_TENS,
    };
    expect(sizeof reasons / sizeof reasons[0] == 24, "how many refusals", 24);
    for (int number = 0; number < 24; number++) {
        expect(reasons[number] == number, "the number of a refusal", (unsigned long)number);
    }
    expect(VARNUCHT_TRACKS_OUT_OF_RANGE == 24, "the number of a refusal", 24);
    expect(VARNUCHT_BODY_TOO_LONG == 25, "the number of a refusal", 25);
    expect(VARNUCHT_CODE_NOT_OWN == 26, "the number of a refusal", 26);
    expect(VARNUCHT_DIRECTORY_MISSING == 27, "the number of a refusal", 27);
    expect(VARNUCHT_DIRECTORY_IN_ITSELF == 28, "the number of a refusal", 28);
    expect(VARNUCHT_DIRECTORY_NOT_EMPTY == 29, "the number of a refusal", 29);
    expect(VARNUCHT_RECORDING_MOVED == 30, "the number of a refusal", 30);
    expect(VARNUCHT_REPORT_FULL == 31, "the number of a refusal", 31);
    expect(VARNUCHT_NO_RUN == 32, "the number of a refusal", 32);
}

static void check_sizes(void) {
    expect(VARNUCHT_IMAGE_BYTES == 819200, "bytes of an image", 0);
    expect(VARNUCHT_SECTOR_BYTES == 512, "bytes of a sector", 0);
    expect(VARNUCHT_DATA_SECTORS == 1560, "data sectors", 0);
    expect(VARNUCHT_SLOTS == 78 + 20 * 35, "slots", 0);
    expect(VARNUCHT_NAME_BYTES == 10, "bytes of a name", 0);
    expect(VARNUCHT_INFO_BYTES == 11, "kind information", 0);
    expect(VARNUCHT_EXEC_BYTES == 3, "execution bytes", 0);
    expect(VARNUCHT_ENTRY_BYTES == 2 + 256, "bytes of an entry", 0);
    expect(VARNUCHT_LISTING_BYTES == 778 * 258, "bytes of a listing", 0);
    expect(VARNUCHT_TREE_BYTES == 2 * 778, "bytes of a tree", 0);
    expect(VARNUCHT_BODY_BYTES == 510 * 1560 - 9, "bytes of a body", 0);
    expect(VARNUCHT_SAVE_LIST_BYTES == 2 * (1560 + 2), "bytes of a save's list", 0);
    expect(VARNUCHT_GATHER_LIST_BYTES == 2 * (1560 / 2 + 1), "bytes of a gather's list", 0);
    expect(VARNUCHT_ERASE_LIST_BYTES == 2 * (39 * 10 - 1), "bytes of the list of an erase of many", 0);
    expect(VARNUCHT_PIECE_LIST_BYTES == 2 * (1560 - 2), "bytes of the list of a piece", 0);
    expect(VARNUCHT_CLOSE_LIST_BYTES == 2 * 4, "bytes of the list of a close", 0);
    expect(VARNUCHT_CHANGE_LIST_BYTES == 2, "bytes of another list", 0);
    expect(VARNUCHT_RECORD_BYTES == 2048, "bytes of a record", 0);
    expect(VARNUCHT_REPORT_BYTES == 4 * 124, "bytes of a report", 0);
}

/* The places of a report follow each other: 1 + 32 disks, 64 kinds, two sums, 12 classes, and 13 that are kept. */
static void check_places(void) {
    expect(VARNUCHT_REPORT_ACCEPTED == 0 && VARNUCHT_REPORT_REFUSED == 0, "disks", 0);
    expect(VARNUCHT_REPORT_KINDS == 1 + 32, "kinds", 0);
    expect(VARNUCHT_REPORT_FILE_SECTORS == VARNUCHT_REPORT_KINDS + 64, "file sectors", 0);
    expect(VARNUCHT_REPORT_FREE_SECTORS == VARNUCHT_REPORT_FILE_SECTORS + 1, "free sectors", 0);
    expect(VARNUCHT_REPORT_CLASSES == VARNUCHT_REPORT_FREE_SECTORS + 1, "classes", 0);
    expect(VARNUCHT_REPORT_CLASSES + VARNUCHT_REPORT_CLASS_COUNT + 13 == 124, "the rest", 0);
}

/* A field's place in an entry is two more than in the slot. */
static void check_fields(void) {
    expect(VARNUCHT_ENTRY_SLOT == 0, "slot number", 0);
    expect(VARNUCHT_ENTRY_STATUS - 2 == 0, "status", 0);
    expect(VARNUCHT_ENTRY_NAME - 2 == 1, "name", 0);
    expect(VARNUCHT_ENTRY_SECTORS - 2 == 11, "sector count", 0);
    expect(VARNUCHT_ENTRY_FIRST_TRACK - 2 == 13, "first track", 0);
    expect(VARNUCHT_ENTRY_FIRST_SECTOR - 2 == 14, "first sector", 0);
    expect(VARNUCHT_ENTRY_MAP - 2 == 15, "map", 0);
    expect(VARNUCHT_ENTRY_INFO - 2 == 221, "kind information", 0);
    expect(VARNUCHT_ENTRY_PAGE - 2 == 236, "start page", 0);
    expect(VARNUCHT_ENTRY_OFFSET - 2 == 237, "offset", 0);
    expect(VARNUCHT_ENTRY_PAGES - 2 == 239, "pages", 0);
    expect(VARNUCHT_ENTRY_REMAINDER - 2 == 240, "remainder", 0);
    expect(VARNUCHT_ENTRY_EXEC - 2 == 242, "execution bytes", 0);
    expect(VARNUCHT_ENTRY_CODE - 2 == 250, "a directory's code", 0);
    expect(VARNUCHT_ENTRY_PARENT - 2 == 254, "the code of the directory around", 0);
}

static void check_kinds(void) {
    expect(VARNUCHT_KIND_ZX_BASIC == 1, "ZX BASIC", 0);
    expect(VARNUCHT_KIND_ZX_NUMBERS == 2, "ZX numeric array", 0);
    expect(VARNUCHT_KIND_ZX_STRINGS == 3, "ZX string array", 0);
    expect(VARNUCHT_KIND_ZX_GENERIC == 4, "ZX generic", 0);
    expect(VARNUCHT_KIND_BASIC == 16, "BASIC", 0);
    expect(VARNUCHT_KIND_NUMBERS == 17, "numeric array", 0);
    expect(VARNUCHT_KIND_STRINGS == 18, "string array", 0);
    expect(VARNUCHT_KIND_CODE == 19, "code", 0);
    expect(VARNUCHT_KIND_SCREEN == 20, "screen", 0);
    expect(VARNUCHT_KIND_DIRECTORY == 21, "directory", 0);
}

void check_constants(void) {
    check_reasons();
    check_sizes();
    check_places();
    check_fields();
    check_kinds();
}
