/* What a disk says of itself: directory tracks, slots and data sectors for every byte 255 of slot 1, beside what the calls say;
 * and the disk's name, which a save into slot 1 keeps. */
#include <string.h>

#include "expect.h"

static uint8_t image[VARNUCHT_IMAGE_BYTES], listing[VARNUCHT_LISTING_BYTES], list[VARNUCHT_SAVE_LIST_BYTES];
static const uint8_t tunes[] = {'T', 'U', 'N', 'E', 'S'};

static uint64_t save(void) {
    return varnucht_save(image, sizeof image, VARNUCHT_KIND_CODE, tunes, 5, 1, 32768, NULL, 0, NULL, 0, NULL, 0, list,
                         sizeof list);
}

static void check_tracks(void) {
    memset(image, 0, sizeof image);
    for (unsigned byte = 0; byte < 256; byte++) {
        image[255] = (uint8_t)byte;
        unsigned tracks = varnucht_directory_tracks(image);
        uint64_t answer = varnucht_list(image, sizeof image, listing, sizeof listing);
        if (byte > 35 && byte < 255) {
            expect(tracks == 0 && answer == VARNUCHT_TRACKS_OUT_OF_RANGE, "no number of tracks", byte);
            continue;
        }
        unsigned more = byte == 255 ? 0 : byte;
        expect(tracks == 4 + more, "directory tracks", byte);
        expect(varnucht_refusal(answer) == 0, "an empty disk is accepted", byte);
        expect(varnucht_free(answer) == varnucht_directory_data(tracks), "all its data sectors are free", byte);
        expect(varnucht_directory_data(tracks) == (more == 0 ? 1560 : 1561 - 10 * more), "data sectors", byte);
        expect(varnucht_directory_slots(tracks) == (more == 0 ? 80 : 78 + 20 * more), "slots", byte);
    }
}

/* A stored name of ten bytes, the name that it is, and how long that is. */
struct name {
    const char *stored;
    const char *said;
    size_t len;
};

static void check_names(void) {
    static const struct name names[] = {
        {"MY TUNES  ", "MY TUNES", 8}, {"\xcdY TUNES  ", "MY TUNES", 8}, {"ABCDEFGHIJ", "ABCDEFGHIJ", 10},
        {"AB\0\0\0\0\0\0\0\0", "AB", 2}, {"A \0 \0 \0 \0 ", "A", 1},       {"A\0B       ", "A\0B", 3},
        {"\0BCDEFGHIJ", "", 0},         {"\x80" "BCDEFGHIJ", "", 0},      {"\xff\xff\xff\xff\xff\xff\xff\xff\xff\xff", "", 0},
        {"\x7f         ", "", 0},       {"          ", "", 0},            {"\xa0         ", "", 0},
        {" B        ", " B", 2},        {"*         ", "*", 1},
    };
    for (size_t i = 0; i < sizeof names / sizeof names[0]; i++) {
        uint8_t name[VARNUCHT_NAME_BYTES], again[VARNUCHT_NAME_BYTES];
        memset(image, 0, sizeof image);
        memcpy(image + 210, names[i].stored, 10);
        size_t len = varnucht_disk_name(image, name);
        expect(len == names[i].len && memcmp(name, names[i].said, len) == 0, "the disk's name", i);
        expect(varnucht_refusal(save()) == 0 && memcmp(image + 1, "TUNES", 5) == 0, "a save into slot 1", i);
        expect(memcmp(image + 210, names[i].stored, 10) == 0, "keeps its bytes", i);
        expect(varnucht_disk_name(image, again) == len && memcmp(again, name, 10) == 0, "and so its name", i);
    }
}

void check_bigger(void) {
    check_tracks();
    check_names();
}
