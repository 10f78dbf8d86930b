/* The sizes that the header calls always long enough are: on the fullest disks, and there one byte less is too short. */
#include <string.h>

#include "expect.h"

static uint8_t image[VARNUCHT_IMAGE_BYTES], body[VARNUCHT_BODY_BYTES + 1], out[VARNUCHT_BODY_BYTES];
static uint8_t list[VARNUCHT_SAVE_LIST_BYTES];
static const uint8_t tunes[] = {'T', 'U', 'N', 'E', 'S'};

static uint64_t save(const uint8_t *name, size_t name_len, size_t body_len, size_t list_len) {
    return varnucht_save(image, sizeof image, VARNUCHT_KIND_CODE, name, name_len, 31, 49151, NULL, 0, NULL, 0, body,
                         body_len, list, list_len);
}

/* The greatest body takes every sector, and a byte more is refused 19. */
static void check_greatest_body(void) {
    memset(image, 0, sizeof image);
    expect(save(tunes, 5, VARNUCHT_BODY_BYTES + 1, sizeof list) == VARNUCHT_TOO_FEW_SECTORS, "a body too long", 0);
    expect(save(tunes, 5, VARNUCHT_BODY_BYTES, 2 * 1561 - 1) == VARNUCHT_BUFFER_TOO_SHORT, "a list too short", 0);
    uint64_t answer = save(tunes, 5, VARNUCHT_BODY_BYTES, sizeof list);
    expect(varnucht_refusal(answer) == 0 && varnucht_value(answer) == 1561, "the greatest save", 0);
    expect(varnucht_read(image, sizeof image, tunes, 5, out, sizeof out - 1) == VARNUCHT_BUFFER_TOO_SHORT, "too short", 0);
    answer = varnucht_read(image, sizeof image, tunes, 5, out, sizeof out);
    expect(varnucht_refusal(answer) == 0 && varnucht_value(answer) == VARNUCHT_BODY_BYTES, "the greatest read", 0);
    expect(memcmp(out, body, VARNUCHT_BODY_BYTES) == 0, "the greatest body reads back", 0);
    answer = varnucht_start(image, sizeof image, tunes, 5);
    expect(varnucht_refusal(answer) == 0 && varnucht_value(answer) == 540671, "the greatest address", 0);
}

/* A subdirectory in slot 1, which takes no sector, the directory's end at slot 2 and an old name in slot 3, which is in another
 * sector: that is named too, behind all data sectors. */
static void check_longest_list(void) {
    memset(image, 0, sizeof image);
    image[0] = VARNUCHT_KIND_DIRECTORY;
    image[1] = 'A';
    image[2 * 256] = VARNUCHT_KIND_CODE;
    image[2 * 256 + 1] = 'X';
    expect(varnucht_check(image, sizeof image) == 0, "a slot behind the end is not looked at", 0);
    expect(save(tunes, 5, VARNUCHT_BODY_BYTES, sizeof list - 1) == VARNUCHT_BUFFER_TOO_SHORT, "one byte too short", 0);
    uint64_t answer = save(tunes, 5, VARNUCHT_BODY_BYTES, sizeof list);
    expect(varnucht_refusal(answer) == 0 && varnucht_value(answer) == 1562, "the longest list", 0);
    expect(varnucht_listed(list, 1560) == 1 && varnucht_listed(list, 1561) == 0, "its last two sectors", 0);
    expect(image[2 * 256] == 0 && image[2 * 256 + 1] == 0, "the old name is gone", 0);
    expect(varnucht_check(image, sizeof image) == 0, "the disk is accepted", 0);
}

/* The greatest body of a kind of the Spectrum, which varnucht_open tells and a listing does not; and its greatest start. The
 * file is saved as code and then given the other kind, with the header that goes with it. */
static void check_greatest_spectrum(void) {
    memset(image, 0, sizeof image);
    expect(varnucht_refusal(save(tunes, 5, 65535, sizeof list)) == 0, "a file of 129 sectors", 0);
    image[0] = VARNUCHT_KIND_ZX_GENERIC;
    memset(image + 80 * 512, 255, 5);
    uint64_t answer = varnucht_list(image, sizeof image, out, sizeof out);
    expect(varnucht_refusal(answer) == 0 && varnucht_entry_spectrum(out), "a Spectrum file is listed", 0);
    expect(varnucht_entry_length(out) == 0 && varnucht_entry_sectors(out) == 129, "without its length", 0);
    answer = varnucht_open(image, sizeof image, tunes, 5);
    expect(varnucht_refusal(answer) == 0 && varnucht_value(answer) == 65535, "its length", 0);
    answer = varnucht_start(image, sizeof image, tunes, 5);
    expect(varnucht_refusal(answer) == 0 && varnucht_value(answer) == 65535, "its start", 0);
    expect(varnucht_read(image, sizeof image, tunes, 5, out, 65534) == VARNUCHT_BUFFER_TOO_SHORT, "too short", 0);
    answer = varnucht_read(image, sizeof image, tunes, 5, out, 65535);
    expect(varnucht_refusal(answer) == 0 && varnucht_value(answer) == 65535, "its body", 0);
    expect(memcmp(out, body, 65535) == 0, "its body as it was saved", 0);
    memset(image, 0, sizeof image);
    expect(varnucht_refusal(save(tunes, 5, 501, sizeof list)) == 0, "a file of one sector", 0);
    image[0] = VARNUCHT_KIND_ZX_BASIC;
    expect(varnucht_refusal(varnucht_check(image, sizeof image)) == 0, "501 bytes fit", 0);
    image[80 * 512 + 1] = 502 % 256;
    expect(varnucht_check(image, sizeof image) == VARNUCHT_BODY_TOO_LONG + 256 * 1, "502 bytes do not", 0);
}

/* As many files as the biggest directory has slots fill the listing. The one after them is refused 18. */
static void check_longest_listing(void) {
    memset(image, 0, sizeof image);
    image[255] = 35;
    const unsigned tracks = varnucht_directory_tracks(image);
    expect(varnucht_directory_slots(tracks) == VARNUCHT_SLOTS, "the most slots", tracks);
    for (unsigned i = 0; i < VARNUCHT_SLOTS; i++) {
        uint8_t name[2] = {(uint8_t)('A' + i / 40), (uint8_t)('0' + i % 40)};
        expect(varnucht_refusal(save(name, 2, i % 502, sizeof list)) == 0, "a file of 778", i);
    }
    expect(save(tunes, 5, 0, sizeof list) == VARNUCHT_NO_FREE_SLOT, "the file after 778", 0);
    uint64_t answer = varnucht_list(image, sizeof image, out, VARNUCHT_LISTING_BYTES - 1);
    expect(answer == VARNUCHT_BUFFER_TOO_SHORT, "a listing too long", 0);
    answer = varnucht_list(image, sizeof image, out, VARNUCHT_LISTING_BYTES);
    expect(varnucht_refusal(answer) == 0 && varnucht_value(answer) == VARNUCHT_SLOTS, "the longest listing", 0);
    expect(varnucht_free(answer) == varnucht_directory_data(tracks) - VARNUCHT_SLOTS, "its free sectors", 0);
    expect(varnucht_entry_slot(varnucht_entry(out, VARNUCHT_SLOTS - 1)) == VARNUCHT_SLOTS, "its last entry", 0);
}

typedef uint64_t change(uint8_t *, size_t, const uint8_t *, size_t, uint8_t *, size_t);

/* Two bytes are enough for every other change and one is not; of an odd number the last holds nothing. */
static void check_other_lists(void) {
    static change *const changes[] = {varnucht_hide, varnucht_show, varnucht_protect, varnucht_release, varnucht_erase};
    static const uint8_t first[] = {'A', '0'}, other[] = {'Z', 'Z'};
    const size_t room = VARNUCHT_CHANGE_LIST_BYTES;
    for (unsigned i = 0; i < sizeof changes / sizeof changes[0]; i++) {
        uint64_t answer = changes[i](image, sizeof image, first, 2, list, room - 1);
        expect(answer == VARNUCHT_BUFFER_TOO_SHORT, "a change's list too short", i);
        answer = changes[i](image, sizeof image, first, 2, list, room);
        expect(varnucht_refusal(answer) == 0 && varnucht_value(answer) == 1, "a change", i);
        expect(varnucht_listed(list, 0) == 0, "its sector", i);
    }
    expect(save(first, 2, 0, 3) == VARNUCHT_BUFFER_TOO_SHORT, "an odd byte holds no number", 0);
    expect(varnucht_refusal(save(first, 2, 0, 4)) == 0, "four bytes hold two numbers", 0);
    uint64_t answer = varnucht_rename(image, sizeof image, first, 2, other, 2, list, room - 1);
    expect(answer == VARNUCHT_BUFFER_TOO_SHORT, "a rename's list too short", 0);
    answer = varnucht_rename(image, sizeof image, first, 2, other, 2, list, room);
    expect(varnucht_refusal(answer) == 0 && varnucht_value(answer) == 1, "a rename", 0);
}

void check_size_limits(void) {
    for (size_t i = 0; i < sizeof body; i++) {
        body[i] = (uint8_t)(drawn() >> 32);
    }
    check_greatest_body();
    check_longest_list();
    check_greatest_spectrum();
    check_longest_listing();
    check_other_lists();
    expect(varnucht_check(image, sizeof image) == 0, "the disk is accepted", 0);
}
