/* Gathering: what the header says of varnucht_gather, of its list and of 32. */
#include <string.h>

#include "expect.h"

static uint8_t image[VARNUCHT_IMAGE_BYTES], before[VARNUCHT_IMAGE_BYTES];
static uint8_t body[510 * 780 - 9], out[510 * 780 - 9], list[VARNUCHT_GATHER_LIST_BYTES + 2], any[VARNUCHT_SAVE_LIST_BYTES];
static const uint8_t tune[] = {'T', 'U', 'N', 'E'}, wall[] = {'W', 'A', 'L', 'L'}, gap[] = {'G', 'A', 'P'};

/* The sector number and the address of map bit b. */
static unsigned number(unsigned b) {
    return (b < 760 ? 20 * (4 + b / 10) : 20 * ((b - 760) / 10) + 10) + b % 10;
}

static void address(unsigned b, uint8_t *to) {
    to[0] = (uint8_t)(b < 760 ? 4 + b / 10 : 128 + (b - 760) / 10);
    to[1] = (uint8_t)(b % 10 + 1);
}

static void save(const uint8_t *name, size_t name_len, unsigned sectors) {
    uint64_t answer = varnucht_save(image, sizeof image, VARNUCHT_KIND_CODE, name, name_len, 1, 32768, NULL, 0, NULL, 0, body,
                                    510 * sectors - 9, any, sizeof any);
    expect(varnucht_refusal(answer) == 0, "a file to begin with", sectors);
}

static uint64_t gather(const uint8_t *name, size_t name_len, size_t list_len) {
    memcpy(before, image, sizeof image);
    memset(list, 170, sizeof list);
    return varnucht_gather(image, sizeof image, name, name_len, list, list_len);
}

/* Nothing has changed of the image, nor of the list. */
static int untouched(void) {
    for (size_t i = 0; i < sizeof list; i++) {
        if (list[i] != 170) {
            return 0;
        }
    }
    return memcmp(image, before, sizeof image) == 0;
}

static int reads(unsigned sectors) {
    size_t len = 510 * sectors - 9;
    uint64_t answer = varnucht_read(image, sizeof image, tune, 4, out, sizeof out);
    return varnucht_refusal(answer) == 0 && varnucht_value(answer) == len && memcmp(out, body, len) == 0;
}

/* TUNE on bit 0 and on two bits behind a wall of so many sectors. */
static void lay_out(unsigned sectors) {
    memset(image, 0, sizeof image);
    save(gap, 3, 1);
    save(wall, 4, sectors);
    varnucht_erase(image, sizeof image, gap, 3, any, 2);
    save(tune, 4, 3);
    expect(varnucht_check(image, sizeof image) == 0, "the disk is accepted", sectors);
}

static void check_move(void) {
    lay_out(10);
    expect(gather(tune, 4, 2 * 4 - 1) == VARNUCHT_BUFFER_TOO_SHORT && untouched(), "a list one byte too short", 0);
    expect(gather(tune, 4, 2 * 4) == UINT64_C(4) << 24, "three sectors and the directory's", 0);
    for (unsigned i = 0; i < 3; i++) {
        expect(varnucht_listed(list, i) == number(13 + i), "its sectors in the order of the chain", i);
    }
    expect(varnucht_listed(list, 3) == 0 && list[8] == 170, "the directory's last, and the rest stays", 0);
    expect(reads(3) && varnucht_check(image, sizeof image) == 0, "the body is what it was", 0);
    /* TUNE is in slot 1. Bytes 13 and 14 are its first address, 15 to 209 its map: bits 13 to 15 are bits 5 to 7 of byte 16. */
    expect(memcmp(image, before, 13) == 0 && memcmp(image + 210, before + 210, 512 - 210) == 0, "the rest of the slot", 0);
    expect(image[13] == 5 && image[14] == 4 && image[15] == 0 && image[16] == 0xe0, "its first sector and its map", 0);
    expect(memcmp(image + 512 * number(0), before + 512 * number(0), 512) == 0, "what it leaves stays", 0);
    expect(gather(tune, 4, 0) == 0 && untouched(), "in a row already, with no room in the list", 0);
    expect(varnucht_gather(image, sizeof image, tune, 4, NULL, 0) == 0 && untouched(), "and with NULL", 0);
    expect(varnucht_gather(image, sizeof image, wall, 4, NULL, 0) == 0 && untouched(), "a file that was never scattered", 0);
}

/* 12, 13, 15, 32, 20, in this order, and NULL as an empty slice in every place. */
static void check_refusals(void) {
    lay_out(10);
    expect(gather(NULL, 0, 0) == VARNUCHT_NAME_NOT_USABLE && untouched(), "no name", 0);
    expect(gather(gap, 3, 0) == VARNUCHT_NAME_NOT_FOUND && untouched(), "no such name", 0);
    expect(varnucht_gather(NULL, 0, tune, 4, list, sizeof list) == VARNUCHT_NOT_AN_IMAGE, "no image", 0);
    expect(varnucht_gather(image, sizeof image, tune, 4, NULL, 0) == VARNUCHT_BUFFER_TOO_SHORT && untouched(), "no list", 0);
    image[2 * 256] = VARNUCHT_KIND_DIRECTORY;
    memset(image + 2 * 256 + 1, 32, 10);
    memcpy(image + 2 * 256 + 1, gap, 3);
    expect(varnucht_check(image, sizeof image) == 0, "a subdirectory in slot 3", 0);
    expect(gather(gap, 3, 0) == (VARNUCHT_WRONG_KIND | 3 * 256) && untouched(), "a subdirectory, with its slot", 0);
    /* The wall up to three sectors before the end: the file lies on bit 0 and on the first two of them. */
    lay_out(1556);
    expect(gather(tune, 4, 0) == VARNUCHT_NO_RUN && untouched(), "32 comes before 20, and no slot with it", 0);
    expect(gather(tune, 4, sizeof list) == VARNUCHT_NO_RUN && untouched(), "one free sector, and three are needed", 0);
}

/* Half of all data sectors, chained from the last to the first, move to the other half: the longest list. */
static void check_longest_list(void) {
    memset(image, 0, sizeof image);
    save(tune, 4, 780);
    for (unsigned b = 0; b < 390; b++) {
        uint8_t *low = image + 512 * number(b), *high = image + 512 * number(779 - b), hold[512];
        memcpy(hold, low, 512);
        memcpy(low, high, 512);
        memcpy(high, hold, 512);
    }
    for (unsigned b = 0; b < 780; b++) {
        uint8_t *link = image + 512 * number(b) + 510;
        link[0] = link[1] = 0;
        if (b > 0) {
            address(b - 1, link);
        }
    }
    address(779, image + 13);
    expect(reads(780), "the file falls from bit 779 to bit 0", 0);
    expect(gather(tune, 4, VARNUCHT_GATHER_LIST_BYTES - 1) == VARNUCHT_BUFFER_TOO_SHORT && untouched(), "too short", 0);
    expect(gather(tune, 4, VARNUCHT_GATHER_LIST_BYTES) == UINT64_C(781) << 24, "the longest list", 0);
    for (unsigned i = 0; i < 780; i++) {
        expect(varnucht_listed(list, i) == number(780 + i), "its sectors in the order of the chain", i);
    }
    expect(varnucht_listed(list, 780) == 0 && list[VARNUCHT_GATHER_LIST_BYTES] == 170, "the directory's last", 0);
    expect(reads(780) && varnucht_check(image, sizeof image) == 0, "the body is what it was", 0);
}

void check_gathering(void) {
    for (size_t i = 0; i < sizeof body; i++) {
        body[i] = (uint8_t)drawn();
    }
    check_move();
    check_refusals();
    check_longest_list();
}
