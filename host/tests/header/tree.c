/* Subdirectories: what the header says of varnucht_tree, of 26 to 29, and of the functions that read codes from a listing. */
#include <string.h>

#include "expect.h"

static uint8_t image[VARNUCHT_IMAGE_BYTES], before[VARNUCHT_IMAGE_BYTES], listing[VARNUCHT_LISTING_BYTES];
static uint8_t slots[VARNUCHT_TREE_BYTES], list[VARNUCHT_CHANGE_LIST_BYTES];
static const uint8_t games[] = {'G', 'A', 'M', 'E', 'S'}, chess[] = {'C', 'H', 'E', 'S', 'S'}, songs[] = {'S', 'O', 'N', 'G'};

/* Where slot 1 to 778 begins. */
static uint8_t *slot(unsigned number) {
    unsigned past = number > 80 ? number + 1 : number - 1;
    return image + past / 20 * 10240 + past % 20 * 256;
}

/* A subdirectory, with a name of at most ten letters. */
static void put_directory(unsigned number, const char *name, unsigned code, unsigned parent) {
    uint8_t *at = slot(number), size = image[255];
    memset(at, 0, 256);
    memset(at + 1, 32, 10);
    memcpy(at + 1, name, strlen(name));
    at[0] = VARNUCHT_KIND_DIRECTORY;
    at[250] = (uint8_t)code;
    at[254] = (uint8_t)parent;
    image[255] = size;
}

/* A file of one sector in the next slot, in a subdirectory. */
static void put_file(unsigned number, const uint8_t *name, size_t name_len, unsigned parent) {
    uint8_t written[4];
    uint64_t answer = varnucht_save(image, sizeof image, VARNUCHT_KIND_CODE, name, name_len, 1, 32768, NULL, 0, NULL, 0, NULL,
                                    0, written, sizeof written);
    expect(varnucht_refusal(answer) == 0, "a file to begin with", number);
    slot(number)[254] = (uint8_t)parent;
}

static uint64_t tree(const uint8_t *name, size_t name_len, size_t slots_len) {
    memset(slots, 170, sizeof slots);
    return varnucht_tree(image, sizeof image, name, name_len, slots, slots_len);
}

/* Nothing has changed of the image, nor of the buffer from this byte on. */
static int kept_from(size_t at) {
    for (; at < sizeof slots && slots[at] == 170; at++) {
    }
    return at == sizeof slots && memcmp(image, before, sizeof image) == 0;
}

/* CHESS in slot 1 lies in GAMES, slot 2; DEEP in slot 3 too, with code 255; SONGS in slot 4 is in the root and empty. */
static void lay_out(void) {
    memset(image, 0, sizeof image);
    put_file(1, chess, 5, 7);
    put_directory(2, "GAMES", 7, 0);
    put_directory(3, "DEEP", 255, 7);
    put_directory(4, "SONG", 1, 0);
    memcpy(before, image, sizeof image);
}

static void check_answers_of_trees(void) {
    lay_out();
    static const unsigned whole[] = {2, 1, 3, 4};
    uint64_t answer = tree(NULL, 0, sizeof slots);
    expect(answer == UINT64_C(4) << 24 && kept_from(8), "all lies beneath the root", 0);
    for (size_t i = 0; i < 4; i++) {
        expect(varnucht_listed(slots, i) == whole[i], "a slot beneath the root", i);
    }
    expect(tree(games, 0, 8) == answer && kept_from(8), "no bytes of a name are the root too", 0);
    answer = tree(games, 5, 4);
    expect(answer == UINT64_C(2) << 24 && kept_from(4), "two lie beneath GAMES", 0);
    expect(varnucht_listed(slots, 0) == 1 && varnucht_listed(slots, 1) == 3, "the slots beneath GAMES", 0);
    for (size_t len = 0; len < 4; len++) {
        expect(tree(games, 5, len) == VARNUCHT_BUFFER_TOO_SHORT && kept_from(0), "a buffer too short", len);
    }
    expect(tree(songs, 4, 0) == 0, "nothing lies beneath SONG", 0);
    expect(varnucht_tree(image, sizeof image, songs, 4, NULL, 0) == 0, "and that needs no buffer", 0);
    expect(tree(chess, 5, sizeof slots) == VARNUCHT_WRONG_KIND + 256 * 1, "a file is no subdirectory", 0);
    expect(tree(chess, 4, sizeof slots) == VARNUCHT_NAME_NOT_FOUND, "there is no such name", 0);
    static const uint8_t long_name[11] = {'G'}, zero[] = {0};
    expect(tree(long_name, 11, sizeof slots) == VARNUCHT_NAME_NOT_USABLE, "a name too long", 0);
    expect(tree(zero, 1, sizeof slots) == VARNUCHT_NAME_NOT_USABLE && kept_from(0), "a name that begins with 0", 0);
}

static void check_codes(void) {
    lay_out();
    uint64_t answer = varnucht_list(image, sizeof image, listing, sizeof listing);
    expect(varnucht_value(answer) == 4 && varnucht_free(answer) == 1559, "a subdirectory takes no sector", 0);
    static const unsigned codes[] = {0, 7, 255, 1}, parents[] = {7, 0, 7, 0};
    for (size_t i = 0; i < 4; i++) {
        const uint8_t *entry = varnucht_entry(listing, i);
        expect(varnucht_entry_directory(entry) == (i > 0), "a subdirectory", i);
        expect(varnucht_entry_code(entry) == codes[i] && varnucht_entry_parent(entry) == parents[i], "its codes", i);
        expect(varnucht_entry_sectors(entry) == (i == 0 ? 1 : 0), "its sectors", i);
    }
    slot(4)[250] = 7;
    expect(tree(NULL, 0, 0) == VARNUCHT_CODE_NOT_OWN + 256 * 4, "a code twice", 0);
    slot(3)[250] = 0;
    expect(tree(NULL, 0, 0) == VARNUCHT_CODE_NOT_OWN + 256 * 3, "a code of 0", 0);
    lay_out();
    slot(2)[254] = 255;
    expect(tree(NULL, 0, 0) == VARNUCHT_DIRECTORY_IN_ITSELF + 256 * 2, "each in the other", 0);
    slot(1)[254] = 8;
    expect(tree(NULL, 0, 0) == VARNUCHT_DIRECTORY_MISSING + 256 * 1, "in a subdirectory that is not there", 0);
    expect(varnucht_check(image, sizeof image) == 0, "other calls take that disk", 0);
    slot(2)[12] = 1;
    expect(varnucht_check(image, sizeof image) == VARNUCHT_COUNT_OUT_OF_RANGE + 256 * 2, "a count that is not 0", 0);
    slot(2)[12] = 0;
    slot(2)[209] = 1;
    expect(varnucht_check(image, sizeof image) == VARNUCHT_BITS_DIFFER + 256 * 2, "a map that is not empty", 0);
}

static void check_erases(void) {
    lay_out();
    uint64_t answer = varnucht_erase(image, sizeof image, games, 5, list, sizeof list);
    expect(answer == VARNUCHT_DIRECTORY_NOT_EMPTY + 256 * 2 && kept_from(sizeof slots), "GAMES is not empty", 0);
    answer = varnucht_erase(image, sizeof image, games, 5, NULL, 0);
    expect(answer == VARNUCHT_DIRECTORY_NOT_EMPTY + 256 * 2, "that comes before the list", 0);
    expect(varnucht_refusal(varnucht_protect(image, sizeof image, games, 5, list, sizeof list)) == 0, "GAMES protected", 0);
    answer = varnucht_erase(image, sizeof image, games, 5, list, sizeof list);
    expect(answer == VARNUCHT_FILE_PROTECTED + 256 * 2, "protection comes before that", 0);
    answer = varnucht_erase(image, sizeof image, songs, 4, list, sizeof list);
    expect(answer == UINT64_C(1) << 24 && slot(4)[0] == 0 && varnucht_listed(list, 0) == 1, "SONG is empty", 0);
}

/* Every slot of the biggest directory: 255 subdirectories, each in the one before, and files in the last. The tree fills the
 * buffer that always suffices, and one byte less is too short. */
static void check_biggest_tree(void) {
    memset(image, 0, sizeof image);
    image[255] = 35;
    for (unsigned i = 1; i <= 255; i++) {
        char name[] = {'D', (char)('0' + i / 100), (char)('0' + i / 10 % 10), (char)('0' + i % 10), 0};
        put_directory(i, name, i, i - 1);
    }
    for (unsigned i = 256; i <= VARNUCHT_SLOTS; i++) {
        uint8_t name[] = {'F', (uint8_t)('0' + i / 100), (uint8_t)('0' + i / 10 % 10), (uint8_t)('0' + i % 10)};
        put_file(i, name, 4, 255);
    }
    memcpy(before, image, sizeof image);
    expect(tree(NULL, 0, sizeof slots - 1) == VARNUCHT_BUFFER_TOO_SHORT && kept_from(0), "one byte too short", 0);
    uint64_t answer = tree(NULL, 0, sizeof slots);
    expect(answer == (uint64_t)VARNUCHT_SLOTS << 24, "the biggest tree", 0);
    for (unsigned i = 0; i < VARNUCHT_SLOTS; i++) {
        expect(varnucht_listed(slots, i) == i + 1, "its slots", i);
    }
    slot(1)[254] = 255;
    expect(tree(NULL, 0, 0) == VARNUCHT_DIRECTORY_IN_ITSELF + 256 * 1, "the longest ring", 0);
}

void check_trees(void) {
    check_answers_of_trees();
    check_codes();
    check_erases();
    check_biggest_tree();
}
