/* Many files erased at once: an answer for each name, each changed sector once, and what refuses the whole call. */
#include <string.h>

#include "expect.h"

static uint8_t image[VARNUCHT_IMAGE_BYTES], before[VARNUCHT_IMAGE_BYTES], body[1];
static uint8_t names[VARNUCHT_NAME_BYTES * VARNUCHT_SLOTS], answers[VARNUCHT_SLOTS], list[VARNUCHT_ERASE_LIST_BYTES];
static uint8_t save_list[VARNUCHT_SAVE_LIST_BYTES];

static void put_name(unsigned at, char first, unsigned number) {
    uint8_t *name = names + VARNUCHT_NAME_BYTES * at;
    memset(name, 32, VARNUCHT_NAME_BYTES);
    name[0] = (uint8_t)first;
    name[1] = (uint8_t)('0' + number / 100);
    name[2] = (uint8_t)('0' + number / 10 % 10);
    name[3] = (uint8_t)('0' + number % 10);
}

/* A disk with so many files in as many slots, F000 and so on. */
static void make_disk(uint8_t more_tracks, unsigned files) {
    memset(image, 0, sizeof image);
    image[255] = more_tracks;
    for (unsigned i = 0; i < files; i++) {
        put_name(0, 'F', i);
        uint64_t answer = varnucht_save(image, sizeof image, VARNUCHT_KIND_CODE, names, 4, 1, 32768, NULL, 0, NULL, 0, body, 1,
                                        save_list, sizeof save_list);
        expect(varnucht_refusal(answer) == 0, "a file to erase", i);
    }
    memcpy(before, image, sizeof image);
}

static uint64_t erase_many(unsigned many, size_t answers_len, size_t list_len) {
    return varnucht_erase_many(image, sizeof image, names, VARNUCHT_NAME_BYTES * many, answers, answers_len, list, list_len);
}

/* The sizes that always suffice do, and one byte less is too short; then no byte is changed. */
static void check_all(uint8_t more_tracks, unsigned files) {
    make_disk(more_tracks, files);
    for (unsigned i = 0; i < files; i++) {
        put_name(i, 'f', files - 1 - i);
    }
    memset(answers, 0x5c, sizeof answers);
    memset(list, 0x5c, sizeof list);
    expect(erase_many(files, files - 1, sizeof list) == VARNUCHT_BUFFER_TOO_SHORT, "answers too short", files);
    expect(erase_many(files, files, files - 1) == VARNUCHT_BUFFER_TOO_SHORT, "a list too short", files);
    expect(memcmp(image, before, sizeof image) == 0, "nothing is erased", files);
    expect(answers[0] == 0x5c && list[0] == 0x5c, "nothing is answered", files);
    uint64_t answer = erase_many(files, files, files);
    expect(varnucht_refusal(answer) == 0 && varnucht_value(answer) == files / 2, "all of them", files);
    expect(varnucht_slot(answer) == 0 && varnucht_free(answer) == 0, "the other parts", files);
    for (unsigned i = 0; i < files; i++) {
        expect(answers[i] == VARNUCHT_ACCEPTED, "an answer", i);
    }
    for (unsigned i = 1; i < files / 2; i++) {
        expect(varnucht_listed(list, i - 1) < varnucht_listed(list, i), "each sector once and rising", i);
    }
    answer = varnucht_list(image, sizeof image, NULL, 0);
    expect(varnucht_refusal(answer) == 0 && varnucht_value(answer) == 0, "no file is left", files);
}

/* Names that are refused refuse nothing of the others, and one is not there the second time. */
static void check_each(void) {
    make_disk(0, 6);
    image[256] |= 64;
    image[2 * 256] = VARNUCHT_KIND_DIRECTORY;
    memset(image + 2 * 256 + 11, 0, 210 - 11);
    image[2 * 256 + 250] = 7;
    image[4 * 256 + 254] = 7;
    static const struct {
        char first;
        unsigned number, answer;
    } each[] = {
        {'F', 2, VARNUCHT_DIRECTORY_NOT_EMPTY}, {'F', 4, 0}, {'f', 4, VARNUCHT_NAME_NOT_FOUND},
        {'\0', 0, VARNUCHT_NAME_NOT_USABLE},    {'F', 1, VARNUCHT_FILE_PROTECTED},
        {'F', 2, 0},                            {'X', 0, VARNUCHT_NAME_NOT_FOUND},
    };
    const unsigned many = sizeof each / sizeof each[0];
    for (unsigned i = 0; i < many; i++) {
        put_name(i, each[i].first, each[i].number);
    }
    for (size_t over = 1; over < VARNUCHT_NAME_BYTES; over++) {
        uint64_t answer = varnucht_erase_many(image, sizeof image, names, VARNUCHT_NAME_BYTES + over, NULL, 0, NULL, 0);
        expect(answer == VARNUCHT_NAMES_NOT_TENS, "bytes left over", over);
    }
    answers[many] = 0x5c;
    uint64_t answer = erase_many(many, many + 1, sizeof list);
    expect(varnucht_refusal(answer) == 0 && varnucht_value(answer) == 2, "two sectors", 0);
    expect(varnucht_listed(list, 0) == 1 && varnucht_listed(list, 1) == 2, "those of slots 3 and 5", 0);
    for (unsigned i = 0; i < many; i++) {
        expect(answers[i] == each[i].answer, "the answer of a name", i);
    }
    expect(answers[many] == 0x5c, "the rest stays", 0);
    answer = erase_many(0, 0, 0);
    expect(answer == 0, "no name, and nothing to do", 0);
    expect(varnucht_check(image, sizeof image) == 0, "the disk is accepted", 0);
}

/* NULL as an empty slice in every place. */
static void check_nothing(void) {
    make_disk(0, 2);
    put_name(0, 'F', 1);
    uint64_t answer = varnucht_erase_many(image, sizeof image, NULL, 0, NULL, 0, NULL, 0);
    expect(answer == 0, "no names", 0);
    expect(varnucht_erase_many(NULL, 0, names, 10, answers, 1, list, 2) == VARNUCHT_NOT_AN_IMAGE, "no image", 0);
    answer = varnucht_erase_many(image, sizeof image, names, 10, NULL, 0, list, 2);
    expect(answer == VARNUCHT_BUFFER_TOO_SHORT, "no answers", 0);
    answer = varnucht_erase_many(image, sizeof image, names, 10, answers, 1, NULL, 0);
    expect(answer == VARNUCHT_BUFFER_TOO_SHORT, "no list", 0);
    expect(memcmp(image, before, sizeof image) == 0, "nothing is erased", 0);
    put_name(0, 'X', 1);
    answer = varnucht_erase_many(image, sizeof image, names, 10, answers, 1, NULL, 0);
    expect(answer == 0 && answers[0] == VARNUCHT_NAME_NOT_FOUND, "nothing to list", 0);
}

void check_erase_many(void) {
    check_all(0, 80);
    check_all(35, VARNUCHT_SLOTS);
    check_each();
    check_nothing();
}
