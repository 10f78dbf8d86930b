/* The accessors take any number apart into refusal + 256 * slot + 2^24 * value + 2^48 * free. */
#include "expect.h"

static void check_parts(uint64_t refusal, uint64_t slot, uint64_t value, uint64_t free_sectors, unsigned long at) {
    uint64_t answer = refusal + 256 * slot + 16777216 * value + 281474976710656u * free_sectors;
    expect(varnucht_refusal(answer) == refusal, "the refusal of an answer", at);
    expect(varnucht_slot(answer) == slot, "the slot of an answer", at);
    expect(varnucht_value(answer) == value, "the value of an answer", at);
    expect(varnucht_free(answer) == free_sectors, "the free sectors of an answer", at);
}

/* Parts of the library's size, each at its least and its greatest beside the others. */
static void check_edges(void) {
    for (unsigned i = 0; i < 16; i++) {
        check_parts(i & 1 ? 255 : 0, i & 2 ? 65535 : 0, i & 4 ? 16777215 : 0, i & 8 ? 65535 : 0, i);
    }
    check_parts(0, 0, 80, 1560, 16);
    check_parts(0, 0, 818688, 0, 17);
    check_parts(11, 80, 0, 0, 18);
}

void check_answers(void) {
    check_edges();
    for (unsigned long i = 0; i < 10000; i++) {
        uint64_t answer = drawn();
        check_parts(answer % 256, answer / 256 % 65536, answer / 16777216 % 16777216, answer / 281474976710656u, i);
    }
    for (unsigned long i = 0; i < 1000; i++) {
        uint8_t list[8] = {0, 0, 0, 0, 0, 0, 0, 0};
        uint64_t number = drawn() % 65536;
        size_t at = drawn() % 4;
        list[2 * at] = (uint8_t)(number % 256);
        list[2 * at + 1] = (uint8_t)(number / 256);
        expect(varnucht_listed(list, at) == number, "a number of a list", i);
    }
}
