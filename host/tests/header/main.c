/* Runs the checks of the header. With the word `words` it prints each number of refusal and its words instead. */
#include <stdio.h>
#include <string.h>

#include "expect.h"

static unsigned long held, failed;

void expect(int holds, const char *what, unsigned long at) {
    if (holds) {
        held++;
        return;
    }
    failed++;
    printf("does not hold: %s at %lu\n", what, at);
}

uint64_t drawn(void) {
    static uint64_t state = 0x9e3779b97f4a7c15u;
    state ^= state << 13;
    state ^= state >> 7;
    state ^= state << 17;
    return state * 0x2545f4914f6cdd1du;
}

static void run(const char *subject, void (*checks)(void)) {
    unsigned long before = held;
    checks();
    printf("%s: %lu\n", subject, held - before);
}

int main(int argc, char **argv) {
    if (argc == 2 && strcmp(argv[1], "words") == 0) {
        for (unsigned number = 0; number < 256; number++) {
            printf("%u %s\n", number, varnucht_words(number));
        }
        return 0;
    }
    run("constants", check_constants);
    run("answers", check_answers);
    run("prototypes", check_prototypes);
    run("entries", check_entries);
    run("empty slices", check_empty_slices);
    run("sizes", check_size_limits);
    run("pieces", check_pieces);
    run("reports", check_reports);
    run("bigger directories", check_bigger);
    run("trees", check_trees);
    run("gathering", check_gathering);
    run("erase many", check_erase_many);
    run("recordings", check_recordings);
    printf("held %lu, failed %lu\n", held, failed);
    return failed != 0;
}
