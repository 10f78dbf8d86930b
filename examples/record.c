/* Records standard input into a disk image, and saves it as it comes: record IMAGE NAME.
 *
 * Nobody needs to know before how long it will be. Each sector is written and flushed as soon as it is full, into free sectors
 * of the disk: stopped anywhere before the end, the image has its old files and nothing of the recording.
 *
 *     cc -std=c99 -Iinclude examples/record.c target/staticlib/libvarnucht.a -o record
 */
#define _POSIX_C_SOURCE 200809L /* pwrite and fsync */
#include <stdio.h>
#include <string.h>
#include <unistd.h>

#include "varnucht.h"

/* One byte more than a disk has, so that a longer file is seen to be longer. */
static uint8_t image[VARNUCHT_IMAGE_BYTES + 1];
static uint8_t record[VARNUCHT_RECORD_BYTES], list[VARNUCHT_PIECE_LIST_BYTES];

/* Says a refusal in words, if the answer is one. */
static int refused(const char *what, uint64_t answer) {
    unsigned refusal = varnucht_refusal(answer);
    if (refusal != VARNUCHT_ACCEPTED) {
        fprintf(stderr, "%s: refused %u, slot %u: %s\n", what, refusal, varnucht_slot(answer), varnucht_words(refusal));
    }
    return refusal != VARNUCHT_ACCEPTED;
}

/* Writes the sectors that a call named, in their order, each flushed before the next. */
static int store(FILE *file, uint64_t answer) {
    for (uint32_t i = 0; i < varnucht_value(answer); i++) {
        size_t at = (size_t)VARNUCHT_SECTOR_BYTES * varnucht_listed(list, i);
        if (pwrite(fileno(file), image + at, VARNUCHT_SECTOR_BYTES, (off_t)at) != VARNUCHT_SECTOR_BYTES ||
            fsync(fileno(file)) != 0) {
            perror("record: the image");
            return 0;
        }
    }
    return 1;
}

/* Adds what comes until the input ends, and makes it a file then. */
static int record_all(FILE *file, size_t bytes) {
    uint8_t piece[4096];
    ssize_t came;
    while ((came = read(STDIN_FILENO, piece, sizeof piece)) > 0) {
        uint64_t answer =
            varnucht_record_add(image, bytes, piece, (size_t)came, record, sizeof record, list, sizeof list);
        if (refused("add", answer) || !store(file, answer)) {
            return 1;
        }
    }
    if (came < 0) {
        perror("record: standard input");
        return 2;
    }
    uint64_t answer = varnucht_record_close(image, bytes, record, sizeof record, list, sizeof list);
    return refused("close", answer) || !store(file, answer);
}

int main(int argc, char **argv) {
    static const uint8_t no_execution[] = {255, 255, 255};
    FILE *file = argc == 3 ? fopen(argv[1], "r+b") : NULL;
    if (file == NULL) {
        fprintf(stderr, "record: give an image that can be written, and a name\n");
        return 2;
    }
    size_t bytes = fread(image, 1, sizeof image, file);
    uint64_t answer = varnucht_record_open(image, bytes, VARNUCHT_KIND_CODE, (const uint8_t *)argv[2], strlen(argv[2]), 1, 32768,
                                           no_execution, sizeof no_execution, NULL, 0, record, sizeof record);
    int status = refused("open", answer) ? 1 : record_all(file, bytes);
    fclose(file);
    return status;
}
