/* A disk image of the SAM Coupé from the command line: lists it, reads a file of it, or saves one on it.
 *
 *     tunes IMAGE              list the disk
 *     tunes IMAGE NAME         write the body of a file to standard output
 *     tunes IMAGE NAME FILE    save the bytes of FILE on the disk under NAME
 *
 * Compile, as C99 or as C++:
 *
 *     cc -std=c99 -Iinclude examples/tunes.c target/staticlib/libvarnucht.a -o tunes
 */
#define _POSIX_C_SOURCE 200809L /* pwrite and fsync */
#include <fcntl.h>
#include <stdio.h>
#include <string.h>
#include <unistd.h>

#include "varnucht.h"

/* A byte more than a disk or a body can have: of a longer file so much is loaded, and the library refuses it. */
static uint8_t image[VARNUCHT_IMAGE_BYTES + 1];
static uint8_t body[VARNUCHT_BODY_BYTES + 1];

/* Says a refusal in words. Answers whether there is one. */
static int refused(const char *what, uint64_t answer) {
    unsigned refusal = varnucht_refusal(answer);
    if (refusal == VARNUCHT_ACCEPTED) {
        return 0;
    }
    fprintf(stderr, "%s: refused %u, slot %u: %s\n", what, refusal, varnucht_slot(answer), varnucht_words(refusal));
    return 1;
}

/* Loads a file into a buffer and answers how many bytes came, or -1. */
static long load(const char *path, uint8_t *to, size_t room) {
    FILE *file = fopen(path, "rb");
    long len = -1;
    if (file != NULL) {
        len = (long)fread(to, 1, room, file);
        if (ferror(file)) {
            len = -1;
        }
        fclose(file);
    }
    if (len < 0) {
        perror(path);
    }
    return len;
}

static int list(size_t image_len) {
    static uint8_t listing[VARNUCHT_LISTING_BYTES];
    uint64_t answer = varnucht_list(image, image_len, listing, sizeof listing);
    if (refused("list", answer)) {
        return 1;
    }
    for (uint32_t i = 0; i < varnucht_value(answer); i++) {
        const uint8_t *entry = varnucht_entry(listing, i);
        printf("%3u %c%c ", varnucht_entry_slot(entry), varnucht_entry_hidden(entry) ? 'h' : '-',
               varnucht_entry_protected(entry) ? 'p' : '-');
        for (int k = 0; k < VARNUCHT_NAME_BYTES; k++) {
            int byte = varnucht_entry_name(entry)[k];
            putchar(byte >= 32 && byte <= 126 ? byte : '?');
        }
        printf(" kind %2u, sectors %4u, length %6lu\n", varnucht_entry_kind(entry), varnucht_entry_sectors(entry),
               (unsigned long)varnucht_entry_length(entry));
    }
    printf("files %lu, free sectors %u\n", (unsigned long)varnucht_value(answer), varnucht_free(answer));
    return 0;
}

static int read_file(size_t image_len, const char *name) {
    uint64_t answer = varnucht_read(image, image_len, (const uint8_t *)name, strlen(name), body, sizeof body);
    if (refused("read", answer)) {
        return 1;
    }
    fwrite(body, 1, varnucht_value(answer), stdout);
    return 0;
}

/* Writes the sectors of a list to the image's file: in order, each whole, each flushed before the next. */
static int write_sectors(const char *path, const uint8_t *sectors, uint32_t count) {
    int file = open(path, O_WRONLY);
    int failed = file < 0;
    for (uint32_t i = 0; i < count && !failed; i++) {
        size_t at = (size_t)VARNUCHT_SECTOR_BYTES * varnucht_listed(sectors, i);
        failed = pwrite(file, image + at, VARNUCHT_SECTOR_BYTES, (off_t)at) != VARNUCHT_SECTOR_BYTES || fsync(file) != 0;
    }
    if (failed) {
        perror(path);
    }
    return (file >= 0 && close(file) != 0) || failed;
}

static int save(const char *path, size_t image_len, const char *name, const char *from) {
    static uint8_t sectors[VARNUCHT_SAVE_LIST_BYTES];
    static const uint8_t not_run[VARNUCHT_EXEC_BYTES] = {255, 255, 255}; /* loaded, and not started */
    long body_len = load(from, body, sizeof body);
    if (body_len < 0) {
        return 1;
    }
    uint64_t answer = varnucht_save(image, image_len, VARNUCHT_KIND_CODE, (const uint8_t *)name, strlen(name), 1, 32768,
                                    not_run, sizeof not_run, NULL, 0, body, (size_t)body_len, sectors, sizeof sectors);
    return refused("save", answer) || write_sectors(path, sectors, varnucht_value(answer));
}

int main(int argc, char **argv) {
    if (argc < 2 || argc > 4) {
        fprintf(stderr, "tunes IMAGE [NAME [FILE]]\n");
        return 2;
    }
    long loaded = load(argv[1], image, sizeof image);
    size_t len = loaded < 0 ? 0 : (size_t)loaded;
    if (loaded < 0 || refused("check", varnucht_check(image, len))) {
        return 1;
    }
    int failed = argc == 2 ? list(len) : argc == 3 ? read_file(len, argv[2]) : save(argv[1], len, argv[2], argv[3]);
    /* What was printed counts only when it has left the program. */
    if (ferror(stdout) || fflush(stdout) != 0) {
        perror("standard output");
        return 1;
    }
    return failed;
}
