/* Lists the files of a disk image: files IMAGE. */
#include "varnucht.h"
#include <stdio.h>

/* One byte more than a disk has, so that a longer file is seen to be longer. */
static uint8_t image[VARNUCHT_IMAGE_BYTES + 1];
static uint8_t listing[VARNUCHT_LISTING_BYTES];

/* Prints a name as the tool does: a byte outside 32 to 126 and a space in front as \xHH, a backslash as two. A disk may hold
 * any bytes in a name, and those that give orders to a terminal must not get there. */
static void print_name(const uint8_t *entry) {
    const uint8_t *name = varnucht_entry_name(entry);
    int width = 0;
    for (size_t i = 0; i < varnucht_entry_name_len(entry); i++) {
        if (name[i] == '\\') {
            width += printf("\\\\");
        } else if (name[i] >= (i == 0 ? 33 : 32) && name[i] <= 126) {
            width += printf("%c", name[i]);
        } else {
            width += printf("\\x%02x", (unsigned)name[i]);
        }
    }
    printf("%*s", width < VARNUCHT_NAME_BYTES ? VARNUCHT_NAME_BYTES - width : 0, "");
}

int main(int argc, char **argv) {
    FILE *file = argc == 2 ? fopen(argv[1], "rb") : NULL;
    if (file == NULL) {
        fprintf(stderr, "files: give an image that can be read\n");
        return 2;
    }
    size_t bytes = fread(image, 1, sizeof image, file);
    fclose(file);

    uint64_t answer = varnucht_list(image, bytes, listing, sizeof listing);
    unsigned refusal = varnucht_refusal(answer);
    if (refusal != VARNUCHT_ACCEPTED) {
        fprintf(stderr, "files: refused %u, slot %u: %s\n", refusal, varnucht_slot(answer), varnucht_words(refusal));
        return 1;
    }
    for (size_t i = 0; i < varnucht_value(answer); i++) {
        const uint8_t *entry = varnucht_entry(listing, i);
        printf("%3u ", varnucht_entry_slot(entry));
        print_name(entry);
        printf(" %4u sectors\n", varnucht_entry_sectors(entry));
    }
    printf("%u sectors free\n", varnucht_free(answer));
    if (ferror(stdout) || fflush(stdout) != 0) {
        perror("files: standard output");
        return 2;
    }
    return 0;
}
