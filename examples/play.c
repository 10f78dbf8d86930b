/* Plays a tune of a disk image before it has loaded: play IMAGE NAME.
 *
 * It asks for 512 bytes at a time and hands each piece on at once, here to standard output. An app gives them to its player
 * instead, whenever that has room for more.
 *
 *     cc -std=c99 -Iinclude examples/play.c target/staticlib/libvarnucht.a -o play
 */
#include <stdio.h>
#include <string.h>

#include "varnucht.h"

/* One byte more than a disk has, so that a longer file is seen to be longer. */
static uint8_t image[VARNUCHT_IMAGE_BYTES + 1];

int main(int argc, char **argv) {
    FILE *file = argc == 3 ? fopen(argv[1], "rb") : NULL;
    if (file == NULL) {
        fprintf(stderr, "play: give an image that can be read, and a name\n");
        return 2;
    }
    size_t bytes = fread(image, 1, sizeof image, file);
    fclose(file);

    struct varnucht_reader tune;
    uint64_t answer = varnucht_reader_open(&tune, image, bytes, (const uint8_t *)argv[2], strlen(argv[2]));
    unsigned refusal = varnucht_refusal(answer);
    if (refusal != VARNUCHT_ACCEPTED) {
        fprintf(stderr, "play: refused %u, slot %u: %s\n", refusal, varnucht_slot(answer), varnucht_words(refusal));
        return 1;
    }
    /* The image is not changed from here on, since the tune is read from it. */
    while (tune.left > 0) {
        uint8_t piece[512];
        size_t came = varnucht_reader_next(&tune, image, bytes, piece, sizeof piece);
        if (fwrite(piece, 1, came, stdout) != came) {
            break;
        }
    }
    if (ferror(stdout) || fflush(stdout) != 0) {
        perror("play: standard output");
        return 2;
    }
    return 0;
}
