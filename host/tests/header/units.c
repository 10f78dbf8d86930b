/* The other of two units that include the header: both use the functions written there, and the archive. */
#include <string.h>

#include "varnucht.h"

#ifdef __cplusplus
extern "C"
#endif
unsigned refusal_of(const uint8_t *image, size_t image_len);

static uint8_t blank[VARNUCHT_IMAGE_BYTES];

int main(void) {
    unsigned whole = refusal_of(blank, sizeof blank), part = refusal_of(blank, 512);
    unsigned free_sectors = varnucht_free(varnucht_list(blank, sizeof blank, NULL, 0));
    return !(whole == VARNUCHT_ACCEPTED && part == VARNUCHT_NOT_AN_IMAGE && free_sectors == VARNUCHT_DATA_SECTORS &&
             strcmp(varnucht_words(part), "the image is not 819,200 bytes") == 0);
}
