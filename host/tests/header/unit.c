/* One of two units that include the header. */
#include "varnucht.h"

#ifdef __cplusplus
extern "C"
#endif
unsigned refusal_of(const uint8_t *image, size_t image_len);

unsigned refusal_of(const uint8_t *image, size_t image_len) { return varnucht_refusal(varnucht_check(image, image_len)); }
