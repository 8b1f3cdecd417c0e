/* The bridge's control, on its far side: an encoder that writes one byte past its slice, linked in the place of
 * becktrestle_encode_utf8. The far side must not let it pass. */
#include "becktrestle.h"

becktrestle_count past_the_end(uint32_t n, uint8_t *out, size_t out_len) {
    out[out_len] = (uint8_t)n;
    return (becktrestle_count){0, 0, 1};
}
