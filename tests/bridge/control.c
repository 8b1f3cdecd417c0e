/* The bridge's control, on its near side: one call of the encoder that writes past its slice. */
#include "becktrestle.h"

int main(void) {
    uint8_t out[1] = {0};
    return (int)becktrestle_encode_utf8('A', out, sizeof out).refusal;
}
