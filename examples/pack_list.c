/* Packs a hospital's list of allowed characters, checks the table, and looks the characters of a name up in it. */
#include <stdio.h>

#include "becktrestle.h"

#define RANGES 3

int main(void) {
    /* Latin letters without case, Greek letters, and the hyphen, as first and last of each range, sorted. */
    static const uint32_t list[2 * RANGES] = {0x2D, 0x2D, 0x41, 0x5A, 0x391, 0x3C9};
    static const uint32_t name[] = {0x41, 0x2D, 0x3A3, 0x200B};
    uint32_t headers[BECKTRESTLE_HEADERS_ENOUGH(RANGES)];
    uint8_t offsets[BECKTRESTLE_OFFSETS_NEEDED(RANGES)];

    becktrestle_sizes sizes =
        becktrestle_pack(list, 2 * RANGES, headers, sizeof headers / sizeof *headers, offsets, sizeof offsets);
    if (sizes.refusal != 0) {
        printf("refused %u, %zu\n", (unsigned)sizes.refusal, sizes.carried);
        return 1;
    }
    printf("%zu headers, %zu offsets\n", sizes.headers, sizes.offsets);

    becktrestle_verdict verdict = becktrestle_check_table(headers, sizes.headers, offsets, sizes.offsets);
    if (verdict.refusal != 0) {
        printf("the table breaks rule W%zu\n", verdict.carried);
        return 1;
    }

    for (size_t k = 0; k < sizeof name / sizeof *name; k++) {
        becktrestle_yes_no found = becktrestle_search_table(headers, sizes.headers, offsets, sizes.offsets, name[k]);
        becktrestle_yes_no printable = becktrestle_is_printable(name[k]);
        printf("U+%04X %s, %s\n", (unsigned)name[k], found.yes ? "allowed" : "not allowed",
               printable.yes ? "printable" : "invisible");
    }
    return 0;
}
