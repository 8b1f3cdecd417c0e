/*
 * Becktrestle: Unicode 17.0.0 name checks for slide and wristband printers, proved.
 *
 * For programs on x86-64 that link libbecktrestle.a. C11, and C++11 or newer. There is no state: nothing to set up or to
 * free, no heap, no system call, no global that is written; any thread may call anything at any time.
 *
 * REFUSALS. Every function answers for every number, list, table and buffer length. What it can't answer it refuses by
 * number; 0 is no refusal. A refusal changes no lent memory.
 *
 *    no.  given exactly when                                                                     carries
 *     1   a number is above 0x10FFFF                                                             0
 *     2   a scalar entry gets a surrogate, 0xD800 to 0xDFFF                                      0
 *     3   a list of number pairs has odd length                                                  0
 *     4   a list has more than 1,023 ranges                                                      0
 *     5   a range has first above last, or last above 0x10FFFF, or first at most one above       its index, from 0
 *         the previous last
 *     6   the offset buffer is shorter than 2n+1                                                 the need
 *     7   the header buffer is shorter than the runs                                             the need
 *     8   a table breaks a rule W1 to W5                                                         the lowest, 1 to 5
 *    10   a buffer for an encoding or an unpacked list is too short                              the need
 *
 * A need counts elements of the short buffer, not bytes. Where refusal is not 0, every other number of a result but
 * `carried` is 0 and every bool is false.
 *
 * BUFFERS. A slice is a pointer and a number of elements. The pointer must be aligned for its element and not NULL even
 * where the length is 0: any aligned address will do there, as that of a local. Buffers that are lent to one call must not
 * overlap. On success every element past the reported length is as it was.
 *
 * ROOM. Code and tables are 31 KB. The BECKTRESTLE_STACK_ macros are the deepest stack, measured over every number to 0x10FFFF
 * and lists of every length. Time: docs/PERFORMANCE.md.
 */
#ifndef BECKTRESTLE_H
#define BECKTRESTLE_H

#include <stdbool.h>
#include <stddef.h>
#include <stdint.h>

#ifdef __cplusplus
extern "C" {
#endif

/* The most ranges that a list may have. */
#define BECKTRESTLE_MAX_RANGES 1023
/* How many offsets the packing of so many ranges takes, exactly. */
#define BECKTRESTLE_OFFSETS_NEEDED(ranges) (2 * (size_t)(ranges) + 1)
/* How many headers are enough for every list of so many ranges (proved: pack's law headers-suffice). */
#define BECKTRESTLE_HEADERS_ENOUGH(ranges) (2 * (size_t)(ranges) + 1)
/* How many numbers are enough to unpack a table of so many offsets, touching ranges being one (proved: unpack's law
 * numbers-suffice). */
#define BECKTRESTLE_NUMBERS_ENOUGH(offsets) ((size_t)(offsets) + 1)
/* How many elements are enough to encode any scalar value. */
#define BECKTRESTLE_UTF8_ENOUGH 4
#define BECKTRESTLE_UTF16_ENOUGH 2
/* How many bytes of stack a call takes at the most, beyond the caller's own: measured, and kept by the gate. */
#define BECKTRESTLE_STACK_PRINTABLE 8448 /* is_printable */
#define BECKTRESTLE_STACK_PROPERTY 1920  /* every other property */
#define BECKTRESTLE_STACK_MAPPING 320    /* the three mappings */
#define BECKTRESTLE_STACK_OTHER 256      /* all else */

/* Accepted where refusal is 0. */
typedef struct becktrestle_verdict {
    uint32_t refusal;
    size_t carried;
} becktrestle_verdict;

/* Yes or no. */
typedef struct becktrestle_yes_no {
    uint32_t refusal;
    size_t carried;
    bool yes;
} becktrestle_yes_no;

/* How many: bytes, units, ranges or numbers, as the function says. */
typedef struct becktrestle_count {
    uint32_t refusal;
    size_t carried;
    size_t count;
} becktrestle_count;

/* Whether a number is in a table, and how many offsets of its run were read to know it. */
typedef struct becktrestle_sought {
    uint32_t refusal;
    size_t carried;
    size_t read;
    bool yes;
} becktrestle_sought;

/* The lengths of a packed table. */
typedef struct becktrestle_sizes {
    uint32_t refusal;
    size_t carried;
    size_t headers;
    size_t offsets;
} becktrestle_sizes;

/* One to three mapped numbers; those past count are 0. */
typedef struct becktrestle_mapped {
    uint32_t refusal;
    size_t count;
    uint32_t to[3];
} becktrestle_mapped;

/* --- Scalar values ------------------------------------------------------------------------------------------------- */

/* Whether n is a scalar value. Refuses 1, then 2. */
becktrestle_verdict becktrestle_check_scalar(uint32_t n);

/* The ASCII tests: false for every number that is not one of the named ASCII characters. They refuse nothing. */
bool becktrestle_is_ascii_digit(uint32_t n);
bool becktrestle_is_ascii_uppercase(uint32_t n);
bool becktrestle_is_ascii_lowercase(uint32_t n);

/* --- Properties: yes or no of one scalar value. Each refuses 1, then 2. --------------------------------------------- */

becktrestle_yes_no becktrestle_is_alphabetic(uint32_t n);   /* Alphabetic */
becktrestle_yes_no becktrestle_is_lowercase(uint32_t n);    /* Lowercase */
becktrestle_yes_no becktrestle_is_uppercase(uint32_t n);    /* Uppercase */
becktrestle_yes_no becktrestle_is_titlecase(uint32_t n);    /* category Lt */
becktrestle_yes_no becktrestle_is_cased(uint32_t n);        /* lowercase, uppercase or titlecase */
becktrestle_yes_no becktrestle_is_numeric(uint32_t n);      /* category Nd, Nl or No */
becktrestle_yes_no becktrestle_is_alphanumeric(uint32_t n); /* alphabetic or numeric */
becktrestle_yes_no becktrestle_is_whitespace(uint32_t n);   /* White_Space */
becktrestle_yes_no becktrestle_is_control(uint32_t n);      /* category Cc */

/* No for Cc, Cf, Cs, Co, Cn, Zl, Zp and Zs but for the space: what leaves no mark must not reach a label. */
becktrestle_yes_no becktrestle_is_printable(uint32_t n);

/* --- Case mapping of one scalar value, full and independent of language. Each refuses 1, then 2. --------------------- */

becktrestle_mapped becktrestle_to_lowercase(uint32_t n);
becktrestle_mapped becktrestle_to_uppercase(uint32_t n);
becktrestle_mapped becktrestle_to_titlecase(uint32_t n);

/* --- UTF-8 and UTF-16 of one scalar value ---------------------------------------------------------------------------- */

/* The number of bytes or 16-bit units. Each refuses 1, then 2. */
becktrestle_count becktrestle_len_utf8(uint32_t n);
becktrestle_count becktrestle_len_utf16(uint32_t n);

/* Write n to the front of out, and count the elements written. Each refuses 1, 2, then 10. */
becktrestle_count becktrestle_encode_utf8(uint32_t n, uint8_t *out, size_t out_len);
becktrestle_count becktrestle_encode_utf16(uint32_t n, uint16_t *out, size_t out_len);

/* --- Flat lists of ranges: first, last, first, last .. ---------------------------------------------------------------- */

/* Counts the ranges of a list. Refuses 3, 4, 5. */
becktrestle_count becktrestle_check_list(const uint32_t *list, size_t list_len);

/* Whether some range of the list holds x; x may be a surrogate. Refuses 3, 4, 5, then 1. */
becktrestle_yes_no becktrestle_search_list(const uint32_t *list, size_t list_len, uint32_t x);

/* --- Skip tables: headers and offsets ---------------------------------------------------------------------------------- */

/*
 * Packs a list to the fronts of headers and offsets, and says how many of each it wrote. Refuses 3, 4, 5, 6, 7. With
 * BECKTRESTLE_OFFSETS_NEEDED and BECKTRESTLE_HEADERS_ENOUGH of the list's ranges, a list that check_list accepts is packed.
 */
becktrestle_sizes becktrestle_pack(const uint32_t *list, size_t list_len, uint32_t *headers, size_t headers_len,
                                   uint8_t *offsets, size_t offsets_len);

/* Whether a table, whoever made it, keeps the rules. Refuses 8. */
becktrestle_verdict becktrestle_check_table(const uint32_t *headers, size_t headers_len, const uint8_t *offsets,
                                            size_t offsets_len);

/* Whether a table holds x; x may be a surrogate. Refuses 8, then 1. It checks the table each time. */
becktrestle_yes_no becktrestle_search_table(const uint32_t *headers, size_t headers_len, const uint8_t *offsets,
                                            size_t offsets_len, uint32_t x);

/* The same answer and refusals, and how many offsets of x's run were read. */
becktrestle_sought becktrestle_search_table_counted(const uint32_t *headers, size_t headers_len, const uint8_t *offsets,
                                                    size_t offsets_len, uint32_t x);

/* Unpacks a table to the front of out, as first and last of each range, and counts the numbers; ranges that touch are one,
 * so that pack never refuses the list with 5. Refuses 8, then 10. */
becktrestle_count becktrestle_unpack(const uint32_t *headers, size_t headers_len, const uint8_t *offsets, size_t offsets_len,
                                     uint32_t *out, size_t out_len);

#ifdef __cplusplus
}
#endif

#endif
