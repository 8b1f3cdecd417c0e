/* How deep each entry goes into the stack, at the most, over every number to 0x10FFFF or the largest list and table: each
 * is called on a painted stack of its own, and what is no longer painted was used. The header states these sizes; here each must
 * be kept. Prints a line for each group, and at the end 'N passed, M failed'. */
#include "becktrestle.h"

#include <stdio.h>
#include <string.h>
#include <ucontext.h>

#define DEEPEST 65536
#define PAINT 0xA5
#define LAST 0x10FFFF
#define RANGES BECKTRESTLE_MAX_RANGES

static uint32_t list[2 * RANGES];
static uint32_t headers[BECKTRESTLE_HEADERS_ENOUGH(RANGES)];
static uint8_t offsets[BECKTRESTLE_OFFSETS_NEEDED(RANGES)];
static uint32_t out[BECKTRESTLE_NUMBERS_ENOUGH(BECKTRESTLE_OFFSETS_NEEDED(RANGES))];
static size_t headers_used, offsets_used;

static unsigned char stack[DEEPEST];
static ucontext_t here, there;
static void (*entry)(uint32_t);
static uint32_t first, last;

/* Runs on the painted stack. */
static void calls(void) {
    for (uint32_t n = first; n <= last; n++) {
        entry(n);
    }
}

/* The stack used by an entry, and what calls it, over a stretch of numbers. */
static size_t used(void (*of)(uint32_t), uint32_t from, uint32_t to) {
    entry = of;
    first = from;
    last = to;
    memset(stack, PAINT, sizeof stack);
    getcontext(&there);
    there.uc_stack.ss_sp = stack;
    there.uc_stack.ss_size = sizeof stack;
    there.uc_link = &here;
    makecontext(&there, calls, 0);
    swapcontext(&here, &there);
    size_t clean = 0;
    while (clean < sizeof stack && stack[clean] == PAINT) {
        clean++;
    }
    return sizeof stack - clean;
}

static void nothing(uint32_t n) { (void)n; }

#define OF_NUMBER(name, entry)                                                                                               \
    static void name(uint32_t n) { (void)entry(n); }
OF_NUMBER(alphabetic, becktrestle_is_alphabetic)
OF_NUMBER(lowercase, becktrestle_is_lowercase)
OF_NUMBER(uppercase, becktrestle_is_uppercase)
OF_NUMBER(titlecase, becktrestle_is_titlecase)
OF_NUMBER(cased, becktrestle_is_cased)
OF_NUMBER(numeric, becktrestle_is_numeric)
OF_NUMBER(alphanumeric, becktrestle_is_alphanumeric)
OF_NUMBER(whitespace, becktrestle_is_whitespace)
OF_NUMBER(control, becktrestle_is_control)
OF_NUMBER(printable, becktrestle_is_printable)
OF_NUMBER(lower, becktrestle_to_lowercase)
OF_NUMBER(upper, becktrestle_to_uppercase)
OF_NUMBER(title, becktrestle_to_titlecase)
OF_NUMBER(check, becktrestle_check_scalar)
OF_NUMBER(len8, becktrestle_len_utf8)
OF_NUMBER(len16, becktrestle_len_utf16)

static void encode8(uint32_t n) {
    static uint8_t units[BECKTRESTLE_UTF8_ENOUGH];
    (void)becktrestle_encode_utf8(n, units, sizeof units);
}
static void encode16(uint32_t n) {
    static uint16_t units[BECKTRESTLE_UTF16_ENOUGH];
    (void)becktrestle_encode_utf16(n, units, BECKTRESTLE_UTF16_ENOUGH);
}
static void check_list(uint32_t n) { (void)becktrestle_check_list(list, 2 * (n % (RANGES + 1))); }
static void search_list(uint32_t n) { (void)becktrestle_search_list(list, 2 * RANGES, n); }
static void pack(uint32_t n) {
    becktrestle_sizes made = becktrestle_pack(list, 2 * (n % (RANGES + 1)), headers, sizeof headers / sizeof *headers, offsets,
                                              sizeof offsets);
    headers_used = made.headers;
    offsets_used = made.offsets;
}
static void check_table(uint32_t n) {
    (void)becktrestle_check_table(headers, headers_used, offsets, offsets_used - n % 2);
}
static void search_table(uint32_t n) {
    (void)becktrestle_search_table(headers, headers_used, offsets, offsets_used, n);
}
static void search_counted(uint32_t n) {
    (void)becktrestle_search_table_counted(headers, headers_used, offsets, offsets_used, n);
}
static void unpack(uint32_t n) {
    (void)becktrestle_unpack(headers, headers_used, offsets, offsets_used - n % 2, out, sizeof out / sizeof *out);
}

static int failed, passed;

static void group(const char *name, size_t stated, size_t measured) {
    printf("%-12s %5zu bytes, at most %5zu stated: %s\n", name, measured, stated, measured <= stated ? "kept" : "EXCEEDED");
    *(measured <= stated ? &passed : &failed) += 1;
}

static size_t larger(size_t a, size_t b) { return a > b ? a : b; }

int main(void) {
    for (uint32_t i = 0; i < RANGES; i++) {
        list[2 * i] = 1000 * i;
        list[2 * i + 1] = 1000 * i + 300;
    }
    size_t base = used(nothing, 0, 1);
#define DEEP(entry) (used(entry, 0, LAST) - base)
    size_t properties = 0, mappings = 0, rest = 0;
    void (*property[])(uint32_t) = {alphabetic, lowercase, uppercase, titlecase, cased, numeric, alphanumeric, whitespace, control};
    void (*mapping[])(uint32_t) = {lower, upper, title};
    void (*other[])(uint32_t) = {check, len8, len16, encode8, encode16};
    void (*dear[])(uint32_t) = {check_list, search_list, pack, check_table, search_table, search_counted, unpack};
    for (size_t i = 0; i < sizeof property / sizeof *property; i++) {
        properties = larger(properties, DEEP(property[i]));
    }
    for (size_t i = 0; i < sizeof mapping / sizeof *mapping; i++) {
        mappings = larger(mappings, DEEP(mapping[i]));
    }
    for (size_t i = 0; i < sizeof other / sizeof *other; i++) {
        rest = larger(rest, DEEP(other[i]));
    }
    for (size_t i = 0; i < sizeof dear / sizeof *dear; i++) {
        rest = larger(rest, used(dear[i], 0, 2 * RANGES + 1) - base);
    }
    group("is_printable", BECKTRESTLE_STACK_PRINTABLE, DEEP(printable));
    group("properties", BECKTRESTLE_STACK_PROPERTY, properties);
    group("mappings", BECKTRESTLE_STACK_MAPPING, mappings);
    group("all else", BECKTRESTLE_STACK_OTHER, rest);
    printf("%d passed, %d failed\n", passed, failed);
    return failed != 0;
}
