/* What passes between the two sides of the bridge, in memory that they share: a request to call one entry at one or more numbers
 * in a row, and for each number a reply. Both sides are little-endian machines with 64-bit pointers, so structs have one
 * layout. */
#ifndef WIRE_H
#define WIRE_H

#include "becktrestle.h"

#include <sched.h>
#include <stdatomic.h>
#include <stdbool.h>
#include <stddef.h>
#include <stdint.h>

/* The entries that take a number alone: the type of the answer, and the name. */
#define NUMBER_ENTRIES(X)                                                                                                    \
    X(becktrestle_verdict, check_scalar)                                                                                     \
    X(bool, is_ascii_digit)                                                                                                  \
    X(bool, is_ascii_uppercase)                                                                                              \
    X(bool, is_ascii_lowercase)                                                                                              \
    X(becktrestle_yes_no, is_alphabetic)                                                                                     \
    X(becktrestle_yes_no, is_lowercase)                                                                                      \
    X(becktrestle_yes_no, is_uppercase)                                                                                      \
    X(becktrestle_yes_no, is_titlecase)                                                                                      \
    X(becktrestle_yes_no, is_cased)                                                                                          \
    X(becktrestle_yes_no, is_numeric)                                                                                        \
    X(becktrestle_yes_no, is_alphanumeric)                                                                                   \
    X(becktrestle_yes_no, is_whitespace)                                                                                     \
    X(becktrestle_yes_no, is_control)                                                                                        \
    X(becktrestle_yes_no, is_printable)                                                                                      \
    X(becktrestle_mapped, to_lowercase)                                                                                      \
    X(becktrestle_mapped, to_uppercase)                                                                                      \
    X(becktrestle_mapped, to_titlecase)                                                                                      \
    X(becktrestle_count, len_utf8)                                                                                           \
    X(becktrestle_count, len_utf16)

enum entry {
#define X(type, name) ENTRY_##name,
    NUMBER_ENTRIES(X)
#undef X
    ENTRY_encode_utf8,
    ENTRY_encode_utf16,
    ENTRY_check_list,
    ENTRY_search_list,
    ENTRY_pack,
    ENTRY_check_table,
    ENTRY_search_table,
    ENTRY_search_table_counted,
    ENTRY_unpack,
    ENTRIES
};

#define SLICES 3
#define RESULT_BYTES 32

typedef struct request {
    uint32_t entry;
    uint32_t number;
    uint32_t times;
    uint32_t slices; /* how many are lent */
    uint32_t bytes[SLICES];
    uint32_t writable[SLICES];
} request;

#define PLACE (1 << 22)

/* Whose turn it is to read and write the rest: the near side's at the start and after each answer. A reply is the answer in
 * RESULT_BYTES bytes, then the bytes of each slice that was lent to be written to. */
enum turn { NEAR_TURN, FAR_TURN };
typedef struct shared {
    _Atomic uint32_t turn;
    request asked;
    unsigned char lent[PLACE];    /* the slices' bytes, one slice after the other */
    unsigned char replies[PLACE]; /* one for each number */
} shared;

/* Waits for a turn; false where the other side, as alive says, has ended. */
static inline bool wait_for(shared *with, enum turn turn, bool (*alive)(void)) {
    for (uint32_t tries = 1; atomic_load(&with->turn) != turn; tries++) {
        /* Short waits are the rule: a thread that sleeps would take longer to wake than the other side to answer. */
        if (tries % 1024 == 0) {
            sched_yield();
        }
        if (tries % (1 << 20) == 0 && !alive()) {
            return false;
        }
    }
    return true;
}

#endif
