/* The far side of the bridge: an x86-64 program with the library in it. It reads requests from the memory that it shares with
 * the near side, whose descriptor is its argument, makes the calls, and writes the replies. Every slice is lent from a copy of
 * its own between guard bytes: a write past a slice, or into one that is only read, ends it. */
#include "wire.h"

#include <stdio.h>
#include <stdlib.h>
#include <string.h>
#include <sys/mman.h>
#include <unistd.h>

#define GUARD_BYTES 16
static const unsigned char guard[GUARD_BYTES] = "between guards..";

typedef struct lent {
    unsigned char *slice; /* between two guards */
    size_t bytes;
} lent;

static unsigned char rooms[SLICES][GUARD_BYTES + PLACE + GUARD_BYTES] __attribute__((aligned(16)));

static lent lend(unsigned char *whole, const unsigned char *given, size_t bytes) {
    memcpy(whole, guard, GUARD_BYTES);
    memcpy(whole + GUARD_BYTES, given, bytes);
    memcpy(whole + GUARD_BYTES + bytes, guard, GUARD_BYTES);
    return (lent){whole + GUARD_BYTES, bytes};
}

static bool guarded(const lent *of) {
    return memcmp(of->slice - GUARD_BYTES, guard, GUARD_BYTES) == 0 && memcmp(of->slice + of->bytes, guard, GUARD_BYTES) == 0;
}

static void call(const request *asked, uint32_t n, const lent *a, unsigned char *result) {
    /* Every slice starts 16 bytes into its room, so it is aligned for any element. */
    uint32_t *words[SLICES];
    size_t length[SLICES];
    for (uint32_t i = 0; i < asked->slices; i++) {
        words[i] = (uint32_t *)(void *)a[i].slice;
        length[i] = a[i].bytes / 4;
    }
#define ANSWER(type, value)                                                                                                  \
    do {                                                                                                                     \
        type answer = value;                                                                                                 \
        memcpy(result, &answer, sizeof answer);                                                                              \
    } while (0)
    switch ((enum entry)asked->entry) {
#define X(type, name)                                                                                                        \
    case ENTRY_##name:                                                                                                       \
        ANSWER(type, becktrestle_##name(n));                                                                                 \
        break;
        NUMBER_ENTRIES(X)
#undef X
    case ENTRY_encode_utf8:
        ANSWER(becktrestle_count, becktrestle_encode_utf8(n, a[0].slice, a[0].bytes));
        break;
    case ENTRY_encode_utf16:
        ANSWER(becktrestle_count, becktrestle_encode_utf16(n, (uint16_t *)(void *)a[0].slice, a[0].bytes / 2));
        break;
    case ENTRY_check_list:
        ANSWER(becktrestle_count, becktrestle_check_list(words[0], length[0]));
        break;
    case ENTRY_search_list:
        ANSWER(becktrestle_yes_no, becktrestle_search_list(words[0], length[0], n));
        break;
    case ENTRY_pack:
        ANSWER(becktrestle_sizes, becktrestle_pack(words[0], length[0], words[1], length[1], a[2].slice, a[2].bytes));
        break;
    case ENTRY_check_table:
        ANSWER(becktrestle_verdict, becktrestle_check_table(words[0], length[0], a[1].slice, a[1].bytes));
        break;
    case ENTRY_search_table:
        ANSWER(becktrestle_yes_no, becktrestle_search_table(words[0], length[0], a[1].slice, a[1].bytes, n));
        break;
    case ENTRY_search_table_counted:
        ANSWER(becktrestle_sought, becktrestle_search_table_counted(words[0], length[0], a[1].slice, a[1].bytes, n));
        break;
    case ENTRY_unpack:
        ANSWER(becktrestle_count, becktrestle_unpack(words[0], length[0], a[1].slice, a[1].bytes, words[2], length[2]));
        break;
    case ENTRIES:
        exit(2);
    }
}

/* Answers the request that stands in the shared memory. */
static void serve(shared *with) {
    const request *asked = &with->asked;
    unsigned char *at = with->replies;
    for (uint32_t k = 0; k < asked->times; k++) {
        lent slices[SLICES];
        const unsigned char *given = with->lent;
        for (uint32_t i = 0; i < asked->slices; i++) {
            slices[i] = lend(rooms[i], given, asked->bytes[i]);
            given += asked->bytes[i];
        }
        memset(at, 0, RESULT_BYTES);
        call(asked, asked->number + k, slices, at);
        at += RESULT_BYTES;
        given = with->lent;
        for (uint32_t i = 0; i < asked->slices; i++) {
            if (!guarded(&slices[i])) {
                fprintf(stderr, "bridge: entry %u wrote past slice %u\n", asked->entry, i);
                exit(3);
            }
            if (asked->writable[i]) {
                memcpy(at, slices[i].slice, asked->bytes[i]);
                at += asked->bytes[i];
            } else if (memcmp(given, slices[i].slice, asked->bytes[i]) != 0) {
                fprintf(stderr, "bridge: entry %u wrote to slice %u, which it only reads\n", asked->entry, i);
                exit(3);
            }
            given += asked->bytes[i];
        }
    }
}

static pid_t parent;
static bool parent_lives(void) { return getppid() == parent; }

int main(int count, char **words) {
    if (count != 2) {
        return 2;
    }
    shared *with = mmap(NULL, sizeof *with, PROT_READ | PROT_WRITE, MAP_SHARED, atoi(words[1]), 0);
    if (with == MAP_FAILED) {
        return 2;
    }
    parent = getppid();
    while (wait_for(with, FAR_TURN, parent_lives)) {
        serve(with);
        atomic_store(&with->turn, NEAR_TURN);
    }
    return 0;
}
