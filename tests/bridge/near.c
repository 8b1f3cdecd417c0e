/* The near side of the bridge: the library's functions for a machine that does not run x86-64 code. Each call goes to the far
 * side, a program with the library in it under an emulator, and its answer and the slices come back. So the tests are the
 * same on every machine. Calls at one number after another, with the same slices, are asked for in growing batches, and a call
 * that the last batch holds is answered from it: the functions keep nothing between calls. */
#define _GNU_SOURCE
#include "wire.h"

#include <pthread.h>
#include <stdio.h>
#include <stdlib.h>
#include <string.h>
#include <sys/mman.h>
#include <sys/wait.h>
#include <unistd.h>

#ifndef FAR
#error "FAR is the path of the far side"
#endif

#define MOST_TIMES 4096
#define KINDS 16

typedef struct slice {
    void *start;
    size_t bytes;
    bool writable;
} slice;

/* The last batch of an entry, one for each length of its first slice: the request, the slices that it was made with, and
 * the replies. */
typedef struct batch {
    request asked;
    unsigned char *given;
    unsigned char *replies;
} batch;

static batch batches[ENTRIES][KINDS];
static shared *with;
static pid_t far_side;
static pthread_once_t started = PTHREAD_ONCE_INIT;
static pthread_mutex_t one_at_a_time = PTHREAD_MUTEX_INITIALIZER;

static void fail(const char *what) {
    fprintf(stderr, "bridge: %s\n", what);
    abort();
}

static void *room(size_t len) {
    void *made = malloc(len > 0 ? len : 1);
    if (made == NULL) {
        fail("no memory");
    }
    return made;
}

static bool far_lives(void) { return waitpid(far_side, NULL, WNOHANG) == 0; }

static void start(void) {
    char descriptor[16];
    int memory = memfd_create("bridge", 0);
    if (memory < 0 || ftruncate(memory, sizeof *with) != 0) {
        fail("no memory to share");
    }
    with = mmap(NULL, sizeof *with, PROT_READ | PROT_WRITE, MAP_SHARED, memory, 0);
    if (with == MAP_FAILED) {
        fail("no memory to share");
    }
    snprintf(descriptor, sizeof descriptor, "%d", memory);
    far_side = fork();
    if (far_side < 0) {
        fail("no process");
    }
    if (far_side == 0) {
        execlp("qemu-x86_64", "qemu-x86_64", FAR, descriptor, (char *)NULL);
        _exit(127);
    }
}

static size_t reply_bytes(const request *asked) {
    size_t bytes = RESULT_BYTES;
    for (uint32_t i = 0; i < asked->slices; i++) {
        bytes += asked->writable[i] ? asked->bytes[i] : 0;
    }
    return bytes;
}

static bool same_slices(const batch *of, uint32_t lent, const slice *slices) {
    if (of->given == NULL) {
        return false;
    }
    const unsigned char *at = of->given;
    for (uint32_t i = 0; i < lent; i++) {
        if (of->asked.bytes[i] != slices[i].bytes || memcmp(at, slices[i].start, slices[i].bytes) != 0) {
            return false;
        }
        at += slices[i].bytes;
    }
    return true;
}

/* How many numbers to ask for, where the last batch ended just before n: twice as many, within bounds. */
static uint32_t more_times(const batch *last, uint32_t n) {
    uint32_t times = 2 * last->asked.times;
    uint32_t most = (uint32_t)(PLACE / reply_bytes(&last->asked));
    times = times < MOST_TIMES ? times : MOST_TIMES;
    times = times < most ? times : most;
    uint32_t left = UINT32_MAX - n;
    return times <= left ? times : left + 1;
}

/* Makes the batch new: the call at n and the times - 1 numbers after it. */
static void ask(batch *new, enum entry entry, uint32_t n, uint32_t times, uint32_t lent, const slice *slices) {
    size_t bytes = 0;
    new->asked = (request){.entry = entry, .number = n, .times = times, .slices = lent};
    for (uint32_t i = 0; i < lent; i++) {
        new->asked.bytes[i] = (uint32_t)slices[i].bytes;
        new->asked.writable[i] = slices[i].writable;
        bytes += slices[i].bytes;
    }
    if (bytes > PLACE || reply_bytes(&new->asked) > PLACE) {
        fail("slices too long to lend");
    }
    free(new->given);
    free(new->replies);
    new->given = room(bytes);
    unsigned char *at = new->given;
    for (uint32_t i = 0; i < lent; i++) {
        memcpy(at, slices[i].start, slices[i].bytes);
        at += slices[i].bytes;
    }
    new->replies = room(reply_bytes(&new->asked) * times);
    with->asked = new->asked;
    memcpy(with->lent, new->given, bytes);
    atomic_store(&with->turn, FAR_TURN);
    if (!wait_for(with, NEAR_TURN, far_lives)) {
        fail("the far side has ended");
    }
    memcpy(new->replies, with->replies, reply_bytes(&new->asked) * times);
}

/* Calls an entry at a number: the answer's bytes to result, and the written slices back to where they were lent from. */
static void call(enum entry entry, uint32_t n, uint32_t lent, const slice *slices, void *result, size_t size) {
    pthread_once(&started, start);
    pthread_mutex_lock(&one_at_a_time);
    batch *last = &batches[entry][lent > 0 ? slices[0].bytes % KINDS : 0];
    bool same = same_slices(last, lent, slices);
    uint32_t past = n - last->asked.number;
    if (!same || past >= last->asked.times) {
        bool next = same && past == last->asked.times;
        ask(last, entry, n, next ? more_times(last, n) : 1, lent, slices);
        past = 0;
    }
    const unsigned char *reply = last->replies + past * reply_bytes(&last->asked);
    memcpy(result, reply, size);
    reply += RESULT_BYTES;
    for (uint32_t i = 0; i < lent; i++) {
        if (slices[i].writable) {
            memcpy(slices[i].start, reply, slices[i].bytes);
            reply += slices[i].bytes;
        }
    }
    pthread_mutex_unlock(&one_at_a_time);
}

static slice read_from(const void *start, size_t bytes) { return (slice){(void *)start, bytes, false}; }
static slice written_to(void *start, size_t bytes) { return (slice){start, bytes, true}; }

#define CALL(type, entry, n, lent, slices)                                                                                   \
    do {                                                                                                                     \
        type answer;                                                                                                         \
        call(entry, n, lent, slices, &answer, sizeof answer);                                                                \
        return answer;                                                                                                       \
    } while (0)
#define LENDING(type, entry, n, ...)                                                                                         \
    do {                                                                                                                     \
        const slice slices[] = {__VA_ARGS__};                                                                                \
        CALL(type, entry, n, sizeof slices / sizeof *slices, slices);                                                        \
    } while (0)

#define X(type, name)                                                                                                        \
    type becktrestle_##name(uint32_t n) { CALL(type, ENTRY_##name, n, 0, NULL); }
NUMBER_ENTRIES(X)
#undef X

becktrestle_count becktrestle_encode_utf8(uint32_t n, uint8_t *out, size_t out_len) {
    LENDING(becktrestle_count, ENTRY_encode_utf8, n, written_to(out, out_len));
}

becktrestle_count becktrestle_encode_utf16(uint32_t n, uint16_t *out, size_t out_len) {
    LENDING(becktrestle_count, ENTRY_encode_utf16, n, written_to(out, 2 * out_len));
}

becktrestle_count becktrestle_check_list(const uint32_t *list, size_t list_len) {
    LENDING(becktrestle_count, ENTRY_check_list, 0, read_from(list, 4 * list_len));
}

becktrestle_yes_no becktrestle_search_list(const uint32_t *list, size_t list_len, uint32_t x) {
    LENDING(becktrestle_yes_no, ENTRY_search_list, x, read_from(list, 4 * list_len));
}

becktrestle_sizes becktrestle_pack(const uint32_t *list, size_t list_len, uint32_t *headers, size_t headers_len,
                                   uint8_t *offsets, size_t offsets_len) {
    LENDING(becktrestle_sizes, ENTRY_pack, 0, read_from(list, 4 * list_len), written_to(headers, 4 * headers_len),
            written_to(offsets, offsets_len));
}

becktrestle_verdict becktrestle_check_table(const uint32_t *headers, size_t headers_len, const uint8_t *offsets,
                                            size_t offsets_len) {
    LENDING(becktrestle_verdict, ENTRY_check_table, 0, read_from(headers, 4 * headers_len), read_from(offsets, offsets_len));
}

becktrestle_yes_no becktrestle_search_table(const uint32_t *headers, size_t headers_len, const uint8_t *offsets,
                                            size_t offsets_len, uint32_t x) {
    LENDING(becktrestle_yes_no, ENTRY_search_table, x, read_from(headers, 4 * headers_len), read_from(offsets, offsets_len));
}

becktrestle_sought becktrestle_search_table_counted(const uint32_t *headers, size_t headers_len, const uint8_t *offsets,
                                                    size_t offsets_len, uint32_t x) {
    LENDING(becktrestle_sought, ENTRY_search_table_counted, x, read_from(headers, 4 * headers_len), read_from(offsets, offsets_len));
}

becktrestle_count becktrestle_unpack(const uint32_t *headers, size_t headers_len, const uint8_t *offsets, size_t offsets_len,
                                     uint32_t *out, size_t out_len) {
    LENDING(becktrestle_count, ENTRY_unpack, 0, read_from(headers, 4 * headers_len), read_from(offsets, offsets_len),
            written_to(out, 4 * out_len));
}
