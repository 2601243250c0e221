/* What the steps of an input share, for fuzz.c: the addresses, and the room that is written to. */
#ifndef STUN_FUZZ_WORLD_H
#define STUN_FUZZ_WORLD_H

#include "../../bench/hostile.h"
#include "stunp.h"

enum { MOST_ATTRIBUTES = 64, ROOM = 4096, BEHIND = 64, AMPLE = 256 };
enum { PATTERN = 0xa5, ID_AT = 8 };

#define TEXT(letters) (letters), sizeof(letters) - 1
#define KEY(letters) (const uint8_t *)(letters), sizeof(letters) - 1

static void require(bool is_so, const char *what) {
    if (is_so) return;
    fprintf(stderr, "fuzz: %s\n", what);
    abort();
}

/* The kinds of the steps. */
enum step {
    READ, VERIFY, WRITE, BEGIN, TEXTS,
    STEPS
};

/* A step's bytes, flush against the end of memory, and where they are in the input. */
struct bytes {
    const uint8_t *at, *origin;
    size_t length;
};

static const stunp_address addresses[] = {
    {{192, 0, 2, 1}, 3478, 4},
    {{192, 0, 2, 1}, 3479, 4},
    {{0, 0, 0, 0, 0, 0, 0, 0, 0, 0, 0xff, 0xff, 192, 0, 2, 1}, 3478, 16},
    {{0x20, 1, 0xd, 0xb8, 0, 0, 0, 0, 0, 0, 0, 0, 0, 0, 0, 1}, 65535, 16},
    {{0}, 0, 5},
};
static const stunp_address *address_of(uint8_t setting) {
    return addresses + setting % (sizeof addresses / sizeof *addresses);
}

/* What is written goes here; behind the room that a call has, nothing may change. */
static uint8_t out[STUNP_LONGEST_MESSAGE + ROOM], before[sizeof out], blank[ROOM];

static void fill_out(void) { memset(out, PATTERN, ROOM); }

static void require_rest(size_t from, const char *what) {
    require(memcmp(out + from, blank + from, ROOM - from) == 0, what);
}

/* An answer is a number of the header. */
static int64_t named(int64_t answer) {
    require(answer >= STUNP_WRONG_HANDLE, "a refusal without a name");
    return answer;
}

#endif
