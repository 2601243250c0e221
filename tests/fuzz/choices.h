/* What the parts of endpoint.c share: the input as a row of choices, buffers that show what was
 * written, and calls of which an allocation is refused. */
#ifndef STUN_FUZZ_CHOICES_H
#define STUN_FUZZ_CHOICES_H

#include "heap.h"
#include "stunp_endpoint.h"
#include "stunp_log.h"
#include <stdio.h>
#include <stdlib.h>

enum { ROOM = 40000, LONGEST_DATAGRAM = 1500, PATTERN = 0xa5, MOST_REFUSALS = 64 };

static void require(bool is_so, const char *what) {
    if (is_so) return;
    fprintf(stderr, "fuzz: %s\n", what);
    abort();
}

/* ---- The input. At its end all choices are 0. */

static const uint8_t *input;
static size_t input_length;

static uint8_t choose(void) {
    if (input_length == 0) return 0;
    input_length--;
    return *input++;
}
static bool maybe(uint8_t one_in) { return choose() % one_in == one_in - 1; }

/* A number of up to 8 bytes. */
static uint64_t choose_number(void) {
    uint64_t number = 0;
    for (uint8_t bytes = choose() % 9; bytes > 0; bytes--) number = number << 8 | choose();
    return number;
}

/* Some bytes of the input, as long as it says. */
static size_t choose_bytes(uint8_t *bytes, size_t most) {
    size_t length = (size_t)choose() << 3 | choose() % 8;
    if (length > most) length = most;
    if (length > input_length) length = input_length;
    memcpy(bytes, input, length);
    input += length, input_length -= length;
    return length;
}

/* Changes a datagram as one on its way is changed, and returns its length. */
static size_t change(uint8_t *bytes, size_t length) {
    for (uint8_t changes = choose() % 4; changes > 0 && length > 0; changes--) {
        size_t at = ((size_t)choose() << 8 | choose()) % length;
        bytes[at] ^= maybe(2) ? choose() : (uint8_t)(1 << choose() % 8);
    }
    return maybe(16) ? ((size_t)choose() << 8 | choose()) % (length + 1) : length;
}

static const stunp_address places[] = {
    {{192, 0, 2, 1}, 3478, 4},
    {{192, 0, 2, 1}, 3479, 4},
    {{0, 0, 0, 0, 0, 0, 0, 0, 0, 0, 0xff, 0xff, 192, 0, 2, 1}, 3478, 16},
    {{0x20, 1, 0xd, 0xb8, 0, 0, 0, 0, 0, 0, 0, 0, 0, 0, 0, 1}, 65535, 16},
    {{0}, 0, 5},
};
static const stunp_address *choose_place(void) {
    return places + choose() % (sizeof places / sizeof *places);
}
static bool is_place(const stunp_address *place) {
    return place->length == 4 || place->length == 16;
}

/* The same address with an IPv4 address in its own spelling, as the library writes it. */
static stunp_address plain(const stunp_address *place) {
    static const uint8_t mapped[12] = {0, 0, 0, 0, 0, 0, 0, 0, 0, 0, 0xff, 0xff};
    stunp_address same = {{0}, place->port, place->length};
    memcpy(same.octets, place->octets, 16);
    if (place->length == 16 && memcmp(place->octets, mapped, 12) == 0) {
        memset(same.octets, 0, 16);
        memcpy(same.octets, place->octets + 12, 4);
        same.length = 4;
    }
    return same;
}

/* ---- Buffers */

static uint8_t out[ROOM], again[ROOM];

static void fill(uint8_t *buffer, size_t length) { memset(buffer, PATTERN, length); }

static void require_unwritten(const uint8_t *buffer, size_t from, size_t to, const char *what) {
    for (size_t i = from; i < to; i++) require(buffer[i] == PATTERN, what);
}

/* An answer is a number of the header. */
static int64_t named(int64_t answer) {
    require(answer >= STUNP_WRONG_HANDLE, "a refusal without a name");
    require(answer >= 0 || strcmp(stunp_strerror(answer), "unknown refusal") != 0, "no text");
    return answer;
}

static bool has_fingerprint(const uint8_t *bytes, size_t length) {
    return stunp_has_right_fingerprint(bytes, length);
}

/* A line for a log is short and printable, whatever the bytes are. */
static void describe(const uint8_t *bytes, size_t length) {
    char line[STUNP_LINE_MAX];
    size_t room = choose();
    const char *told = stunp_describe(bytes, length, line, room < 2 ? sizeof line : room);
    require(strlen(told) < sizeof line, "a long line");
    for (; *told != 0; told++) require(*told >= 32 && *told < 127, "a line with other bytes");
}

#endif
