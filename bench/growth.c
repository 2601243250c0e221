/* How the calls on messages grow with the number of attributes. Each row of the table has
 * microseconds of processor, the least of several runs, at messages of so many attributes of 4
 * bytes. The last column is the power of the number that the time grows by, from 1,000 attributes
 * to 16,376. hostile.sh builds this without a sanitizer. */
#include "stunp.h"
#include <math.h>
#include <stdio.h>
#include <stdlib.h>
#include <time.h>

enum { SIZES = 4, FIRST_TYPE = 0x4000, RUNS = 5 };

static const size_t counts[SIZES] = {100, 1000, 10000, 16376};
static const uint8_t key[16] = "sixteen letters";
static uint8_t message[STUNP_LONGEST_MESSAGE], other[STUNP_LONGEST_MESSAGE];
static size_t count, length;

static void want(const char *what, int64_t answer, int64_t wanted) {
    if (answer == wanted) return;
    fprintf(stderr, "growth: %s: %lld, not %lld\n", what, (long long)answer, (long long)wanted);
    exit(1);
}

/* A request of so many attributes, each of another type, and so many bytes that its length field
 * says. */
static void spell(size_t attributes) {
    static const uint8_t id[STUNP_ID_LENGTH] = {1};
    count = attributes;
    length = STUNP_HEADER_LENGTH + 4 * count;
    want("stunp_begin", stunp_begin(STUNP_REQUEST, STUNP_BINDING, id, sizeof id, message,
                                    sizeof message), STUNP_HEADER_LENGTH);
    message[2] = (uint8_t)((4 * count) >> 8);
    message[3] = (uint8_t)(4 * count);
    for (size_t i = 0; i < count; i++) {
        uint8_t *at = message + STUNP_HEADER_LENGTH + 4 * i;
        at[0] = (uint8_t)((FIRST_TYPE + i) >> 8), at[1] = (uint8_t)(FIRST_TYPE + i),
            at[2] = at[3] = 0;
    }
}

static void parses(void) { want("stunp_parse", stunp_parse(message, length), 0); }
static void verifies(void) {
    want("stunp_verify", stunp_verify(message, length, key, sizeof key), STUNP_NO_INTEGRITY);
}
static void tells_class(void) { want("stunp_class", stunp_class(message, length), STUNP_REQUEST); }
static void tells_method(void) {
    want("stunp_method", stunp_method(message, length), STUNP_BINDING);
}
static void tells_error(void) {
    want("stunp_error_code", stunp_error_code(message, length), STUNP_MISSING_ATTRIBUTE);
}

static void tells_id(void) {
    uint8_t id[STUNP_ID_LENGTH];
    want("stunp_id", stunp_id(message, length, id, sizeof id), STUNP_ID_LENGTH);
}

static void reads_header(void) {
    stunp_header header;
    want("stunp_read_header", stunp_read_header(message, length, &header), 0);
}

static void tells_address(void) {
    uint8_t octets[16];
    uint16_t port;
    want("stunp_xor_mapped_address",
         stunp_xor_mapped_address(message, length, octets, sizeof octets, &port),
         STUNP_MISSING_ATTRIBUTE);
}

static void finds(void) {
    size_t value_length;
    want("stunp_find", stunp_find(message, length, (uint32_t)(FIRST_TYPE + count - 1),
                                  &value_length), (int64_t)length - 4);
}

static void walks(void) {
    stunp_cursor cursor = {0, 0};
    uint16_t type;
    size_t value_length, met = 0;
    while (stunp_walk(message, length, &cursor, &type, &value_length) > 0) met++;
    want("a walk", (int64_t)met, (int64_t)count);
}

static void goes_to_the_next(void) {
    uint16_t type;
    size_t value_length, met = 0;
    for (int64_t at = 0; (at = stunp_next(message, length, (size_t)at, &type, &value_length)) > 0;)
        met++;
    want("a walk by stunp_next", (int64_t)met, (int64_t)count);
}

static void builds(void) {
    int64_t at = stunp_begin(STUNP_REQUEST, STUNP_BINDING, message + 8, STUNP_ID_LENGTH, other,
                             sizeof other);
    for (size_t i = 0; i < count; i++)
        at = stunp_add(other, sizeof other, (size_t)at, (uint32_t)(FIRST_TYPE + i), key, 0);
    want("building", at, (int64_t)length);
}

static void signs(void) {
    for (size_t i = 0; i < length; i++) other[i] = message[i];
    want("stunp_sign", stunp_sign(other, length + 24, length, STUNP_SHA1, key, sizeof key),
         (int64_t)length + 24);
}

static double now(void) {
    struct timespec time;
    clock_gettime(CLOCK_PROCESS_CPUTIME_ID, &time);
    return (double)time.tv_sec * 1e6 + (double)time.tv_nsec / 1e3;
}

/* Microseconds of a call: the least of some runs, each of so many calls that it takes a
 * millisecond, or of one that takes longer. */
static double time_of(void (*call)(void)) {
    double least = 0, all = now();
    long calls = 1;
    for (int run = 0; run < RUNS && (run == 0 || now() - all < 2e6); run++) {
        double began = now();
        for (long i = 0; i < calls; i++) call();
        double took = (now() - began) / (double)calls;
        if (run == 0 && took < 1000) calls = 1 + (long)(1000 / (took + 0.01));
        if (run == 0 || took < least) least = took;
    }
    return least;
}

static const struct {
    const char *name;
    void (*call)(void);
} rows[] = {
    {"`stunp_parse`", parses},
    {"`stunp_read_header`", reads_header},
    {"`stunp_class`", tells_class},
    {"`stunp_method`", tells_method},
    {"`stunp_id`", tells_id},
    {"`stunp_walk`, all attributes", walks},
    {"`stunp_next`, all attributes", goes_to_the_next},
    {"`stunp_find`, the last", finds},
    {"`stunp_error_code`, none", tells_error},
    {"`stunp_xor_mapped_address`, none", tells_address},
    {"`stunp_verify`, no digest", verifies},
    {"`stunp_sign`, SHA-1, after all", signs},
    {"`stunp_add`, all attributes", builds},
};

int main(void) {
    printf("| Call |");
    for (int size = 0; size < SIZES; size++) printf(" %zu |", counts[size]);
    printf(" grows as N to the |\n|---|---|---|---|---|---|\n");
    for (size_t row = 0; row < sizeof rows / sizeof *rows; row++) {
        double times[SIZES];
        printf("| %s |", rows[row].name);
        for (int size = 0; size < SIZES; size++) {
            spell(counts[size]);
            times[size] = time_of(rows[row].call);
            printf(times[size] < 10 ? " %.2f |" : " %.0f |", times[size]);
            fflush(stdout);
        }
        double power = log(times[3] / times[1]) / log((double)counts[3] / (double)counts[1]);
        printf(" %.1f |\n", power < 0.05 ? 0 : power);
    }
    return 0;
}
