/* Measures each call of the library beside OpenSSL's low-level digest calls over the same covered
 * bytes.
 *
 * `bench COUNTS` prints the table: COUNTS has a line `NAME INSTRUCTIONS` for each call, as run.sh
 * takes them. `bench call NAME TIMES` makes one of the calls so often, for callgrind. */
#include "stunp.h"
#include <openssl/evp.h>
#include <openssl/hmac.h>
#include <openssl/md5.h>
#include <openssl/sha.h>
#include <stdbool.h>
#include <stdio.h>
#include <stdlib.h>
#include <string.h>
#include <time.h>

enum { ROUNDS = 11, CALLS = 10000 };

/* The request of RFC 5769, section 2.1, and its password. */
static const uint8_t short_term[108] =
    "\x00\x01\x00\x58\x21\x12\xa4\x42\xb7\xe7\xa7\x01\xbc\x34\xd6\x86\xfa\x87\xdf\xae"
    "\x80\x22\x00\x10STUN test client\x00\x24\x00\x04\x6e\x00\x01\xff\x80\x29\x00\x08\x93\x2f\xf9"
    "\xb1\x51\x26\x3b\x36\x00\x06\x00\x09" "evtj:h6vY   \x00\x08\x00\x14\x9a\xea\xa7\x0c\xbf\xd8"
    "\xcb\x56\x78\x1e\xf2\xb5\xb2\xd3\xf2\x49\xc1\xb5\x71\xa2\x80\x28\x00\x04\xe5\x7a"
    "\x3b\xcf";
static const char password[] = "VOkJxbRl1RmTxUk/WvJxBt";

/* The request of section 2.4, whose key is made of these three texts. */
static const uint8_t long_term[116] =
    "\x00\x01\x00\x60\x21\x12\xa4\x42\x78\xad\x34\x33\xc6\xad\x72\xc0\x29\xda\x41\x2e"
    "\x00\x06\x00\x12\xe3\x83\x9e\xe3\x83\x88\xe3\x83\xaa\xe3\x83\x83\xe3\x82\xaf\xe3"
    "\x82\xb9\x00\x00\x00\x15\x00\x1c" "f//499k954d6OL34oL9FSTvy64sA\x00\x14\x00\x0b" "example.org"
    "\x00\x00\x08\x00\x14\xf6\x70\x24\x65\x6d\xd6\x4a\x3e\x02\xb8\xe0\x71\x2e\x85\xc9"
    "\xa2\x8c\xa8\x96\x66";
static const char username[] =
    "\xe3\x83\x9e\xe3\x83\x88\xe3\x83\xaa\xe3\x83\x83\xe3\x82\xaf\xe3\x82\xb9";
static const char realm[] = "example.org";
static const char user_password[] = "TheMatrIX";

/* The request of section 2.1 with MESSAGE-INTEGRITY-SHA256 in place of MESSAGE-INTEGRITY. */
static uint8_t sha256_request[120];
static uint8_t long_term_key[16];
static uint8_t out[STUNP_LONGEST_SIGNED];

/* What a digest covers, behind a block for the key; and the block and the digest of the outer
 * hash. */
static struct covered {
    uint8_t inner[64 + 128];
    size_t inner_length;
    uint8_t outer[64 + 32];
} covered_short, covered_long, covered_sha256, covered_built;
static uint8_t joined[64];
static size_t joined_length;

static void cover(struct covered *to, const uint8_t *message, size_t length, size_t value_length) {
    memset(to, 0x36, sizeof *to);
    memcpy(to->inner + 64, message, length);
    size_t stated = length + 4 + value_length - 20;
    to->inner[66] = (uint8_t)(stated >> 8);
    to->inner[67] = (uint8_t)stated;
    to->inner_length = 64 + length;
}

/* The low-level calls alone: the key blocks are there already, and the pieces joined. */
static void sha1_twice(struct covered *of) {
    SHA_CTX context;
    SHA1_Init(&context);
    SHA1_Update(&context, of->inner, of->inner_length);
    SHA1_Final(of->outer + 64, &context);
    SHA1_Init(&context);
    SHA1_Update(&context, of->outer, 64 + 20);
    SHA1_Final(of->outer + 64, &context);
}

static void sha256_twice(struct covered *of) {
    SHA256_CTX context;
    SHA256_Init(&context);
    SHA256_Update(&context, of->inner, of->inner_length);
    SHA256_Final(of->outer + 64, &context);
    SHA256_Init(&context);
    SHA256_Update(&context, of->outer, 64 + 32);
    SHA256_Final(of->outer + 64, &context);
}

static const uint8_t *bytes(const char *text) {
    return (const uint8_t *)text;
}

static int64_t parse(void) {
    return stunp_parse(short_term, sizeof short_term);
}

static int64_t verify(void) {
    return stunp_verify(short_term, sizeof short_term, bytes(password), strlen(password));
}

static int64_t verify_long_term(void) {
    return stunp_verify(long_term, sizeof long_term, long_term_key, sizeof long_term_key);
}

static int64_t verify_sha256(void) {
    return stunp_verify(sha256_request, sizeof sha256_request, bytes(password), strlen(password));
}

static int64_t build(void) {
    return stunp_build_signed(STUNP_SHA1, short_term + 8, STUNP_ID_LENGTH,
                              (const char *)bytes("evtj:h6vY"), 9,
                              bytes(password), strlen(password), out, sizeof out);
}

static int64_t md5_key(void) {
    return stunp_long_term_key(STUNP_SHA1, username, strlen(username), realm, strlen(realm),
                               user_password, strlen(user_password), out, sizeof out);
}

static int64_t sha256_key(void) {
    return stunp_long_term_key(STUNP_SHA256, username, strlen(username), realm, strlen(realm),
                               user_password, strlen(user_password), out, sizeof out);
}

static void digest_short(void) {
    sha1_twice(&covered_short);
}

static void digest_long(void) {
    sha1_twice(&covered_long);
}

static void digest_sha256(void) {
    sha256_twice(&covered_sha256);
}

static void digest_built(void) {
    sha1_twice(&covered_built);
}

static void digest_md5(void) {
    MD5_CTX context;
    MD5_Init(&context);
    MD5_Update(&context, joined, joined_length);
    MD5_Final(out, &context);
}

static void digest_key_sha256(void) {
    SHA256_CTX context;
    SHA256_Init(&context);
    SHA256_Update(&context, joined, joined_length);
    SHA256_Final(out, &context);
}

/* A call, what it must answer, what it is compared with, and its bars; 0 where it has none. */
static const struct work {
    const char *name, *title, *function;
    int64_t (*call)(void);
    int64_t wanted;
    void (*reference)(void);
    double ratio_bar;
    long instructions_bar;
} works[] = {
    {"parse", "parse (RFC 5769 section 2.1)", "stunp_parse", parse, 0, NULL, 0, 200},
    {"verify", "parse and verify (2.1), HMAC-SHA1", "stunp_verify", verify, STUNP_SHA1,
     digest_short, 1.6, 9400},
    {"verify_long_term", "parse and verify (2.4), HMAC-SHA1", "stunp_verify", verify_long_term,
     STUNP_SHA1, digest_long, 0, 0},
    {"verify_sha256", "parse and verify (2.1 signed anew), HMAC-SHA256", "stunp_verify",
     verify_sha256, STUNP_SHA256, digest_sha256, 1.55, 16750},
    {"build", "build and sign, HMAC-SHA1", "stunp_build_signed", build, 60, digest_built, 1.6,
     7450},
    {"md5_key", "long-term key by MD5", "stunp_long_term_key", md5_key, 16, digest_md5, 0, 1150},
    {"sha256_key", "long-term key by SHA-256", "stunp_long_term_key", sha256_key, 32,
     digest_key_sha256, 0, 0},
};

static void fail(const char *what) {
    fprintf(stderr, "bench: %s\n", what);
    exit(1);
}

/* Fills in what the calls take, and sees by OpenSSL that each does its work. */
static void prepare(void) {
    joined_length = (size_t)sprintf((char *)joined, "%s:%s:%s", username, realm, user_password);
    digest_md5();
    memcpy(long_term_key, out, sizeof long_term_key);
    md5_key();
    if (memcmp(out, long_term_key, sizeof long_term_key) != 0) fail("another MD5 key");

    memcpy(sha256_request, short_term, 76);
    sha256_request[3] = 76 + 36 - 20;
    memcpy(sha256_request + 76, "\x00\x1c\x00\x20", 4);
    HMAC(EVP_sha256(), password, (int)strlen(password), sha256_request, 76, sha256_request + 80,
         NULL);
    memcpy(sha256_request + 112, short_term + 100, 8);
    sha256_request[3] += 8;

    cover(&covered_short, short_term, 76, 20);
    cover(&covered_long, long_term, 92, 20);
    cover(&covered_sha256, sha256_request, 76, 32);
    build();
    cover(&covered_built, out, 36, 20);
    uint8_t digest[20];
    HMAC(EVP_sha1(), password, (int)strlen(password), out, 36, digest, NULL);
    if (memcmp(out + 40, digest, sizeof digest) != 0) fail("another digest in what is built");
    for (size_t i = 0; i < sizeof works / sizeof *works; i++)
        if (works[i].call() != works[i].wanted) fail(works[i].name);
}

static double seconds(void) {
    struct timespec moment;
    clock_gettime(CLOCK_PROCESS_CPUTIME_ID, &moment);
    return (double)moment.tv_sec + (double)moment.tv_nsec * 1e-9;
}

static int compare(const void *one, const void *other) {
    double difference = *(const double *)one - *(const double *)other;
    return (difference > 0) - (difference < 0);
}

static double median(double *of) {
    qsort(of, ROUNDS, sizeof *of, compare);
    return of[ROUNDS / 2];
}

/* The medians, over paired rounds, of the nanoseconds of a call and of their ratio to the digest
 * calls. */
static void measure(const struct work *work, double *nanoseconds, double *ratio) {
    double ours[ROUNDS], ratios[ROUNDS] = {0};
    for (int round = -1; round < ROUNDS; round++) {
        double start = seconds();
        for (int i = 0; i < CALLS; i++) work->call();
        double middle = seconds();
        if (work->reference != NULL)
            for (int i = 0; i < CALLS; i++) work->reference();
        double end = seconds();
        if (round < 0) continue;
        ours[round] = (middle - start) / CALLS * 1e9;
        if (work->reference != NULL) ratios[round] = (middle - start) / (end - middle);
    }
    *nanoseconds = median(ours);
    *ratio = median(ratios);
}

static long counted(const char *file, const char *name) {
    char found[64];
    long count = -1, number;
    FILE *counts = fopen(file, "r");
    while (counts != NULL && fscanf(counts, "%63s %ld", found, &number) == 2)
        if (strcmp(found, name) == 0) count = number;
    if (counts != NULL) fclose(counts);
    return count;
}

static void print_table(const char *file) {
    printf("| Call | ns | of OpenSSL's digests | at most | instructions | at most |\n"
           "|---|---|---|---|---|---|\n");
    for (size_t i = 0; i < sizeof works / sizeof *works; i++) {
        const struct work *work = works + i;
        double nanoseconds, ratio;
        measure(work, &nanoseconds, &ratio);
        printf("| %s | %.0f | ", work->title, nanoseconds);
        if (work->reference != NULL) printf("%.2f", ratio);
        printf(" | ");
        if (work->ratio_bar > 0) printf("%.3g", work->ratio_bar);
        long count = counted(file, work->name);
        if (count < 0) printf(" | not counted | ");
        else printf(" | %ld | ", count);
        if (work->instructions_bar > 0) printf("%ld", work->instructions_bar);
        printf(" |\n");
    }
}

int main(int count, char **words) {
    if (count == 2 && strcmp(words[1], "names") == 0) {
        for (size_t i = 0; i < sizeof works / sizeof *works; i++)
            printf("%s %s\n", works[i].name, works[i].function);
        return 0;
    }
    prepare();
    if (count == 4 && strcmp(words[1], "call") == 0) {
        for (size_t i = 0; i < sizeof works / sizeof *works; i++)
            if (strcmp(works[i].name, words[2]) == 0)
                for (long left = atol(words[3]); left > 0; left--) works[i].call();
        return 0;
    }
    if (count != 2) fail("usage: bench names | bench COUNTS | bench call NAME TIMES");
    print_table(words[1]);
    return 0;
}
