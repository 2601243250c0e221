/* Runs the library on what a hostile peer may send. Each message is flush against memory that may
 * not be touched, at its end and then at its front. A read outside it ends the program. hostile.sh
 * builds this with an address sanitizer.
 *
 * The messages and verdicts are those of tests/transcripts/message.digests.txt and
 * message.hidden.txt (hostile.h). Then come mutations of the request of RFC 5769, section 2.1, of
 * which none with a changed covered byte may verify. Buffers of every length to write to come
 * last. */
#include "hostile.h"

enum { MUTATIONS = 200000 };

/* The answer on a message at both places, which must be the same, and that of parsing alone, which
 * must agree. */
static int64_t answer_on(const uint8_t *message, size_t length, const char *key) {
    const uint8_t *key_bytes = (const uint8_t *)key;
    uint8_t *at_end = pages + pages_length - length;
    memcpy(at_end, message, length);
    int64_t answer = stunp_verify(at_end, length, key_bytes, strlen(key));
    int64_t parsed = stunp_parse(at_end, length);
    if (memcmp(at_end, message, length) != 0) fail("a message was written to", (long)length);
    memcpy(pages, message, length);
    if (stunp_verify(pages, length, key_bytes, strlen(key)) != answer)
        fail("two answers", (long)answer);
    if (stunp_parse(pages, length) != parsed) fail("two answers of parsing", (long)parsed);
    if ((parsed < 0) != (answer < 0 && answer > STUNP_NO_INTEGRITY)
        || (parsed < 0 && parsed != answer))
        fail("parsing and verifying disagree", (long)answer);
    return answer;
}

static void run_table(void) {
    static uint8_t message[256];
    for (size_t i = 0; i < sizeof table / sizeof *table; i++) {
        size_t length = spell(message, table[i].digits, 4);
        if (answer_on(message, length, table_key) != table[i].verdict) fail(table[i].name, (long)i);
        for (size_t front = 0; front < length; front++)
            if (answer_on(message, front, table_key) != STUNP_TRUNCATED)
                fail("a front of a message", (long)front);
        message[length] = 0;
        if (answer_on(message, length + 1, table_key) != STUNP_TOO_LARGE)
            fail("a byte behind a message", (long)i);
    }
}

/* MESSAGE-INTEGRITY has 20 bytes; MESSAGE-INTEGRITY-SHA256 has 16 to 32, a multiple of 4. */
static void run_lengths(void) {
    for (unsigned kind = 0; kind < 2; kind++)
        for (unsigned value = 0; value < 41; value++)
            for (unsigned behind = 0; behind < 2; behind++) {
                char digits[128];
                int used = sprintf(digits, "%s%04x", kind == 0 ? "0008" : "001c", value);
                for (unsigned i = 0; i < (value + 3) / 4; i++)
                    used += sprintf(digits + used, "00000000");
                uint8_t message[256];
                const char *pieces[] = {digits, behind == 0 ? NULL : FINGERPRINT};
                bool has = kind == 0 ? value == 20 : value >= 16 && value <= 32 && value % 4 == 0;
                int64_t wanted = has ? STUNP_INTEGRITY_FAILED : STUNP_MALFORMED_INTEGRITY;
                if (answer_on(message, spell(message, pieces, 2), table_key) != wanted)
                    fail("an integrity of this length", value);
            }
}

/* The header but for its length, all up to the digest and the digest itself: the bytes 0 to 1 and 4
 * to 99. */
static bool is_covered_changed(const uint8_t *message, size_t length) {
    return length < 100 || memcmp(message, sample, 2) != 0
        || memcmp(message + 4, sample + 4, 96) != 0;
}

static void run_mutations(void) {
    long stood = 0, refused[7] = {0};
    uint8_t message[256];
    for (long i = 0; i < MUTATIONS; i++) {
        size_t length = mutate(message, sample, sizeof sample);
        int64_t answer = answer_on(message, length, password);
        if (answer > 0 && is_covered_changed(message, length))
            fail("a changed message verifies", i);
        if (answer <= STUNP_NO_INTEGRITY && !is_covered_changed(message, length))
            fail("an unchanged message fails", i);
        if (answer == 0 || answer > STUNP_SHA1 || answer < STUNP_INTEGRITY_FAILED)
            fail("another answer", (long)answer);
        if (answer > 0) stood++;
        else refused[-answer]++;
    }
    printf("%d mutations: %ld stand, none with a changed covered byte;", MUTATIONS, stood);
    for (int number = 1; number < 7; number++) printf(" %d: %ld", -number, refused[number]);
    printf("\n");
}

/* The answer of a call that writes, into a buffer that ends where memory does. */
typedef int64_t writer(uint8_t *out, size_t room);

static int64_t write_request(uint8_t *out, size_t room) {
    return stunp_build_signed(STUNP_SHA256, sample + 8, STUNP_ID_LENGTH, "evtj:h6vY", 9,
                              (const uint8_t *)password, strlen(password), out, room);
}

static int64_t write_key(uint8_t *out, size_t room) {
    return stunp_long_term_key(STUNP_SHA256, "a", 1, "b", 1, "c", 1, out, room);
}

static int64_t write_hash(uint8_t *out, size_t room) {
    return stunp_userhash("a", 1,
                          "b", 1, out, room);
}

/* With each room up to 100 bytes: too little is refused and leaves the buffer, and what is left
 * over stays. */
static void run_buffers(writer *call, int64_t needed) {
    for (size_t room = 0; room <= 100; room++) {
        uint8_t *out = pages + pages_length - room;
        memset(out - 16, 0xa5, room + 16);
        int64_t wanted = (int64_t)room < needed ? STUNP_BUFFER_TOO_SMALL : needed;
        if (call(out, room) != wanted) fail("a buffer of this length", (long)room);
        size_t written = wanted < 0 ? 0 : (size_t)wanted;
        for (uint8_t *at = out - 16; at < out; at++)
            if (*at != 0xa5) fail("written before the buffer", (long)room);
        for (uint8_t *at = out + written; at < out + room; at++)
            if (*at != 0xa5) fail("written behind the answer", (long)room);
    }
}

static void run_arguments(void) {
    static uint8_t name[514], out[STUNP_LONGEST_SIGNED];
    memset(name, 'a', sizeof name);
    const uint8_t *id = sample + 8, *key = (const uint8_t *)password;
    if (stunp_build_signed(2, id, 12, (const char *)name, 513, key, 1, out, sizeof out) != 576)
        fail("the longest name", 513);
    if (stunp_build_signed(1, id, 12, (const char *)name, 0, key, 0, out, sizeof out) != 48)
        fail("no name and no key", 0);
    if (stunp_build_signed(2, id, 12, (const char *)name, 514, key, 1, out,
                           sizeof out) != STUNP_TEXT_TOO_LONG)
        fail("too long a name", 514);
    name[513] = 0xff;
    if (stunp_build_signed(2, id, 12, (const char *)name, 514, key, 1, out,
                           sizeof out) != STUNP_NOT_TEXT)
        fail("no text", 514);
    if (stunp_build_signed(2, id, 11, (const char *)name, 514, key, 1, out,
                           sizeof out) != STUNP_BAD_ARGUMENT)
        fail("a short id", 11);
    if (stunp_build_signed(3, id, 12, (const char *)name, 514, key, 1, out,
                           sizeof out) != STUNP_BAD_ARGUMENT)
        fail("algorithm", 3);
    if (stunp_build_signed(0, id, 12, (const char *)name, 1, key, 1, out,
                           sizeof out) != STUNP_BAD_ARGUMENT)
        fail("algorithm", 0);
    if (stunp_long_term_key(3, (const char *)name, 1, (const char *)name, 1, (const char *)name,
                            514, out, 0) != STUNP_BAD_ARGUMENT)
        fail("algorithm of a key", 3);
    if (stunp_long_term_key(1, (const char *)name, 1, (const char *)name, 1, (const char *)name,
                            514, out, 0) != STUNP_NOT_TEXT)
        fail("a password that is no text", 1);
    if (stunp_long_term_key(1, (const char *)name, 1, (const char *)name, 1, (const char *)name,
                            513, out, 15) != STUNP_BUFFER_TOO_SMALL)
        fail("room for a key", 15);
    if (stunp_userhash((const char *)name, 514, (const char *)name, 1, out, 0) != STUNP_NOT_TEXT)
        fail("a user name that is no text", 1);
}

int main(void) {
    make_pages();
    run_table();
    run_lengths();
    run_mutations();
    run_buffers(write_request, 72);
    run_buffers(write_key, STUNP_SHA256_KEY_LENGTH);
    run_buffers(write_hash, STUNP_USERHASH_LENGTH);
    run_arguments();
    printf("hostile: passed\n");
    return 0;
}
