/* The calls on messages, with arguments that only C can pass: numbers and lengths that no call
 * accepts, buffers that are too small, and the order of the errors. How the calls answer messages
 * is tested by the transcripts (tests/play.py).
 *
 * The samples are typed from RFC 5769 and RFC 8489, B.1, and the key was made by Python's hashlib;
 * nothing comes from the library. */
#include "stunp.h"
#include <stdio.h>
#include <stdlib.h>
#include <string.h>

#define BYTES(text) (const uint8_t *)(text), sizeof(text) - 1
#define TEXT(text) (text), sizeof(text) - 1
#define REASON (const char *)reason, 764
#define CHECK(answer, wanted) check(answer, wanted, __LINE__)

static void check(int64_t answer, int64_t wanted, int line) {
    if (answer == wanted) return;
    fprintf(stderr, "arguments: line %d: %lld (%s), not %lld\n", line, (long long)answer,
            stunp_strerror(answer), (long long)wanted);
    exit(1);
}

/* RFC 5769, section 2.3: a response with an IPv6 address. */
static const char response[] =
    "\x01\x01\x00\x48\x21\x12\xa4\x42\xb7\xe7\xa7\x01\xbc\x34\xd6\x86\xfa\x87\xdf\xae"
    "\x80\x22\x00\x0btest vector \x00\x20\x00\x14\x00\x02\xa1\x47\x01\x13\xa9\xfa\xa5\xd3\xf1\x79"
    "\xbc\x25\xf4\xb5\xbe\xd2\xb9\xd9\x00\x08\x00\x14\xa3\x82\x95\x4e\x4b\xe6\x7b\xf1"
    "\x17\x84\xc9\x7c\x82\x92\xc2\x75\xbf\xe3\xed\x41\x80\x28\x00\x04\xc8\xfb\x0b\x4c";
static const uint8_t *const response_id = (const uint8_t *)response + 8;
static const uint8_t peer[16] = {0x20, 0x01, 0x0d, 0xb8, 0x12, 0x34, 0x56, 0x78, 0, 0x11, 0x22,
                                 0x33, 0x44, 0x55, 0x66, 0x77};

static const char user_name[] =
    "\xe3\x83\x9e\xe3\x83\x88\xe3\x83\xaa\xe3\x83\x83\xe3\x82\xaf\xe3\x82\xb9";

static void reads(void) {
    uint8_t address[16] = {0}, id[12] = {7};
    uint16_t port = 7, type = 7;
    size_t length = 7;
    CHECK(stunp_id(BYTES(response), id, 11), STUNP_BUFFER_TOO_SMALL);
    CHECK(stunp_xor_mapped_address(BYTES(response), address, 15, &port), STUNP_BUFFER_TOO_SMALL);
    CHECK(id[0] == 7 && address[0] == 0 && port == 7, 1);
    CHECK(stunp_xor_mapped_address(BYTES(response), address, 16, &port), 16);
    CHECK(memcmp(address, peer, 16), 0);
    CHECK(port, 32853);
    CHECK(stunp_next(BYTES(response), SIZE_MAX, &type, &length), 0);
    CHECK(stunp_next(BYTES(response), sizeof response - 1, &type, &length), 0);
    CHECK(type == 7 && length == 7, 1);
}

/* Cursors that no walk can leave, types that no attribute has, and a header without its message. */
static void walks(void) {
    const size_t whole = sizeof response - 1;
    stunp_cursor outside[] = {{1, 0}, {19, 0}, {whole + 1, 0}, {SIZE_MAX, 9}},
        inside[] = {{whole, 0}, {20, 3}, {20, UINT32_MAX}};
    stunp_header header = {STUNP_ERROR, 7, 7, {7}};
    uint16_t type = 7;
    size_t length = 7;
    for (size_t i = 0; i < sizeof outside / sizeof *outside; i++) {
        stunp_cursor before = outside[i];
        CHECK(stunp_walk(BYTES(response), &outside[i], &type, &length), STUNP_BAD_ARGUMENT);
        CHECK(outside[i].place == before.place && outside[i].hidden == before.hidden, 1);
    }
    for (size_t i = 0; i < sizeof inside / sizeof *inside; i++)
        CHECK(stunp_walk(BYTES(response), &inside[i], &type, &length), 0);
    CHECK(stunp_find((const uint8_t *)response, 19, 65536, &length), STUNP_BAD_ARGUMENT);
    CHECK(stunp_find((const uint8_t *)response, 19, STUNP_SOFTWARE, &length), STUNP_TRUNCATED);
    CHECK(stunp_find(BYTES(response), STUNP_USERNAME, &length), STUNP_MISSING_ATTRIBUTE);
    CHECK(type == 7 && length == 7, 1);
    CHECK(stunp_find(BYTES(response), STUNP_FINGERPRINT, &length), 88);
    CHECK((int64_t)length, 4);
    CHECK(stunp_read_header((const uint8_t *)response, 19, &header), STUNP_TRUNCATED);
    CHECK(header.message_class == STUNP_ERROR && header.method == 7 && header.length == 7
          && header.id[0] == 7, 1);
    CHECK(stunp_read_header((const uint8_t *)response, 20, &header), 0);
    CHECK(header.message_class == STUNP_SUCCESS && header.method == STUNP_BINDING
          && header.length == whole, 1);
    CHECK(memcmp(header.id, response_id, 12), 0);
}

static void writes(void) {
    uint8_t out[100], reason[764];
    memset(reason, 'a', sizeof reason);
    CHECK(stunp_begin(STUNP_REQUEST, 4096, response_id, 12, out, 100), STUNP_BAD_ARGUMENT);
    CHECK(stunp_begin(STUNP_REQUEST, 1, response_id, 11, out, 100), STUNP_BAD_ARGUMENT);
    CHECK(stunp_begin(STUNP_REQUEST, 1, response_id, 11, out, 19), STUNP_BAD_ARGUMENT);
    CHECK(stunp_begin(STUNP_REQUEST, 1, response_id, 12, out, 19), STUNP_BUFFER_TOO_SMALL);
    CHECK(stunp_begin(STUNP_INDICATION, 1, response_id, 12, out, 20), 20);
    CHECK(stunp_add(out, 100, 101, STUNP_SOFTWARE, BYTES("a")), STUNP_BAD_ARGUMENT);
    CHECK(stunp_add(out, 100, 19, 65536, BYTES("a")), STUNP_BAD_ARGUMENT);
    CHECK(stunp_add(out, 100, 19, STUNP_SOFTWARE, BYTES("a")), STUNP_TRUNCATED);
    CHECK(stunp_add(out, 100, 24, STUNP_SOFTWARE, BYTES("a")), STUNP_TOO_LARGE);
    CHECK(stunp_add(out, 27, 20, STUNP_SOFTWARE, BYTES("a")), STUNP_BUFFER_TOO_SMALL);
    CHECK(stunp_add(out, 28, 20, STUNP_SOFTWARE, BYTES("a")), 28);
    CHECK(stunp_add_xor_mapped_address(out, 100, 28, response_id, 5, 1), STUNP_BAD_ARGUMENT);
    CHECK(stunp_add_xor_mapped_address(out, 100, 28, response_id, 4, 65536), STUNP_BAD_ARGUMENT);
    CHECK(stunp_add_error(out, 100, 28, 700, REASON), STUNP_BAD_ARGUMENT);
    CHECK(stunp_add_error(out, 100, 28, 300, REASON), STUNP_TEXT_TOO_LONG);
    reason[0] = 0xff;
    CHECK(stunp_add_error(out, 100, 28, 299, REASON), STUNP_BAD_ARGUMENT);
    CHECK(stunp_add_error(out, 100, 28, 300, REASON), STUNP_NOT_TEXT);
    CHECK(stunp_sign(out, 51, 28, STUNP_SHA1, response_id, 12), STUNP_BUFFER_TOO_SMALL);
    CHECK(stunp_sign(out, 64, 28, STUNP_SHA256, response_id, 12), 64);
    CHECK(stunp_verify(out, 64, response_id, 12), STUNP_SHA256);
    CHECK(stunp_add(out, 64, 64, STUNP_FINGERPRINT, BYTES("a")), STUNP_CLOSED);
    CHECK(stunp_add(out, 64, 64, 65536, BYTES("a")), STUNP_BAD_ARGUMENT);
}

/* The user of RFC 8489, B.1. A call that is refused does not change the key that was written
 * before. */
static void writes_keys(void) {
    static const char key[] = "\xdd\x29\x5a\x61\x3b\x90\x58\xc3\xc2\x3d\x6d\xc7\x16\x5b\xda\x07"
                              "\x23\x04\xd9\x89\xc9\xd0\xaf\x3a\x8c\x7e\x18\x4b\x4f\x9b\xb4\xa1";
    uint8_t out[33];
    out[32] = 0xa5;
    CHECK(stunp_long_term_key(STUNP_SHA256, TEXT(user_name), TEXT("example.org"),
                              TEXT("TheMatrIX"), out, sizeof out),
          STUNP_SHA256_KEY_LENGTH);
    CHECK(stunp_long_term_key(STUNP_SHA256, TEXT(user_name), TEXT(""), TEXT("\xff"), out, 0),
          STUNP_NOT_TEXT);
    CHECK(stunp_long_term_key(STUNP_SHA256, TEXT(user_name), TEXT(""), TEXT("TheMatrIX"), out,
                              31), STUNP_BUFFER_TOO_SMALL);
    CHECK(stunp_long_term_key(STUNP_SHA1, TEXT(user_name), TEXT(""), TEXT("TheMatrIX"), out, 15),
          STUNP_BUFFER_TOO_SMALL);
    CHECK(stunp_userhash(TEXT(user_name), TEXT("example.org"), out, 31), STUNP_BUFFER_TOO_SMALL);
    CHECK(stunp_userhash(TEXT(user_name), TEXT("\xff"), out, 0), STUNP_NOT_TEXT);
    CHECK(stunp_userhash(TEXT("\xff"), TEXT("example.org"), out, 32), STUNP_NOT_TEXT);
    CHECK(memcmp(out, key, 32), 0);
    CHECK(out[32], 0xa5);
}

/* The call that writes a whole request: the longest one that it writes, and each refusal, which
 * comes before the later ones. */
static void builds(void) {
    static uint8_t bytes[514], out[STUNP_LONGEST_SIGNED];
    const uint8_t *id = response_id;
    const char *name = (const char *)bytes;
    memset(bytes, 'a', sizeof bytes);
    CHECK(stunp_build_signed(STUNP_SHA256, id, 12, name, 513, BYTES("key"), out, sizeof out),
          STUNP_LONGEST_SIGNED);
    CHECK(stunp_verify(out, sizeof out, BYTES("key")), STUNP_SHA256);
    CHECK(stunp_build_signed(STUNP_SHA256, id, 12, name, 513, BYTES("key"), out, sizeof out - 1),
          STUNP_BUFFER_TOO_SMALL);
    CHECK(stunp_build_signed(STUNP_SHA256, id, 12, name, 514, BYTES("key"), out, 0),
          STUNP_TEXT_TOO_LONG);
    bytes[513] = 0xff;
    CHECK(stunp_build_signed(STUNP_SHA256, id, 12, name, 514, BYTES("key"), out, 0),
          STUNP_NOT_TEXT);
    CHECK(stunp_build_signed(STUNP_SHA256, id, 11, name, 514, BYTES("key"), out, 0),
          STUNP_BAD_ARGUMENT);
    CHECK(stunp_verify(out, sizeof out, BYTES("key")), STUNP_SHA256);
    CHECK(stunp_build_signed(STUNP_SHA1, id, 12, name, 0, bytes, 0, out, 48), 48);
    CHECK(stunp_verify(out, 48, bytes, 0), STUNP_SHA1);
}

/* Numbers that are not in their enum, which C++ does not accept. */
static void refuses_numbers(void) {
#ifndef __cplusplus
    uint8_t out[64];
    CHECK(stunp_begin(STUNP_REQUEST, 1, response_id, 12, out, 64), 20);
    CHECK(stunp_begin(4, 1, response_id, 12, out, 64), STUNP_BAD_ARGUMENT);
    CHECK(stunp_begin(UINT32_MAX, 1, response_id, 12, out, 64), STUNP_BAD_ARGUMENT);
    CHECK(stunp_sign(out, 64, 20, 0, response_id, 12), STUNP_BAD_ARGUMENT);
    CHECK(stunp_sign(out, 64, 20, 3, response_id, 12), STUNP_BAD_ARGUMENT);
    CHECK(stunp_sign(out, 64, 65, 3, response_id, 12), STUNP_BAD_ARGUMENT);
    CHECK(stunp_long_term_key(3, "\xff", 1, "", 0, "", 0, out, 0), STUNP_BAD_ARGUMENT);
    CHECK(stunp_build_signed(0, response_id, 12, "\xff", 1, NULL, 0, out, 0),
          STUNP_BAD_ARGUMENT);
    CHECK(stunp_build_signed(3, response_id, 12, "\xff", 1, NULL, 0, out, 0), STUNP_BAD_ARGUMENT);
    CHECK(stunp_parse(out, 20), 0);
#endif
}

/* A null pointer with the length 0 stands for nothing to read, or for no room. */
static void reads_nothing(void) {
    stunp_header header;
    stunp_cursor cursor = {0, 0};
    uint8_t octets[16], id[12];
    uint16_t port, type;
    uint64_t number;
    size_t length;
    CHECK(stunp_parse(NULL, 0), STUNP_TRUNCATED);
    CHECK(stunp_read_header(NULL, 0, &header), STUNP_TRUNCATED);
    CHECK(stunp_class(NULL, 0), STUNP_TRUNCATED);
    CHECK(stunp_method(NULL, 0), STUNP_TRUNCATED);
    CHECK(stunp_id(NULL, 0, id, 12), STUNP_TRUNCATED);
    CHECK(stunp_id(BYTES(response), NULL, 0), STUNP_BUFFER_TOO_SMALL);
    CHECK(stunp_find(NULL, 0, STUNP_SOFTWARE, &length), STUNP_TRUNCATED);
    CHECK(stunp_walk(NULL, 0, &cursor, &type, &length), STUNP_TRUNCATED);
    CHECK(stunp_next(NULL, 0, 0, &type, &length), STUNP_TRUNCATED);
    CHECK(stunp_read_text(NULL, 0, 24, &length), STUNP_BAD_ARGUMENT);
    CHECK(stunp_read_number(NULL, 0, 24, &number), STUNP_BAD_ARGUMENT);
    CHECK(stunp_read_address(NULL, 0, 24, octets, 16, &port), STUNP_BAD_ARGUMENT);
    CHECK(stunp_read_xor_address(NULL, 0, 24, octets, 16, &port), STUNP_BAD_ARGUMENT);
    CHECK(stunp_read_xor_address(BYTES(response), 40, NULL, 0, &port), STUNP_BUFFER_TOO_SMALL);
    CHECK(stunp_read_types(NULL, 0, 24, NULL, 0), STUNP_BAD_ARGUMENT);
    CHECK(stunp_error_code(NULL, 0), STUNP_TRUNCATED);
    CHECK(stunp_xor_mapped_address(NULL, 0, octets, 16, &port), STUNP_TRUNCATED);
    CHECK(stunp_xor_mapped_address(BYTES(response), NULL, 0, &port), STUNP_BUFFER_TOO_SMALL);
    CHECK(stunp_verify(NULL, 0, BYTES("a")), STUNP_TRUNCATED);
    CHECK(stunp_verify(BYTES(response), NULL, 0), STUNP_INTEGRITY_FAILED);
    CHECK(stunp_check_fingerprint(NULL, 0), STUNP_TRUNCATED);
    CHECK(stunp_unknown_types(NULL, 0, NULL, 0, NULL, 0), STUNP_TRUNCATED);
    CHECK(stunp_unknown_types(BYTES(response), NULL, 0, NULL, 0), 2);
    CHECK(stunp_is_stun(NULL, 0), 0);
    CHECK(stunp_next_frame(NULL, 0), 20);
    CHECK(stunp_next_packet_frame(NULL, 0), 2);
    CHECK(stunp_next_turn_frame(NULL, 0), 4);
}

static void writes_nothing(void) {
    uint8_t out[128];
    CHECK(stunp_begin(STUNP_REQUEST, 1, NULL, 0, out, 128), STUNP_BAD_ARGUMENT);
    CHECK(stunp_begin(STUNP_REQUEST, 1, response_id, 12, NULL, 0), STUNP_BUFFER_TOO_SMALL);
    CHECK(stunp_begin(STUNP_REQUEST, 1, response_id, 12, out, 128), 20);
    CHECK(stunp_refuse_unknown(NULL, 0, NULL, 0, NULL, 0), STUNP_TRUNCATED);
    CHECK(stunp_refuse_unknown(out, 20, NULL, 0, NULL, 0), 0);
    CHECK(stunp_add(NULL, 0, 0, STUNP_SOFTWARE, "a", 1), STUNP_TRUNCATED);
    CHECK(stunp_add(out, 128, 20, STUNP_USE_CANDIDATE, NULL, 0), 24);
    CHECK(stunp_add_number(NULL, 0, 0, STUNP_PRIORITY, 1, 4), STUNP_TRUNCATED);
    CHECK(stunp_add_address(out, 128, 24, STUNP_MAPPED_ADDRESS, NULL, 0, 1), STUNP_BAD_ARGUMENT);
    CHECK(stunp_add_address(NULL, 0, 0, STUNP_MAPPED_ADDRESS, peer, 16, 1), STUNP_TRUNCATED);
    CHECK(stunp_add_xor_address(NULL, 0, 0, STUNP_XOR_PEER_ADDRESS, NULL, 0, 1),
          STUNP_BAD_ARGUMENT);
    CHECK(stunp_add_xor_mapped_address(NULL, 0, 0, NULL, 0, 1), STUNP_BAD_ARGUMENT);
    CHECK(stunp_add_error(NULL, 0, 0, 400, NULL, 0), STUNP_TRUNCATED);
    CHECK(stunp_add_error(out, 128, 24, 400, NULL, 0), 32);
    CHECK(stunp_sign(NULL, 0, 0, STUNP_SHA1, NULL, 0), STUNP_TRUNCATED);
    CHECK(stunp_sign(out, 128, 32, STUNP_SHA1, NULL, 0), 56);
    CHECK(stunp_verify(out, 56, NULL, 0), STUNP_SHA1);
    CHECK(stunp_add_fingerprint(NULL, 0, 0), STUNP_TRUNCATED);
    CHECK(stunp_build_signed(STUNP_SHA1, response_id, 12, NULL, 0, NULL, 0, NULL, 0),
          STUNP_BUFFER_TOO_SMALL);
    CHECK(stunp_build_signed(STUNP_SHA1, response_id, 12, NULL, 0, NULL, 0, out, 128), 48);
    CHECK(stunp_build_signed(STUNP_SHA1, NULL, 0, NULL, 0, NULL, 0, out, 128), STUNP_BAD_ARGUMENT);
    CHECK(stunp_long_term_key(STUNP_SHA1, NULL, 0, NULL, 0, NULL, 0, NULL, 0),
          STUNP_BUFFER_TOO_SMALL);
    CHECK(stunp_long_term_key(STUNP_SHA1, NULL, 0, NULL, 0, NULL, 0, out, 128), 16);
    CHECK(stunp_userhash(NULL, 0, NULL, 0, NULL, 0), STUNP_BUFFER_TOO_SMALL);
    CHECK(stunp_userhash(NULL, 0, NULL, 0, out, 128), 32);
    CHECK(stunp_error_text(0, NULL, 0), STUNP_BUFFER_TOO_SMALL);
}

/* The archive tells the same text as the header, in any buffer that has room for it. */
static void tells_the_same(int64_t answer) {
    uint8_t text[STUNP_LONGEST_ERROR_TEXT + 1];
    const char *wanted = stunp_strerror(answer);
    const size_t whole = strlen(wanted) + 1;
    CHECK(whole <= STUNP_LONGEST_ERROR_TEXT, 1);
    memset(text, 0xa5, sizeof text);
    CHECK(stunp_error_text(answer, text, whole - 1), STUNP_BUFFER_TOO_SMALL);
    CHECK(text[0], 0xa5);
    CHECK(stunp_error_text(answer, text, sizeof text), (int64_t)whole);
    CHECK(memcmp(text, wanted, whole), 0);
    CHECK(text[whole], 0xa5);
    CHECK(stunp_error_text(answer, text, whole), (int64_t)whole);
}

/* Each refusal has a text of its own, and no other number has one of these texts. */
static void tells(void) {
    const int64_t last = STUNP_WRONG_HANDLE;
    for (int64_t i = last; i < 0; i++) {
        CHECK(strcmp(stunp_strerror(i), "no error") == 0, 0);
        CHECK(strcmp(stunp_strerror(i), "unknown refusal") == 0, 0);
        for (int64_t j = last; j < i; j++)
            CHECK(strcmp(stunp_strerror(i), stunp_strerror(j)) == 0, 0);
    }
    CHECK(strcmp(stunp_strerror(STUNP_TRUNCATED), "bytes are missing at the end"), 0);
    CHECK(strcmp(stunp_strerror(STUNP_UNSUPPORTED_FEATURE), "a required feature is not supported"),
          0);
    CHECK(strcmp(stunp_strerror(STUNP_TOO_MANY_ADDRESSES), "as many addresses are kept as may be"),
          0);
    CHECK(strcmp(stunp_strerror(last), "the handle has a value of another kind, realm or algorithm"), 0);
    CHECK(strcmp(stunp_strerror(last - 1), "unknown refusal"), 0);
    CHECK(strcmp(stunp_strerror(0), "no error"), 0);
    for (int64_t i = -1000; i < 1000; i++) tells_the_same(i);
    tells_the_same(INT64_MIN);
    tells_the_same(INT64_MIN + 1);
    tells_the_same(INT64_MAX);
}

int main(void) {
    CHECK(stunp_version(), STUNP_VERSION);
    CHECK(stunp_release_0_3(), STUNP_VERSION);
    reads();
    walks();
    writes();
    writes_keys();
    builds();
    refuses_numbers();
    reads_nothing();
    writes_nothing();
    tells();
    puts("arguments: passed");
    return 0;
}
