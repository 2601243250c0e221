/* Addresses, numbers and texts, and a writer: what the calls read in the samples of RFC 5769, what
 * they write, and what they refuse. The expected values are counted, spelled or computed here, and
 * do not come from the library. */
#include "samples.h"

/* ---- Addresses. */

static const uint8_t peer_6[16] = {0x20, 0x01, 0x0d, 0xb8, 0x12, 0x34, 0x56, 0x78, 0, 0x11, 0x22,
                                   0x33, 0x44, 0x55, 0x66, 0x77};
static const uint8_t peer_4[4] = {192, 0, 2, 1};

/* Two peers and two relayed addresses in one message, as TURN repeats them (RFC 8656, sections 7.2
 * and 10.1). The walk returns each of them. */
static void hides_addresses(void) {
    uint8_t message[136], octets[17] = {0};
    uint16_t port = 7, type = 0;
    size_t length = 0;
    CHECK(stunp_begin(STUNP_REQUEST, STUNP_CREATE_PERMISSION, id, 12, message, sizeof message), 20);
    CHECK(stunp_add_xor_address(message, 43, 20, STUNP_XOR_PEER_ADDRESS, peer_6, 16, 32853),
          STUNP_BUFFER_TOO_SMALL);
    CHECK(stunp_add_xor_address(message, 44, 20, STUNP_XOR_PEER_ADDRESS, peer_6, 16, 32853), 44);
    CHECK(memcmp(message + 20, "\x00\x12\x00\x14", 4), 0);
    CHECK(memcmp(message + 24, response_6 + 40, 20), 0);
    CHECK(stunp_add_xor_address(message, 128, 44, STUNP_XOR_RELAYED_ADDRESS, peer_4, 4, 32853), 56);
    CHECK(memcmp(message + 44, "\x00\x16\x00\x08", 4), 0);
    CHECK(memcmp(message + 48, response + 40, 8), 0);
    CHECK(stunp_add_xor_address(message, 67, 56, STUNP_XOR_PEER_ADDRESS, peer_4, 4, 32853),
          STUNP_BUFFER_TOO_SMALL);
    CHECK(stunp_add_xor_address(message, 68, 56, STUNP_XOR_PEER_ADDRESS, peer_4, 4, 32853), 68);
    CHECK(memcmp(message + 56, "\x00\x12\x00\x08", 4), 0);
    CHECK(memcmp(message + 60, response + 40, 8), 0);
    /* Other types are added once, whatever call adds them. */
    CHECK(stunp_add_xor_address(message, 136, 68, STUNP_XOR_MAPPED_ADDRESS, peer_4, 4, 32853), 80);
    CHECK(stunp_add_xor_address(message, 136, 80, STUNP_XOR_MAPPED_ADDRESS, peer_6, 16, 32853),
          STUNP_ATTRIBUTE_EXISTS);
    CHECK(stunp_add(message, 136, 80, STUNP_XOR_MAPPED_ADDRESS, "", 0), STUNP_ATTRIBUTE_EXISTS);
    /* No call adds them after the signature or FINGERPRINT. */
    stunp_writer writer = stunp_write_on(80, message, sizeof message);
    stunp_write_xor_address(&writer, STUNP_XOR_RELAYED_ADDRESS, peer_6, 16, 32853);
    stunp_write_fingerprint(&writer);
    CHECK(stunp_written(&writer), 0);
    CHECK((int64_t)writer.length, 112);
    stunp_write_xor_address(&writer, STUNP_XOR_RELAYED_ADDRESS, peer_4, 4, 32853);
    CHECK(stunp_written(&writer), STUNP_CLOSED);
    stunp_cursor relayed = {56, 0};
    CHECK(stunp_walk(message, 112, &relayed, &type, &length), 60);
    CHECK(stunp_walk(message, 112, &relayed, &type, &length), 72);
    CHECK(stunp_walk(message, 112, &relayed, &type, &length), 84);
    CHECK(type, STUNP_XOR_RELAYED_ADDRESS);
    CHECK(stunp_read_xor_address(message, 112, 84, octets, 16, &port), 16);
    CHECK(port == 32853 && memcmp(octets, peer_6, 16) == 0, 1);
    memset(octets, 0, sizeof octets), port = 7;
    /* From here on, the message ends after the second peer. */
    message[3] = 48;

    stunp_cursor cursor = {0, 0};
    CHECK(stunp_walk(message, 68, &cursor, &type, &length), 24);
    CHECK(stunp_read_xor_address(message, 68, 24, octets, 15, &port), STUNP_BUFFER_TOO_SMALL);
    CHECK(port == 7 && octets[0] == 0, 1);
    CHECK(stunp_read_xor_address(message, 68, 24, octets, 17, &port), 16);
    CHECK(port == 32853 && memcmp(octets, peer_6, 16) == 0 && octets[16] == 0, 1);
    CHECK(stunp_walk(message, 68, &cursor, &type, &length), 48);
    CHECK(stunp_walk(message, 68, &cursor, &type, &length), 60);
    CHECK(type, STUNP_XOR_PEER_ADDRESS);
    memset(octets, 7, sizeof octets);
    CHECK(stunp_read_xor_address(message, 68, 60, octets, 4, &port), 4);
    CHECK(memcmp(octets, peer_4, 4) == 0 && octets[4] == 7, 1);
    CHECK(stunp_find(message, 68, STUNP_XOR_RELAYED_ADDRESS, &length), 48);
    CHECK(stunp_read_xor_address(message, 68, 48, octets, 4, &port), 4);
}

static void refuses_addresses(void) {
    uint8_t message[64], octets[16];
    uint16_t port = 7;
    CHECK(stunp_begin(STUNP_REQUEST, STUNP_ALLOCATE, id, 12, message, sizeof message), 20);
    CHECK(stunp_add_xor_address(message, 64, 65, 65536, peer_4, 4, 1), STUNP_BAD_ARGUMENT);
    CHECK(stunp_add_xor_address(message, 64, 20, STUNP_XOR_PEER_ADDRESS, peer_4, 3, 1),
          STUNP_BAD_ARGUMENT);
    CHECK(stunp_add_xor_address(message, 64, 20, STUNP_XOR_PEER_ADDRESS, peer_4, 4, 65536),
          STUNP_BAD_ARGUMENT);
    CHECK(stunp_add_xor_address(message, 64, 19, STUNP_XOR_PEER_ADDRESS, peer_4, 4, 1),
          STUNP_TRUNCATED);
    CHECK(stunp_add_xor_address(message, 64, 20, STUNP_MESSAGE_INTEGRITY, peer_4, 4, 1),
          STUNP_NOT_ALLOWED);
    CHECK(stunp_add_xor_address(message, 64, 20, STUNP_FINGERPRINT, peer_4, 4, 1),
          STUNP_NOT_ALLOWED);
    CHECK(stunp_add_xor_address(message, 64, 20, STUNP_XOR_PEER_ADDRESS, peer_4, 4, 1), 32);
    CHECK(stunp_add_fingerprint(message, 64, 32), 40);
    CHECK(stunp_add_xor_address(message, 64, 40, STUNP_XOR_RELAYED_ADDRESS, peer_4, 4, 1),
          STUNP_CLOSED);
    for (size_t place = 0; place < 24; place++)
        CHECK(stunp_read_xor_address(message, 40, place, octets, 16, &port), STUNP_BAD_ARGUMENT);
    for (size_t length = 0; length < 32; length++)
        CHECK(stunp_read_xor_address(message, length, 24, octets, 16, &port), STUNP_BAD_ARGUMENT);
    CHECK(stunp_read_xor_address(message, 40, 45, octets, 16, &port), STUNP_BAD_ARGUMENT);
    CHECK(stunp_read_xor_address(message, 40, SIZE_MAX, octets, 16, &port), STUNP_BAD_ARGUMENT);
    CHECK(stunp_read_xor_address(message, 40, 36, octets, 16, &port), STUNP_MALFORMED_ATTRIBUTE);
    message[25] = 2; /* the other family */
    CHECK(stunp_read_xor_address(message, 40, 24, octets, 0, &port), STUNP_MALFORMED_ATTRIBUTE);
    CHECK(port, 7);
}

/* The same addresses, not hidden, in two types of attributes that have the same form. */
static void shows_addresses(void) {
    uint8_t message[128], octets[17] = {0};
    uint16_t port = 7;
    CHECK(stunp_begin(STUNP_SUCCESS, STUNP_BINDING, id, 12, message, sizeof message), 20);
    CHECK(stunp_add_address(message, 31, 20, STUNP_MAPPED_ADDRESS, peer_4, 4, 32853),
          STUNP_BUFFER_TOO_SMALL);
    CHECK(stunp_add_address(message, 32, 20, STUNP_MAPPED_ADDRESS, peer_4, 4, 32853), 32);
    CHECK(memcmp(message + 20, "\x00\x01\x00\x08\x00\x01\x80\x55\xc0\x00\x02\x01", 12), 0);
    CHECK(stunp_add_address(message, 128, 32, STUNP_ALTERNATE_SERVER, peer_6, 16, 32853), 56);
    CHECK(memcmp(message + 32, "\x80\x23\x00\x14\x00\x02\x80\x55", 8), 0);
    CHECK(memcmp(message + 40, peer_6, 16), 0);
    CHECK(stunp_parse(message, 56), 0);
    CHECK(stunp_read_address(message, 56, 24, octets, 3, &port), STUNP_BUFFER_TOO_SMALL);
    CHECK(port == 7 && octets[0] == 0, 1);
    CHECK(stunp_read_address(message, 56, 24, octets, 4, &port), 4);
    CHECK(port == 32853 && memcmp(octets, peer_4, 4) == 0 && octets[4] == 0, 1);
    port = 7;
    CHECK(stunp_read_address(message, 56, 36, octets, 17, &port), 16);
    CHECK(port == 32853 && memcmp(octets, peer_6, 16) == 0 && octets[16] == 0, 1);

    CHECK(stunp_add_address(message, 128, 129, 65536, peer_4, 4, 1), STUNP_BAD_ARGUMENT);
    CHECK(stunp_add_address(message, 128, 55, STUNP_MAPPED_ADDRESS, peer_4, 4, 65536),
          STUNP_BAD_ARGUMENT);
    CHECK(stunp_add_address(message, 128, 55, STUNP_MAPPED_ADDRESS, peer_6, 15, 1),
          STUNP_BAD_ARGUMENT);
    CHECK(stunp_add_address(message, 128, 55, STUNP_MAPPED_ADDRESS, peer_6, 16, 1),
          STUNP_TRUNCATED);
    CHECK(stunp_add_address(message, 128, 56, STUNP_FINGERPRINT, peer_6, 16, 1), STUNP_NOT_ALLOWED);
    CHECK(stunp_add_address(message, 128, 56, STUNP_MAPPED_ADDRESS, peer_6, 16, 1),
          STUNP_ATTRIBUTE_EXISTS);
    for (size_t place = 0; place < 24; place++)
        CHECK(stunp_read_address(message, 56, place, octets, 16, &port), STUNP_BAD_ARGUMENT);
    CHECK(stunp_read_address(message, 56, 61, octets, 16, &port), STUNP_BAD_ARGUMENT);
    CHECK(stunp_read_address(message, 55, 36, octets, 16, &port), STUNP_BAD_ARGUMENT);
    message[25] = 2; /* the other family */
    CHECK(stunp_read_address(message, 56, 24, octets, 0, &port), STUNP_MALFORMED_ATTRIBUTE);
    CHECK(port, 32853);
}

/* ---- Numbers. */

/* PRIORITY and ICE-CONTROLLED of the request, read and written again. */
static void reads_samples(void) {
    const uint8_t *bytes = (const uint8_t *)request;
    size_t length = 0;
    uint64_t number = 7;
    int64_t priority = stunp_find(BYTES(request), STUNP_PRIORITY, &length);
    CHECK(stunp_read_number(BYTES(request), (size_t)priority, &number), 4);
    CHECK(number == 0x6e0001ff, 1);
    int64_t controlled = stunp_find(BYTES(request), STUNP_ICE_CONTROLLED, &length);
    CHECK(stunp_read_number(BYTES(request), (size_t)controlled, &number), 8);
    CHECK(number == 0x932ff9b151263b36, 1);
    CHECK(stunp_begin(STUNP_REQUEST, STUNP_BINDING, id, 12, out, 40), 20);
    CHECK(stunp_add_number(out, 40, 20, STUNP_PRIORITY, 0x6e0001ff, 4), 28);
    CHECK(stunp_add_number(out, 40, 28, STUNP_ICE_CONTROLLED, 0x932ff9b151263b36, 8), 40);
    CHECK(memcmp(out + 24, bytes + priority, 4), 0);
    CHECK(memcmp(out + 32, bytes + controlled, 8), 0);
    CHECK(stunp_parse(out, 40), 0);
    number = 7;
    for (size_t place = 0; place < 24; place++)
        CHECK(stunp_read_number(out, 40, place, &number), STUNP_BAD_ARGUMENT);
    for (size_t there = 0; there < 28; there++)
        CHECK(stunp_read_number(out, there, 24, &number), STUNP_BAD_ARGUMENT);
    CHECK(stunp_read_number(out, 40, 44, &number), STUNP_BAD_ARGUMENT);
    CHECK(stunp_read_number(out, 40, SIZE_MAX, &number), STUNP_BAD_ARGUMENT);
    CHECK(stunp_read_number(BYTES(request), 24, &number), STUNP_MALFORMED_ATTRIBUTE); /* SOFTWARE */
    CHECK(number == 7, 1);
}

/* The least and the greatest number of each size, the first number that is too great, and sizes
 * that no number has. */
static void sizes(void) {
    for (size_t size = 0; size <= 20; size++) {
        const bool is_size = size == 1 || size == 2 || size == 4 || size == 8;
        const uint64_t greatest = size < 8 ? ((uint64_t)1 << 8 * size) - 1 : UINT64_MAX;
        uint64_t number = 7;
        memset(out, 0xa5, 64);
        CHECK(stunp_begin(STUNP_REQUEST, STUNP_BINDING, id, 12, out, 20), 20);
        memcpy(before, out, 64);
        if (!is_size || size < 8)
            CHECK(stunp_add_number(out, 64, 20, STUNP_PRIORITY, is_size ? greatest + 1 : 0, size),
                  STUNP_BAD_ARGUMENT);
        CHECK(memcmp(out, before, 64), 0);
        if (is_size) {
            const int64_t end = size == 8 ? 32 : 28;
            CHECK(stunp_add_number(out, (size_t)end, 20, STUNP_PRIORITY, greatest, size), end);
            CHECK(stunp_read_number(out, (size_t)end, 24, &number), (int64_t)size);
            CHECK(number == greatest && out[24 + size] == (size < 4 ? 0 : 0xa5), 1);
            CHECK(stunp_begin(STUNP_REQUEST, STUNP_BINDING, id, 12, out, 20), 20);
            CHECK(stunp_add_number(out, 64, 20, STUNP_PRIORITY, 0, size), end);
            CHECK(stunp_read_number(out, (size_t)end, 24, &number), (int64_t)size);
            CHECK(number == 0, 1);
        } else {
            CHECK(stunp_add(out, 64, 20, STUNP_PRIORITY, large, size),
                  (int64_t)(24 + (size + 3) / 4 * 4));
            CHECK(stunp_read_number(out, 24 + (size + 3) / 4 * 4, 24, &number),
                  STUNP_MALFORMED_ATTRIBUTE);
            CHECK(number == 7, 1);
        }
    }
    CHECK(stunp_add_number(out, 64, 20, STUNP_PRIORITY, 1, SIZE_MAX), STUNP_BAD_ARGUMENT);
}

/* Each refusal of stunp_add, which comes after those of the number. */
static void refuses_numbers(void) {
    CHECK(stunp_begin(STUNP_REQUEST, STUNP_BINDING, id, 12, out, 20), 20);
    CHECK(stunp_add_number(out, 64, 65, STUNP_PRIORITY, (uint64_t)1 << 32, 4), STUNP_BAD_ARGUMENT);
    CHECK(stunp_add_number(out, 64, 20, 65536, 1, 4), STUNP_BAD_ARGUMENT);
    CHECK(stunp_add_number(out, 64, 19, STUNP_PRIORITY, 1, 3), STUNP_BAD_ARGUMENT);
    CHECK(stunp_add_number(out, 64, 19, STUNP_PRIORITY, 1, 4), STUNP_TRUNCATED);
    CHECK(stunp_add_number(out, 64, 20, STUNP_MESSAGE_INTEGRITY, 1, 4), STUNP_NOT_ALLOWED);
    CHECK(stunp_add_number(out, 27, 20, STUNP_PRIORITY, 1, 4), STUNP_BUFFER_TOO_SMALL);
    CHECK(stunp_add_number(out, 28, 20, STUNP_PRIORITY, 1, 4), 28);
    CHECK(stunp_add_number(out, 64, 28, STUNP_PRIORITY, 1, 4), STUNP_ATTRIBUTE_EXISTS);
    CHECK(stunp_add_fingerprint(out, 64, 28), 36);
    CHECK(stunp_add_number(out, 64, 36, STUNP_LIFETIME, 1, 4), STUNP_CLOSED);
}

/* ---- Texts and types, each of which is read by its type. */

static void reads_texts(void) {
    static const char name[] =
        "\xe3\x83\x9e\xe3\x83\x88\xe3\x83\xaa\xe3\x83\x83\xe3\x82\xaf\xe3\x82\xb9";
    size_t length = 7;
    CHECK(stunp_find_text(BYTES(request), STUNP_SOFTWARE, &length), 24);
    CHECK(length == 16 && memcmp(request + 24, "STUN test client", 16) == 0, 1);
    CHECK(stunp_read_text(BYTES(request), 24, &length), 24);
    int64_t begin = stunp_find_text(BYTES(long_term), STUNP_USERNAME, &length);
    CHECK(begin, 24);
    CHECK(stunp_find(BYTES(long_term), STUNP_USERNAME, &length), begin);
    CHECK(length == 18 && memcmp(long_term + begin, name, 18) == 0, 1);
    begin = stunp_find_text(BYTES(long_term), STUNP_REALM, &length);
    CHECK(length == 11 && memcmp(long_term + begin, "example.org", 11) == 0, 1);
    length = 7;
    CHECK(stunp_find_text(BYTES(request), 65536, &length), STUNP_BAD_ARGUMENT);
    CHECK(stunp_find_text(BYTES(request), STUNP_REALM, &length), STUNP_MISSING_ATTRIBUTE);
    CHECK(stunp_find_text((const uint8_t *)request, 19, STUNP_REALM, &length), STUNP_TRUNCATED);
    for (size_t place = 0; place < 24; place++)
        CHECK(stunp_read_text(BYTES(request), place, &length), STUNP_BAD_ARGUMENT);
    for (size_t there = 0; there < 40; there++)
        CHECK(stunp_read_text((const uint8_t *)request, there, 24, &length), STUNP_BAD_ARGUMENT);
    CHECK(stunp_read_text(BYTES(request), sizeof request - 1, &length), STUNP_BAD_ARGUMENT);
    CHECK(stunp_read_text(BYTES(request), SIZE_MAX, &length), STUNP_BAD_ARGUMENT);
    CHECK(stunp_find_text(BYTES(request), STUNP_ICE_CONTROLLED, &length), STUNP_NOT_TEXT);
    CHECK((int64_t)length, 7);
    CHECK(stunp_begin(STUNP_REQUEST, STUNP_BINDING, id, 12, out, 24), 20);
    CHECK(stunp_add(out, 24, 20, STUNP_NONCE, "", 0), 24);
    CHECK(stunp_read_text(out, 24, 24, &length), 24);
    CHECK((int64_t)length, 0);
}

static void reads_types(void) {
    static const uint16_t known[] = {STUNP_USERNAME};
    uint16_t types[4] = {7, 7, 7, 7};
    size_t length = (size_t)stunp_refuse_unknown(BYTES(request), known, 0, out, sizeof out);
    CHECK(stunp_find_types(out, length, STUNP_UNKNOWN_ATTRIBUTES, types, 4), 3);
    CHECK(types[0] == STUNP_PRIORITY && types[1] == STUNP_USERNAME, 1);
    CHECK(types[2] == STUNP_MESSAGE_INTEGRITY && types[3] == 7, 1);
    types[0] = types[1] = types[2] = 7;
    CHECK(stunp_read_types(out, length, 52, types, 2), 3);
    CHECK(types[0] == STUNP_PRIORITY && types[1] == STUNP_USERNAME && types[2] == 7, 1);
    CHECK(stunp_read_types(out, length, 52, NULL, 0), 3);
    CHECK(stunp_find_types(out, length, STUNP_USERNAME, types, 4), STUNP_MISSING_ATTRIBUTE);
    /* Any type, with an odd number of bytes, with none, and with as many as an attribute holds. */
    CHECK(stunp_find_types(BYTES(request), STUNP_PRIORITY, types, 4), 2);
    CHECK(types[0] == 0x6e00 && types[1] == 0x01ff, 1);
    CHECK(stunp_find_types(BYTES(request), STUNP_USERNAME, types, 4), STUNP_MALFORMED_ATTRIBUTE);
    for (size_t place = 0; place < 24; place++)
        CHECK(stunp_read_types(BYTES(request), place, types, 4), STUNP_BAD_ARGUMENT);
    for (size_t there = 0; there < 40; there++)
        CHECK(stunp_read_types((const uint8_t *)request, there, 24, types, 4), STUNP_BAD_ARGUMENT);
    CHECK(types[0] == 0x6e00 && types[1] == 0x01ff && types[2] == 7, 1);
    CHECK(stunp_begin(STUNP_ERROR, STUNP_BINDING, id, 12, out, 24), 20);
    CHECK(stunp_add(out, 24, 20, STUNP_UNKNOWN_ATTRIBUTES, "", 0), 24);
    CHECK(stunp_read_types(out, 24, 24, types, 4), 0);
    CHECK(types[0], 0x6e00);
    static uint16_t all[32764];
    memset(large, 0x80, 65528);
    CHECK(stunp_begin(STUNP_ERROR, STUNP_BINDING, id, 12, out, 20), 20);
    CHECK(stunp_add(out, 65552, 20, STUNP_UNKNOWN_ATTRIBUTES, large, 65528), 65552);
    CHECK(stunp_read_types(out, 65552, 24, all, COUNT(all)), 32764);
    for (size_t i = 0; i < COUNT(all); i++) CHECK(all[i], 0x8080);
}

static void reads_by_type(void) {
    uint8_t octets[16];
    uint16_t port = 7;
    uint64_t number = 7;
    CHECK(stunp_find_number(BYTES(request), STUNP_PRIORITY, &number), 4);
    CHECK(number == 0x6e0001ff, 1);
    CHECK(stunp_find_number(BYTES(request), STUNP_SOFTWARE, &number), STUNP_MALFORMED_ATTRIBUTE);
    CHECK(stunp_find_number(BYTES(request), STUNP_LIFETIME, &number), STUNP_MISSING_ATTRIBUTE);
    CHECK(stunp_find_xor_address(BYTES(response), STUNP_XOR_MAPPED_ADDRESS, octets, 16, &port), 4);
    CHECK(port == 32853 && memcmp(octets, peer_4, 4) == 0, 1);
    CHECK(stunp_find_xor_address(BYTES(response_6), STUNP_XOR_MAPPED_ADDRESS, octets, 16, &port),
          16);
    CHECK(memcmp(octets, peer_6, 16), 0);
    CHECK(stunp_find_xor_address(BYTES(response), STUNP_XOR_PEER_ADDRESS, octets, 16, &port),
          STUNP_MISSING_ATTRIBUTE);
    CHECK(stunp_find_address(BYTES(response), STUNP_XOR_MAPPED_ADDRESS, octets, 16, &port), 4);
    CHECK(port, 0xa147);
    CHECK(stunp_find_address(BYTES(response), STUNP_MAPPED_ADDRESS, octets, 16, &port),
          STUNP_MISSING_ATTRIBUTE);
}

/* ---- A writer: what the single calls write, and the first refusal. */

/* The samples again. Only the bytes of the padding differ. */
static void writes_samples(void) {
    stunp_writer writer = stunp_write(STUNP_REQUEST, STUNP_BINDING, id, out, 108);
    stunp_write_text(&writer, STUNP_SOFTWARE, "STUN test client");
    stunp_write_number(&writer, STUNP_PRIORITY, 0x6e0001ff, 4);
    stunp_write_number(&writer, STUNP_ICE_CONTROLLED, 0x932ff9b151263b36, 8);
    stunp_write_text(&writer, STUNP_USERNAME, "evtj:h6vY");
    stunp_write_integrity(&writer, STUNP_SHA1, (const uint8_t *)password, sizeof password - 1);
    stunp_write_fingerprint(&writer);
    CHECK(stunp_written(&writer), 0);
    CHECK((int64_t)writer.length, 108);
    CHECK(memcmp(out + 4, request + 4, 69), 0);
    CHECK(stunp_verify(out, 108, (const uint8_t *)password, sizeof password - 1), STUNP_SHA1);
    CHECK(stunp_check_fingerprint(out, 108), STUNP_RIGHT_FINGERPRINT);

    stunp_writer answer = stunp_write(STUNP_SUCCESS, STUNP_BINDING, id, out, sizeof out);
    stunp_write_bytes(&answer, STUNP_SOFTWARE, "test vector", 11);
    stunp_write_xor_address(&answer, STUNP_XOR_MAPPED_ADDRESS, peer_6, 16, 32853);
    CHECK(stunp_written(&answer), 0);
    CHECK((int64_t)answer.length, 60);
    CHECK(memcmp(out + 4, response_6 + 4, 31), 0);
    CHECK(memcmp(out + 36, response_6 + 36, 24), 0);
    stunp_write_address(&answer, STUNP_MAPPED_ADDRESS, peer_4, 4, 32853);
    stunp_write_error(&answer, 487, "Role Conflict");
    CHECK(stunp_written(&answer), 0);
    CHECK(memcmp(out + 60, "\x00\x01\x00\x08\x00\x01\x80\x55\xc0\x00\x02\x01", 12), 0);
    CHECK(memcmp(out + 72, "\x00\x09\x00\x11\x00\x00\x04\x57Role Conflict\0\0\0", 24), 0);
    CHECK((int64_t)answer.length, 96);
}

/* Each call after one that fails does nothing, and the first refusal stays. */
static void keeps_the_first_refusal(void) {
    stunp_writer writer = stunp_write(STUNP_REQUEST, STUNP_BINDING, id, out, 32);
    stunp_write_text(&writer, STUNP_USERNAME, "u");
    memcpy(before, out, 32);
    stunp_write_text(&writer, STUNP_REALM, "realm");
    CHECK(stunp_written(&writer), STUNP_BUFFER_TOO_SMALL);
    stunp_write_bytes(&writer, STUNP_USE_CANDIDATE, NULL, 0);
    stunp_write_text(&writer, STUNP_USERNAME, "again");
    stunp_write_number(&writer, STUNP_PRIORITY, 1, 3);
    stunp_write_address(&writer, STUNP_MAPPED_ADDRESS, peer_4, 3, 1);
    stunp_write_xor_address(&writer, STUNP_XOR_PEER_ADDRESS, peer_4, 3, 1);
    stunp_write_error(&writer, 299, "");
    stunp_write_integrity(&writer, STUNP_SHA1, (const uint8_t *)"", 0);
    stunp_write_fingerprint(&writer);
    CHECK(stunp_written(&writer), STUNP_BUFFER_TOO_SMALL);
    CHECK((int64_t)writer.length, 28);
    CHECK(memcmp(out, before, 32), 0);
    writer = stunp_write(STUNP_REQUEST, 4096, id, out, 32);
    stunp_write_fingerprint(&writer);
    CHECK(stunp_written(&writer), STUNP_BAD_ARGUMENT);
    CHECK((int64_t)writer.length, 0);
    CHECK(memcmp(out, before, 32), 0);
}

/* A writer continues a message that another call wrote, or keeps the error of that call. */
static void writes_on(void) {
    static const uint16_t known[257] = {STUNP_USERNAME};
    stunp_writer writer = stunp_write_on(
        stunp_refuse_unknown(BYTES(request), known, 1, out, sizeof out), out, sizeof out);
    stunp_write_fingerprint(&writer);
    CHECK(stunp_written(&writer), 0);
    CHECK((int64_t)writer.length, 64);
    CHECK(stunp_check_fingerprint(out, 64), STUNP_RIGHT_FINGERPRINT);
    writer = stunp_write_on(stunp_refuse_unknown(BYTES(request), known, 257, out, 64), out, 64);
    stunp_write_fingerprint(&writer);
    CHECK(stunp_written(&writer), STUNP_BAD_ARGUMENT);
}

int main(void) {
    hides_addresses();
    refuses_addresses();
    shows_addresses();
    reads_samples();
    sizes();
    refuses_numbers();
    reads_texts();
    reads_types();
    reads_by_type();
    writes_samples();
    keeps_the_first_refusal();
    writes_on();
    puts("attributes: passed");
    return 0;
}
