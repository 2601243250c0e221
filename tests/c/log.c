/* A datagram in a line (stunp_log.h): the samples of RFC 5769, bytes that are not a message, each
 * byte that a sender may choose, and each size of the buffer. The expected lines are spelled
 * here. */
#include "samples.h"
#include "stunp_log.h"

static char line[STUNP_LINE_MAX], cut[STUNP_LINE_MAX];

static void describes(const uint8_t *bytes, size_t length, const char *wanted) {
    const char *told = stunp_describe(bytes, length, line, sizeof line);
    if (told != line || strcmp(told, wanted) != 0) {
        fprintf(stderr, "log.c: '%s', not '%s'\n", told, wanted);
        exit(1);
    }
    /* A smaller buffer gets the front of the line, and the byte after the buffer is not changed. */
    for (size_t room = 1; room <= strlen(wanted) + 1; room++) {
        memset(cut, 7, sizeof cut);
        CHECK(stunp_describe(bytes, length, cut, room) == cut, 1);
        CHECK(strlen(cut) == room - 1 && memcmp(cut, wanted, room - 1) == 0, 1);
        CHECK(cut[room], 7);
    }
    CHECK(*stunp_describe(bytes, length, cut, 0), 0);
}

static void describes_samples(void) {
    describes(BYTES(request),
              "Binding request b7e7a701bc34d686fa87dfae: SOFTWARE \"STUN test client\", "
              "PRIORITY 1845494271, ICE-CONTROLLED (8), USERNAME \"evtj:h6vY\", "
              "MESSAGE-INTEGRITY (20), FINGERPRINT (4)");
    describes(BYTES(response),
              "Binding success b7e7a701bc34d686fa87dfae: SOFTWARE \"test vector\", "
              "XOR-MAPPED-ADDRESS 192.0.2.1:32853, MESSAGE-INTEGRITY (20), FINGERPRINT (4)");
    describes(BYTES(response_6),
              "Binding success b7e7a701bc34d686fa87dfae: SOFTWARE \"test vector\", "
              "XOR-MAPPED-ADDRESS [2001:db8:1234:5678:11:2233:4455:6677]:32853, "
              "MESSAGE-INTEGRITY (20), FINGERPRINT (4)");
    describes(BYTES("\x40\x01\x00\x05hello\0\0"), "ChannelData 0x4001, 5 bytes");
    describes(NULL, 0, "0 bytes, no message: bytes are missing at the end");
    describes(BYTES("GET / HTTP/1.0\r\n\r\n...."),
              "22 bytes, no message: the bytes are not a STUN message");
    describes((const uint8_t *)request, sizeof request - 2,
              "107 bytes, no message: bytes are missing at the end");
}

/* An error response with what a TURN server reports, types without a name, and a method without a
 * name. */
static void describes_others(void) {
    stunp_writer writer = stunp_write(STUNP_ERROR, STUNP_ALLOCATE, (const uint8_t *)"abcdefghijkl",
                                      out, sizeof out);
    stunp_write_error(&writer, 438, "Stale Nonce");
    stunp_write_text(&writer, STUNP_REALM, "a\"b\\c\nd\x7f\xc3\xa4");
    stunp_write_text(&writer, STUNP_NONCE, "0123456789");
    stunp_write_bytes(&writer, STUNP_UNKNOWN_ATTRIBUTES, "\x00\x24\x12\x34", 4);
    stunp_write_number(&writer, STUNP_LIFETIME, 600, 4);
    stunp_write_channel_number(&writer, 0x4abc);
    stunp_write_bytes(&writer, STUNP_USE_CANDIDATE, "", 0);
    stunp_write_bytes(&writer, STUNP_MAPPED_ADDRESS, "\0\1\0\x50\x7f\0\0\1", 8);
    stunp_write_bytes(&writer, STUNP_ALTERNATE_SERVER, "", 0);
    stunp_write_bytes(&writer, 0x1234, "123", 3);
    CHECK(stunp_written(&writer), 0);
    describes(out, writer.length,
              "Allocate error 6162636465666768696a6b6c: ERROR-CODE 438 \"Stale Nonce\", "
              "REALM \"a?b?c?d???\", NONCE (10), UNKNOWN-ATTRIBUTES 0x0024 0x1234, LIFETIME 600, "
              "CHANNEL-NUMBER 0x4abc, USE-CANDIDATE, MAPPED-ADDRESS 127.0.0.1:80, "
              "ALTERNATE-SERVER (0), 0x1234 (3)");
    CHECK(stunp_begin(STUNP_INDICATION, 4095, (const uint8_t *)"abcdefghijkl", 12, out, 20), 20);
    describes(out, 20, "method 4095 indication 6162636465666768696a6b6c");
}

/* Each value of each length of each type is told, without a byte that a terminal would act on, and
 * the message is not changed. */
static void tells_nothing_else(void) {
    for (uint32_t type = 0; type < 65536; type += stunp_attribute_name(type) == NULL ? 7 : 1)
        for (size_t length = 0; length < 24; length++) {
            size_t whole = 24 + (length + 3) / 4 * 4;
            memset(large, 0, whole);
            CHECK(stunp_begin(STUNP_REQUEST, STUNP_BINDING, id, 12, large, 20), 20);
            large[3] = (uint8_t)(whole - 20);
            large[20] = (uint8_t)(type >> 8), large[21] = (uint8_t)type;
            large[23] = (uint8_t)length;
            for (size_t i = 0; i < length; i++)
                large[24 + i] = (uint8_t)(length * 31 + i * 7 + type);
            memcpy(before, large, whole);
            stunp_describe(large, whole, line, sizeof line);
            for (size_t i = 0; line[i] != 0; i++) CHECK(line[i] >= 32 && line[i] < 127, 1);
            CHECK(strlen(line) > 42 && memcmp(large, before, whole) == 0, 1);
        }
}

int main(void) {
    describes_samples();
    describes_others();
    tells_nothing_else();
    puts("log: passed");
    return 0;
}
