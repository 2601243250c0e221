/* What a hostile peer may send, for programs that try it. It has messages with their verdicts,
 * mutations of a message, and pages between two that may not be touched. */
#ifndef STUN_HOSTILE_H
#define STUN_HOSTILE_H

#include "stunp.h"
#include <stdbool.h>
#include <stdio.h>
#include <stdlib.h>
#include <string.h>
#include <sys/mman.h>
#include <unistd.h>

/* Pages that may be read and written, between two that may not. */
static uint8_t *pages;
static size_t pages_length;

static inline void fail(const char *what, long number) {
    fprintf(stderr, "hostile: %s: %ld\n", what, number);
    exit(1);
}

static inline void make_pages(void) {
    size_t page = (size_t)sysconf(_SC_PAGESIZE);
    pages_length = (STUNP_LONGEST_MESSAGE / page + 2) * page;
    uint8_t *all = mmap(NULL, pages_length + 2 * page, PROT_NONE, MAP_PRIVATE | MAP_ANONYMOUS, -1,
                        0);
    if (all == MAP_FAILED || mprotect(all + page, pages_length, PROT_READ | PROT_WRITE) != 0)
        fail("no pages", 0);
    pages = all + page;
}

/* A Binding request with id 1 and the attributes that hexadecimal digits spell, and its length. */
static inline size_t spell(uint8_t *message, const char *const *digits, int pieces) {
    static const uint8_t header[20] = "\x00\x01\x00\x00\x21\x12\xa4\x42\0\0\0\0\0\0\0\0\0\0\0\x01";
    size_t length = sizeof header;
    memcpy(message, header, sizeof header);
    for (int piece = 0; piece < pieces; piece++)
        for (const char *at = digits[piece]; at != NULL && *at != '\0';) {
            unsigned byte;
            if (*at == ' ') at++;
            else if (sscanf(at, "%2x", &byte) == 1) message[length++] = (uint8_t)byte, at += 2;
            else fail("no digits", piece);
        }
    message[2] = (uint8_t)((length - 20) >> 8);
    message[3] = (uint8_t)(length - 20);
    return length;
}

#define NAME "00060001 61000000"
#define FINGERPRINT "80280004 00000000"
#define ZEROS "00080014 0000000000000000000000000000000000000000"
#define ZEROS_256 "001c0020 0000000000000000000000000000000000000000000000000000000000000000"
#define RIGHT "00080014 beb4535433a9f8b97157129c2f12c902c8226553"
#define RIGHT_256 "001c0020 a2d291b5aedd82ab8fa80c51406792e31f4f9720947e009583062635735d6d4e"
#define BEHIND_RIGHT "001c0020 da5f65815aec97c4b0819bfc856a977d0e0e51e308a3ff0eb89255d0f7504717"

/* The digests are computed by Python's module `hmac` under this key. */
static const char table_key[] = "key";

static const struct {
    const char *name, *digits[4];
    int64_t verdict;
} table[] = {
    {"right", {NAME, RIGHT}, STUNP_SHA1},
    {"right, 256", {NAME, RIGHT_256}, STUNP_SHA256},
    {"nothing covered", {"00080014 b29cb8e1d20004547c071ed0a68e45190f3ad182"}, STUNP_SHA1},
    {"nothing covered, 256",
     {"001c0020 0e02d05d40de629d295af53281b0f0052423b9d971aac984592db9669754530e"}, STUNP_SHA256},
    {"zeros", {NAME, ZEROS}, STUNP_INTEGRITY_FAILED},
    {"zeros, 256", {NAME, ZEROS_256}, STUNP_INTEGRITY_FAILED},
    {"of another message", {RIGHT}, STUNP_INTEGRITY_FAILED},
    {"under another key", {NAME, "00080014 a0931dda39f9e6b62d009f86fd00b0b2d89d910d"},
     STUNP_INTEGRITY_FAILED},
    {"16 right bytes of 32", {NAME, "001c0010 87665ea510cc9e9c2a0fdba69feaca9e"},
     STUNP_INTEGRITY_FAILED},
    {"28 right bytes of 32",
     {NAME, "001c001c e0bfa51abdbdda1175223b03875237883a4cdab7ee9cc7a77b1be4f9"},
     STUNP_INTEGRITY_FAILED},
    {"padding of ones", {"00060001 61ffffff", "00080014 c5d655f463e3865b17abd81546a47d135e29de64"},
     STUNP_SHA1},
    {"padding changed", {"00060001 61ffffff", RIGHT}, STUNP_INTEGRITY_FAILED},
    {"type 0x7fff of no bytes", {"7fff0000", "00080014 838c01aa61d20c3537be9eec0e5611dafeb933cf"},
     STUNP_SHA1},
    {"both right", {NAME, RIGHT, BEHIND_RIGHT}, STUNP_SHA256},
    {"the stronger wrong", {NAME, RIGHT, ZEROS_256}, STUNP_INTEGRITY_FAILED},
    {"the weaker wrong",
     {NAME, ZEROS, "001c0020 afbb54b18e64bc92c59cfe9879be1562b10888b42162ced8ef72a7cd31da0e30"},
     STUNP_SHA256},
    {"the stronger malformed", {NAME, RIGHT, "001c000c 000000000000000000000000"},
     STUNP_MALFORMED_INTEGRITY},
    {"the weaker behind the stronger",
     {NAME, RIGHT_256, "00080014 a4d39e9a8bd96f9e6b7b0ec322aec56a1b5731ac"}, STUNP_SHA256},
    {"the weaker right behind a wrong stronger",
     {NAME, ZEROS_256, "00080014 c3f6458f2c00e6e40501657c68eab37a0b829d83"},
     STUNP_INTEGRITY_FAILED},
    {"the second of two wrong", {NAME, RIGHT, ZEROS}, STUNP_SHA1},
    {"the first of two wrong", {NAME, ZEROS, "00080014 b2b3494303c9a396e5b696c6209c52dd8cd2794f"},
     STUNP_INTEGRITY_FAILED},
    {"the second of two wrong, 256", {NAME, RIGHT_256, ZEROS_256}, STUNP_SHA256},
    {"behind the weaker", {NAME, RIGHT, NAME}, STUNP_SHA1},
    {"behind the stronger", {NAME, RIGHT_256, NAME}, STUNP_SHA256},
    {"behind both", {NAME, RIGHT, BEHIND_RIGHT, NAME}, STUNP_SHA256},
    {"FINGERPRINT behind", {NAME, RIGHT, FINGERPRINT}, STUNP_SHA1},
    {"behind FINGERPRINT", {NAME, RIGHT, FINGERPRINT, NAME}, STUNP_SHA1},
    {"FINGERPRINT between",
     {NAME, RIGHT, FINGERPRINT,
      "001c0020 b9671ea37ff8764c6762b446de277ce6586c6ad152404ab9ef324006860b8952"}, STUNP_SHA1},
    {"FINGERPRINT before", {NAME, FINGERPRINT, "00080014 7b24eaef21a5157d9caa7852414dda057bd5db19"},
     STUNP_NO_INTEGRITY},
    {"a name behind FINGERPRINT", {NAME, FINGERPRINT, NAME}, STUNP_NO_INTEGRITY},
    {"two FINGERPRINT", {FINGERPRINT, FINGERPRINT}, STUNP_NO_INTEGRITY},
    {"the digest of the header's own length",
     {NAME, "00080014 65c868b6f8fe68c91b1618fc2f978ec36d79c361", FINGERPRINT},
     STUNP_INTEGRITY_FAILED},
    {"nothing", {""}, STUNP_NO_INTEGRITY},
    {"a name", {NAME}, STUNP_NO_INTEGRITY},
    {"no bytes", {"00060000"}, STUNP_NO_INTEGRITY},
    {"no bytes, thrice", {"00060000 00060000 00000000"}, STUNP_NO_INTEGRITY},
    {"two bytes", {"00060002 61620000"}, STUNP_NO_INTEGRITY},
    {"three bytes", {"00060003 61626300"}, STUNP_NO_INTEGRITY},
    {"five bytes", {"00060005 61626364 65000000"}, STUNP_NO_INTEGRITY},
    {"padding that is not zero", {"00060005 61626364 65ffffff"}, STUNP_NO_INTEGRITY},
    {"the same name twice", {"00060001 61000000 00060001 62000000"}, STUNP_NO_INTEGRITY},
};

static const uint8_t sample[108] =
    "\x00\x01\x00\x58\x21\x12\xa4\x42\xb7\xe7\xa7\x01\xbc\x34\xd6\x86\xfa\x87\xdf\xae"
    "\x80\x22\x00\x10STUN test client\x00\x24\x00\x04\x6e\x00\x01\xff\x80\x29\x00\x08\x93\x2f\xf9"
    "\xb1\x51\x26\x3b\x36\x00\x06\x00\x09" "evtj:h6vY   \x00\x08\x00\x14\x9a\xea\xa7\x0c\xbf\xd8"
    "\xcb\x56\x78\x1e\xf2\xb5\xb2\xd3\xf2\x49\xc1\xb5\x71\xa2\x80\x28\x00\x04\xe5\x7a"
    "\x3b\xcf";
static const char password[] = "VOkJxbRl1RmTxUk/WvJxBt";

/* A fixed sequence of numbers (xorshift), below `limit` each. */
static inline uint32_t draw(uint32_t limit) {
    static uint64_t state = 0x9e3779b97f4a7c15;
    state ^= state << 13;
    state ^= state >> 7;
    state ^= state << 17;
    return (uint32_t)(state >> 32) % limit;
}

/* Changes some bytes of a message, then the length in one of four cases, up to 63 bytes more. Every
 * second mutation states the length that it has. */
static inline size_t mutate(uint8_t *message, const uint8_t *from, size_t length) {
    memcpy(message, from, length);
    for (uint32_t changes = draw(4); changes > 0; changes--) {
        uint8_t *byte = message + draw((uint32_t)length);
        *byte = draw(2) == 0 ? (uint8_t)draw(256) : *byte ^ (uint8_t)(1 << draw(8));
    }
    switch (draw(8)) {
    case 0:
        length = draw((uint32_t)length + 1);
        break;
    case 1:
        for (uint32_t more = draw(64); more > 0; more--) message[length++] = (uint8_t)draw(256);
        break;
    }
    if (draw(2) == 0 && length >= 20) {
        message[2] = (uint8_t)((length - 20) >> 8);
        message[3] = (uint8_t)(length - 20);
    }
    return length;
}

#endif
