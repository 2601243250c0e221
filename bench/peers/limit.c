/* The limit of each row: straight C over OpenSSL's hash functions, which does only what the row
 * needs. It walks over the attributes once, allocates nothing, and computes FINGERPRINT eight bytes
 * at a time. The rows of checks and servers have the hash states of the key made before. */
#include "driver.h"
#include <openssl/hmac.h>
#include <openssl/sha.h>

/* ---- Bytes */

static uint16_t number16(const uint8_t *at) { return (uint16_t)(at[0] << 8 | at[1]); }

static void put16(uint8_t *at, unsigned number) {
    at[0] = (uint8_t)(number >> 8);
    at[1] = (uint8_t)number;
}

static void put32(uint8_t *at, uint32_t number) {
    put16(at, number >> 16);
    put16(at + 2, number & 65535);
}

static bool same(const uint8_t *left, const uint8_t *right, int length) {
    uint8_t difference = 0;
    for (int i = 0; i < length; i++) difference |= left[i] ^ right[i];
    return difference == 0;
}

/* ---- FINGERPRINT */

static uint32_t crc_table[8][256];

static void make_crc_table(void) {
    for (uint32_t i = 0; i < 256; i++) {
        uint32_t crc = i;
        for (int bit = 0; bit < 8; bit++) crc = crc & 1 ? 0xEDB88320 ^ (crc >> 1) : crc >> 1;
        crc_table[0][i] = crc;
    }
    for (int i = 0; i < 256; i++)
        for (int t = 1; t < 8; t++)
            crc_table[t][i] = crc_table[0][crc_table[t - 1][i] & 255] ^ (crc_table[t - 1][i] >> 8);
}

static uint32_t fingerprint_of(const uint8_t *at, size_t left) {
    uint32_t crc = ~0u;
    for (; left >= 8; at += 8, left -= 8) {
        uint32_t low, high;
        memcpy(&low, at, 4);
        memcpy(&high, at + 4, 4);
        low ^= crc;
        crc = crc_table[7][low & 255] ^ crc_table[6][low >> 8 & 255] ^
              crc_table[5][low >> 16 & 255] ^ crc_table[4][low >> 24] ^ crc_table[3][high & 255] ^
              crc_table[2][high >> 8 & 255] ^ crc_table[1][high >> 16 & 255] ^
              crc_table[0][high >> 24];
    }
    for (; left; left--) crc = crc_table[0][(crc ^ *at++) & 255] ^ (crc >> 8);
    return ~crc ^ 0x5354554e;
}

/* ---- Keys */

struct key {
    SHA_CTX inner, outer;
    SHA256_CTX inner256, outer256;
};

/* The two pads of HMAC (RFC 2104), for a key of at most 64 bytes. */
static void make_pads(uint8_t inner[64], uint8_t outer[64], const char *bytes, size_t length) {
    memset(inner, 0x36, 64);
    for (size_t i = 0; i < length; i++) inner[i] ^= (uint8_t)bytes[i];
    for (size_t i = 0; i < 64; i++) outer[i] = inner[i] ^ 0x36 ^ 0x5c;
}

static void make_key(struct key *key, const char *bytes, size_t length) {
    uint8_t inner[64], outer[64];
    make_pads(inner, outer, bytes, length);
    SHA1_Init(&key->inner);
    SHA1_Update(&key->inner, inner, 64);
    SHA1_Init(&key->outer);
    SHA1_Update(&key->outer, outer, 64);
}

static void make_key256(struct key *key, const char *bytes, size_t length) {
    uint8_t inner[64], outer[64];
    make_pads(inner, outer, bytes, length);
    SHA256_Init(&key->inner256);
    SHA256_Update(&key->inner256, inner, 64);
    SHA256_Init(&key->outer256);
    SHA256_Update(&key->outer256, outer, 64);
}

/* The digest of some bytes, and of others that follow them unless `rest` is null. */
static void hmac(const struct key *key, const uint8_t *first, size_t first_length,
                 const uint8_t *rest, size_t length, uint8_t digest[20]) {
    SHA_CTX state = key->inner;
    SHA1_Update(&state, first, first_length);
    if (rest) SHA1_Update(&state, rest, length);
    SHA1_Final(digest, &state);
    state = key->outer;
    SHA1_Update(&state, digest, 20);
    SHA1_Final(digest, &state);
}

static void hmac256(const struct key *key, const uint8_t header[8], const uint8_t *rest,
                    size_t length, uint8_t digest[32]) {
    SHA256_CTX state = key->inner256;
    SHA256_Update(&state, header, 8);
    SHA256_Update(&state, rest, length);
    SHA256_Final(digest, &state);
    state = key->outer256;
    SHA256_Update(&state, digest, 32);
    SHA256_Final(digest, &state);
}

/* ---- Messages */

struct found {
    const uint8_t *user, *realm, *nonce, *integrity, *integrity256, *fingerprint, *priority;
    unsigned user_length;
    bool has_unknown;
};

static int found_one(struct found *found, unsigned type, const uint8_t *value, unsigned length) {
    switch (type) {
    case 0x0006: found->user = value, found->user_length = length; return 0;
    case 0x0008: found->integrity = value; return length != 20;
    case 0x001c: found->integrity256 = value; return 0;
    case 0x0014: found->realm = value; return 0;
    case 0x0015: found->nonce = value; return 0;
    case 0x0024: found->priority = value; return 0;
    case 0x0025: return 0;
    case 0x8028: found->fingerprint = value; return length != 4;
    default: found->has_unknown |= type < 0x8000; return 0;
    }
}

__attribute__((noinline)) static int walk(const uint8_t *message, size_t length,
                                          struct found *found) {
    memset(found, 0, sizeof *found);
    if (length < 20 || message[0] & 0xc0 || number16(message + 2) + 20u != length || length & 3 ||
        memcmp(message + 4, "\x21\x12\xa4\x42", 4))
        return 1;
    for (size_t at = 20; at < length;) {
        if (length - at < 4) return 1;
        unsigned type = number16(message + at), size = number16(message + at + 2);
        unsigned padded = (size + 3) & ~3u;
        if (length - at - 4 < padded || found_one(found, type, message + at + 4, size)) return 1;
        at += 4 + padded;
    }
    return 0;
}

static bool is_signed(const struct key *key, const uint8_t *message, const uint8_t *integrity) {
    uint8_t header[8], digest[20];
    memcpy(header, message, 8);
    put16(header + 2, (unsigned)(integrity + 20 - message) - 20);
    hmac(key, header, 8, message + 8, (size_t)(integrity - 4 - message) - 8, digest);
    return same(digest, integrity, 20);
}

static size_t begin(uint8_t *message, unsigned type, const uint8_t *id) {
    put16(message, type);
    put32(message + 4, 0x2112a442);
    memcpy(message + 8, id, 12);
    return 20;
}

static size_t add(uint8_t *message, size_t at, unsigned type, const void *value, size_t length) {
    put16(message + at, type);
    put16(message + at + 2, (unsigned)length);
    memset(message + at + 4 + (length & ~3u), 0, 4);
    memcpy(message + at + 4, value, length);
    return at + 4 + ((length + 3) & ~3u);
}

static size_t sign(const struct key *key, uint8_t *message, size_t at) {
    put16(message + 2, (unsigned)at + 24 - 20);
    put32(message + at, 0x00080014);
    hmac(key, message, at, NULL, 0, message + at + 4);
    return at + 24;
}

static size_t add_fingerprint(uint8_t *message, size_t at) {
    put16(message + 2, (unsigned)at + 8 - 20);
    put32(message + at, 0x80280004);
    put32(message + at + 4, fingerprint_of(message, at));
    return at + 8;
}

/* ---- Rows */

static uint8_t sample256[120], check[256], out[512];
static size_t check_length;
static struct key kept;

static int parse(void) {
    struct found found;
    return walk(sample, SAMPLE_LENGTH, &found);
}

static int verify(void) {
    struct found found;
    struct key key;
    if (walk(sample, SAMPLE_LENGTH, &found)) return 1;
    make_key(&key, password, PASSWORD_LENGTH);
    return !is_signed(&key, sample, found.integrity);
}

static int verify256(void) {
    struct found found;
    struct key key;
    if (walk(sample256, sizeof sample256, &found)) return 1;
    make_key256(&key, password, PASSWORD_LENGTH);
    uint8_t header[8], digest[32];
    memcpy(header, sample256, 8);
    put16(header + 2, 92);
    hmac256(&key, header, sample256 + 8, 68, digest);
    return !same(digest, found.integrity256, 32);
}

static int build(void) {
    struct key key;
    make_key(&key, password, PASSWORD_LENGTH);
    size_t at = begin(out, 0x0001, sample + 8);
    at = add(out, at, 0x0006, "evtj:h6vY", 9);
    return sign(&key, out, at) != 60;
}

static int fingerprint(void) {
    uint8_t value[4];
    put32(value, fingerprint_of(sample, SAMPLE_LENGTH - 8));
    return !same(value, sample + SAMPLE_LENGTH - 4, 4);
}

static size_t write_check(uint8_t *message) {
    size_t at = begin(message, 0x0001, sample + 8);
    at = add(message, at, 0x0006, "h6vY:evtj", 9);
    at = add(message, at, 0x0024, "\x6e\0\1\xff", 4);
    at = add(message, at, 0x0025, "", 0);
    at = add(message, at, 0x802a, "\0\0\0\0\0\0\0\7", 8);
    return add_fingerprint(message, sign(&kept, message, at));
}

static int check_written(void) { return write_check(out) != 92; }

static size_t write_success(const uint8_t *id) {
    size_t at = begin(out, 0x0101, id);
    return sign(&kept, out, add(out, at, 0x0020, "\0\1\xa1\x47\xe1\x12\xa6\x43", 8));
}

static int check_answered(void) {
    struct found found;
    uint8_t value[4];
    if (walk(check, check_length, &found) || !found.fingerprint || !found.integrity ||
        !found.user || !found.priority || found.has_unknown)
        return 1;
    put32(value, fingerprint_of(check, check_length - 8));
    if (!same(value, found.fingerprint, 4)) return 1;
    if (found.user_length != 9 || memcmp(found.user, "h6vY:evtj", 9)) return 1;
    if (!is_signed(&kept, check, found.integrity)) return 1;
    return add_fingerprint(out, write_success(check + 8)) != 64;
}

/* A server: the nonce is 32 digits of the HMAC-SHA1 of address and time, and the key of its one user
 * is made before. */
static struct key secret;
static uint8_t unsigned_request[20], signed_request[256];
static size_t signed_length;

static void write_nonce(char nonce[32]) {
    static const uint8_t address[18] = {192, 0, 2, 2};
    uint8_t covered[26], digest[20];
    memcpy(covered, address, 18);
    memset(covered + 18, 1, 8);
    hmac(&secret, covered, 26, NULL, 0, digest);
    for (int i = 0; i < 16; i++) {
        nonce[2 * i] = "0123456789abcdef"[digest[i] >> 4];
        nonce[2 * i + 1] = "0123456789abcdef"[digest[i] & 15];
    }
}

static int server_401(void) {
    struct found found;
    char nonce[32];
    if (walk(unsigned_request, 20, &found)) return 1;
    write_nonce(nonce);
    size_t at = begin(out, 0x0111, unsigned_request + 8);
    at = add(out, at, 0x0009, "\0\0\4\1Unauthorized", 16);
    at = add(out, at, 0x0014, "example.org", 11);
    at = add(out, at, 0x0015, nonce, 32);
    put16(out + 2, (unsigned)at - 20);
    return at != 92;
}

static int server_signed(void) {
    struct found found;
    char nonce[32];
    if (walk(signed_request, signed_length, &found) || !found.integrity || !found.user ||
        !found.realm || !found.nonce)
        return 1;
    write_nonce(nonce);
    if (!same((const uint8_t *)nonce, found.nonce, 32)) return 1;
    if (found.user_length != 5 || memcmp(found.user, "alice", 5)) return 1;
    if (!is_signed(&kept, signed_request, found.integrity)) return 1;
    return write_success(signed_request + 8) != 56;
}

static void prepare(void) {
    char nonce[32];
    make_crc_table();
    make_key(&kept, password, PASSWORD_LENGTH);
    make_key(&secret, "secretsecretsecretsecretsecretse", 32);
    memcpy(sample256, sample, 76);
    put16(sample256 + 2, 92);
    memcpy(sample256 + 76, "\x00\x1c\x00\x20", 4);
    HMAC(EVP_sha256(), password, PASSWORD_LENGTH, sample256, 76, sample256 + 80, NULL);
    put16(sample256 + 2, 100);
    memcpy(sample256 + 112, sample + 100, 8);
    check_length = write_check(check);
    begin(unsigned_request, 0x0001, sample + 8);
    write_nonce(nonce);
    size_t at = begin(signed_request, 0x0001, sample + 8);
    at = add(signed_request, at, 0x0006, "alice", 5);
    at = add(signed_request, at, 0x0014, "example.org", 11);
    at = add(signed_request, at, 0x0015, nonce, 32);
    signed_length = sign(&kept, signed_request, at);
}

static const struct row rows[] = {
    {"parse", parse},
    {"verify", verify},
    {"verify256", verify256},
    {"build", build},
    {"fingerprint", fingerprint},
    {"check_written", check_written},
    {"check_answered", check_answered},
    {"server_401", server_401},
    {"server_signed", server_signed},
};
MAIN(rows)
