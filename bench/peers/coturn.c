/* The rows of coturn's client library (libturnclient, in the package coturn). */
#include "driver.h"
#include <turn/ns_turn_msg.h>

static uint8_t out[2048], check[256], own_sample[SAMPLE_LENGTH];
static size_t check_length;
static password_t own_password;

/* Looks at the header and the length, and walks over the attributes. */
static int parse(void) {
    if (!stun_is_command_message_str(sample, SAMPLE_LENGTH)) return 1;
    int count = 0;
    for (stun_attr_ref at = stun_attr_get_first_str(sample, SAMPLE_LENGTH); at != NULL;
         at = stun_attr_get_next_str(sample, SAMPLE_LENGTH, at))
        count++;
    return count != 6;
}

static int is_signed(uint8_t *bytes, size_t length) {
    hmackey_t key = {0};
    return stun_check_message_integrity_by_key_str(TURN_CREDENTIALS_SHORT_TERM, bytes, length, key,
                                                   own_password, SHATYPE_SHA1) > 0;
}

static int verify(void) {
    if (!stun_is_command_message_str(own_sample, SAMPLE_LENGTH)) return 1;
    return !is_signed(own_sample, SAMPLE_LENGTH);
}

static int fingerprint(void) {
    int is_right;
    return !stun_is_command_message_full_check_str(own_sample, SAMPLE_LENGTH, 1, &is_right);
}

static int sign(size_t *length) {
    hmackey_t key = {0};
    return stun_attr_add_integrity_str(TURN_CREDENTIALS_SHORT_TERM, out, length, key, own_password,
                                       SHATYPE_SHA1);
}

static void add(size_t *length, uint16_t type, const char *value, int value_length) {
    stun_attr_add_str(out, length, type, (const uint8_t *)value, value_length);
}

static int build(void) {
    size_t length = 0;
    stun_set_binding_request_str(out, &length);
    add(&length, 0x0006, "evtj:h6vY", 9);
    return sign(&length) < 0 || length != 60;
}

static size_t write_check(void) {
    size_t length = 0;
    stun_set_binding_request_str(out, &length);
    add(&length, 0x0006, "h6vY:evtj", 9);
    add(&length, 0x0024, "\x6e\0\1\xff", 4);
    add(&length, 0x0025, "", 0);
    add(&length, 0x802a, "\0\0\0\0\0\0\0\7", 8);
    sign(&length);
    stun_attr_add_fingerprint_str(out, &length);
    return length;
}

static int check_written(void) { return write_check() != 92; }

static int check_answered(void) {
    int is_right;
    if (!stun_is_command_message_full_check_str(check, check_length, 1, &is_right) ||
        !stun_is_binding_request_str(check, check_length, 0))
        return 1;
    stun_attr_ref name = stun_attr_get_first_by_type_str(check, check_length, 0x0006);
    if (!name || stun_attr_get_len(name) != 9 || memcmp(stun_attr_get_value(name), "h6vY:evtj", 9))
        return 1;
    if (!stun_attr_get_first_by_type_str(check, check_length, 0x0024)) return 1;
    if (!is_signed(check, check_length)) return 1;
    ioa_addr from;
    stun_tid id;
    size_t length = 0;
    make_ioa_addr((const uint8_t *)"192.0.2.1", 32853, &from);
    memcpy(&id, check + 8, 12);
    stun_set_binding_response_str(out, &length, &id, &from, 0, NULL, 0, 0, 1);
    sign(&length);
    stun_attr_add_fingerprint_str(out, &length);
    return length < 64;
}

static void prepare(void) {
    strcpy((char *)own_password, password);
    memcpy(own_sample, sample, SAMPLE_LENGTH);
    check_length = write_check();
    memcpy(check, out, check_length);
}

static const struct row rows[] = {
    {"parse", parse},
    {"verify", verify},
    {"build", build},
    {"fingerprint", fingerprint},
    {"check_written", check_written},
    {"check_answered", check_answered},
};
MAIN(rows)
