/* The rows of libnice's message code (libnice-dev). */
#include "driver.h"
#include <arpa/inet.h>
#include <stun/stunagent.h>
#include <stun/usages/ice.h>

static StunAgent plain, ice;
static uint8_t out[1300], check[256];
static size_t check_length;

static bool find_password(StunAgent *agent, StunMessage *message, uint8_t *name,
                          uint16_t name_length, uint8_t **found, size_t *found_length, void *data) {
    (void)agent, (void)message, (void)name, (void)name_length, (void)data;
    *found = (uint8_t *)password;
    *found_length = PASSWORD_LENGTH;
    return true;
}

static int validates(StunAgent *agent, StunMessage *message, const uint8_t *bytes, size_t length) {
    return stun_agent_validate(agent, message, bytes, length, find_password, NULL) !=
           STUN_VALIDATION_SUCCESS;
}

static int parse(void) {
    return stun_message_validate_buffer_length(sample, SAMPLE_LENGTH, true) != SAMPLE_LENGTH;
}

static int verify(void) {
    StunMessage message;
    return validates(&plain, &message, sample, SAMPLE_LENGTH);
}

/* With FINGERPRINT, which the other agent does not look at. */
static int verify_fingerprint(void) {
    StunMessage message;
    return validates(&ice, &message, sample, SAMPLE_LENGTH);
}

static size_t write_request(StunAgent *agent, bool is_check) {
    StunMessage message;
    StunTransactionId id;
    if (!stun_agent_init_request(agent, &message, out, sizeof out, STUN_BINDING)) return 0;
    if (is_check) {
        stun_message_append32(&message, STUN_ATTRIBUTE_PRIORITY, 0x6e0001ff);
        stun_message_append_flag(&message, STUN_ATTRIBUTE_USE_CANDIDATE);
        stun_message_append64(&message, STUN_ATTRIBUTE_ICE_CONTROLLING, 7);
    }
    stun_message_append_bytes(&message, STUN_ATTRIBUTE_USERNAME,
                              is_check ? "h6vY:evtj" : "evtj:h6vY", 9);
    size_t length = stun_agent_finish_message(agent, &message, (const uint8_t *)password,
                                              PASSWORD_LENGTH);
    stun_message_id(&message, id);
    stun_agent_forget_transaction(agent, id);
    return length;
}

static int build(void) { return write_request(&plain, false) != 60; }

static int check_written(void) { return write_request(&ice, true) != 92; }

static int check_answered(void) {
    StunMessage request, answer;
    struct sockaddr_storage from = {0};
    struct sockaddr_in *address = (struct sockaddr_in *)&from;
    size_t length = sizeof out;
    bool is_controlling = false;
    if (validates(&ice, &request, check, check_length)) return 1;
    address->sin_family = AF_INET;
    address->sin_port = htons(32853);
    address->sin_addr.s_addr = htonl(0xc0000201);
    return stun_usage_ice_conncheck_create_reply(&ice, &request, &answer, out, &length, &from,
                                                 sizeof *address, &is_controlling, 9,
                                                 STUN_USAGE_ICE_COMPATIBILITY_RFC5245) !=
               STUN_USAGE_ICE_RETURN_SUCCESS ||
           length == 0;
}

static void prepare(void) {
    static const uint16_t known[] = {0x0006, 0x0008, 0x0024, 0x0025, 0x8029,
                                     0x802a, 0x8022, 0x8028, 0};
    stun_agent_init(&plain, known, STUN_COMPATIBILITY_RFC5389,
                    STUN_AGENT_USAGE_SHORT_TERM_CREDENTIALS);
    stun_agent_init(&ice, known, STUN_COMPATIBILITY_RFC5389,
                    STUN_AGENT_USAGE_SHORT_TERM_CREDENTIALS | STUN_AGENT_USAGE_USE_FINGERPRINT);
    check_length = write_request(&ice, true);
    memcpy(check, out, check_length);
}

static const struct row rows[] = {
    {"parse", parse},
    {"verify", verify},
    {"verify_fingerprint", verify_fingerprint},
    {"build", build},
    {"check_written", check_written},
    {"check_answered", check_answered},
};
MAIN(rows)
