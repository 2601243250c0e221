/* The rows of libre (libre-dev), which parses into a message of its own. */
#include "driver.h"
#include <re/re.h>

static struct mbuf *received, *out, *check;

static int decode(struct mbuf *bytes, struct stun_msg **message) {
    struct stun_unknown_attr unknown;
    bytes->pos = 0;
    return stun_msg_decode(message, bytes, &unknown);
}

static int is_signed(struct stun_msg *message) {
    return stun_msg_chk_mi(message, (const uint8_t *)password, PASSWORD_LENGTH) == 0;
}

static int parse(void) {
    struct stun_msg *message;
    if (decode(received, &message)) return 1;
    mem_deref(message);
    return 0;
}

static int verify(void) {
    struct stun_msg *message;
    if (decode(received, &message)) return 1;
    int is_wrong = !is_signed(message);
    mem_deref(message);
    return is_wrong;
}

static int fingerprint(void) {
    struct stun_msg *message;
    if (decode(received, &message)) return 1;
    int is_wrong = stun_msg_chk_fingerprint(message) != 0;
    mem_deref(message);
    return is_wrong;
}

static int build(void) {
    out->pos = out->end = 0;
    return stun_msg_encode(out, STUN_METHOD_BINDING, STUN_CLASS_REQUEST, sample + 8, NULL,
                           (const uint8_t *)password, PASSWORD_LENGTH, false, 0, 1,
                           STUN_ATTR_USERNAME, "evtj:h6vY");
}

static int check_written(void) {
    static const uint64_t tie_breaker = 7;
    static const uint32_t priority = 0x6e0001ff;
    out->pos = out->end = 0;
    return stun_msg_encode(out, STUN_METHOD_BINDING, STUN_CLASS_REQUEST, sample + 8, NULL,
                           (const uint8_t *)password, PASSWORD_LENGTH, true, 0, 4,
                           STUN_ATTR_USERNAME, "h6vY:evtj", STUN_ATTR_PRIORITY, &priority,
                           STUN_ATTR_USE_CAND, &tie_breaker, STUN_ATTR_CONTROLLING, &tie_breaker);
}

static int is_wrong_check(struct stun_msg *message) {
    struct stun_attr *name = stun_msg_attr(message, STUN_ATTR_USERNAME);
    return stun_msg_chk_fingerprint(message) != 0 || !name ||
           strcmp(name->v.username, "h6vY:evtj") != 0 ||
           !stun_msg_attr(message, STUN_ATTR_PRIORITY) || !is_signed(message);
}

static int check_answered(void) {
    struct stun_msg *message;
    struct sa from;
    if (decode(check, &message)) return 1;
    if (is_wrong_check(message)) return 1;
    sa_set_in(&from, 0xc0000201, 32853);
    out->pos = out->end = 0;
    int error = stun_msg_encode(out, STUN_METHOD_BINDING, STUN_CLASS_SUCCESS_RESP,
                                stun_msg_tid(message), NULL, (const uint8_t *)password,
                                PASSWORD_LENGTH, true, 0, 1, STUN_ATTR_XOR_MAPPED_ADDR, &from);
    mem_deref(message);
    return error;
}

static void prepare(void) {
    libre_init();
    received = mbuf_alloc(2048);
    mbuf_write_mem(received, sample, SAMPLE_LENGTH);
    out = mbuf_alloc(2048);
    check = mbuf_alloc(2048);
    check_written();
    mbuf_write_mem(check, out->buf, out->end);
}

static const struct row rows[] = {
    {"parse", parse},
    {"verify", verify},
    {"build", build},
    {"fingerprint", fingerprint},
    {"check_written", check_written},
    {"check_answered", check_answered},
};
MAIN(rows)
