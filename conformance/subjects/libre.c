/* libre's STUN (re_stun.h) as a subject of level 0: a shim as short as one can be. RFC 5389. */
#include "lines.h"
#include <re.h>

static bytes data, value;

static void print_address(const struct sa *at) {
    char host[64];
    sa_ntop(at, host, sizeof host);
    printf(sa_af(at) == AF_INET ? "%s:%u" : "[%s]:%u", host, sa_port(at));
}

static void print_attribute(const struct stun_attr *found) {
    switch (found->type) {
    case 0x0001: case 0x0012: case 0x0016: case 0x0020: case 0x8023:
        print_address(&found->v.sa);
        return;
    case 0x0006: case 0x0014: case 0x0015: case 0x8022:
        print_bytes((const uint8_t *)found->v.str, strlen(found->v.str));
        return;
    case 0x0008: print_bytes(found->v.msg_integrity, 20); return;
    case 0x0009:
        printf("%u:", found->v.err_code.code);
        print_bytes((uint8_t *)found->v.err_code.reason, strlen(found->v.err_code.reason));
        return;
    case 0x000c: printf("%u", found->v.channel_number); return;
    case 0x000d: case 0x0024: printf("%u", found->v.uint32); return;
    case 0x0013: print_bytes(mbuf_buf(&found->v.data), mbuf_get_left(&found->v.data)); return;
    case 0x0018: printf(found->v.even_port.r ? "yes" : "no"); return;
    case 0x0019: printf("%u", found->v.req_transport); return;
    case 0x001a: case 0x0025: printf("-"); return;
    case 0x8029: case 0x802a: printf("%llu", (unsigned long long)found->v.uint64); return;
    default: printf("lacks");
    }
}

static void answer_of(const struct stun_msg *message, const char *call, unsigned type) {
    uint16_t wanted = strcmp(call, "verify") == 0 ? 0x0008 : strcmp(call, "fingerprint") == 0
        ? 0x8028 : (uint16_t)type;
    const struct stun_attr *found = stun_msg_attr(message, wanted);
    if (strcmp(call, "read") == 0) {
        printf("%s 0x%03x 0x", class_names[stun_msg_class(message)], stun_msg_method(message));
        print_bytes(stun_msg_tid(message), 12);
    } else if (found == NULL) {
        printf("none");
    } else if (strcmp(call, "verify") == 0) {
        printf(stun_msg_chk_mi(message, value.at, value.length) == 0 ? "sha1" : "refused");
    } else if (strcmp(call, "fingerprint") == 0) {
        printf(stun_msg_chk_fingerprint(message) == 0 ? "valid" : "invalid");
    } else {
        print_attribute(found);
    }
}

static void answer(const char *call, char **words) {
    bool is_second = strcmp(call, "attribute") == 0 || strcmp(call, "verify") == 0;
    struct stun_msg *message = NULL;
    struct stun_unknown_attr unknown;
    if (strcmp(call, "claims") == 0) {
        printf("rfc5389 raw-texts");
    } else if (!is_second && strcmp(call, "read") != 0 && strcmp(call, "fingerprint") != 0) {
        printf("lacks");
    } else {
        plain(words[is_second], &data);
        plain(words[0], &value);
        struct mbuf *buffer = mbuf_alloc(data.length + 1);
        mbuf_write_mem(buffer, data.at, data.length);
        mbuf_set_pos(buffer, 0);
        bool is_read = stun_msg_decode(&message, buffer, &unknown) == 0;
        if (!is_read || !stun_msg_mcookie(message)) printf("refused");
        else answer_of(message, call, (unsigned)strtoul(words[0], NULL, 16));
        mem_deref(message);
        mem_deref(buffer);
    }
}

int main(void) { return play(); }
