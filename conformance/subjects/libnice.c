/* libnice's STUN (stun/stunagent.h) as a subject: levels 0 and 1. It claims RFC 5389, and verifies
 * MESSAGE-INTEGRITY of requests with a USERNAME. */
#include "lines.h"
#include <arpa/inet.h>
#include <stun/debug.h>
#include <stun/stunagent.h>

static bytes data, value;
static StunAgent agent;
static StunMessage message;

static bool is_key_given(StunAgent *of, StunMessage *in, uint8_t *name, uint16_t name_length,
                         uint8_t **password, size_t *length, void *unused) {
    *password = value.at;
    *length = value.length;
    return true;
}

static void begin_agent(unsigned usage) {
    stun_agent_init(&agent, STUN_ALL_KNOWN_ATTRIBUTES, STUN_COMPATIBILITY_RFC5389, usage);
}

/* Reads a message, whatever it is signed with. */
static bool is_read(const char *word) {
    plain(word, &data);
    begin_agent(STUN_AGENT_USAGE_IGNORE_CREDENTIALS);
    StunValidationStatus status =
        stun_agent_validate(&agent, &message, data.at, data.length, NULL, NULL);
    return status != STUN_VALIDATION_NOT_STUN && status != STUN_VALIDATION_INCOMPLETE_STUN
           && status != STUN_VALIDATION_BAD_REQUEST;
}

static void read_header(void) {
    StunTransactionId id;
    stun_message_id(&message, id);
    printf("%s 0x%03x 0x", class_names[stun_message_get_class(&message)],
           stun_message_get_method(&message));
    print_bytes(id + 4, 12);
}

static void verify(void) {
    if (!stun_message_has_attribute(&message, STUN_ATTRIBUTE_MESSAGE_INTEGRITY)) {
        printf("none");
        return;
    }
    if (stun_message_get_class(&message) != STUN_REQUEST
        || !stun_message_has_attribute(&message, STUN_ATTRIBUTE_USERNAME)) {
        printf("lacks");
        return;
    }
    begin_agent(STUN_AGENT_USAGE_SHORT_TERM_CREDENTIALS | STUN_AGENT_USAGE_FORCE_VALIDATER);
    StunValidationStatus status =
        stun_agent_validate(&agent, &message, data.at, data.length, is_key_given, NULL);
    bool is_right = status == STUN_VALIDATION_SUCCESS
                    || status == STUN_VALIDATION_UNKNOWN_REQUEST_ATTRIBUTE;
    printf(is_right ? "sha1" : "refused");
}

static void check_fingerprint(void) {
    if (!stun_message_has_attribute(&message, STUN_ATTRIBUTE_FINGERPRINT)) {
        printf("none");
        return;
    }
    begin_agent(STUN_AGENT_USAGE_IGNORE_CREDENTIALS | STUN_AGENT_USAGE_USE_FINGERPRINT);
    StunValidationStatus status =
        stun_agent_validate(&agent, &message, data.at, data.length, NULL, NULL);
    printf(status == STUN_VALIDATION_BAD_REQUEST ? "invalid" : "valid");
}

static void print_found(StunMessageReturn found, const char *form, unsigned long long number) {
    if (found == STUN_MESSAGE_RETURN_SUCCESS) printf(form, number);
    else printf(found == STUN_MESSAGE_RETURN_NOT_FOUND ? "none" : "refused");
}

static void print_address(unsigned type, bool is_hidden) {
    struct sockaddr_storage found;
    socklen_t length = sizeof found;
    char host[64];
    StunMessageReturn came = is_hidden
        ? stun_message_find_xor_addr(&message, type, &found, &length)
        : stun_message_find_addr(&message, type, &found, &length);
    if (came != STUN_MESSAGE_RETURN_SUCCESS) {
        print_found(came, "", 0);
    } else if (found.ss_family == AF_INET) {
        struct sockaddr_in *at = (struct sockaddr_in *)&found;
        inet_ntop(AF_INET, &at->sin_addr, host, sizeof host);
        printf("%s:%d", host, ntohs(at->sin_port));
    } else {
        struct sockaddr_in6 *at = (struct sockaddr_in6 *)&found;
        inet_ntop(AF_INET6, &at->sin6_addr, host, sizeof host);
        printf("[%s]:%d", host, ntohs(at->sin6_port));
    }
}

static void print_error(void) {
    int code = 0;
    uint16_t length = 0;
    StunMessageReturn found = stun_message_find_error(&message, &code);
    print_found(found, "%llu:", (unsigned long long)code);
    const uint8_t *at = stun_message_find(&message, STUN_ATTRIBUTE_ERROR_CODE, &length);
    if (found == STUN_MESSAGE_RETURN_SUCCESS) print_bytes(at + 4, length - 4);
}

static void attribute(unsigned type) {
    uint32_t small = 0;
    uint64_t large = 0;
    uint16_t length = 0;
    StunMessageReturn found;
    switch (type) {
    case 0x0001: case 0x8023: print_address(type, false); return;
    case 0x0012: case 0x0016: case 0x0020: print_address(type, true); return;
    case 0x0009: print_error(); return;
    case 0x000d: case 0x0024:
        found = stun_message_find32(&message, type, &small);
        print_found(found, "%llu", small);
        return;
    case 0x8029: case 0x802a:
        found = stun_message_find64(&message, type, &large);
        print_found(found, "%llu", large);
        return;
    case 0x001a: case 0x0025: print_found(stun_message_find_flag(&message, type), "-", 0); return;
    case 0x0006: case 0x0008: case 0x0013: case 0x0014: case 0x0015: case 0x0022: case 0x8022: {
        const uint8_t *at = stun_message_find(&message, type, &length);
        if (at == NULL) printf("none");
        else print_bytes(at, length);
        return;
    }
    default: printf("lacks");
    }
}

/* What is in `data` as a message that is written on. */
static void write_on(const char *word) {
    plain(word, &data);
    begin_agent(STUN_AGENT_USAGE_IGNORE_CREDENTIALS);
    message = (StunMessage){.agent = &agent, .buffer = data.at, .buffer_len = sizeof data.at};
}

static void print_written(bool is_written) {
    if (is_written) print_bytes(data.at, stun_message_length(&message));
    else printf("refused");
}

static void begin(char **words) {
    StunTransactionId id = {0x21, 0x12, 0xa4, 0x42};
    plain(words[2] + 2, &value);
    memcpy(id + 4, value.at, 12);
    write_on("-");
    print_written(stun_message_init(&message, class_of(words[0]), strtoul(words[1], NULL, 16), id));
}

static StunMessageReturn append_address(unsigned type, const char *word) {
    char host[64];
    struct sockaddr_storage at = {0};
    int port = port_of(word, host, sizeof host);
    struct sockaddr_in *short_one = (struct sockaddr_in *)&at;
    struct sockaddr_in6 *long_one = (struct sockaddr_in6 *)&at;
    at.ss_family = strchr(host, ':') == NULL ? AF_INET : AF_INET6;
    short_one->sin_port = htons(port); /* in the same place in both */
    inet_pton(at.ss_family, host, at.ss_family == AF_INET ? (void *)&short_one->sin_addr
                                                          : (void *)&long_one->sin6_addr);
    socklen_t length = at.ss_family == AF_INET ? sizeof *short_one : sizeof *long_one;
    return type == 0x0001 || type == 0x8023
        ? stun_message_append_addr(&message, type, (struct sockaddr *)&at, length)
        : stun_message_append_xor_addr(&message, type, &at, length);
}

static void add(unsigned type, const char *word) {
    StunMessageReturn added;
    switch (type) {
    case 0x0001: case 0x0012: case 0x0016: case 0x0020: case 0x8023:
        added = append_address(type, word);
        break;
    case 0x000d: case 0x0024:
        added = stun_message_append32(&message, type, (uint32_t)strtoul(word, NULL, 10));
        break;
    case 0x8029: case 0x802a:
        added = stun_message_append64(&message, type, strtoull(word, NULL, 10));
        break;
    case 0x001a: case 0x0025: added = stun_message_append_flag(&message, type); break;
    case 0x0006: case 0x0013: case 0x0014: case 0x0015: case 0x0022: case 0x8022:
        plain(word, &value);
        added = stun_message_append_bytes(&message, type, value.at, value.length);
        break;
    default: printf("lacks"); return;
    }
    print_written(added == STUN_MESSAGE_RETURN_SUCCESS);
}

static void finish(const char *word, bool has_key) {
    write_on(word);
    begin_agent(has_key ? STUN_AGENT_USAGE_SHORT_TERM_CREDENTIALS
                        : STUN_AGENT_USAGE_USE_FINGERPRINT);
    print_written(stun_agent_finish_message(&agent, &message, has_key ? value.at : NULL,
                                            has_key ? value.length : 0) > 0);
}

static void answer(const char *call, char **words) {
    static const char *const reading[] = {"read", "attribute", "verify", "fingerprint"};
    int which = 0;
    while (which < 4 && strcmp(call, reading[which]) != 0) which++;
    bool is_second = which == 1 || which == 2;
    if (which < 4 && !is_read(words[is_second])) {
        printf("refused");
    } else if (which == 0) {
        read_header();
    } else if (which == 1) {
        attribute(strtoul(words[0], NULL, 16));
    } else if (which == 2) {
        plain(words[0], &value);
        verify();
    } else if (which == 3) {
        check_fingerprint();
    } else if (strcmp(call, "claims") == 0) {
        printf("rfc5389 raw-texts");
    } else if (strcmp(call, "begin") == 0) {
        begin(words);
    } else if (strcmp(call, "add") == 0) {
        write_on(words[0]);
        add(strtoul(words[1], NULL, 16), words[2]);
    } else if (strcmp(call, "sign") == 0 && strcmp(words[1], "sha1") == 0) {
        plain(words[2], &value);
        finish(words[0], true);
    } else if (strcmp(call, "add-fingerprint") == 0) {
        finish(words[0], false);
    } else {
        printf("lacks");
    }
}

int main(void) {
    stun_debug_disable();
    return play();
}
