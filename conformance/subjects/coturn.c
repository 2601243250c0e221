/* coturn's client library (ns_turn_msg.h) as a subject: levels 0 and 1. It claims RFC 5389. */
#include "lines.h"
#include <arpa/inet.h>
#include <turn/ns_turn_msg.h>

static bytes data, value;

static void print_address(stun_attr_ref found) {
    ioa_addr at = {0};
    char host[64];
    if (stun_attr_get_addr_str(data.at, data.length, found, &at, NULL) < 0) {
        printf("refused");
        return;
    }
    bool is_short = at.ss.sa_family == AF_INET;
    inet_ntop(at.ss.sa_family, is_short ? (void *)&at.s4.sin_addr : (void *)&at.s6.sin6_addr, host,
              sizeof host);
    printf(is_short ? "%s:%d" : "[%s]:%d", host, ntohs(at.s4.sin_port));
}

static void read_header(void) {
    stun_tid id;
    stun_tid_from_message_str(data.at, data.length, &id);
    int class = stun_is_request_str(data.at, data.length) ? 0
        : stun_is_indication_str(data.at, data.length)    ? 1
        : stun_is_success_response_str(data.at, data.length) ? 2 : 3;
    printf("%s 0x%03x 0x", class_names[class], stun_get_method_str(data.at, data.length));
    print_bytes(id.tsx_id, 12);
}

static void attributes(void) {
    stun_attr_ref one = stun_attr_get_first_str(data.at, data.length);
    if (one == NULL) printf("none");
    for (const char *space = ""; one != NULL; space = " ") {
        printf("%s0x%04x@%d:%d", space, stun_attr_get_type(one),
               (int)((const uint8_t *)one - data.at), stun_attr_get_len(one));
        one = stun_attr_get_next_str(data.at, data.length, one);
    }
}

static void print_error(void) {
    int code = 0;
    uint8_t phrase[1025] = "";
    if (!stun_is_error_response_str(data.at, data.length, &code, phrase, sizeof phrase)) {
        printf("lacks"); /* it reads the code of an error response alone */
        return;
    }
    printf("%d:", code);
    print_bytes(phrase, strlen((char *)phrase));
}

static void attribute(unsigned type) {
    stun_attr_ref found = stun_attr_get_first_by_type_str(data.at, data.length, type);
    if (found == NULL) {
        printf("none");
        return;
    }
    switch (type) {
    case 0x0001: case 0x0012: case 0x0016: case 0x0020: case 0x8023: print_address(found); return;
    case 0x0009: print_error(); return;
    case 0x000c: printf("%u", stun_attr_get_channel_number(found)); return;
    case 0x0018: printf(stun_attr_get_even_port(found) ? "yes" : "no"); return;
    case 0x0006: case 0x0008: case 0x0013: case 0x0014: case 0x0015: case 0x8022:
        print_bytes(stun_attr_get_value(found), stun_attr_get_len(found));
        return;
    default: printf("lacks");
    }
}

/* A key of 16 bytes is passed as one of long-term credentials, any other as a password. */
static turn_credential_type credentials(hmackey_t key, password_t password) {
    memset(key, 0, sizeof(hmackey_t));
    memset(password, 0, sizeof(password_t));
    if (value.length == 16) {
        memcpy(key, value.at, 16);
        return TURN_CREDENTIALS_LONG_TERM;
    }
    memcpy(password, value.at, value.length);
    return TURN_CREDENTIALS_SHORT_TERM;
}

static bool is_password(void) {
    return value.length <= STUN_MAX_PWD_SIZE && memchr(value.at, 0, value.length) == NULL;
}

static void verify(void) {
    hmackey_t key;
    password_t password;
    if (stun_attr_get_first_by_type_str(data.at, data.length, 0x0008) == NULL) {
        printf("none");
    } else if (value.length != 16 && !is_password()) {
        printf("lacks");
    } else {
        turn_credential_type kind = credentials(key, password);
        int came = stun_check_message_integrity_by_key_str(kind, data.at, data.length, key,
                                                           password, SHATYPE_SHA1);
        printf(came > 0 ? "sha1" : "refused");
    }
}

static void check_fingerprint(void) {
    int is_present = 0;
    int is_right = stun_is_command_message_full_check_str(data.at, data.length, 0, &is_present);
    bool is_there = stun_attr_get_first_by_type_str(data.at, data.length, 0x8028) != NULL;
    printf(!is_there ? "none" : is_right && is_present ? "valid" : "invalid");
}

static void key(char **words) {
    static bytes parts[3];
    hmackey_t made;
    for (int i = 0; i < 3; i++) {
        plain(words[1 + i], &parts[i]);
        parts[i].at[parts[i].length] = 0;
    }
    if (strcmp(words[0], "sha1") != 0) printf("lacks");
    else if (stun_produce_integrity_key_str(parts[0].at, parts[1].at, parts[2].at, made,
                                            SHATYPE_SHA1) < 0) printf("refused");
    else print_bytes(made, 16);
}

/* The length of a message in a stream. -1 means that bytes are missing, or that none begins. */
static void frame(char **words) {
    size_t unused = 0;
    plain(words[1], &data);
    int length = stun_get_message_len_str(data.at, data.length, 1, &unused);
    if (strcmp(words[0], "turn") != 0 || length < 0) printf("lacks");
    else printf("%d", length);
}

static void print_written(bool is_written) {
    if (is_written) print_bytes(data.at, data.length);
    else printf("refused");
}

static void begin(char **words) {
    static uint16_t (*const types[])(uint16_t) = {
        stun_make_request, stun_make_indication, stun_make_success_response,
        stun_make_error_response};
    stun_tid id;
    plain(words[2] + 2, &value);
    memcpy(id.tsx_id, value.at, 12);
    uint16_t method = (uint16_t)strtoul(words[1], NULL, 16);
    stun_init_command_str(types[class_of(words[0])](method), data.at, &data.length);
    stun_tid_message_cpy(data.at, &id);
    print_written(true);
}

static bool is_added_address(unsigned type, const char *word) {
    char host[64];
    ioa_addr at = {0};
    int port = port_of(word, host, sizeof host);
    return make_ioa_addr((uint8_t *)host, port, &at) >= 0
           && stun_attr_add_addr_str(data.at, &data.length, type, &at) >= 0;
}

static void add(unsigned type, const char *word) {
    switch (type) {
    case 0x0001: case 0x0012: case 0x0016: case 0x0020: case 0x8023:
        print_written(is_added_address(type, word));
        return;
    case 0x000c:
        print_written(stun_attr_add_channel_number_str(data.at, &data.length, atoi(word)) >= 0);
        return;
    case 0x0006: case 0x0013: case 0x0014: case 0x0015: case 0x8022:
        plain(word, &value);
        print_written(stun_attr_add_str(data.at, &data.length, type, value.at,
                                        (int)value.length) >= 0);
        return;
    default: printf("lacks");
    }
}

static void sign(void) {
    hmackey_t made;
    password_t password;
    if (value.length != 16 && !is_password()) {
        printf("lacks");
        return;
    }
    turn_credential_type kind = credentials(made, password);
    print_written(stun_attr_add_integrity_str(kind, data.at, &data.length, made, password,
                                              SHATYPE_SHA1) >= 0);
}

static void of_message(const char *call, char **words) {
    plain(words[0], &value);
    if (!stun_is_command_message_str(data.at, data.length)) printf("refused");
    else if (strcmp(call, "read") == 0) read_header();
    else if (strcmp(call, "attributes") == 0) attributes();
    else if (strcmp(call, "attribute") == 0) attribute(strtoul(words[0], NULL, 16));
    else if (strcmp(call, "verify") == 0) verify();
    else check_fingerprint();
}

static bool is_one_of(const char *call, const char *names) {
    const char *found = strstr(names, call);
    size_t length = strlen(call);
    return found != NULL && (found == names || found[-1] == ' ')
           && (found[length] == ' ' || found[length] == '\0');
}

static void answer(const char *call, char **words) {
    if (is_one_of(call, "read attributes attribute verify fingerprint")) {
        plain(words[is_one_of(call, "attribute verify")], &data);
        of_message(call, words);
    } else if (strcmp(call, "claims") == 0) {
        printf("rfc5389 raw-texts");
    } else if (strcmp(call, "key") == 0) {
        key(words);
    } else if (strcmp(call, "frame") == 0) {
        frame(words);
    } else if (strcmp(call, "begin") == 0) {
        begin(words);
    } else if (is_one_of(call, "add sign add-fingerprint")) {
        plain(words[0], &data);
        if (strcmp(call, "add") == 0) add(strtoul(words[1], NULL, 16), words[2]);
        else if (strcmp(call, "add-fingerprint") == 0)
            print_written(stun_attr_add_fingerprint_str(data.at, &data.length) >= 0);
        else if (strcmp(words[1], "sha1") != 0) printf("lacks");
        else {
            plain(words[2], &value);
            sign();
        }
    } else {
        printf("lacks");
    }
}

int main(void) { return play(); }
