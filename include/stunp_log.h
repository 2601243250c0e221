/* stunp_log.h: a datagram in one line of text, for logs
 *
 * This header is optional, and its calls are inline. In addition to the calls of stunp.h they need
 * vsnprintf, and C99 or C++.
 *
 *     char line[STUNP_LINE_MAX];
 *     fprintf(stderr, "%s\n", stunp_describe(bytes, length, line, sizeof line));
 *
 * prints
 *
 *     Binding success b7e7a701bc34d686fa87dfae: SOFTWARE "test vector", XOR-MAPPED-ADDRESS
 *     192.0.2.1:32853, MESSAGE-INTEGRITY (20), FINGERPRINT (4)
 *
 * in one line. The text is for people, and may change with each release. It contains user names,
 * but no nonces and no bytes of a signature. The sender of a datagram chooses its texts, so bytes
 * that are not printable ASCII are replaced by `?`, and the line has no line break. */
#ifndef STUNP_LOG_H
#define STUNP_LOG_H

#include "stunp.h"
#include <stdarg.h>
#include <stdio.h>

#ifdef __cplusplus
extern "C" {
#endif

/* The length of a buffer that has room for the line of a usual message. */
enum { STUNP_LINE_MAX = 1024 };

/* Returns the name of an attribute, such as "XOR-MAPPED-ADDRESS", or null if this release has no
 * name for its type. */
static inline const char *stunp_attribute_name(uint32_t type) {
    switch (type) {
    case STUNP_MAPPED_ADDRESS: return "MAPPED-ADDRESS";
    case STUNP_CHANGE_REQUEST: return "CHANGE-REQUEST";
    case STUNP_USERNAME: return "USERNAME";
    case STUNP_MESSAGE_INTEGRITY: return "MESSAGE-INTEGRITY";
    case STUNP_ERROR_CODE: return "ERROR-CODE";
    case STUNP_UNKNOWN_ATTRIBUTES: return "UNKNOWN-ATTRIBUTES";
    case STUNP_CHANNEL_NUMBER: return "CHANNEL-NUMBER";
    case STUNP_LIFETIME: return "LIFETIME";
    case STUNP_XOR_PEER_ADDRESS: return "XOR-PEER-ADDRESS";
    case STUNP_DATA: return "DATA";
    case STUNP_REALM: return "REALM";
    case STUNP_NONCE: return "NONCE";
    case STUNP_XOR_RELAYED_ADDRESS: return "XOR-RELAYED-ADDRESS";
    case STUNP_REQUESTED_ADDRESS_FAMILY: return "REQUESTED-ADDRESS-FAMILY";
    case STUNP_EVEN_PORT: return "EVEN-PORT";
    case STUNP_REQUESTED_TRANSPORT: return "REQUESTED-TRANSPORT";
    case STUNP_DONT_FRAGMENT: return "DONT-FRAGMENT";
    case STUNP_ACCESS_TOKEN: return "ACCESS-TOKEN";
    case STUNP_MESSAGE_INTEGRITY_SHA256: return "MESSAGE-INTEGRITY-SHA256";
    case STUNP_PASSWORD_ALGORITHM: return "PASSWORD-ALGORITHM";
    case STUNP_USERHASH: return "USERHASH";
    case STUNP_XOR_MAPPED_ADDRESS: return "XOR-MAPPED-ADDRESS";
    case STUNP_RESERVATION_TOKEN: return "RESERVATION-TOKEN";
    case STUNP_PRIORITY: return "PRIORITY";
    case STUNP_USE_CANDIDATE: return "USE-CANDIDATE";
    case STUNP_PADDING: return "PADDING";
    case STUNP_RESPONSE_PORT: return "RESPONSE-PORT";
    case STUNP_CONNECTION_ID: return "CONNECTION-ID";
    case STUNP_ADDITIONAL_ADDRESS_FAMILY: return "ADDITIONAL-ADDRESS-FAMILY";
    case STUNP_ADDRESS_ERROR_CODE: return "ADDRESS-ERROR-CODE";
    case STUNP_PASSWORD_ALGORITHMS: return "PASSWORD-ALGORITHMS";
    case STUNP_ALTERNATE_DOMAIN: return "ALTERNATE-DOMAIN";
    case STUNP_ICMP: return "ICMP";
    case STUNP_SOFTWARE: return "SOFTWARE";
    case STUNP_ALTERNATE_SERVER: return "ALTERNATE-SERVER";
    case STUNP_TRANSACTION_TRANSMIT_COUNTER: return "TRANSACTION-TRANSMIT-COUNTER";
    case STUNP_FINGERPRINT: return "FINGERPRINT";
    case STUNP_ICE_CONTROLLED: return "ICE-CONTROLLED";
    case STUNP_ICE_CONTROLLING: return "ICE-CONTROLLING";
    case STUNP_RESPONSE_ORIGIN: return "RESPONSE-ORIGIN";
    case STUNP_OTHER_ADDRESS: return "OTHER-ADDRESS";
    case STUNP_ECN_CHECK: return "ECN-CHECK";
    case STUNP_THIRD_PARTY_AUTHORIZATION: return "THIRD-PARTY-AUTHORIZATION";
    case STUNP_MOBILITY_TICKET: return "MOBILITY-TICKET";
    default: return NULL;
    }
}

/* Returns the name of a method, such as "Binding", or null if this release has no name for it. */
static inline const char *stunp_method_name(uint32_t method) {
    switch (method) {
    case STUNP_BINDING: return "Binding";
    case STUNP_ALLOCATE: return "Allocate";
    case STUNP_REFRESH: return "Refresh";
    case STUNP_SEND: return "Send";
    case STUNP_DATA_METHOD: return "Data";
    case STUNP_CREATE_PERMISSION: return "CreatePermission";
    case STUNP_CHANNEL_BIND: return "ChannelBind";
    default: return NULL;
    }
}

/* A line that is being written. Text that does not fit is left out. Only the calls of this file use
 * this struct and the functions whose names begin with stunp_line. */
struct stunp_line {
    char *text;
    size_t room, length;
};

#if defined __GNUC__
__attribute__((format(printf, 2, 3)))
#endif
static inline void stunp_line_add(struct stunp_line *line, const char *format, ...) {
    va_list values;
    if (line->length + 1 >= line->room) return;
    va_start(values, format);
    int count = vsnprintf(line->text + line->length, line->room - line->length, format, values);
    va_end(values);
    size_t left = line->room - line->length - 1;
    line->length += count < 0 ? 0 : (size_t)count < left ? (size_t)count : left;
}

static inline void stunp_line_add_text(struct stunp_line *line, const uint8_t *text,
                                       size_t length) {
    stunp_line_add(line, " \"");
    for (size_t i = 0; i < length; i++) {
        bool is_plain = text[i] >= 32 && text[i] < 127 && text[i] != '"' && text[i] != '\\';
        stunp_line_add(line, "%c", is_plain ? text[i] : '?');
    }
    stunp_line_add(line, "\"");
}

static inline void stunp_line_add_address(struct stunp_line *line, const uint8_t *octets,
                                          int64_t length, unsigned port) {
    if (length == 4) {
        stunp_line_add(line, " %u.%u.%u.%u:%u", octets[0], octets[1], octets[2], octets[3], port);
        return;
    }
    for (size_t i = 0; i < 16; i += 2)
        stunp_line_add(line, "%s%x", i == 0 ? " [" : ":", octets[i] << 8 | octets[i + 1]);
    stunp_line_add(line, "]:%u", port);
}

static inline void stunp_line_add_value(struct stunp_line *line, const uint8_t *message,
                                        size_t length, size_t place, uint16_t type,
                                        const uint8_t *value, size_t value_length) {
    /* Adds the value if people can read values of this type, and otherwise the length of the
     * value. */
    uint8_t octets[16];
    uint64_t number = 0;
    uint16_t port = 0;
    int64_t answer = STUNP_MALFORMED_ATTRIBUTE;
    switch (type) {
    case STUNP_USERNAME: case STUNP_REALM: case STUNP_SOFTWARE: case STUNP_ALTERNATE_DOMAIN:
        stunp_line_add_text(line, value, value_length);
        return;
    case STUNP_ERROR_CODE:
        if (value_length < 4) break;
        stunp_line_add(line, " %u", (value[2] & 7) * 100u + value[3]);
        stunp_line_add_text(line, value + 4, value_length - 4);
        return;
    case STUNP_XOR_MAPPED_ADDRESS: case STUNP_XOR_PEER_ADDRESS: case STUNP_XOR_RELAYED_ADDRESS:
        answer = stunp_read_xor_address(message, length, place, octets, sizeof octets, &port);
        break;
    case STUNP_MAPPED_ADDRESS: case STUNP_ALTERNATE_SERVER: case STUNP_RESPONSE_ORIGIN:
    case STUNP_OTHER_ADDRESS:
        answer = stunp_read_address(message, length, place, octets, sizeof octets, &port);
        break;
    case STUNP_LIFETIME: case STUNP_PRIORITY:
        if (stunp_read_number(message, length, place, &number) != 4) break;
        stunp_line_add(line, " %u", (unsigned)number);
        return;
    case STUNP_CHANNEL_NUMBER:
        if (value_length != 4) break;
        stunp_line_add(line, " 0x%02x%02x", value[0], value[1]);
        return;
    case STUNP_UNKNOWN_ATTRIBUTES:
        for (size_t i = 0; i + 1 < value_length; i += 2)
            stunp_line_add(line, " 0x%02x%02x", value[i], value[i + 1]);
        return;
    case STUNP_USE_CANDIDATE: case STUNP_DONT_FRAGMENT:
        if (value_length == 0) return;
        break;
    default: break;
    }
    if (answer > 0) stunp_line_add_address(line, octets, answer, port);
    else stunp_line_add(line, " (%u)", (unsigned)value_length);
}

/* Writes a line of text about a datagram to the front of `out`, with a zero byte at its end. For a
 * message, the line has the method, the class, the transaction ID and the visible attributes, each
 * with its value or, in parentheses, the length of the value. For ChannelData of TURN, the line has
 * the number of the channel and the length of the data. For any other datagram, the line says why
 * the datagram is not a message. A line that does not fit is cut.
 *
 * Returns `out`, or an empty text if `room` is 0. */
STUNP_READS(1, 2) STUNP_NOT_NULL(3)
static inline const char *stunp_describe(const uint8_t *bytes, size_t length, char *out,
                                         size_t room) {
    static const char *const classes[] = {"request", "indication", "success", "error"};
    struct stunp_line line = {out, room, 0};
    stunp_cursor cursor = {0, 0};
    stunp_header header;
    uint16_t type = 0;
    size_t value_length = 0, first = 1;
    int64_t place;
    if (room == 0) return "";
    out[0] = 0;
    if (stunp_read_channel_data(bytes, length, &type, &value_length) > 0) {
        stunp_line_add(&line, "ChannelData 0x%04x, %u bytes", type, (unsigned)value_length);
        return out;
    }
    place = stunp_read_header(bytes, length, &header);
    if (place == 0) place = stunp_parse(bytes, length);
    if (place < 0) {
        stunp_line_add(&line, "%lu bytes, no message: %s", (unsigned long)length,
                       stunp_strerror(place));
        return out;
    }
    if (stunp_method_name(header.method) != NULL)
        stunp_line_add(&line, "%s", stunp_method_name(header.method));
    else stunp_line_add(&line, "method %u", (unsigned)header.method);
    stunp_line_add(&line, " %s ", classes[header.message_class & 3]);
    for (size_t i = 0; i < sizeof header.id; i++) stunp_line_add(&line, "%02x", header.id[i]);
    while ((place = stunp_walk(bytes, length, &cursor, &type, &value_length)) > 0) {
        const char *name = stunp_attribute_name(type);
        stunp_line_add(&line, "%s", first ? ": " : ", ");
        first = 0;
        if (name != NULL) stunp_line_add(&line, "%s", name);
        else stunp_line_add(&line, "0x%04x", type);
        const uint8_t *value = bytes + place;
        stunp_line_add_value(&line, bytes, length, (size_t)place, type, value, value_length);
    }
    return out;
}

#ifdef __cplusplus
}
#endif

#endif
