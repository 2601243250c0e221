/* The steps of fuzz.c that are calls on messages. What one call says is compared with what others
 * say. */
#ifndef STUN_FUZZ_MESSAGES_H
#define STUN_FUZZ_MESSAGES_H

#include "world.h"

/* ---- The calls that read. */

/* The visible attributes of a message, by stunp_walk, with the places of their values: no more than
 * have room. */
static struct {
    size_t place, length;
    uint16_t type;
} found[MOST_ATTRIBUTES];
static size_t count;

static void walk(struct bytes m, int64_t parsed) {
    stunp_cursor cursor = {0, 0};
    size_t end = STUNP_HEADER_LENGTH, length = 77;
    uint16_t type = 7;
    int64_t place;
    count = 0;
    while ((place = stunp_walk(m.at, m.length, &cursor, &type, &length)) > 0) {
        require((size_t)place >= end + 4 && (size_t)place + length <= m.length,
                "an attribute outside");
        end = (size_t)place + (length + 3) / 4 * 4;
        require(cursor.place == end, "another cursor");
        if (count == MOST_ATTRIBUTES) return;
        found[count].place = (size_t)place, found[count].length = length, found[count].type = type;
        count++;
    }
    require(place == (parsed < 0 ? parsed : 0), "another end of a walk");
    require(parsed == 0 || (cursor.place == 0 && cursor.hidden == 0 && type == 7 && length == 77),
            "a refused walk writes");
}

/* The first of a type among those found, or `count`. */
static size_t first_of(uint32_t type) {
    size_t i = 0;
    while (i < count && found[i].type != type) i++;
    return i;
}

/* stunp_next and stunp_find against the walk. */
static void find(struct bytes m, int64_t parsed) {
    static const uint16_t types[] = {
        STUNP_USERNAME, STUNP_MESSAGE_INTEGRITY, STUNP_ERROR_CODE, STUNP_FINGERPRINT, 0, 0xffff};
    int64_t place = 0;
    for (size_t i = 0; i < count; i++) {
        uint16_t type;
        size_t length;
        place = stunp_next(m.at, m.length, (size_t)place, &type, &length);
        require(place == (int64_t)found[i].place && type == found[i].type
                    && length == found[i].length,
                "stunp_next goes elsewhere");
        size_t first = first_of(type);
        place = stunp_find(m.at, m.length, type, &length);
        require(place == (int64_t)found[first].place && length == found[first].length,
                "stunp_find finds another");
        place = (int64_t)found[i].place;
    }
    for (size_t i = 0; i < sizeof types / sizeof *types; i++) {
        size_t length = 77, first = first_of(types[i]);
        int64_t at = stunp_find(m.at, m.length, types[i], &length);
        if (count == MOST_ATTRIBUTES && first == count) continue;
        require(at
                    == (parsed < 0       ? parsed
                        : first == count ? STUNP_MISSING_ATTRIBUTE
                                         : (int64_t)found[first].place),
                "stunp_find");
        require(at > 0 || length == 77, "a refused find writes");
    }
    size_t length;
    require(stunp_find(m.at, m.length, 65536, &length) == STUNP_BAD_ARGUMENT,
            "a type that is none");
}

/* The bytes that are there of the two top bits, the two last bits of the length and the cookie. */
static bool may_begin(struct bytes m) {
    static const uint8_t cookie[4] = {0x21, 0x12, 0xa4, 0x42};
    for (size_t i = 4; i < 8 && i < m.length; i++)
        if (m.at[i] != cookie[i - 4]) return false;
    return (m.length < 1 || m.at[0] < 64) && (m.length < 4 || m.at[3] % 4 == 0);
}

static void read_header(struct bytes m, int64_t parsed) {
    stunp_header header;
    memset(&header, PATTERN, sizeof header);
    int64_t answer = stunp_read_header(m.at, m.length, &header),
            frame = stunp_next_frame(m.at, m.length);
    uint8_t id[STUNP_ID_LENGTH] = {0};
    require(answer == 0 || parsed == answer, "a message without a header");
    require(frame
                == (answer == STUNP_NOT_STUN || !may_begin(m) ? STUNP_NOT_STUN
                    : m.length < 20                           ? 20
                                                              : (int64_t)header.length),
            "another frame");
    require(stunp_is_stun(m.at, m.length) == (answer == 0 && m.at[0] <= 3), "stunp_is_stun");
    require(stunp_next_packet_frame(m.at, m.length) >= 2
                && named(stunp_next_turn_frame(m.at, m.length)) != 0,
            "a frame");
    require(stunp_class(m.at, m.length) == (parsed < 0 ? parsed : (int64_t)header.message_class),
            "another class");
    require(stunp_method(m.at, m.length) == (parsed < 0 ? parsed : (int64_t)header.method),
            "another method");
    require(stunp_id(m.at, m.length, id, sizeof id) == (parsed < 0 ? parsed : 12), "no id");
    require(parsed < 0 || (header.length == m.length && memcmp(id, header.id, sizeof id) == 0),
            "another header");
    require(stunp_id(m.at, m.length, id, 11) == (parsed < 0 ? parsed : STUNP_BUFFER_TOO_SMALL),
            "a short id");
}

/* What plain addresses and numbers are read of the bytes at a place. */
static void read_plainly(struct bytes m, size_t place) {
    uint8_t octets[2][16];
    uint16_t ports[2] = {0, 0};
    uint64_t number = 7, wanted = 0;
    int64_t answer = named(stunp_read_address(m.at, m.length, place, octets[0], 16, ports));
    int64_t size = named(stunp_read_number(m.at, m.length, place, &number));
    require(stunp_read_xor_address(m.at, m.length, place, octets[1], 16, ports + 1) == answer,
            "two answers of an address");
    require(answer < 0
                || (ports[0] == (ports[1] ^ 0x2112)
                    && memcmp(octets[0], m.at + place + 4, (size_t)answer) == 0),
            "another plain address");
    require((size == STUNP_BAD_ARGUMENT) == (answer == STUNP_BAD_ARGUMENT), "a number of nothing");
    for (int64_t i = 0; i < size; i++) wanted = wanted << 8 | m.at[place + (size_t)i];
    require(number == (size < 0 ? 7 : wanted), "another number");
}

/* The text and the types that are read of the bytes at a place. */
static void read_words(struct bytes m, size_t place) {
    uint16_t types[4] = {7, 7, 7, 7};
    uint64_t number;
    size_t length = 77;
    int64_t at = named(stunp_read_text(m.at, m.length, place, &length));
    int64_t size = named(stunp_read_types(m.at, m.length, place, types, 3));
    bool is_none = stunp_read_number(m.at, m.length, place, &number) == STUNP_BAD_ARGUMENT;
    require((at == STUNP_BAD_ARGUMENT) == is_none && (size == STUNP_BAD_ARGUMENT) == is_none,
            "a text or types of nothing");
    require(at < 0 ? length == 77 : at == (int64_t)place && length <= m.length - place,
            "a text elsewhere");
    for (int64_t i = 0; i < 4; i++) {
        const uint8_t *type = m.at + place + 2 * i;
        require(types[i] == (i < size && i < 3 ? type[0] << 8 | type[1] : 7), "another type");
    }
    if (at > 0 && size >= 0) require(length == 2 * (size_t)size, "another number of types");
}

/* What is found by type is what is read at the place of the first one. */
static void find_values(struct bytes m) {
    for (size_t i = 0; i < count; i++) {
        uint8_t octets[2][16] = {{0}};
        uint16_t ports[2] = {7, 7}, types[2] = {7, 7}, type = found[i].type;
        uint64_t numbers[2] = {7, 7};
        size_t lengths[2] = {77, 77}, place = found[first_of(type)].place;
        int64_t text = stunp_read_text(m.at, m.length, place, lengths + 1);
        require(stunp_find_text(m.at, m.length, type, lengths)
                        == (text < 0 ? text : (int64_t)place)
                    && lengths[0] == lengths[1],
                "another text is found");
        require(stunp_find_number(m.at, m.length, type, numbers)
                        == stunp_read_number(m.at, m.length, place, numbers + 1)
                    && numbers[0] == numbers[1],
                "another number is found");
        require(stunp_find_xor_address(m.at, m.length, type, octets[0], 16, ports)
                        == stunp_read_xor_address(m.at, m.length, place, octets[1], 16, ports + 1)
                    && ports[0] == ports[1] && memcmp(octets[0], octets[1], 16) == 0,
                "another address is found");
        require(stunp_find_types(m.at, m.length, type, types, 1)
                        == stunp_read_types(m.at, m.length, place, types + 1, 1)
                    && types[0] == types[1],
                "other types are found");
    }
}

/* The text of a number is that of the header. */
static void tell_error(uint8_t setting) {
    uint8_t text[STUNP_LONGEST_ERROR_TEXT];
    int64_t number = 2 - (int64_t)(setting % 32), length;
    const char *wanted = stunp_strerror(number);
    memset(text, PATTERN, sizeof text);
    length = stunp_error_text(number, text, sizeof text);
    require(length > 0 && memcmp(text, wanted, strlen(wanted)) == 0, "another text of an error");
    require(stunp_error_text(number, NULL, 0) == STUNP_BUFFER_TOO_SMALL, "a text without room");
}

static void read_values(struct bytes m, int64_t parsed, uint8_t setting) {
    uint8_t octets[2][16];
    uint16_t ports[2] = {7, 7};
    size_t code_at = first_of(STUNP_ERROR_CODE), xor_at = first_of(STUNP_XOR_MAPPED_ADDRESS),
           room = setting % 17;
    bool is_all = count < MOST_ATTRIBUTES;
    int64_t code = named(stunp_error_code(m.at, m.length));
    require(code < 0 || (code >= 300 && code <= 699), "a code that is none");
    if (parsed < 0 || is_all)
        require(parsed < 0 ? code == parsed
                           : (code == STUNP_MISSING_ATTRIBUTE) == (code_at == count),
                "another code");
    memset(octets, PATTERN, sizeof octets);
    int64_t answer = named(stunp_xor_mapped_address(m.at, m.length, octets[0], room, ports));
    require(answer <= (int64_t)room, "an address without room");
    for (size_t i = answer < 0 ? 0 : (size_t)answer; i < 16; i++)
        require(octets[0][i] == PATTERN, "behind an address");
    require(answer > 0 || ports[0] == 7, "a refused address writes");
    if (parsed < 0 || xor_at == count) {
        if (parsed < 0 || is_all)
            require(answer == (parsed < 0 ? parsed : STUNP_MISSING_ATTRIBUTE),
                    "an address of nothing");
    } else {
        require(
            stunp_read_xor_address(m.at, m.length, found[xor_at].place, octets[1], room, ports + 1)
                == answer,
            "two answers");
        require(answer < 0
                    || (ports[0] == ports[1] && memcmp(octets[0], octets[1], (size_t)answer) == 0),
                "two addresses");
    }
    for (size_t place = setting; place < m.length + 12; place += 61) {
        require(named(stunp_read_xor_address(m.at, m.length, place, octets[1], 16, ports)) != 0,
                "an address of no bytes");
        read_plainly(m, place);
        read_words(m, place);
    }
}

/* A copy of a message whose id is another. */
static void change_id(struct bytes m) {
    memcpy(before, m.at, m.length);
    before[ID_AT] ^= 0x40;
}

static void check_fingerprint(struct bytes m, int64_t parsed) {
    int64_t answer = named(stunp_check_fingerprint(m.at, m.length));
    require(parsed == 0 ? answer >= 0 && answer <= STUNP_MISPLACED_FINGERPRINT : answer == parsed,
            "FINGERPRINT");
    if (parsed < 0) return;
    if (count < MOST_ATTRIBUTES)
        require((answer == STUNP_NO_FINGERPRINT) == (first_of(STUNP_FINGERPRINT) == count),
                "no FINGERPRINT");
    change_id(m);
    int64_t changed = stunp_check_fingerprint(before, m.length);
    if (answer == STUNP_RIGHT_FINGERPRINT)
        require(changed == STUNP_WRONG_FINGERPRINT, "a FINGERPRINT of two messages");
    else if (answer != STUNP_WRONG_FINGERPRINT)
        require(changed == answer, "FINGERPRINT by the id");
}

static void read_unknown(struct bytes m, int64_t parsed, uint8_t setting) {
    static const uint16_t known[] = {STUNP_USERNAME, STUNP_MESSAGE_INTEGRITY, STUNP_REALM,
                                     STUNP_NONCE};
    uint16_t types[MOST_ATTRIBUTES + 1];
    memset(types, PATTERN, sizeof types);
    size_t room = setting % (MOST_ATTRIBUTES + 1), wanted = 0;
    int64_t answer = stunp_unknown_types(m.at, m.length, known, 4, types, room);
    require(parsed == 0 || answer == parsed, "unknown types of no message");
    for (size_t i = 0; i < count; i++) {
        uint16_t type = found[i].type;
        bool is_known = type >= 32768 || type == known[0] || type == known[1] || type == known[2]
                        || type == known[3];
        if (is_known || first_of(type) != i) continue;
        if (parsed == 0 && wanted < room) require(types[wanted] == type, "another unknown type");
        wanted++;
    }
    if (count < MOST_ATTRIBUTES && parsed == 0)
        require(answer == (int64_t)wanted, "not as many unknown types");
    for (size_t i = answer < 0 ? 0 : (size_t)answer; i < room; i++)
        require(types[i] == 0xa5a5, "behind the types");
    require(types[room] == 0xa5a5, "a type too many");
    fill_out();
    size_t space = (size_t)setting * 8;
    int64_t length = named(stunp_refuse_unknown(m.at, m.length, known, 4, out, space));
    require_rest(length < 0 ? 0 : (size_t)length, "behind a 420");
    require(length <= (int64_t)space, "a 420 without room");
    if (parsed == 0 && length >= 0) require((length == 0) == (answer == 0), "another 420");
    if (length > 0) require(stunp_error_code(out, (size_t)length) == 420, "no 420");
}

/* The number at the front of an attribute of 4 bytes, by stunp_find_number. */
static int64_t front_number(struct bytes m, uint32_t type, unsigned shift) {
    uint64_t number = 0;
    int64_t size = stunp_find_number(m.at, m.length, type, &number);
    if (size < 0) return size;
    return size == 4 ? (int64_t)(number >> shift) : STUNP_MALFORMED_ATTRIBUTE;
}

/* What is read of TURN against what other calls say, and ChannelData against what is written. */
static void read_turn(struct bytes m, uint8_t setting) {
    uint16_t channel = 7;
    size_t length = 77, room = setting % 2 == 0 ? ROOM : setting;
    int64_t wanted = front_number(m, STUNP_CHANNEL_NUMBER, 16);
    if (wanted >= 0 && (wanted < 0x4000 || wanted > 0x7fff)) wanted = STUNP_MALFORMED_ATTRIBUTE;
    require(stunp_channel_number(m.at, m.length) == wanted, "another channel");
    require(stunp_requested_transport(m.at, m.length)
                == front_number(m, STUNP_REQUESTED_TRANSPORT, 24), "another protocol");
    int64_t place = stunp_find(m.at, m.length, STUNP_DATA, &length);
    size_t value_length = 77;
    const uint8_t *value = stunp_find_value(m.at, m.length, STUNP_DATA, &value_length);
    require((place > 0) == (value != NULL) && value_length == length, "another value");
    require(value == NULL || value + length <= m.at + m.length, "a value outside");
    length = 77;
    place = named(stunp_read_channel_data(m.at, m.length, &channel, &length));
    if (place < 0) {
        require(channel == 7 && length == 77, "refused ChannelData is written");
        return;
    }
    require(place == 4 && m.at[0] >> 6 == 1 && 4 + length <= m.length, "ChannelData outside");
    fill_out();
    int64_t built = stunp_build_channel_data(channel, m.at + 4, length, setting % 4 < 2, out, room);
    size_t whole = 4 + (setting % 4 < 2 ? (length + 3) / 4 * 4 : length);
    require(built == (whole > room ? STUNP_BUFFER_TOO_SMALL : (int64_t)whole), "not written again");
    require_rest(built < 0 || whole > ROOM ? ROOM : whole, "ChannelData is written outside");
    require(built < 0 || memcmp(out, m.at, 4 + length) == 0, "other ChannelData is written");
}

static void read_all(struct bytes m, uint8_t setting) {
    int64_t parsed = named(stunp_parse(m.at, m.length));
    require(parsed <= 0 && parsed >= STUNP_TOO_LARGE, "another answer of stunp_parse");
    walk(m, parsed);
    find(m, parsed);
    read_header(m, parsed);
    read_values(m, parsed, setting);
    find_values(m);
    tell_error(setting);
    check_fingerprint(m, parsed);
    read_unknown(m, parsed, setting);
    read_turn(m, setting);
    stunp_cursor anywhere = {setting, (uint32_t)setting << 24 | setting % 5};
    uint16_t type;
    size_t length;
    for (int i = 0; i < MOST_ATTRIBUTES; i++) {
        int64_t place = named(stunp_walk(m.at, m.length, &anywhere, &type, &length));
        if (place <= 0) break;
        require((size_t)place + length <= m.length, "a walk from anywhere goes outside");
    }
}

static void verify(struct bytes m, uint8_t setting) {
    static const struct {
        const char *bytes;
        size_t length;
    } keys[] = {
        {"VOkJxbRl1RmTxUk/WvJxBt", 22},
        {"\xe8\xca\x7a\xd5\x9d\x5e\xb0\x51\x8e\x31\x29\x11\xd2\xda\xb2\xa9",
         16}, /* RFC 5769, section 2.4 */
        {"key", 3},
        {"", 0},
    };
    const uint8_t *key = (const uint8_t *)keys[setting % 4].bytes;
    size_t length = keys[setting % 4].length;
    int64_t parsed = stunp_parse(m.at, m.length),
            answer = named(stunp_verify(m.at, m.length, key, length));
    walk(m, parsed);
    size_t weaker = first_of(STUNP_MESSAGE_INTEGRITY),
           stronger = first_of(STUNP_MESSAGE_INTEGRITY_SHA256);
    require(parsed == 0 || answer == parsed, "a digest of no message");
    require(answer != 0 && answer <= STUNP_SHA256, "another answer of stunp_verify");
    if (parsed < 0 || count == MOST_ATTRIBUTES) return;
    require((answer == STUNP_NO_INTEGRITY) == (weaker == count && stronger == count),
            "no integrity");
    if (answer < 0) return;
    require(answer == (stronger < count ? STUNP_SHA256 : STUNP_SHA1), "another algorithm");
    change_id(m);
    require(stunp_verify(before, m.length, key, length) == STUNP_INTEGRITY_FAILED,
            "a digest of two messages");
}

/* ---- The calls that write. */

/* The calls that add to a message, in the order in which they are tried. */
enum addition {
    PLAINLY,
    XOR_PEER,
    XOR_MAPPED,
    PLAIN_ADDRESS,
    NUMBER,
    ERROR_OF,
    SIGNATURE,
    CHECKSUM,
    ADDITIONS
};

/* What they add: of a setting, and of the bytes of a step. */
struct more {
    uint32_t type, code, algorithm;
    const stunp_address *address;
    const uint8_t *value, *reason;
    size_t length, reason_length, size;
    uint64_t number;
};

static int64_t add(enum addition which, size_t room, size_t length, const struct more *more) {
    const stunp_address *at = more->address;
    switch (which) {
    case PLAINLY: return stunp_add(out, room, length, more->type, more->value, more->length);
    case XOR_PEER:
        return stunp_add_xor_address(out, room, length, STUNP_XOR_PEER_ADDRESS, at->octets,
                                    at->length, at->port);
    case XOR_MAPPED:
        return stunp_add_xor_mapped_address(out, room, length, at->octets, at->length, at->port);
    case PLAIN_ADDRESS:
        return stunp_add_address(out, room, length, STUNP_MAPPED_ADDRESS, at->octets, at->length,
                                at->port);
    case NUMBER:
        return stunp_add_number(out, room, length, STUNP_PRIORITY, more->number, more->size);
    case ERROR_OF:
        return stunp_add_error(out, room, length, more->code, (const char *)more->reason,
                               more->reason_length);
    case SIGNATURE: return stunp_sign(out, room, length, more->algorithm, KEY("key"));
    default: return stunp_add_fingerprint(out, room, length);
    }
}

/* Adds an attribute to the message of a length in `out`, as it was. It is given just the room that
 * it wants, and then one byte less. Returns the new length. */
static size_t add_exactly(enum addition which, size_t length, const struct more *more) {
    size_t whole = length + AMPLE + BEHIND;
    memcpy(before, out, whole);
    int64_t answer = named(add(which, length + AMPLE, length, more));
    require(answer < 0 || ((size_t)answer > length && (size_t)answer <= length + AMPLE), "outside");
    if (answer < 0) {
        require(memcmp(out, before, whole) == 0, "a refusal writes");
        return length;
    }
    size_t end = (size_t)answer;
    memcpy(out, before, whole);
    require(add(which, end - 1, length, more) == STUNP_BUFFER_TOO_SMALL, "it needs no room");
    require(memcmp(out, before, whole) == 0, "a refusal for want of room writes");
    require(add(which, end, length, more) == answer, "it needs more room");
    require(memcmp(out + end, before + end, whole - end) == 0, "written behind the message");
    require(memcmp(out, before, 2) == 0 && memcmp(out + 4, before + 4, length - 4) == 0,
            "what was there is changed");
    return end;
}

/* The same by a writer, in as much room as the setting says: its message stays one, and once a call
 * failed the others do nothing. */
static void write_by_writer(struct bytes m, uint8_t setting, const struct more *more) {
    const stunp_address *at = more->address;
    size_t room = m.length + 2u * setting;
    memset(out + room, PATTERN, BEHIND);
    memcpy(out, m.at, m.length);
    stunp_writer writer = stunp_write_on((int64_t)m.length, out, room);
    stunp_write_bytes(&writer, more->type, more->length == 0 ? NULL : more->value, more->length);
    stunp_write_xor_address(&writer, STUNP_XOR_PEER_ADDRESS, at->octets, at->length, at->port);
    stunp_write_address(&writer, STUNP_MAPPED_ADDRESS, at->octets, at->length, at->port);
    stunp_write_number(&writer, STUNP_PRIORITY, more->number, more->size);
    stunp_write_text(&writer, STUNP_NONCE, "nonce");
    stunp_write_error(&writer, more->code, "no");
    stunp_write_integrity(&writer, STUNP_SHA256, KEY("key"));
    stunp_write_fingerprint(&writer);
    int64_t written = named(stunp_written(&writer));
    require(writer.length >= m.length && writer.length <= room, "written to another length");
    require(memcmp(out + room, blank, BEHIND) == 0, "written behind the room");
    int64_t parsed = stunp_parse(m.at, m.length);
    require(stunp_parse(out, writer.length) == parsed, "what was written is no message");
    if (parsed < 0) require(written < 0 && writer.length == m.length, "no message is gone on with");
    if (written == 0)
        require(stunp_verify(out, writer.length, KEY("key")) == STUNP_SHA256
                    && stunp_check_fingerprint(out, writer.length) == STUNP_RIGHT_FINGERPRINT,
                "what a writer signed");
    stunp_writer before_more = writer;
    stunp_write_fingerprint(&writer);
    if (written < 0) require(memcmp(&writer, &before_more, sizeof writer) == 0, "a writer goes on");
}

static void write_more(struct bytes m, uint8_t setting) {
    static const uint16_t types[] = {STUNP_USERNAME, STUNP_SOFTWARE, STUNP_MESSAGE_INTEGRITY,
                                     STUNP_FINGERPRINT};
    const struct more more = {.type = types[setting % 4],
                              .code = 290 + 2u * setting,
                              .algorithm = 1 + setting % 3,
                              .address = address_of(setting),
                              .value = m.at,
                              .length = setting / 2u < m.length ? setting / 2u : m.length,
                              .reason = setting % 8 ? (const uint8_t *)"Unknown Attribute" : m.at,
                              .reason_length = setting / 16u < m.length ? setting / 16u : m.length,
                              .size = setting % 16u,
                              .number = (uint64_t)setting << setting % 57u};
    const uint32_t wanted[ADDITIONS] = {
        more.type, STUNP_XOR_PEER_ADDRESS, STUNP_XOR_MAPPED_ADDRESS, STUNP_MAPPED_ADDRESS,
        STUNP_PRIORITY, STUNP_ERROR_CODE,
        more.algorithm == 1 ? STUNP_MESSAGE_INTEGRITY : STUNP_MESSAGE_INTEGRITY_SHA256,
        STUNP_FINGERPRINT};
    size_t length = m.length, value;
    memset(out, PATTERN, m.length + ADDITIONS * AMPLE + BEHIND);
    memcpy(out, m.at, m.length);
    for (int which = 0; which < ADDITIONS; which++) {
        size_t end = add_exactly((enum addition)which, length, &more);
        if (end == length) continue;
        uint32_t type = (uint32_t)(out[length] << 8 | out[length + 1]);
        require(type == wanted[which] && stunp_parse(out, end) == 0, "another message is written");
        require(stunp_find(out, end, type, &value) > 0, "what was added is hidden");
        length = end;
        if (which == SIGNATURE)
            require(stunp_verify(out, length, KEY("key")) == (int64_t)more.algorithm, "a digest");
        if (which == CHECKSUM)
            require(stunp_check_fingerprint(out, length) == STUNP_RIGHT_FINGERPRINT,
                    "a FINGERPRINT");
    }
    require(add(PLAINLY, length, length + 1, &more) == STUNP_BAD_ARGUMENT,
            "a message longer than its room");
    write_by_writer(m, setting, &more);
}

/* A message of a class, a method and an id that are the step's. */
static void begin(struct bytes m, uint8_t setting) {
    uint32_t kind = setting % 5, method = m.length < 2 ? 1 : (uint32_t)(m.at[0] << 8 | m.at[1]);
    size_t room = setting / 5;
    fill_out();
    int64_t length = named(stunp_begin(kind, method, m.at, m.length, out, room));
    bool is_fit = kind <= STUNP_ERROR && method < 4096 && m.length == STUNP_ID_LENGTH;
    require(length
                == (!is_fit     ? STUNP_BAD_ARGUMENT
                    : room < 20 ? STUNP_BUFFER_TOO_SMALL
                                : 20),
            "another beginning");
    require_rest(length < 0 ? 0 : 20, "behind a header");
    if (length < 0) return;
    require(stunp_class(out, 20) == kind && stunp_method(out, 20) == (int64_t)method,
            "another header is written");
    require(memcmp(out + ID_AT, m.at, STUNP_ID_LENGTH) == 0, "another id is written");
}

/* Keys, hashes and signed requests of strangers' texts. */
static void write_texts(struct bytes m, uint8_t setting) {
    uint32_t algorithm = setting % 4;
    uint8_t keys[2][64], hash[64], id[STUNP_ID_LENGTH] = {setting};
    memset(keys, PATTERN, sizeof keys);
    memset(hash, PATTERN, sizeof hash);
    size_t half = m.length / 2, room = setting / 4;
    const char *letters = (const char *)m.at;
    int64_t length = named(stunp_long_term_key(algorithm, letters, half, letters + half,
                                               m.length - half,
                                              TEXT("word"), keys[0], room));
    require(length < 0 || length == (algorithm == STUNP_SHA1 ? 16 : 32), "a key of another length");
    for (size_t i = length < 0 ? 0 : (size_t)length; i < sizeof hash; i++)
        require(keys[0][i] == PATTERN, "behind a key");
    int64_t hashed = named(stunp_userhash(letters, half, letters + half, m.length - half, hash,
                                          room));
    require(hashed < 0 || hashed == 32, "a hash of another length");
    for (size_t i = hashed < 0 ? 0 : 32; i < sizeof hash; i++)
        require(hash[i] == PATTERN, "behind a hash");
    if (length > 0) require((hashed == 32) == (room >= 32), "a key and no hash");
    fill_out();
    size_t space = STUNP_LONGEST_SIGNED - setting;
    int64_t built =
        named(stunp_build_signed(algorithm, id, sizeof id, letters, half, KEY("key"), out, space));
    require_rest(built < 0 ? 0 : (size_t)built, "behind a request");
    if (built > 0)
        require(built <= (int64_t)space
                    && stunp_verify(out, (size_t)built, KEY("key")) == (int64_t)algorithm,
                "a request");
}

#endif
