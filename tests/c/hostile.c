/* What strangers may send, through each call that reads it. First come the messages of
 * bench/hostile.h. Then come mutations of the request of RFC 5769, section 2.1, whose attributes
 * are compared with a walk of this file's own. Last come mutations of requests and answers whose
 * signatures are right. Each message ends where memory that may not be touched begins, and then
 * begins where such memory ends. No message may be validated if a byte that its signature covers
 * was changed. check.sh builds this with an address sanitizer if the compiler has one. */
#include "../../bench/hostile.h"
#include "fixture.h"

enum { MESSAGES = 100000, MUTATIONS = 50000, ID_AT = 8 };

static stunp_address stranger;

/* A copy that ends where memory does, or one that begins there. */
static uint8_t *placed(const uint8_t *message, size_t length, bool is_at_end) {
    uint8_t *at = is_at_end ? pages + pages_length - length : pages;
    memcpy(at, message, length);
    return at;
}

/* ---- The calls on messages. */

/* Changes some bytes, or the type or length of an attribute, and sometimes the length of the
 * message. */
static size_t mutate_attributes(uint8_t *message) {
    static const uint8_t places[] = {20, 40, 48, 60, 76, 100};
    static const uint16_t types[] = {STUNP_MESSAGE_INTEGRITY, STUNP_MESSAGE_INTEGRITY_SHA256,
                                     STUNP_FINGERPRINT, STUNP_XOR_MAPPED_ADDRESS, STUNP_ERROR_CODE,
                                     STUNP_USERNAME};
    size_t length = sizeof sample;
    memcpy(message, sample, length);
    for (uint32_t changes = draw(4); changes > 0; changes--) {
        uint8_t *at = message + places[draw(6)];
        uint16_t type = types[draw(6)];
        switch (draw(4)) {
        case 0: at[0] = (uint8_t)(type >> 8), at[1] = (uint8_t)type; break;
        case 1: at[3] = (uint8_t)draw(40); break;
        case 2: at[2] = (uint8_t)draw(256); break;
        default: message[draw((uint32_t)length)] = (uint8_t)draw(256);
        }
    }
    if (draw(8) == 0) length = draw((uint32_t)length + 1);
    if (draw(2) == 0 && length >= 20) {
        message[2] = (uint8_t)((length - 20) >> 8);
        message[3] = (uint8_t)(length - 20);
    }
    return length;
}

/* Where the values of the visible attributes of a message are, by this file's own walk. */
struct found {
    size_t place, length;
    uint16_t type;
};

static size_t find_visible(const uint8_t *message, size_t length, struct found *found) {
    bool integrity = false, stronger = false, fingerprint = false;
    size_t count = 0;
    for (size_t at = 20; at < length;) {
        uint16_t type = (uint16_t)(message[at] << 8 | message[at + 1]);
        size_t value = (size_t)(message[at + 2] << 8 | message[at + 3]);
        bool shown = !fingerprint && (!stronger || type == STUNP_FINGERPRINT)
            && (!integrity || type == STUNP_MESSAGE_INTEGRITY_SHA256 || type == STUNP_FINGERPRINT);
        if (shown) found[count++] = (struct found){at + 4, value, type};
        integrity |= type == STUNP_MESSAGE_INTEGRITY;
        stronger |= type == STUNP_MESSAGE_INTEGRITY_SHA256;
        fingerprint |= type == STUNP_FINGERPRINT;
        at += 4 + (value + 3) / 4 * 4;
    }
    return count;
}

/* A walk returns the same attributes, and a search for each of their types finds the first of that
 * type. */
static void walk_over(const uint8_t *message, size_t length, const struct found *found,
                      size_t count, long number) {
    stunp_cursor cursor = {0, 0};
    uint16_t type = 0;
    size_t value = 0;
    for (size_t i = 0; i < count; i++) {
        int64_t place = stunp_walk(message, length, &cursor, &type, &value);
        if (place != (int64_t)found[i].place || type != found[i].type || value != found[i].length)
            fail("a walk elsewhere", number);
        size_t first = 0;
        while (found[first].type != type) first++;
        if (stunp_find(message, length, type, &value) != (int64_t)found[first].place
            || value != found[first].length)
            fail("another is found", number);
    }
    size_t left = value;
    for (int again = 0; again < 2; again++)
        if (stunp_walk(message, length, &cursor, &type, &value) != 0)
            fail("a walk goes further", number);
    if (stunp_find(message, length, 0x7fff, &value) != STUNP_MISSING_ATTRIBUTE || value != left)
        fail("none is found", number);
}

/* A cursor that no walk has left. Wherever it is, each attribute that a walk from it returns lies
 * within the message. */
static void walk_anywhere(const uint8_t *message, size_t length, long number) {
    stunp_cursor cursor = {draw(2) == 0 ? draw(256) : SIZE_MAX - draw(4), draw(5)}, before = cursor;
    uint16_t type = 0;
    size_t value = 0;
    int64_t place = stunp_walk(message, length, &cursor, &type, &value);
    if (before.place != 0 && (before.place < 20 || before.place > length)) {
        if (place != STUNP_BAD_ARGUMENT || cursor.place != before.place
            || cursor.hidden != before.hidden || type != 0 || value != 0)
            fail("a wrong cursor is taken", number);
        return;
    }
    for (; place > 0; place = stunp_walk(message, length, &cursor, &type, &value)) {
        if (place < 24 || (size_t)place < before.place + 4 || (size_t)place + value > length
            || cursor.place > length)
            fail("a walk outside", number);
        before = cursor;
    }
}

/* One call reads the same header as three calls, whether or not what follows the header is well
 * formed. */
static void read_header(const uint8_t *message, size_t length, long number) {
    stunp_header header = {7, 7, 7, {0}};
    uint8_t id[12];
    int64_t answer = stunp_read_header(message, length, &header);
    if (answer != stunp_parse(message, length) && answer != 0) fail("a header is refused", number);
    if (answer < 0 ? header.message_class != 7 || header.method != 7 || header.length != 7
                   : memcmp(header.id, message + ID_AT, sizeof id) != 0
                   || header.length != 20u + (size_t)(message[2] << 8 | message[3]))
        fail("another header", number);
    if (stunp_parse(message, length) < 0) return;
    if (header.message_class != stunp_class(message, length)
        || header.method != stunp_method(message, length) || header.length != length
        || stunp_id(message, length, id, sizeof id) != 12 || memcmp(header.id, id, sizeof id) != 0)
        fail("another header than by three calls", number);
}

/* Whether a message has a visible FINGERPRINT, and whether the first one is right, by this file's
 * own checksum. */
static int64_t find_fingerprint(const uint8_t *message, size_t length, const struct found *found,
                                size_t count) {
    while (count > 0 && found->type != STUNP_FINGERPRINT) found++, count--;
    if (count == 0) return STUNP_NO_FINGERPRINT;
    if (found->length != 4 || found->place + 4 != length) return STUNP_MISPLACED_FINGERPRINT;
    uint32_t sum = 0xffffffff, stated = 0;
    for (size_t bit = 0; bit < 8 * (found->place - 4); bit++)
        sum = (sum >> 1) ^ (((sum ^ (uint32_t)(message[bit / 8] >> bit % 8)) & 1) * 0xedb88320);
    for (int i = 0; i < 4; i++) stated = stated << 8 | message[found->place + (size_t)i];
    return (~sum ^ 0x5354554e) == stated ? STUNP_RIGHT_FINGERPRINT : STUNP_WRONG_FINGERPRINT;
}

/* The types that must be understood and are unknown. They are told in full and in part, and the
 * call refuses a buffer that is too small and that ends where memory does. */
static void find_unknown(const uint8_t *message, size_t length, const struct found *found,
                         size_t count, long number) {
    static const uint16_t known[] = {STUNP_USERNAME, STUNP_MESSAGE_INTEGRITY, 0x0000};
    uint16_t wanted[32], told[32] = {0};
    uint8_t answer[256];
    size_t types = 0, room = draw(64);
    for (size_t i = 0; i < count; i++) {
        size_t same = 0;
        while (same < types && wanted[same] != found[i].type) same++;
        if (found[i].type < 0x8000 && found[i].type != known[0] && found[i].type != known[1]
            && found[i].type != known[2] && same == types)
            wanted[types++] = found[i].type;
    }
    size_t some = draw(5);
    if (stunp_unknown_types(message, length, known, 3, told, some) != (int64_t)types)
        fail("not as many unknown types", number);
    size_t fit = some < types ? some : types;
    if (memcmp(told, wanted, 2 * fit) != 0 || told[fit] != 0) fail("other unknown types", number);
    size_t whole = types == 0 ? 0 : 52 + (2 * types + 3) / 4 * 4;
    int64_t written = stunp_refuse_unknown(message, length, known, 3, answer, room);
    if (written != (stunp_class(message, length) != STUNP_REQUEST ? STUNP_BAD_ARGUMENT
                    : room < whole ? STUNP_BUFFER_TOO_SMALL : (int64_t)whole))
        fail("not refused", number);
    if (written <= 0) return;
    if (stunp_parse(answer, whole) != 0 || stunp_error_code(answer, whole) != 420
        || memcmp(answer + ID_AT, message + ID_AT, 12) != 0)
        fail("another refusal", number);
    for (size_t i = 0; i < types; i++)
        if (answer[52 + 2 * i] != wanted[i] >> 8 || answer[53 + 2 * i] != (wanted[i] & 255))
            fail("another type is refused", number);
}

/* The value at an offset, read as an address that is not hidden, and as a number. */
static void read_plainly(const uint8_t *message, size_t length, size_t place, long number) {
    uint8_t octets[16], hidden[16];
    uint16_t port = 0, hidden_port = 0;
    uint64_t read = 7, wanted = 0;
    int64_t answer = stunp_read_address(message, length, place, octets, sizeof octets, &port);
    int64_t again =
        stunp_read_xor_address(message, length, place, hidden, sizeof hidden, &hidden_port);
    if (answer != again) fail("two answers of an address", number);
    if (answer > 0 && (port != (hidden_port ^ 0x2112)
                       || memcmp(octets, message + place + 4, (size_t)answer) != 0))
        fail("another plain address", number);
    int64_t size = stunp_read_number(message, length, place, &read);
    if ((size == STUNP_BAD_ARGUMENT) != (answer == STUNP_BAD_ARGUMENT))
        fail("a number in no attribute", number);
    if (size < 0 ? size != STUNP_BAD_ARGUMENT && size != STUNP_MALFORMED_ATTRIBUTE
        : size != (message[place - 2] << 8 | message[place - 1]))
        fail("another size", number);
    for (int64_t i = 0; i < size; i++) wanted = wanted << 8 | message[place + (size_t)i];
    if (read != (size < 0 ? 7 : wanted)) fail("another number", number);
}

/* The address in an attribute, wherever it is said to be. */
static void read_address(const uint8_t *message, size_t length, size_t place, bool is_there,
                         long number) {
    uint8_t octets[16];
    uint16_t port = 0;
    int64_t answer = stunp_read_xor_address(message, length, place, octets, sizeof octets, &port);
    if (place < 24 && answer != STUNP_BAD_ARGUMENT) fail("an address in a header", number);
    if (answer == STUNP_BAD_ARGUMENT ? is_there
        : answer != STUNP_MALFORMED_ATTRIBUTE && answer != 4 && answer != 16)
        fail("another answer", number);
    read_plainly(message, length, place, number);
    if (answer < 0) return;
    const uint8_t *value = message + place;
    if (value[1] != (answer == 4 ? 1 : 2) || port != ((value[2] << 8 | value[3]) ^ 0x2112))
        fail("another port", number);
    for (size_t i = 0; i < (size_t)answer; i++)
        if (octets[i] != (value[4 + i] ^ message[4 + i]))
            fail("another address under the id", number);
}

/* Whether a message may begin with these bytes: its first two bits, the last two bits of its length
 * and its cookie are fixed. */
static bool may_begin(const uint8_t *message, size_t length) {
    static const uint8_t cookie[4] = {0x21, 0x12, 0xa4, 0x42};
    for (size_t i = 4; i < 8 && i < length; i++)
        if (message[i] != cookie[i - 4]) return false;
    return (length < 1 || message[0] < 64) && (length < 4 || message[3] % 4 == 0);
}

/* The next frame of a stream depends only on the first 20 of the bytes. */
static void frame(const uint8_t *message, size_t length, long number) {
    stunp_header header = {0, 0, 0, {0}};
    int64_t answer = stunp_read_header(message, length, &header),
        frame = stunp_next_frame(message, length);
    if (frame != (!may_begin(message, length) ? STUNP_NOT_STUN
                  : length < 20               ? 20
                                              : (int64_t)header.length))
        fail("another frame", number);
    if (stunp_is_stun(message, length) != (answer == 0 && message[0] <= 3))
        fail("another packet", number);
    int64_t wanted = length < 2 ? 2 : 2 + (message[0] << 8 | message[1]);
    if (stunp_next_packet_frame(message, length) != wanted) fail("another packet's frame", number);
    wanted = length < 1 ? 4 : message[0] >> 6 != 1 ? frame : length < 4 ? 4
        : 4 + ((message[2] << 8 | message[3]) + 3) / 4 * 4;
    if (stunp_next_turn_frame(message, length) != wanted) fail("another frame of TURN", number);
}

static void read_values(const uint8_t *message, size_t length, long number) {
    struct found found[32];
    uint16_t type = 0, port = 0;
    size_t value = 0;
    uint8_t octets[16], id[12];
    int64_t parsed = stunp_parse(message, length);
    int64_t code = stunp_error_code(message, length);
    int64_t address = stunp_xor_mapped_address(message, length, octets, sizeof octets, &port);
    stunp_cursor cursor = {0, 0};
    read_header(message, length, number);
    walk_anywhere(message, length, number);
    frame(message, length, number);
    read_address(message, length, draw(2) == 0 ? draw(256) : SIZE_MAX - draw(4), false, number);
    int64_t fingerprint = stunp_check_fingerprint(message, length);
    if (parsed < 0) {
        if (stunp_next(message, length, 0, &type, &value) != parsed
            || stunp_walk(message, length, &cursor, &type, &value) != parsed
            || stunp_find(message, length, STUNP_USERNAME, &value) != parsed || cursor.place != 0
            || stunp_class(message, length) != parsed || stunp_method(message, length) != parsed
            || stunp_id(message, length, id, sizeof id) != parsed || code != parsed
            || address != parsed || type != 0 || value != 0 || port != 0 || fingerprint != parsed
            || stunp_unknown_types(message, length, &type, 0, &type, 1) != parsed
            || stunp_refuse_unknown(message, length, &type, 0, octets, 16) != parsed)
            fail("a refused message is read", number);
        return;
    }
    size_t count = find_visible(message, length, found);
    int64_t place = 0;
    for (size_t i = 0; i < count; i++) {
        place = stunp_next(message, length, (size_t)place, &type, &value);
        if (place != (int64_t)found[i].place || type != found[i].type || value != found[i].length)
            fail("another attribute", number);
    }
    if (stunp_next(message, length, (size_t)place, &type, &value) != 0)
        fail("an attribute more", number);
    walk_over(message, length, found, count, number);
    if (fingerprint != find_fingerprint(message, length, found, count))
        fail("another FINGERPRINT", number);
    find_unknown(message, length, found, count, number);
    for (size_t i = 0; i < count; i++) read_address(message, length, found[i].place, true, number);
    bool has_code = false, has_address = false;
    for (size_t i = 0; i < count; i++) {
        has_code |= found[i].type == STUNP_ERROR_CODE;
        has_address |= found[i].type == STUNP_XOR_MAPPED_ADDRESS;
    }
    if (has_code != (code != STUNP_MISSING_ATTRIBUTE) || (code < 300 && code > 0) || code > 699)
        fail("another code", number);
    if (has_address != (address != STUNP_MISSING_ATTRIBUTE)
        || (address > 0 && address != 4 && address != 16))
        fail("another address", number);
}

/* Adds an attribute and a signature, in a buffer that ends where memory does. */
static long write_more(const uint8_t *message, size_t length, long number) {
    struct found found[32];
    bool closed = false, named = false;
    size_t room = length + draw(40);
    uint8_t *buffer = pages + pages_length - room, before[256];
    memset(buffer, 0xa5, room);
    memcpy(buffer, message, length);
    memcpy(before, buffer, room);
    int64_t parsed = stunp_parse(buffer, length);
    int64_t answer = stunp_add(buffer, room, length, STUNP_USERNAME, (const uint8_t *)"name", 4);
    for (size_t i = parsed < 0 ? 0 : find_visible(message, length, found); i > 0; i--) {
        uint16_t type = found[i - 1].type;
        closed |= type == STUNP_MESSAGE_INTEGRITY || type == STUNP_MESSAGE_INTEGRITY_SHA256
            || type == STUNP_FINGERPRINT;
        named |= type == STUNP_USERNAME;
    }
    int64_t wanted = parsed < 0 ? parsed : closed ? STUNP_CLOSED : named ? STUNP_ATTRIBUTE_EXISTS
        : room < length + 8 ? STUNP_BUFFER_TOO_SMALL : (int64_t)length + 8;
    if (answer != wanted) fail("another answer of adding", number);
    if (answer < 0) {
        if (memcmp(before, buffer, room) != 0) fail("a refusal writes", number);
        return 0;
    }
    if (stunp_parse(buffer, length + 8) != 0
        || memcmp(buffer + length, "\x00\x06\x00\x04name", 8) != 0)
        fail("not what was added", number);
    if (memcmp(before + length + 8, buffer + length + 8, room - length - 8) != 0)
        fail("written after the answer", number);
    int64_t signed_length =
        stunp_sign(buffer, room, length + 8, STUNP_SHA1, (const uint8_t *)"key", 3);
    if (room < length + 32 ? signed_length != STUNP_BUFFER_TOO_SMALL
        : stunp_verify(buffer, (size_t)signed_length, (const uint8_t *)"key", 3) != STUNP_SHA1)
        fail("not signed", number);
    /* FINGERPRINT can end the message, whether or not it is signed. */
    size_t end = signed_length < 0 ? length + 8 : (size_t)signed_length;
    memcpy(before, buffer, room);
    int64_t ended = stunp_add_fingerprint(buffer, room, end);
    if (ended != (room < end + 8 ? STUNP_BUFFER_TOO_SMALL : (int64_t)end + 8))
        fail("another end", number);
    if (ended < 0 ? memcmp(before, buffer, room) != 0
        : stunp_check_fingerprint(buffer, end + 8) != STUNP_RIGHT_FINGERPRINT)
        fail("not ended", number);
    return 1;
}

static void run_messages(void) {
    long written = 0;
    for (long i = 0; i < MESSAGES; i++) {
        uint8_t message[256];
        size_t length = mutate_attributes(message);
        read_values(placed(message, length, true), length, i);
        read_values(placed(message, length, false), length, i);
        written += write_more(message, length, i);
    }
    if (written < MESSAGES / 1000) fail("too few messages were added to", written);
}

/* ---- The calls with state. */

/* Reads each attribute, which must lie within the message, one after the other, and returns how
 * many there are. */
static long walk(const uint8_t *message, size_t length, int64_t parsed) {
    uint16_t type = 0;
    size_t value = 0, end = STUNP_HEADER_LENGTH;
    long count = 0;
    int64_t place = stunp_next(message, length, 0, &type, &value);
    if (parsed < 0) want("stunp_next of what is no message", place, parsed);
    for (; place > 0; place = stunp_next(message, length, (size_t)place, &type, &value)) {
        if ((size_t)place < end + 4 || (size_t)place + value > length)
            fail("an attribute outside", (long)place);
        end = (size_t)place + value;
        count++;
    }
    return count;
}

/* Passes the message through each call that reads without validating. The answers at both ends of
 * memory are the same. */
static int64_t read_all(const uint8_t *message, size_t length) {
    int64_t parsed = stunp_parse(placed(message, length, true), length);
    long count = walk(placed(message, length, true), length, parsed);
    if (walk(placed(message, length, false), length, parsed) != count) fail("two walks", count);
    return parsed;
}

/* What the server makes of a datagram: the code of its answer, ACCEPTED for a request that its user
 * has signed, or OTHER for any other datagram. */
enum { ACCEPTED = 1, OTHER = 2 };

static int64_t judge(const struct pair *pair, const uint8_t *message, size_t length) {
    static uint8_t out[STUNP_ANSWER_MAX];
    stunp_received received = STUNP_INIT(stunp_received);
    int64_t kind = stunp_endpoint_server_receive(&pair->server, &pair->users, message, length,
                                                 &stranger, 0, out, sizeof out, &received);
    if (kind == STUNP_ANSWER) want("an answer", stunp_parse(out, received.length), 0);
    if (kind == STUNP_ANSWER) return received.code;
    return kind == STUNP_IS_REQUEST ? ACCEPTED : OTHER;
}

/* The same at both ends of memory. */
static int64_t server_says(const struct pair *pair, const uint8_t *message, size_t length) {
    int64_t outcome = judge(pair, placed(message, length, true), length);
    const uint8_t *at = placed(message, length, false);
    want("two outcomes", judge(pair, at, length), outcome);
    want_same("a message is left", at, message, length);
    return outcome;
}

/* The messages of the table have neither realm nor nonce. */
static void run_table(const struct pair *pair) {
    static uint8_t message[256];
    for (size_t i = 0; i < sizeof table / sizeof *table; i++) {
        size_t length = spell(message, table[i].digits, 4);
        want(table[i].name, read_all(message, length), 0);
        int64_t wanted = table[i].verdict == STUNP_NO_INTEGRITY ? 401 : 400;
        if (stunp_class(message, length) != STUNP_REQUEST
            || stunp_check_fingerprint(message, length) >= STUNP_WRONG_FINGERPRINT)
            wanted = OTHER;
        want(table[i].name, server_says(pair, message, length), wanted);
        for (size_t front = 0; front < length; front++) {
            want("a front of a message", read_all(message, front), STUNP_TRUNCATED);
            want("a front of a message", server_says(pair, message, front), OTHER);
        }
    }
}

/* Whether anything was changed other than the length in the header and what follows the
 * signature. */
static bool is_covered_changed(const uint8_t *message, size_t length, const struct message *of) {
    return length < of->length || memcmp(message, of->bytes, 2) != 0
        || memcmp(message + 4, of->bytes + 4, of->length - 4) != 0;
}

static void run_mutations(struct pair *pair, int64_t algorithm) {
    struct message request = request_of(pair, 2), answer = validate(pair, &stranger, 0, algorithm);
    uint8_t key[STUNP_SHA256_KEY_LENGTH];
    size_t key_length;
    key_of(&pair->user, key, &key_length);
    want("the request", server_says(pair, request.bytes, request.length), ACCEPTED);
    long validated = 0, sound = 0;
    for (long i = 0; i < MUTATIONS; i++) {
        uint8_t message[512];
        size_t length = mutate(message, request.bytes, request.length);
        int64_t parsed = read_all(message, length), outcome = server_says(pair, message, length);
        if (parsed < 0) want("no message", outcome, OTHER);
        /* A request with attributes that the server does not know is answered after its signature
         * was verified. */
        bool is_validated = outcome == ACCEPTED || outcome == 420;
        if (is_validated && is_covered_changed(message, length, &request))
            fail("a changed request is validated", i);
        validated += is_validated;
        sound += parsed == 0;

        length = mutate(message, answer.bytes, answer.length);
        parsed = read_all(message, length);
        int64_t verdict = stunp_verify(placed(message, length, true), length, key, key_length);
        if (parsed < 0) want("no message", verdict, parsed);
        if (verdict > 0 && is_covered_changed(message, length, &answer))
            fail("a changed answer is validated", i);
    }
    if (validated < MUTATIONS / 100 || sound < MUTATIONS / 4)
        fail("too few are validated", validated);
    want("the request, still", server_says(pair, request.bytes, request.length), ACCEPTED);
    want("the answer, still", stunp_verify(answer.bytes, answer.length, key, key_length),
         algorithm);
}

int main(void) {
    make_pages();
    run_messages();
    stranger = address_of(2);
    for (uint32_t algorithms = STUNP_SHA1; algorithms <= (STUNP_SHA1 | STUNP_SHA256);
         algorithms++) {
        struct pair pair = pair_of(algorithms);
        run_table(&pair);
        challenge(&pair, &stranger, 0);
        run_table(&pair);
        run_mutations(&pair, algorithms == STUNP_SHA1 ? STUNP_SHA1 : STUNP_SHA256);
        free_pair(&pair);
    }
    want_no_blocks("the end");
    puts("hostile: passed");
    return 0;
}
