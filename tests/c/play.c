/* Makes one call of the archives for each line of standard input, and answers it by a line:
 * tests/play.py plays transcripts by it.
 *
 * A line is the name of a call without `stun_`, with `-` for `_`, and its words in the order of its
 * arguments. A word is a number, bytes as hexadecimal digits, or `-` for none. An address is its
 * octets, `:` and its port. The word of a buffer or of an output is its size, and for a buffer the
 * next word is the message. A handle has no word, since there is one of each kind. The line of the
 * answer has what the call returned, how many allocations it asked for, and the outputs that it
 * wrote, byte by byte.
 *
 *     reset      frees the handles, and answers how many blocks and bytes are held
 *     blocks     answers the same, and frees nothing
 *     refuse N   the n-th allocation from here on is refused; 0 for none
 *
 * Each input is in a block of its own length, and each output in a block of its own size, so that
 * an address sanitizer reports each access outside. After each call this program itself checks that
 * nothing was changed except what the call wrote, and nothing at all if the call refused. A line
 * that it cannot read, or a byte that was changed, ends it. */
#include "heap.h"
#include "stunp_endpoint.h"
#include <stdio.h>
#include <stdlib.h>
#include <string.h>

enum { LONGEST_LINE = 1 << 20, MOST_BLOCKS = 12, PATTERN = 0xa5 };

static char line[LONGEST_LINE];

static void fail(const char *why) {
    fprintf(stderr, "play: %s: %.200s\n", why, line);
    exit(1);
}

/* ---- The arguments: blocks, each with a copy of what was in it before the call. */

typedef struct {
    uint8_t *at, *before;
    size_t length;  /* the bytes of the block */
    size_t used;    /* those at its front that are a message */
    size_t written; /* those at its front that the call may have changed */
} block;

static block blocks[MOST_BLOCKS];
static size_t block_count;

static block *block_of(size_t length) {
    if (block_count == MOST_BLOCKS) fail("too many blocks");
    block *made = &blocks[block_count++];
    *made = (block){malloc(length), malloc(length), length, 0, 0};
    if (made->at == NULL || made->before == NULL) fail("no memory");
    memset(made->at, PATTERN, length);
    memset(made->before, PATTERN, length);
    return made;
}

static void fill(block *in, size_t place, uint8_t byte) {
    in->at[place] = in->before[place] = byte;
}

static char *next_word(void) {
    char *word = strtok(NULL, " \n");
    if (word == NULL) fail("a word is missing");
    return word;
}

static uint64_t number_of(const char *word) {
    char *end;
    uint64_t number = strtoull(word, &end, 10);
    if (end == word || *end != '\0') fail("no number");
    return number;
}

static uint64_t number(void) { return number_of(next_word()); }
static uint32_t short_number(void) { return (uint32_t)number(); }

static uint8_t digit(char letter) {
    static const char digits[] = "0123456789abcdef";
    const char *found = letter == '\0' ? NULL : strchr(digits, letter);
    if (found == NULL) fail("no digit");
    return (uint8_t)(found - digits);
}

static uint8_t byte_of(const char *digits) {
    return (uint8_t)(digit(digits[0]) * 16 + digit(digits[1]));
}

/* The bytes of a word in a block of this room, or of their own length. */
static block *block_with(const char *word, size_t room) {
    size_t length = word[0] == '-' ? 0 : strlen(word) / 2;
    if (length > room) fail("more than the room");
    block *made = block_of(room == SIZE_MAX ? length : room);
    for (size_t i = 0; i < length; i++) fill(made, i, byte_of(word + 2 * i));
    made->used = length;
    return made;
}

static block *bytes(void) { return block_with(next_word(), SIZE_MAX); }
static block *output(void) { return block_of((size_t)number()); }

/* A message in a buffer that may have room for more. */
static block *buffer(void) {
    size_t room = (size_t)number();
    return block_with(next_word(), room);
}

/* A value in a block of its own. */
static block *block_of_value(const void *value, size_t length) {
    block *made = block_of(length);
    for (size_t i = 0; i < length; i++) fill(made, i, ((const uint8_t *)value)[i]);
    return made;
}

static void *copied(const void *value, size_t length) { return block_of_value(value, length)->at; }

static const stunp_address *address(void) {
    char *word = next_word(), *port = strchr(word, ':');
    stunp_address address = {{0}, 0, 0};
    if (port == NULL || port - word > 2 * (ptrdiff_t)sizeof address.octets) fail("no address");
    address.length = (uint16_t)((port - word) / 2);
    for (size_t i = 0; i < address.length; i++) address.octets[i] = byte_of(word + 2 * i);
    address.port = (uint16_t)number_of(port + 1);
    return copied(&address, sizeof address);
}

/* For a call that returns how many bytes it wrote. */
static int64_t wrote(block *out, int64_t answer) {
    out->written = answer > 0 ? (size_t)answer : 0;
    return answer;
}

/* For a call that writes a single value, if it writes it. */
static void wrote_all(block *out, bool is_written) { out->written = is_written ? out->length : 0; }

/* A call of its words, in the order of its arguments. */
#define CALL(name, words, answer) static int64_t name(void) { words; return answer; }
#define ALL(block) (block)->at, (block)->length
#define LETTERS(block) (const char *)(block)->at, (block)->length
#define USED(block) (block)->at, (block)->length, (block)->used
#define VALUE(type, block) ((type *)(void *)(block)->at)

/* ---- The calls on messages. */

CALL(version, (void)0, stunp_version())
CALL(parse, block *message = bytes(), stunp_parse(ALL(message)))
CALL(class_of, block *message = bytes(), stunp_class(ALL(message)))
CALL(method, block *message = bytes(), stunp_method(ALL(message)))
CALL(error_code, block *message = bytes(), stunp_error_code(ALL(message)))
CALL(verify, block *message = bytes(); block *key = bytes(), stunp_verify(ALL(message), ALL(key)))
CALL(id, block *message = bytes(); block *out = output(),
     wrote(out, stunp_id(ALL(message), ALL(out))))

static int64_t next(void) {
    block *message = bytes();
    size_t place = (size_t)number();
    block *type = block_of(sizeof(uint16_t)), *length = block_of(sizeof(size_t));
    int64_t answer = stunp_next(ALL(message), place, VALUE(uint16_t, type), VALUE(size_t, length));
    wrote_all(type, answer > 0);
    wrote_all(length, answer > 0);
    return answer;
}

static int64_t xor_mapped_address(void) {
    block *message = bytes(), *out = output(), *port = block_of(sizeof(uint16_t));
    int64_t answer = stunp_xor_mapped_address(ALL(message), ALL(out), VALUE(uint16_t, port));
    wrote_all(port, answer > 0);
    return wrote(out, answer);
}

CALL(begin, uint32_t class = short_number(); uint32_t method = short_number(); block *id = bytes();
     block *out = output(), wrote(out, stunp_begin(class, method, ALL(id), ALL(out))))
CALL(add, block *message = buffer(); uint32_t type = short_number(); block *value = bytes(),
     wrote(message, stunp_add(USED(message), type, ALL(value))))
CALL(add_xor_mapped_address, block *message = buffer(); block *octets = bytes(),
     wrote(message, stunp_add_xor_mapped_address(USED(message), ALL(octets), short_number())))
CALL(add_error, block *message = buffer(); uint32_t code = short_number(); block *reason = bytes(),
     wrote(message, stunp_add_error(USED(message), code, LETTERS(reason))))
CALL(sign, block *message = buffer(); uint32_t algorithm = short_number(); block *key = bytes(),
     wrote(message, stunp_sign(USED(message), algorithm, ALL(key))))
CALL(long_term_key, uint32_t algorithm = short_number(); block *name = bytes();
     block *realm = bytes(); block *password = bytes();
     block *out = output(),
     wrote(out, stunp_long_term_key(algorithm, LETTERS(name), LETTERS(realm), LETTERS(password),
                                    ALL(out))))
CALL(userhash, block *name = bytes(); block *realm = bytes(); block *out = output(),
     wrote(out, stunp_userhash(LETTERS(name), LETTERS(realm), ALL(out))))

/* A new object takes the place of the one before. */
#define MAKES(kind, call)                                                     \
    do {                                                                      \
        stunp_##kind fresh = {0, NULL};                                        \
        int64_t answer = call;                                                \
        if ((fresh.state != NULL) != (answer == 0))                           \
            fail("a handle that is not made");                                \
        if (answer < 0) return answer;                                        \
        stunp_##kind##_free(&kind);                                            \
        kind = fresh;                                                         \
        return answer;                                                        \
    } while (0)

/* ---- The calls of the endpoint. The reply answers the last request that was passed to the
 * caller. */

static stunp_endpoint_server endpoint_server;
static stunp_endpoint_users endpoint_users;
static stunp_reply reply;

/* Makes a number of 16 bits from each two bytes. */
static block *numbers(block *pairs) {
    block *made = block_of(pairs->length);
    for (size_t i = 0; i + 1 < pairs->length; i += 2) {
        uint16_t one = (uint16_t)(pairs->at[i] << 8 | pairs->at[i + 1]);
        for (size_t j = 0; j < sizeof one; j++) fill(made, i + j, ((const uint8_t *)&one)[j]);
    }
    return made;
}

/* Makes a server and its table, or neither. */
static int64_t endpoint_build(void) {
    block *realm = bytes(), *software = bytes(), *secret = bytes(), *previous = bytes();
    block *types = numbers(bytes());
    uint64_t seconds = number();
    uint32_t algorithms = short_number(), names = short_number();
    bool answers_binding = number() != 0, requires_fingerprint = number() != 0;
    if (secret->length != 32) fail("no secret");
    stunp_endpoint_server fresh = {false, NULL};
    stunp_endpoint_users table = {false, NULL};
    int64_t answer = stunp_endpoint_server_new_with(
        &fresh, LETTERS(realm), LETTERS(software), secret->at,
        previous->length == 0 ? secret->at : previous->at, previous->length != 0,
        VALUE(uint16_t, types), types->length / 2, seconds, algorithms, names, answers_binding,
        requires_fingerprint);
    if (fresh.is_full != (answer == 0)) fail("a handle that is not made");
    if (answer == 0) answer = stunp_endpoint_users_new(&table, &fresh);
    if (table.is_full != (answer == 0)) fail("a table that is not made");
    stunp_endpoint_server_free(answer == 0 ? &endpoint_server : &fresh);
    if (answer < 0) return answer;
    stunp_endpoint_users_free(&endpoint_users);
    endpoint_server = fresh, endpoint_users = table;
    return answer;
}

CALL(endpoint_users_add, block *name = bytes(); block *password = bytes(),
     stunp_endpoint_users_add(&endpoint_users, LETTERS(name), LETTERS(password)))
CALL(endpoint_users_add_keys, block *name = bytes(); block *sha1 = bytes(); block *sha256 = bytes(),
     stunp_endpoint_users_add_keys(&endpoint_users, LETTERS(name), ALL(sha1), ALL(sha256)))
CALL(endpoint_users_remove, block *name = bytes(),
     stunp_endpoint_users_remove(&endpoint_users, LETTERS(name)))

/* After an error a result says so, and has no length. Then its old contents are restored. */
#define LEFT(result)                                                                       \
    if (kind < 0) {                                                                        \
        if ((uint32_t)(result)->kind != STUNP_FAILED || (result)->length != 0)             \
            fail("a result of before");                                                    \
        *(result) = fresh;                                                                 \
    }

/* Answers why a datagram is dropped, the code of a response and the response, or the algorithm and
 * the name of a request, after the number of the kind. */
static int64_t endpoint_server_receive(void) {
    static const stunp_received fresh = STUNP_INIT(stunp_received);
    block *message = bytes();
    const stunp_address *from = address();
    uint64_t seconds = number();
    block *out = output(), *told = block_of_value(&fresh, sizeof fresh);
    stunp_received *received = VALUE(stunp_received, told);
    int64_t kind = stunp_endpoint_server_receive(&endpoint_server, &endpoint_users, ALL(message),
                                                 from, seconds, ALL(out), received);
    wrote_all(told, kind >= 0);
    LEFT(received)
    if (kind != STUNP_ANSWER && kind >= 0 && received->length != 0) fail("a length of nothing");
    out->written = kind == STUNP_ANSWER ? received->length : 0;
    if (kind == STUNP_IS_REQUEST) reply = received->reply;
    return kind;
}

/* The same in two steps. The user is looked up between them. */
static int64_t endpoint_server_identify(void) {
    static const stunp_received fresh = STUNP_INIT(stunp_received);
    block *message = bytes();
    const stunp_address *from = address();
    uint64_t seconds = number();
    block *out = output(), *told = block_of_value(&fresh, sizeof fresh);
    stunp_received *received = VALUE(stunp_received, told);
    int64_t kind = stunp_endpoint_server_identify(&endpoint_server, ALL(message), from, seconds,
                                                  ALL(out), received);
    wrote_all(told, kind >= 0);
    LEFT(received)
    if (kind == STUNP_IS_REQUEST) fail("a request without its user");
    out->written = kind == STUNP_ANSWER ? received->length : 0;
    return kind;
}

/* The words of the user are 0 if there is none, and 1 or 2 with a password or with keys. */
static int64_t endpoint_server_resume(void) {
    static const stunp_received fresh = STUNP_INIT(stunp_received);
    uint32_t way = short_number();
    block *name = bytes(), *password = bytes(), *sha1 = bytes(), *sha256 = bytes();
    block *message = bytes();
    const stunp_address *from = address();
    uint64_t seconds = number();
    block *out = output(), *told = block_of_value(&fresh, sizeof fresh);
    stunp_received *received = VALUE(stunp_received, told);
    char text[1024];
    snprintf(text, sizeof text, "%.*s", (int)password->length, (const char *)password->at);
    stunp_found_user found = STUNP_INIT(stunp_found_user);
    found.name = (const char *)name->at, found.name_length = name->length;
    if (way == 1) found.password = text;
    if (way == 2 && sha1->length != 0) found.sha1_key = sha1->at;
    if (way == 2 && sha256->length != 0) found.sha256_key = sha256->at;
    int64_t kind = stunp_endpoint_server_resume(&endpoint_server, way == 0 ? NULL : &found,
                                                ALL(message), from, seconds, ALL(out), received);
    wrote_all(told, kind >= 0);
    LEFT(received)
    out->written = kind == STUNP_ANSWER ? received->length : 0;
    if (kind == STUNP_IS_REQUEST) reply = received->reply;
    return kind;
}

/* Begins a response: 0 is a success. */
static int64_t reply_begin(void) {
    uint32_t code = short_number();
    block *phrase = bytes(), *out = output();
    char reason[1024];
    snprintf(reason, sizeof reason, "%.*s", (int)phrase->length, (const char *)phrase->at);
    stunp_writer writer = code == 0 ? stunp_reply_success(&reply, ALL(out))
                                    : stunp_reply_error(&reply, code, reason, ALL(out));
    int64_t refusal = stunp_written(&writer);
    if (refusal < 0) { /* the front of a message that is not needed */
        memcpy(out->before, out->at, out->length);
        return refusal;
    }
    return wrote(out, (int64_t)writer.length);
}

static int64_t reply_finish(void) {
    block *message = buffer();
    stunp_writer writer = stunp_write_on((int64_t)message->used, message->at, message->length);
    int64_t answer = stunp_reply_finish(&reply, &writer);
    if (answer < 0) memcpy(message->before, message->at, message->length);
    return wrote(message, answer);
}

/* ---- An ICE agent. */

static stunp_ice_checker ice_checker;

static int64_t ice_new(void) {
    block *name = bytes(), *password = bytes(), *peer_name = bytes(), *peer_password = bytes();
    uint64_t tie_breaker = number();
    MAKES(ice_checker, stunp_ice_checker_new_with(&fresh, LETTERS(name), LETTERS(password),
                                                  LETTERS(peer_name),
                                                  LETTERS(peer_password), tie_breaker, number() != 0));
}

static int64_t ice_offer(void) {
    block *name = bytes(), *password = bytes();
    uint64_t tie_breaker = number();
    bool is_controlling = number();
    MAKES(ice_checker, stunp_ice_checker_offer_with(&fresh, LETTERS(name), LETTERS(password),
                                                    tie_breaker, is_controlling));
}

static int64_t ice_set_peer(void) {
    block *name = bytes(), *password = bytes();
    return stunp_ice_checker_set_peer_with(&ice_checker, LETTERS(name), LETTERS(password));
}

CALL(ice_is_controlling, (void)0, stunp_ice_checker_is_controlling(&ice_checker))
CALL(ice_set_role, (void)0, stunp_ice_checker_set_role(&ice_checker, number() != 0))
CALL(ice_set_tie_breaker, (void)0, stunp_ice_checker_set_tie_breaker(&ice_checker, number()))

/* Answers the check, and what the caller must store about it. */
static int64_t ice_check(void) {
    block *id = bytes();
    const stunp_address *to = address();
    uint32_t priority = short_number();
    bool nominate = number() != 0;
    block *out = output(), *stored = block_of(sizeof(stunp_ice_check));
    if (id->length != sizeof VALUE(stunp_ice_check, stored)->id) fail("no ID");
    int64_t answer = stunp_ice_checker_check(&ice_checker, id->at, to, priority, nominate, ALL(out),
                                             VALUE(stunp_ice_check, stored));
    wrote_all(stored, answer >= 0);
    return wrote(out, answer);
}

/* The same with further attributes. */
static int64_t ice_check_body(void) {
    block *id = bytes();
    const stunp_address *to = address();
    uint32_t priority = short_number();
    bool nominate = number() != 0;
    block *body = bytes(), *out = output(), *stored = block_of(sizeof(stunp_ice_check));
    if (id->length != sizeof VALUE(stunp_ice_check, stored)->id) fail("no ID");
    int64_t answer = stunp_ice_checker_check_body_with(&ice_checker, id->at, to, priority, nominate,
                                                       ALL(body), ALL(out),
                                                       VALUE(stunp_ice_check, stored));
    wrote_all(stored, answer >= 0);
    return wrote(out, answer);
}

/* The check is given by what was stored about it, or by nothing. */
static int64_t ice_receive(void) {
    static const stunp_ice_received fresh = STUNP_INIT(stunp_ice_received);
    block *message = bytes();
    const stunp_address *from = address();
    block *check = bytes(), *out = output(), *told = block_of_value(&fresh, sizeof fresh);
    if (check->length != 0 && check->length != sizeof(stunp_ice_check)) fail("no check");
    stunp_ice_received *received = VALUE(stunp_ice_received, told);
    int64_t kind = stunp_ice_checker_receive(
        &ice_checker, ALL(message), from, check->length == 0 ? NULL : VALUE(stunp_ice_check, check),
        ALL(out), received);
    wrote_all(told, kind >= 0);
    LEFT(received)
    if (kind != STUNP_ANSWER && kind >= 0 && received->length != 0) fail("a length of nothing");
    out->written = kind == STUNP_ANSWER ? received->length : 0;
    return kind;
}

/* ---- A client of a server. */

static stunp_endpoint_client endpoint_client;

static int64_t endpoint_client_new(void) {
    const stunp_address *at = address();
    block *seed = bytes(), *name = bytes(), *password = bytes(), *software = bytes();
    block *types = numbers(bytes());
    stunp_client_options options;
    memset(&options, 0, sizeof options);
    options.initial = number(), options.longest = number();
    options.transmissions = short_number(), options.last = number();
    options.challenges = short_number(), options.credentials = short_number();
    options.algorithms = short_number(), options.anonymous_username = short_number();
    options.is_stream = number() != 0, options.accepts_unsigned = number() != 0;
    options.has_fingerprint = number() != 0, options.requires_fingerprint = number() != 0;
    if (seed->length != 32) fail("no seed");
    MAKES(endpoint_client, stunp_endpoint_client_new_with(
                               &fresh, at, seed->at, LETTERS(name), LETTERS(password), LETTERS(software),
                               VALUE(uint16_t, types), types->length / 2, &options));
}

/* Answers the number of the request. Without options it is started by the call that has no
 * parameter for them. */
static int64_t endpoint_client_request(void) {
    uint32_t method = short_number();
    block *body = bytes();
    stunp_request_options options = STUNP_INIT(stunp_request_options);
    options.from = *address();
    options.initial = number();
    options.longest = number();
    options.transmissions = short_number();
    options.last = number();
    options.is_unsigned = number() != 0;
    uint64_t now = number();
    block *request = block_of(sizeof(uint64_t));
    bool is_plain = options.from.length == 0 && options.initial == 0 && !options.is_unsigned;
    int64_t answer =
        is_plain ? stunp_endpoint_client_request_with(&endpoint_client, method, ALL(body), now,
                                                      VALUE(uint64_t, request))
                 : stunp_endpoint_client_request_as_with(&endpoint_client, method, ALL(body),
                                                         &options, now,
                                                         VALUE(uint64_t, request));
    wrote_all(request, answer >= 0);
    return answer;
}

/* Answers why a datagram is dropped, after the number of the kind. */
static int64_t endpoint_client_receive(void) {
    block *message = bytes();
    const stunp_address *from = address();
    uint64_t now = number();
    block *why = block_of(sizeof(uint32_t));
    int64_t kind = stunp_endpoint_client_receive(&endpoint_client, ALL(message), from, now,
                                                 VALUE(uint32_t, why));
    wrote_all(why, kind == STUNP_DROPPED);
    return kind;
}

/* Answers the bytes, if there are any, and then the event. */
static int64_t endpoint_client_poll(void) {
    static const stunp_event fresh = STUNP_INIT(stunp_event);
    uint64_t now = number();
    block *out = output(), *told = block_of_value(&fresh, sizeof fresh);
    stunp_event *event = VALUE(stunp_event, told);
    int64_t kind = stunp_endpoint_client_poll(&endpoint_client, now, ALL(out), event);
    wrote_all(told, kind >= 0);
    LEFT(event)
    out->written = kind >= 0 ? event->length : 0;
    return kind;
}

CALL(endpoint_client_cancel, (void)0, stunp_endpoint_client_cancel(&endpoint_client, number()))

static int64_t endpoint_client_dropped(void) {
    uint64_t request = number();
    block *dropped = block_of(sizeof(stunp_dropped));
    int64_t answer = stunp_endpoint_client_dropped(&endpoint_client, request,
                                                   VALUE(stunp_dropped, dropped));
    wrote_all(dropped, answer == 1);
    return answer;
}

/* ---- Lines. */

static const struct { const char *name; int64_t (*call)(void); } calls[] = {
    {"version", version}, {"parse", parse}, {"class", class_of}, {"method", method},
    {"error-code", error_code}, {"verify", verify}, {"id", id}, {"next", next},
    {"xor-mapped-address", xor_mapped_address}, {"begin", begin}, {"add", add},
    {"add-xor-mapped-address", add_xor_mapped_address}, {"add-error", add_error}, {"sign", sign},
    {"long-term-key", long_term_key}, {"userhash", userhash},
    {"endpoint-build", endpoint_build},
    {"endpoint-users-add", endpoint_users_add},
    {"endpoint-users-add-keys", endpoint_users_add_keys},
    {"endpoint-users-remove", endpoint_users_remove},
    {"endpoint-server-receive", endpoint_server_receive}, {"reply-begin", reply_begin},
    {"reply-finish", reply_finish}, {"endpoint-server-identify", endpoint_server_identify},
    {"endpoint-server-resume", endpoint_server_resume}, {"ice-new", ice_new},
    {"ice-offer", ice_offer}, {"ice-set-peer", ice_set_peer},
    {"ice-is-controlling", ice_is_controlling}, {"ice-set-role", ice_set_role},
    {"ice-set-tie-breaker", ice_set_tie_breaker}, {"ice-check", ice_check},
    {"ice-check-body", ice_check_body}, {"ice-receive", ice_receive},
    {"endpoint-client-new", endpoint_client_new},
    {"endpoint-client-request", endpoint_client_request},
    {"endpoint-client-receive", endpoint_client_receive},
    {"endpoint-client-poll", endpoint_client_poll},
    {"endpoint-client-cancel", endpoint_client_cancel},
    {"endpoint-client-dropped", endpoint_client_dropped},
};

static void print_bytes(const uint8_t *at, size_t length) {
    static const char digits[] = "0123456789abcdef";
    putchar(' ');
    for (size_t i = 0; i < length; i++) {
        putchar(digits[at[i] >> 4]);
        putchar(digits[at[i] & 15]);
    }
}

/* Checks each block, prints what was written, and frees the blocks. */
static void finish(int64_t answer) {
    for (block *one = blocks; one < blocks + block_count; one++) {
        size_t written = answer < 0 ? 0 : one->written;
        if (written > one->length) fail("more is written than there is room");
        if (memcmp(one->at + written, one->before + written, one->length - written) != 0)
            fail("a byte is changed");
        if (written > 0) print_bytes(one->at, written);
        free(one->at);
        free(one->before);
    }
    block_count = 0;
}

#define IS_SAME(one, other) ((one).state == (other).state)

static void make(int64_t (*call)(void)) {
    stunp_endpoint_server old_endpoint = endpoint_server;
    stunp_endpoint_users old_users = endpoint_users;
    stunp_ice_checker old_checker = ice_checker;
    stunp_endpoint_client old_asker = endpoint_client;
    size_t asked = stunp_heap_asked();
    int64_t answer = call();
    if (answer < 0 && !(IS_SAME(endpoint_server, old_endpoint)
                        && IS_SAME(endpoint_users, old_users)
                        && IS_SAME(ice_checker, old_checker)
                        && IS_SAME(endpoint_client, old_asker)))
        fail("a refusal changes a handle");
    printf("%lld %zu", (long long)answer, stunp_heap_asked() - asked);
    finish(answer);
}

static void play(const char *name) {
    if (strcmp(name, "refuse") == 0) {
        stunp_heap_refuse((size_t)number());
        printf("0 0");
        return;
    }
    if (strcmp(name, "reset") == 0) {
        stunp_endpoint_server_free(&endpoint_server);
        stunp_endpoint_users_free(&endpoint_users);
        stunp_ice_checker_free(&ice_checker);
        stunp_endpoint_client_free(&endpoint_client);
    }
    if (strcmp(name, "reset") == 0 || strcmp(name, "blocks") == 0) {
        printf("%zu %zu", stunp_heap_blocks(), stunp_heap_bytes());
        return;
    }
    for (size_t i = 0; i < sizeof calls / sizeof *calls; i++)
        if (strcmp(name, calls[i].name) == 0) {
            make(calls[i].call);
            return;
        }
    fail("no such call");
}

int main(void) {
    while (fgets(line, sizeof line, stdin) != NULL) {
        const char *name = strtok(line, " \n");
        play(name == NULL ? "" : name);
        putchar('\n');
        fflush(stdout);
    }
    return 0;
}
