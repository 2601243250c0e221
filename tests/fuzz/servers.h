/* The part of endpoint.c that is about servers: each datagram is judged in every way that there is,
 * with each allocation refused, and into each room. */
#ifndef STUN_FUZZ_SERVERS_H
#define STUN_FUZZ_SERVERS_H

#include "choices.h"

enum { USERS = 3, REALM_LENGTH = 11 };

static const struct { const char *name, *password; } people[USERS] = {
    {"alice", "wonderland"},
    {"b\xc3\xb6" "b", "a password that is longer than one block of HMAC, which has 64 bytes"},
    {"carol", "x"},
};

static struct {
    stunp_endpoint_server server;
    stunp_endpoint_users users;
    stunp_endpoint_server_settings settings;
    bool is_long_term;
} serving;

static const uint8_t secrets[2][32] = {{1, 2, 3}, {4, 5, 6}};

/* ---- Servers and users of the input */

static void open_server(void) {
    static const uint16_t types[] = {STUNP_LIFETIME, STUNP_REQUESTED_TRANSPORT, STUNP_DATA};
    stunp_endpoint_server_settings settings = STUNP_INIT(stunp_endpoint_server_settings);
    settings.credentials = (stunp_credentials)(choose() % 3);
    serving.is_long_term = settings.credentials == STUNP_LONG_TERM;
    if (serving.is_long_term) {
        settings.realm = "example.org", settings.secret = secrets[0];
        settings.algorithms = choose() % 4;
        settings.anonymous_username = (stunp_feature)(choose() % 3);
        if (maybe(2)) settings.previous_secret = secrets[1];
        if (maybe(4)) settings.nonce_seconds = 30 + choose();
    }
    if (maybe(4)) settings.software = "fuzz";
    if (maybe(2)) settings.understood = types, settings.understood_count = choose() % 4;
    settings.answers_binding = maybe(2), settings.requires_fingerprint = maybe(8);
    serving.settings = settings;
    for (size_t n = 1; n <= MOST_REFUSALS; n++) {
        size_t asked = stunp_heap_asked();
        stunp_heap_refuse(n);
        int64_t made = named(stunp_endpoint_server_new(&serving.server, &settings));
        bool was_refused = stunp_heap_asked() - asked >= n;
        stunp_heap_refuse(0);
        require(made == 0 || (made == STUNP_OUT_OF_MEMORY && was_refused), "no server");
        require((made == 0) == serving.server.is_full, "a handle that is not what was told");
        if (made == 0) break;
    }
    require(stunp_endpoint_server_new(&serving.server, &settings) == STUNP_FULL_HANDLE, "full");
}

static void open_users(void) {
    int64_t made = named(stunp_endpoint_users_new(&serving.users, &serving.server));
    if (serving.settings.credentials == STUNP_NO_CREDENTIALS) {
        require(made == STUNP_WRONG_HANDLE && !serving.users.is_full, "users of nobody");
        return;
    }
    require(made == 0, "no users");
    for (size_t i = 0; i < USERS; i++) {
        stunp_heap_refuse(choose() % 16);
        made = stunp_endpoint_users_add(&serving.users, people[i].name, strlen(people[i].name),
                                        people[i].password, strlen(people[i].password));
        stunp_heap_refuse(0);
        require(made == 0 || made == STUNP_OUT_OF_MEMORY, "a user is refused");
        if (made < 0)
            require(stunp_endpoint_users_add(&serving.users, people[i].name,
                                             strlen(people[i].name), people[i].password,
                                             strlen(people[i].password)) == 0, "no user");
    }
    if (maybe(8))
        require(stunp_endpoint_users_remove(&serving.users, "carol", 5) == 0, "not removed");
    else return;
    require(stunp_endpoint_users_add(&serving.users, "carol", 5, "x", 1) == 0, "not added again");
}

static void close_server(void) {
    stunp_endpoint_users_free(&serving.users);
    stunp_endpoint_server_free(&serving.server);
    memset(&serving, 0, sizeof serving);
}

/* The key of somebody for an algorithm: a password, or a long-term key. */
static size_t key_of(size_t person, uint32_t algorithm, uint8_t *key) {
    const char *name = people[person].name, *password = people[person].password;
    if (!serving.is_long_term) {
        memcpy(key, password, strlen(password));
        return strlen(password);
    }
    int64_t length = stunp_long_term_key((stunp_algorithm)algorithm, name, strlen(name),
                                         "example.org", REALM_LENGTH, password, strlen(password),
                                         key, 128);
    require(length > 0, "no key");
    return (size_t)length;
}

/* Whom a result names, or USERS. */
static size_t person_of(const uint8_t *name, size_t length, bool is_hash) {
    for (size_t i = 0; i < USERS; i++) {
        uint8_t hash[STUNP_USERHASH_LENGTH];
        const char *own = people[i].name;
        require(stunp_userhash(own, strlen(own), "example.org", REALM_LENGTH, hash, sizeof hash)
                    == sizeof hash, "no hash");
        const void *wanted = is_hash ? (const void *)hash : own;
        if (length == (is_hash ? sizeof hash : strlen(own)) && memcmp(name, wanted, length) == 0)
            return i;
    }
    return USERS;
}

/* ---- What a datagram comes to */

struct judged {
    int64_t kind;
    stunp_received received;
};

/* Which call judges: by the table, as far as no user decides, or by one user. */
enum by { BY_TABLE, BY_NOBODY, BY_ONE };

static struct judged judge(enum by by, const stunp_found_user *one, const uint8_t *bytes,
                           size_t length, const stunp_address *from, uint64_t now, uint8_t *to,
                           size_t room) {
    struct judged got = {0, STUNP_INIT(stunp_received)};
    memset(&got.received, 7, sizeof got.received);
    got.received.size = sizeof got.received;
    if (by == BY_TABLE)
        got.kind = stunp_endpoint_server_receive(&serving.server, &serving.users, bytes, length,
                                                 from, now, to, room, &got.received);
    else if (by == BY_NOBODY)
        got.kind = stunp_endpoint_server_identify(&serving.server, bytes, length, from, now, to,
                                                  room, &got.received);
    else
        got.kind = stunp_endpoint_server_resume(&serving.server, one, bytes, length, from, now, to,
                                                room, &got.received);
    named(got.kind);
    require(got.received.kind == (got.kind < 0 ? (uint32_t)STUNP_FAILED : (uint32_t)got.kind),
            "another kind");
    require(got.kind == STUNP_ANSWER || got.received.length == 0, "a length of no answer");
    require(got.kind == STUNP_BUFFER_TOO_SMALL || got.received.needed == 0, "a room not needed");
    return got;
}

static bool is_same_reply(const stunp_reply *one, const stunp_reply *other) {
    return memcmp(one->id, other->id, sizeof one->id) == 0
           && memcmp(one->key, other->key, sizeof one->key) == 0 && one->method == other->method
           && one->key_length == other->key_length && one->integrity == other->integrity
           && one->has_fingerprint == other->has_fingerprint;
}

/* The same result: what is told of the kind, and the bytes. */
static void require_same(const struct judged *one, const struct judged *other, const char *what) {
    const stunp_received *a = &one->received, *b = &other->received;
    require(one->kind == other->kind && a->kind == b->kind && a->why == b->why
                && a->code == b->code && a->method == b->method && a->algorithm == b->algorithm
                && a->length == b->length && a->name_length == b->name_length
                && a->is_hash == b->is_hash, what);
    require(memcmp(a->name, b->name, a->name_length) == 0, what);
    require(one->kind != STUNP_IS_REQUEST || is_same_reply(&a->reply, &b->reply), what);
    require(memcmp(out, again, ROOM) == 0, what);
}

/* The result by a call, which is the same once more, in its own room, and where an allocation is
 * refused. A smaller room is refused, and nothing is written to it. */
static struct judged judge_all(enum by by, const stunp_found_user *one, const uint8_t *bytes,
                               size_t length, const stunp_address *from, uint64_t now) {
    fill(out, ROOM);
    struct judged got = judge(by, one, bytes, length, from, now, out, ROOM);
    require_unwritten(out, got.received.length, ROOM, "more is written than told");
    fill(again, ROOM);
    struct judged twice = judge(by, one, bytes, length, from, now, again, got.received.length);
    require_same(&got, &twice, "another answer to the same");
    if (got.kind == STUNP_ANSWER) {
        size_t room = maybe(2) ? got.received.length - 1 : choose() % got.received.length;
        fill(again, ROOM);
        struct judged small = judge(by, one, bytes, length, from, now, again, room);
        require(small.kind == STUNP_BUFFER_TOO_SMALL
                    && small.received.needed == got.received.length, "a small room");
        require_unwritten(again, 0, ROOM, "a small room is written to");
    }
    for (size_t n = 1; n <= MOST_REFUSALS; n++) {
        size_t asked = stunp_heap_asked(), kept = stunp_heap_blocks();
        fill(again, ROOM);
        stunp_heap_refuse(n);
        struct judged refused = judge(by, one, bytes, length, from, now, again, ROOM);
        stunp_heap_refuse(0);
        require(stunp_heap_blocks() == kept, "a block is lost");
        if (stunp_heap_asked() - asked < n) break;
        if (refused.kind == STUNP_OUT_OF_MEMORY)
            require_unwritten(again, 0, ROOM, "a call without memory writes");
        else require_same(&got, &refused, "another answer without memory");
    }
    return got;
}

/* ---- What must hold of a result */

static const uint32_t codes_of_causes[] = {0, 401, 400, 400, 401, 438, 401, 420};

static void check_cause(const struct judged *got, const uint8_t *bytes, size_t length,
                        const stunp_address *from, uint64_t now) {
    int64_t cause = named(stunp_endpoint_server_cause(&serving.server, &serving.users, bytes,
                                                      length, from, now));
    stunp_cause why = (stunp_cause)99;
    fill(again, ROOM);
    int64_t kind = stunp_endpoint_server_receive_with_cause(&serving.server, &serving.users, bytes,
                                                            length, from, now, again, ROOM, NULL,
                                                            &why);
    require(kind == got->kind && memcmp(out, again, ROOM) == 0, "another answer with its cause");
    require((int64_t)why == (cause > 0 ? cause : 0), "another cause beside the answer");
    if (!serving.is_long_term) {
        require(cause == STUNP_WRONG_HANDLE, "a cause without a realm");
        return;
    }
    if (got->kind < 0) {
        require(cause == got->kind, "a cause of what is not judged");
        return;
    }
    bool is_refused = got->kind == STUNP_ANSWER && got->received.code != 0;
    require((cause > 0) == is_refused && cause <= STUNP_CAUSE_UNKNOWN_ATTRIBUTE, "a cause");
    if (is_refused) require(codes_of_causes[cause] == got->received.code, "another code");
    require(stunp_cause_text(cause) != NULL, "no text of a cause");
}

/* Whether anybody's key verifies a message, and whose: the person, or USERS. */
static size_t signer_of(const uint8_t *bytes, size_t length) {
    for (size_t i = 0; i < USERS; i++)
        for (uint32_t algorithm = 1; algorithm <= 2; algorithm++) {
            uint8_t key[128];
            if (stunp_is_signed(bytes, length, key, key_of(i, algorithm, key))) return i;
        }
    return USERS;
}

static void check_answer(const struct judged *got, const uint8_t *bytes, size_t length,
                         const stunp_address *from) {
    const stunp_received *told = &got->received;
    uint32_t code = told->code;
    stunp_header asked, header;
    require(stunp_parse(out, told->length) == 0 && stunp_read_header(bytes, length, &asked) == 0
                && stunp_read_header(out, told->length, &header) == 0, "no message");
    require(memcmp(asked.id, header.id, 12) == 0 && asked.method == header.method
                && asked.message_class == STUNP_REQUEST, "an answer to something else");
    require(header.message_class == (code == 0 ? STUNP_SUCCESS : STUNP_ERROR), "another class");
    require(length > LONGEST_DATAGRAM || told->length <= 2048, "a long answer");
    require(has_fingerprint(bytes, length) == has_fingerprint(out, told->length), "FINGERPRINT");
    if (code != 0) require(stunp_error_code(out, told->length) == (int64_t)code, "another code");
    if (code == 0) {
        stunp_address seen = {{0}, 0, 0}, wanted = plain(from);
        seen.length = (uint16_t)stunp_xor_mapped_address(out, told->length, seen.octets, 16,
                                                         &seen.port);
        require(memcmp(&seen, &wanted, sizeof seen) == 0, "another address");
    }
    bool is_signed = serving.settings.credentials != STUNP_NO_CREDENTIALS
                     && (code == 0 || code == 420);
    size_t signer = signer_of(out, told->length);
    require((signer < USERS) == is_signed, "a signature");
    if (is_signed) require(signer_of(bytes, length) < USERS, "an answer to nobody");
    describe(out, told->length);
}

/* An accepted request is signed by the user who is told, and its replies are. */
static void check_request(const struct judged *got, const uint8_t *bytes, size_t length) {
    stunp_reply reply = got->received.reply;
    bool is_open = serving.settings.credentials == STUNP_NO_CREDENTIALS;
    size_t person = person_of(got->received.name, got->received.name_length, false);
    require(is_open == (got->received.name_length == 0) && is_open == (person == USERS), "nobody");
    if (!is_open) {
        require(stunp_is_signed(bytes, length, reply.key, reply.key_length),
                "the key of the reply does not verify the request");
        require(got->received.name[got->received.name_length] == 0, "no zero behind the name");
        require(signer_of(bytes, length) == person, "another signer");
    }
    fill(again, ROOM);
    stunp_writer answer = maybe(2) ? stunp_reply_success(&reply, again, ROOM)
                                   : stunp_reply_error(&reply, 300 + choose(), "why", again, ROOM);
    int64_t written = stunp_reply_finish(&reply, &answer);
    require(written > 0 && stunp_parse(again, (size_t)written) == 0, "no reply");
    require(has_fingerprint(again, (size_t)written) == has_fingerprint(bytes, length),
            "FINGERPRINT of a reply");
    require(memcmp(again + 8, bytes + 8, 12) == 0, "another ID");
    require(signer_of(again, (size_t)written) == person, "a reply of somebody else");
    stunp_reply_wipe(&reply);
    for (size_t i = 0; i < sizeof reply; i++)
        require(((const uint8_t *)&reply)[i] == 0, "a reply is left");
}

/* The two steps of a server with a database: the same result as with a table. */
static void check_looked_up(const struct judged *by_table, const uint8_t *bytes, size_t length,
                            const stunp_address *from, uint64_t now) {
    uint8_t keys[2][128];
    stunp_found_user found = STUNP_INIT(stunp_found_user);
    static uint8_t kept[ROOM];
    memcpy(kept, out, ROOM);
    struct judged got = judge_all(BY_NOBODY, NULL, bytes, length, from, now);
    if (got.kind == STUNP_LOOKUP) {
        size_t person = person_of(got.received.name, got.received.name_length,
                                  got.received.is_hash);
        if (person < USERS) {
            found.name = people[person].name, found.name_length = strlen(found.name);
            if (maybe(2)) found.password = people[person].password;
            key_of(person, 1, keys[0]), key_of(person, 2, keys[1]);
            found.sha1_key = keys[0], found.sha256_key = keys[1];
        }
        got = judge_all(BY_ONE, person < USERS ? &found : NULL, bytes, length, from, now);
    }
    memcpy(again, kept, ROOM);
    require_same(&got, by_table, "a look-up comes to something else");
}

/* Judges a datagram in all ways. Returns the length of the answer in `out`, or 0. */
static size_t serve(const uint8_t *bytes, size_t length, const stunp_address *from, uint64_t now) {
    struct judged got = judge_all(BY_TABLE, NULL, bytes, length, from, now);
    if (!is_place(from) || now > (1ull << 40)) {
        bool is_checked = is_place(from) && !serving.is_long_term;
        require(got.kind == STUNP_BAD_ARGUMENT || is_checked, "an argument is accepted");
    }
    check_cause(&got, bytes, length, from, now);
    if (got.kind == STUNP_DROPPED)
        require(stunp_drop_text(got.received.why) != stunp_drop_text(0), "dropped for no reason");
    if (got.kind == STUNP_ANSWER) check_answer(&got, bytes, length, from);
    if (got.kind == STUNP_IS_REQUEST) check_request(&got, bytes, length);
    if (serving.is_long_term && maybe(2)) check_looked_up(&got, bytes, length, from, now);
    if (got.kind == STUNP_IS_REQUEST) {
        stunp_writer answer = stunp_reply_success(&got.received.reply, out, ROOM);
        stunp_write_number(&answer, STUNP_LIFETIME, 600, 4);
        int64_t written = stunp_reply_finish(&got.received.reply, &answer);
        return written < 0 ? 0 : (size_t)written;
    }
    if (got.kind != STUNP_ANSWER) return 0;
    fill(out, ROOM);
    return judge(BY_TABLE, NULL, bytes, length, from, now, out, ROOM).received.length;
}

#endif
