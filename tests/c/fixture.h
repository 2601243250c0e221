/* What the tests of endpoints share: addresses, messages, and a user who signs requests. */
#ifndef STUN_FIXTURE_H
#define STUN_FIXTURE_H

#include "heap.h"
#include "stunp_endpoint.h"
#include <stdio.h>
#include <stdlib.h>
#include <string.h>

static const uint64_t SECOND = 1000000000;

/* A message and its length. */
struct message { uint8_t bytes[2048]; size_t length; };

/* Ends the program if an answer is not the wanted one. */
static inline void want(const char *what, int64_t answer, int64_t wanted) {
    if (answer == wanted) return;
    fprintf(stderr, "%s: %lld (%s), not %lld (%s)\n", what, (long long)answer,
            stunp_strerror(answer), (long long)wanted, stunp_strerror(wanted));
    exit(1);
}

static inline void want_same(const char *what, const void *bytes, const void *wanted,
                             size_t length) {
    want(what, memcmp(bytes, wanted, length) == 0, 1);
}

/* Every block has been freed. */
static inline void want_no_blocks(const char *what) {
    want(what, (int64_t)stunp_heap_blocks(), 0);
    want(what, (int64_t)stunp_heap_bytes(), 0);
}

static inline const char *text(const char *letters) { return letters; }

/* The IPv4 address whose octets are a number. */
static inline stunp_address address_of(uint32_t number) {
    stunp_address address = {{0}, 3478, 4};
    for (int i = 0; i < 4; i++) address.octets[i] = (uint8_t)(number >> (24 - 8 * i));
    return address;
}

/* A Binding message whose id is made of a number. */
static inline struct message message_of(stunp_message_class class, uint32_t number) {
    struct message message = {{0}, 0};
    uint8_t id[STUNP_ID_LENGTH] = {0};
    for (int i = 0; i < 4; i++) id[i] = (uint8_t)(number >> (24 - 8 * i));
    int64_t length = stunp_begin(class, STUNP_BINDING, id, sizeof id, message.bytes,
                                 sizeof message.bytes);
    want("stunp_begin", length, STUNP_HEADER_LENGTH);
    message.length = (size_t)length;
    return message;
}

static inline void add_error(struct message *message, uint32_t code) {
    int64_t length = stunp_add_error(message->bytes, sizeof message->bytes, message->length, code,
                                     text(""), 0);
    want("stunp_add_error", length, (int64_t)message->length + 8);
    message->length = (size_t)length;
}

/* A user of a server, as a client stores it: what the last 401 or 438 said. */
struct user {
    const char *name, *password; /* `name` and `password` if null */
    bool is_challenged, sends_hash, only_sha1;
    char realm[64], nonce[128];
    size_t realm_length, nonce_length, offer_length;
    uint8_t offer[64];
};

enum { RESEND = 100 };

/* Copies the value of an attribute, and returns its length, or 0 if there is none. */
static inline size_t copy_of(const uint8_t *bytes, size_t length, uint32_t type, void *out) {
    size_t value_length = 0;
    const uint8_t *value = stunp_find_value(bytes, length, type, &value_length);
    if (value != NULL) memcpy(out, value, value_length);
    return value == NULL ? 0 : value_length;
}

static inline const char *name_of(const struct user *user) {
    return user->name == NULL ? "name" : user->name;
}

/* The key of the user, and its algorithm: HMAC-SHA256 if the server offers algorithms. */
static inline stunp_algorithm key_of(const struct user *user, uint8_t *key, size_t *length) {
    const char *password = user->password == NULL ? "password" : user->password;
    stunp_algorithm by =
        user->offer_length == 0 || user->only_sha1 ? STUNP_SHA1 : STUNP_SHA256;
    *length = (size_t)stunp_long_term_key(by, name_of(user), strlen(name_of(user)), user->realm,
                                          user->realm_length, password, strlen(password), key,
                                          STUNP_SHA256_KEY_LENGTH);
    return by;
}

/* Signs a message of the user, if the user was challenged. */
static inline void write_signature(stunp_writer *writer, const struct user *user) {
    uint8_t key[STUNP_SHA256_KEY_LENGTH], hash[STUNP_USERHASH_LENGTH];
    size_t length;
    if (!user->is_challenged) return;
    stunp_algorithm by = key_of(user, key, &length);
    want("a hash", stunp_userhash(name_of(user), strlen(name_of(user)), user->realm,
                                  user->realm_length, hash, sizeof hash), STUNP_USERHASH_LENGTH);
    if (user->sends_hash) stunp_write_bytes(writer, STUNP_USERHASH, hash, sizeof hash);
    else stunp_write_text(writer, STUNP_USERNAME, name_of(user));
    stunp_write_bytes(writer, STUNP_REALM, user->realm, user->realm_length);
    stunp_write_bytes(writer, STUNP_NONCE, user->nonce, user->nonce_length);
    if (user->offer_length > 0) {
        stunp_write_bytes(writer, STUNP_PASSWORD_ALGORITHMS, user->offer, user->offer_length);
        stunp_write_bytes(writer, STUNP_PASSWORD_ALGORITHM,
                          by == STUNP_SHA1 ? "\0\1\0\0" : "\0\2\0\0", 4);
    }
    stunp_write_integrity(writer, by, key, length);
}

/* Judges a response: RESEND for a challenge, which the user takes up, and else the algorithm of its
 * signature or the error of stunp_verify. */
static inline int64_t judge_response(struct user *user, const uint8_t *bytes, size_t length) {
    uint8_t key[STUNP_SHA256_KEY_LENGTH];
    size_t key_length;
    int64_t code = stunp_error_code(bytes, length);
    if (code == 401 || code == 438) {
        user->realm_length = copy_of(bytes, length, STUNP_REALM, user->realm);
        user->nonce_length = copy_of(bytes, length, STUNP_NONCE, user->nonce);
        user->offer_length = copy_of(bytes, length, STUNP_PASSWORD_ALGORITHMS, user->offer);
        user->is_challenged = true;
        return RESEND;
    }
    key_of(user, key, &key_length);
    return stunp_verify(bytes, length, key, key_length);
}

/* A server with the user `name` and the password `password`, and this user as a client. */
struct pair {
    stunp_endpoint_server server;
    stunp_endpoint_users users;
    struct user user;
};

static inline struct pair pair_of(uint32_t algorithms) {
    static const uint8_t secret[32] = {7};
    struct pair pair = {{0}, {0}, {0}};
    stunp_endpoint_server_settings settings = STUNP_INIT(stunp_endpoint_server_settings);
    settings.realm = "realm", settings.secret = secret, settings.algorithms = algorithms;
    want("server", stunp_endpoint_server_new(&pair.server, &settings), 0);
    want("users", stunp_endpoint_users_new(&pair.users, &pair.server), 0);
    want("add", stunp_endpoint_users_add(&pair.users, "name", 4, "password", 8), 0);
    return pair;
}

static inline void free_pair(struct pair *pair) {
    stunp_endpoint_users_free(&pair->users);
    stunp_endpoint_server_free(&pair->server);
}

/* A request of the user, signed if the user was challenged. */
static inline struct message request_of(const struct pair *pair, uint32_t number) {
    struct message request = message_of(STUNP_REQUEST, number);
    stunp_writer writer = stunp_write_on((int64_t)request.length, request.bytes,
                                         sizeof request.bytes);
    write_signature(&writer, &pair->user);
    want("a request", stunp_written(&writer), 0);
    request.length = writer.length;
    return request;
}

/* The first request is answered by a 401, which challenges the user. */
static inline void challenge(struct pair *pair, const stunp_address *from, uint64_t seconds) {
    uint8_t out[STUNP_ANSWER_MAX];
    stunp_received received = STUNP_INIT(stunp_received);
    struct message request = message_of(STUNP_REQUEST, 1);
    want("an unsigned request",
         stunp_endpoint_server_receive(&pair->server, &pair->users, request.bytes, request.length,
                                       from, seconds, out, sizeof out, &received), STUNP_ANSWER);
    want("a 401", received.code, 401);
    want("a challenge", judge_response(&pair->user, out, received.length), RESEND);
}

/* The next request is accepted, and its response is signed. */
static inline struct message validate(struct pair *pair, const stunp_address *from,
                                      uint64_t seconds, int64_t algorithm) {
    uint8_t out[STUNP_ANSWER_MAX];
    stunp_received received = STUNP_INIT(stunp_received);
    struct message request = request_of(pair, 2), answer = {{0}, 0};
    want("a signed request",
         stunp_endpoint_server_receive(&pair->server, &pair->users, request.bytes, request.length,
                                       from, seconds, out, sizeof out, &received),
         STUNP_IS_REQUEST);
    stunp_writer writer = stunp_reply_success(&received.reply, answer.bytes, sizeof answer.bytes);
    int64_t length = stunp_reply_finish(&received.reply, &writer);
    want("a response", length, (int64_t)writer.length);
    answer.length = writer.length;
    want("a signed response", judge_response(&pair->user, answer.bytes, answer.length), algorithm);
    return answer;
}

#endif
