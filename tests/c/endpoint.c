/* The calls of the endpoint: what only C can pass, each refusal in its order, the result for each
 * kind of datagram, replies, and memory that is refused. */
#include "fixture.h"
#include "serve.h" /* the worked example, which check.sh copies from stunp_endpoint.h */

static const uint64_t NOW = 1700000000, LAST = 1099511627776;

static const uint8_t secret[32] = {7}, other_secret[32] = {8};
static uint8_t out[STUNP_ANSWER_MAX];
static const stunp_address from = {{192, 0, 2, 1}, 3478, 4}, nowhere = {{0}, 1, 5};

/* A server and its table, and a client of its one user. */
struct realm {
    stunp_endpoint_server server;
    stunp_endpoint_users users;
    struct user client;
};

static stunp_endpoint_server_settings settings_of(const uint16_t *understood, size_t count) {
    stunp_endpoint_server_settings settings = STUNP_INIT(stunp_endpoint_server_settings);
    settings.realm = "realm";
    settings.secret = secret;
    settings.understood = understood;
    settings.understood_count = count;
    return settings;
}

static struct realm realm_of(const stunp_endpoint_server_settings *settings) {
    struct realm realm = {{0}, {0}, {0}};
    want("server", stunp_endpoint_server_new(&realm.server, settings), 0);
    want("users", stunp_endpoint_users_new(&realm.users, &realm.server), 0);
    want("add", stunp_endpoint_users_add(&realm.users, "name", 4, "password", 8), 0);
    return realm;
}

static void free_realm(struct realm *realm) {
    stunp_endpoint_server_free(&realm->server);
    stunp_endpoint_users_free(&realm->users);
}

static int64_t judge(const struct realm *realm, const struct message *message, uint64_t now,
                     size_t room, stunp_received *received) {
    return stunp_endpoint_server_receive(&realm->server, &realm->users, message->bytes,
                                         message->length, &from, now, out, room, received);
}

/* A request of the client, with an attribute or none, signed if the client can sign it. */
static struct message request(struct realm *realm, uint32_t number, uint32_t type,
                              bool has_fingerprint) {
    struct message message = message_of(STUNP_REQUEST, number);
    stunp_writer writer = stunp_write_on((int64_t)message.length, message.bytes,
                                         sizeof message.bytes);
    if (type != 0) stunp_write_number(&writer, type, 600, 4);
    write_signature(&writer, &realm->client);
    if (has_fingerprint) stunp_write_fingerprint(&writer);
    want("written", stunp_written(&writer), 0);
    message.length = writer.length;
    return message;
}

/* What a failed call leaves: no kind of an earlier call, no length, and the number of bytes that
 * the answer needed. */
static void want_failed(const char *name, const stunp_received *received, size_t needed) {
    want(name, received->kind, STUNP_FAILED);
    want("no length", (int64_t)received->length, 0);
    want("needed", (int64_t)received->needed, (int64_t)needed);
    want("nothing else", received->why | received->code | received->method | received->algorithm
         | received->name_length | received->is_hash, 0);
}

/* The first request is answered by a 401, which challenges the client. */
static void take_challenge(struct realm *realm, uint64_t now) {
    stunp_received received = STUNP_INIT(stunp_received);
    struct message plain = message_of(STUNP_REQUEST, 1);
    want("unsigned", judge(realm, &plain, now, sizeof out, &received), STUNP_ANSWER);
    want("code", received.code, 401);
    want("a 401", judge_response(&realm->client, out, received.length), RESEND);
}

static void settings_in_order(void) {
    stunp_endpoint_server server = {0}, full = {0};
    stunp_endpoint_server_settings settings = settings_of(NULL, 0), good = settings;
    static char longest[765];
    memset(longest, 'x', 764);
    want("good", stunp_endpoint_server_new(&full, &good), 0);
    settings.size--;
    want("size", stunp_endpoint_server_new(&server, &settings), STUNP_BAD_ARGUMENT);
    settings = good, settings.secret = NULL;
    want("secret", stunp_endpoint_server_new(&server, &settings), STUNP_BAD_ARGUMENT);
    settings = good, settings.realm = NULL;
    want("no realm", stunp_endpoint_server_new(&server, &settings), STUNP_BAD_ARGUMENT);
    settings = good, settings.realm = longest;
    want("long", stunp_endpoint_server_new(&server, &settings), STUNP_TEXT_TOO_LONG);
    settings.software = "\xff";
    want("no text", stunp_endpoint_server_new(&server, &settings), STUNP_NOT_TEXT);
    settings.algorithms = 4;
    want("algorithms", stunp_endpoint_server_new(&server, &settings), STUNP_BAD_ARGUMENT);
    want("full first", stunp_endpoint_server_new(&full, &settings), STUNP_FULL_HANDLE);
    settings = good, settings.anonymous_username = (stunp_feature)3;
    want("feature", stunp_endpoint_server_new(&server, &settings), STUNP_BAD_ARGUMENT);
    settings = good, settings.nonce_seconds = 29;
    want("nonce", stunp_endpoint_server_new(&server, &settings), STUNP_BAD_ARGUMENT);
    settings.nonce_seconds = 2592001, settings.realm = "\xff";
    want("31 days", stunp_endpoint_server_new(&server, &settings), STUNP_BAD_ARGUMENT);
    want("31 days", stunp_endpoint_server_new(&full, &settings), STUNP_FULL_HANDLE);
    settings.nonce_seconds = 2592000;
    want("30 days", stunp_endpoint_server_new(&server, &settings), STUNP_NOT_TEXT);
    /* Secrets that nobody has filled in, and one that is passed twice. */
    uint8_t repeated[32], almost[32];
    for (int byte = 0; byte < 256; byte++) {
        memset(repeated, byte, 32), memcpy(almost, repeated, 32), almost[31] ^= 1;
        settings = good, settings.realm = "\xff", settings.secret = repeated;
        want("repeated", stunp_endpoint_server_new(&server, &settings), STUNP_BAD_ARGUMENT);
        settings.secret = almost;
        want("drawn", stunp_endpoint_server_new(&server, &settings), STUNP_NOT_TEXT);
        settings.previous_secret = repeated;
        want("repeated", stunp_endpoint_server_new(&server, &settings), STUNP_BAD_ARGUMENT);
        settings.previous_secret = secret;
        want("another", stunp_endpoint_server_new(&server, &settings), STUNP_NOT_TEXT);
        settings.secret = secret;
        want("the same", stunp_endpoint_server_new(&server, &settings), STUNP_BAD_ARGUMENT);
    }
    want("does not count", stunp_endpoint_server_new_with(&server, "realm", 5, NULL, 0, secret,
         repeated, false, NULL, 0, 0, 0, 0, false, false), 0);
    stunp_endpoint_server_free(&server);
    settings = good, settings.realm = "";
    want("empty", server.is_full, false);
    want("empty realm", stunp_endpoint_server_new(&server, &settings), STUNP_BAD_ARGUMENT);
    settings.software = "\xff";
    want("before a text", stunp_endpoint_server_new(&server, &settings), STUNP_BAD_ARGUMENT);
    want("its twin", stunp_endpoint_server_new_with(&server, NULL, 0, NULL, 0, secret, secret, false,
         NULL, 0, 0, 0, 0, false, false), STUNP_BAD_ARGUMENT);
    settings = good, settings.understood_count = 1;
    want("no types", stunp_endpoint_server_new(&server, &settings), STUNP_BAD_ARGUMENT);
    settings.credentials = STUNP_NO_CREDENTIALS, settings.realm = NULL, settings.secret = NULL;
    want("no types", stunp_endpoint_server_new(&server, &settings), STUNP_BAD_ARGUMENT);
    want("empty", server.is_full, false);
    settings = good, settings.nonce_seconds = 30, settings.software = "example 1.0";
    longest[763] = 0, settings.realm = longest;
    want("longest", stunp_endpoint_server_new(&server, &settings), 0);
    stunp_endpoint_server_free(&server);
    stunp_endpoint_server_free(&server);
    stunp_endpoint_server_free(&full);
    stunp_endpoint_server_free(NULL);
}

static void users_in_order(void) {
    stunp_endpoint_server_settings settings = settings_of(NULL, 0);
    struct realm realm = realm_of(&settings);
    stunp_endpoint_users empty = {0}, *users = &realm.users;
    static uint8_t name[514], key[33];
    memset(name, 'x', sizeof name);
    const uint8_t byte = 0xff;
    want("full", stunp_endpoint_users_new(users, &realm.server), STUNP_FULL_HANDLE);
    want("no server", stunp_endpoint_users_new(&empty, &(stunp_endpoint_server){0}),
         STUNP_EMPTY_HANDLE);
    /* A handle of another kind has no table, and no server. */
    stunp_endpoint_users as_users = {realm.server.is_full, realm.server.state};
    stunp_endpoint_server as_server = {users->is_full, users->state};
    want("null", stunp_endpoint_users_new(&empty, NULL), STUNP_EMPTY_HANDLE);
    want("of users", stunp_endpoint_users_new(&empty, &as_server), STUNP_WRONG_HANDLE);
    want("to a server", stunp_endpoint_users_add(&as_users, (const char *)&byte, 1, "", 0),
         STUNP_WRONG_HANDLE);
    want("to a server", stunp_endpoint_users_add_keys(&as_users, (const char *)&byte, 1, key, 1,
                                                      key, 1),
         STUNP_WRONG_HANDLE);
    want("of a server", stunp_endpoint_users_remove(&as_users, (const char *)&byte, 1),
         STUNP_WRONG_HANDLE);
    want("as it was", as_users.is_full && as_users.state == realm.server.state, true);
    want("none", stunp_endpoint_users_add(&empty, (const char *)&byte, 1, "", 0),
         STUNP_EMPTY_HANDLE);
    want("none", stunp_endpoint_users_add_keys(&empty, (const char *)&byte, 1, key, 1, key, 1),
         STUNP_EMPTY_HANDLE);
    want("none", stunp_endpoint_users_remove(&empty, (const char *)&byte, 1), STUNP_EMPTY_HANDLE);
    want("name", stunp_endpoint_users_add(users, (const char *)&byte, 1, "", 0), STUNP_NOT_TEXT);
    want("password", stunp_endpoint_users_add(users, (const char *)name, 514, (const char *)&byte,
                                              1), STUNP_NOT_TEXT);
    want("long", stunp_endpoint_users_add(users, (const char *)name, 514, "", 0),
         STUNP_TEXT_TOO_LONG);
    want("no password", stunp_endpoint_users_add(users, (const char *)name, 513, "", 0),
         STUNP_BAD_ARGUMENT);
    want("no password", stunp_endpoint_users_add(users, (const char *)name, 513, NULL, 0),
         STUNP_BAD_ARGUMENT);
    want("longest", stunp_endpoint_users_add(users, (const char *)name, 513, "p", 1), 0);
    want("keys", stunp_endpoint_users_add_keys(users, (const char *)&byte, 1, key, 15, key, 32),
         STUNP_NOT_TEXT);
    want("keys", stunp_endpoint_users_add_keys(users, (const char *)name, 514, key, 15, key, 32),
         STUNP_TEXT_TOO_LONG);
    want("SHA-1", stunp_endpoint_users_add_keys(users, (const char *)name, 513, key, 15, key, 32),
         STUNP_BAD_ARGUMENT);
    want("SHA-256", stunp_endpoint_users_add_keys(users, (const char *)name, 513, key, 16, key, 33),
         STUNP_BAD_ARGUMENT);
    want("both", stunp_endpoint_users_add_keys(users, (const char *)name, 513, key, 16, key, 32),
         0);
    want("neither", stunp_endpoint_users_add_keys(users, (const char *)name, 513, NULL, 0, NULL,
                                                  0), STUNP_BAD_ARGUMENT);
    want("one", stunp_endpoint_users_add_keys(users, (const char *)name, 513, NULL, 0, key, 32), 0);
    want("no name", stunp_endpoint_users_add(users, "", 0, "p", 1), STUNP_BAD_ARGUMENT);
    want("no name", stunp_endpoint_users_add(users, NULL, 0, "\xff", 1), STUNP_NOT_TEXT);
    want("no name", stunp_endpoint_users_add_keys(users, NULL, 0, key, 16, key, 32),
         STUNP_BAD_ARGUMENT);
    want("removed", stunp_endpoint_users_remove(users, (const char *)name, 513), 0);
    want("nobody", stunp_endpoint_users_remove(users, (const char *)name, 513), 0);
    want("no name", stunp_endpoint_users_remove(users, (const char *)&byte, 1), STUNP_NOT_TEXT);
    stunp_heap_bound(0);
    want("memory", stunp_endpoint_users_add(users, "b", 1, "c", 1), STUNP_OUT_OF_MEMORY);
    want("memory", stunp_endpoint_users_add_keys(users, "b", 1, key, 16, key, 32),
         STUNP_OUT_OF_MEMORY);
    want("memory", stunp_endpoint_users_new(&empty, &realm.server), STUNP_OUT_OF_MEMORY);
    want("text first", stunp_endpoint_users_add(users, (const char *)&byte, 1, "", 0),
         STUNP_NOT_TEXT);
    stunp_heap_bound(SIZE_MAX);
    free_realm(&realm);
}

static void receiving_in_order(void) {
    stunp_endpoint_server_settings settings = settings_of(NULL, 0);
    struct realm realm = realm_of(&settings), none = realm;
    stunp_received received = STUNP_INIT(stunp_received), before;
    struct message plain = message_of(STUNP_REQUEST, 1);
    received.kind = 9, received.name[0] = 9, received.reply.key[0] = 9;
    before = received, before.size--, before.length = 9, before.name_length = 9;
    none.users.is_full = false;
    want("no users", judge(&none, &plain, LAST + 1, 0, &before), STUNP_EMPTY_HANDLE);
    /* A struct with another size may have other fields after these two. */
    want("failed", before.kind, STUNP_FAILED);
    want("no length", (int64_t)before.length, 0);
    want("left", (int64_t)before.name_length, 9);
    none = realm, none.server.is_full = false;
    want("no server", judge(&none, &plain, LAST + 1, 0, &before), STUNP_EMPTY_HANDLE);
    want("null", stunp_endpoint_server_receive(NULL, NULL, plain.bytes, plain.length, &nowhere, NOW,
         NULL, 0, &before), STUNP_EMPTY_HANDLE);
    want("null", stunp_endpoint_server_receive(&realm.server, NULL, plain.bytes, plain.length,
         &nowhere, NOW, NULL, 0, &before), STUNP_EMPTY_HANDLE);
    want("null", stunp_endpoint_server_identify(NULL, plain.bytes, plain.length, &nowhere, NOW, NULL,
         0, &before), STUNP_EMPTY_HANDLE);
    none = realm, none.server.state = realm.users.state;
    want("users for a server", judge(&none, &plain, LAST + 1, 0, &before), STUNP_WRONG_HANDLE);
    want("users for a server", stunp_endpoint_server_identify(&none.server, plain.bytes,
         plain.length, &nowhere, NOW, NULL, 0, &before), STUNP_WRONG_HANDLE);
    none = realm, none.users.state = realm.server.state;
    want("a server for users", judge(&none, &plain, LAST + 1, 0, &before), STUNP_WRONG_HANDLE);
    before.kind = 1;
    want("size", judge(&realm, &plain, NOW, sizeof out, &before), STUNP_BAD_ARGUMENT);
    want("failed", before.kind, STUNP_FAILED);
    /* Each error leaves no kind, no code and no length of the answer before. */
    none.server.is_full = false;
    for (int i = 0; i < 4; i++) {
        want("an answer", judge(&realm, &plain, NOW, sizeof out, &received), STUNP_ANSWER);
        want("its length", received.length > 20, true);
        stunp_heap_bound(i == 3 ? 0 : SIZE_MAX);
        int64_t kind =
            i == 0 ? judge(&none, &plain, NOW, sizeof out, &received)
            : i == 1 ? judge(&realm, &plain, (uint64_t)LAST + 1, sizeof out, &received)
            : i == 2 ? stunp_endpoint_server_receive(&realm.server, &realm.users, plain.bytes,
                                                     plain.length, &nowhere, NOW, out, sizeof out,
                                                     &received)
                     : judge(&realm, &plain, NOW, sizeof out, &received);
        stunp_heap_bound(SIZE_MAX);
        want("in order", kind, i == 0 ? STUNP_EMPTY_HANDLE
                               : i == 3 ? STUNP_OUT_OF_MEMORY : STUNP_BAD_ARGUMENT);
        want_failed("failed", &received, 0);
    }
    want("the last second", judge(&realm, &plain, LAST, sizeof out, NULL), STUNP_ANSWER);
    want("an answer", judge(&realm, &plain, NOW, sizeof out, &received), STUNP_ANSWER);
    const size_t wanted = received.length;
    want("no room", stunp_endpoint_server_receive(&realm.server, &realm.users, plain.bytes,
         plain.length, &from, NOW, NULL, 0, &received), STUNP_BUFFER_TOO_SMALL);
    want_failed("no room", &received, wanted);
    want("kept", received.name[0] | received.reply.key[0], 9);
    memset(out, 0xaa, sizeof out);
    want("one less", judge(&realm, &plain, NOW, wanted - 1, &received), STUNP_BUFFER_TOO_SMALL);
    want_failed("one less", &received, wanted);
    want("nothing is written", out[0], 0xaa);
    want("as much", judge(&realm, &plain, NOW, wanted, &received), STUNP_ANSWER);
    want("not more", out[wanted], 0xaa);
    want("kind", received.kind, STUNP_ANSWER);
    want("code", received.code, 401);
    want("length", (int64_t)received.length, (int64_t)wanted);
    want("it had room", (int64_t)received.needed, 0);
    want("dropped", stunp_endpoint_server_receive(&realm.server, &realm.users, NULL, 0, &from, NOW,
         NULL, 0, &received), STUNP_DROPPED);
    want("why", received.why, STUNP_DROP_NOT_STUN);
    want("no length", (int64_t)received.length, 0);
    want("its text", strcmp(stunp_drop_text(received.why), "it is not STUN"), 0);
    free_realm(&realm);
}

/* Each kind, and each reason. */
static void kinds(void) {
    stunp_endpoint_server_settings settings = settings_of(NULL, 0);
    struct realm realm = realm_of(&settings);
    stunp_received received = STUNP_INIT(stunp_received);
    struct message message = message_of(STUNP_INDICATION, 5);
    want("indication", judge(&realm, &message, NOW, 0, &received), STUNP_IS_INDICATION);
    want("method", received.method, STUNP_BINDING);
    message.length--;
    want("cut", judge(&realm, &message, NOW, 0, &received), STUNP_DROPPED);
    want("why", received.why, STUNP_DROP_NOT_STUN);
    message = message_of(STUNP_INDICATION, 5);
    int64_t length = stunp_add_number(message.bytes, sizeof message.bytes, message.length,
                                      STUNP_LIFETIME, 1, 4);
    message.length = (size_t)length;
    want("unknown", judge(&realm, &message, NOW, 0, &received), STUNP_DROPPED);
    want("why", received.why, STUNP_DROP_UNKNOWN_ATTRIBUTE);
    message.length--;
    want("malformed", judge(&realm, &message, NOW, 0, &received), STUNP_DROPPED);
    want("why", received.why, STUNP_DROP_MALFORMED);
    message = message_of(STUNP_SUCCESS, 5);
    want("response", judge(&realm, &message, NOW, 0, &received), STUNP_IS_RESPONSE);
    length = stunp_add_fingerprint(message.bytes, sizeof message.bytes, message.length);
    message.length = (size_t)length;
    message.bytes[27] ^= 1;
    want("damaged", judge(&realm, &message, NOW, 0, &received), STUNP_DROPPED);
    want("why", received.why, STUNP_DROP_WRONG_FINGERPRINT);
    free_realm(&realm);
}

/* Compares two results without the padding between their fields. */
static void want_same_result(const stunp_received *one, const stunp_received *other) {
    const stunp_reply *reply = &one->reply, *same = &other->reply;
    want("kind", one->kind, other->kind), want("why", one->why, other->why);
    want("code", one->code, other->code), want("method", one->method, other->method);
    want("algorithm", one->algorithm, other->algorithm);
    want("length", (int64_t)one->length, (int64_t)other->length);
    want("needed", (int64_t)one->needed, (int64_t)other->needed);
    want("name", (int64_t)one->name_length, (int64_t)other->name_length);
    want("hash", one->is_hash, other->is_hash);
    want_same("name", one->name, other->name, sizeof one->name);
    want_same("id", reply->id, same->id, sizeof reply->id);
    want_same("key", reply->key, same->key, sizeof reply->key);
    want("key", reply->key_length, same->key_length);
    want("reply", reply->method, same->method);
    want("integrity", reply->integrity, same->integrity);
    want("fingerprint", reply->has_fingerprint, same->has_fingerprint);
}

/* The cause of a message, whose code is that of the answer. The call that judges and tells the
 * cause at once says the same. */
static int64_t cause_of(const struct realm *realm, const struct message *message,
                        const stunp_address *source, uint64_t now, uint32_t code) {
    static uint8_t bytes[STUNP_ANSWER_MAX];
    stunp_received received = STUNP_INIT(stunp_received), both = received;
    stunp_cause why = (stunp_cause)99;
    int64_t kind = stunp_endpoint_server_receive(&realm->server, &realm->users, message->bytes,
                                                 message->length, source, now, out, sizeof out,
                                                 &received);
    want("judged", kind >= 0, true);
    want("code", received.code, code);
    int64_t cause = stunp_endpoint_server_cause(&realm->server, &realm->users, message->bytes,
                                                message->length, source, now);
    want("both", stunp_endpoint_server_receive_with_cause(&realm->server, &realm->users,
         message->bytes, message->length, source, now, bytes, sizeof bytes, &both, &why), kind);
    want("the cause", why, cause);
    want_same_result(&both, &received);
    want("the answer", memcmp(bytes, out, received.length), 0);
    return cause;
}

/* What the call for both writes if it fails, and if it is not asked for both. */
static void causes_beside_errors(void) {
    stunp_endpoint_server_settings settings = settings_of(NULL, 0);
    struct realm realm = realm_of(&settings);
    struct message plain = message_of(STUNP_REQUEST, 1);
    stunp_received received = STUNP_INIT(stunp_received);
    stunp_cause why = STUNP_CAUSE_INCOMPLETE;
    stunp_endpoint_server_settings open = STUNP_INIT(stunp_endpoint_server_settings);
    open.credentials = STUNP_NO_CREDENTIALS, open.answers_binding = true;
    stunp_endpoint_server openly = {0};
    want("open", stunp_endpoint_server_new(&openly, &open), 0);
    want("no server", stunp_endpoint_server_receive_with_cause(NULL, NULL, plain.bytes,
         plain.length, &from, NOW, out, sizeof out, &received, &why), STUNP_EMPTY_HANDLE);
    want("no cause", why, 0);
    want_failed("failed", &received, 0);
    why = STUNP_CAUSE_INCOMPLETE;
    want("no users", stunp_endpoint_server_receive_with_cause(&realm.server, NULL, plain.bytes,
         plain.length, &from, NOW, out, sizeof out, &received, &why), STUNP_EMPTY_HANDLE);
    want("no cause", why, 0);
    why = STUNP_CAUSE_INCOMPLETE;
    want("nowhere", stunp_endpoint_server_receive_with_cause(&realm.server, &realm.users,
         plain.bytes, plain.length, &nowhere, NOW, out, sizeof out, &received, &why),
         STUNP_BAD_ARGUMENT);
    want("no cause", why, 0);
    want("no room", stunp_endpoint_server_receive_with_cause(&realm.server, &realm.users,
         plain.bytes, plain.length, &from, NOW, out, 20, &received, &why), STUNP_BUFFER_TOO_SMALL);
    want("a cause", why, STUNP_CAUSE_NO_SIGNATURE);
    want("needed", received.needed > 20, true);
    stunp_heap_bound(0);
    want("memory", stunp_endpoint_server_receive_with_cause(&realm.server, &realm.users,
         plain.bytes, plain.length, &from, NOW, out, sizeof out, &received, &why),
         STUNP_OUT_OF_MEMORY);
    stunp_heap_bound(SIZE_MAX);
    want("no cause", why, 0);
    why = STUNP_CAUSE_INCOMPLETE;
    want("open", stunp_endpoint_server_receive_with_cause(&openly, NULL, plain.bytes, plain.length,
         &from, 0, out, sizeof out, &received, &why), STUNP_ANSWER);
    want("no cause", why, 0);
    want("the kind alone", stunp_endpoint_server_receive_with_cause(&realm.server, &realm.users,
         plain.bytes, plain.length, &from, NOW, out, sizeof out, NULL, NULL), STUNP_ANSWER);
    stunp_endpoint_server_free(&openly);
    free_realm(&realm);
}

static void causes(void) {
    stunp_endpoint_server_settings settings = settings_of(NULL, 0);
    struct realm realm = realm_of(&settings);
    const stunp_address other = {{192, 0, 2, 1}, 3479, 4};
    struct message plain = message_of(STUNP_REQUEST, 1);
    struct message indication = message_of(STUNP_INDICATION, 5);
    want("unsigned", cause_of(&realm, &plain, &from, NOW, 401), STUNP_CAUSE_NO_SIGNATURE);
    want("indication", cause_of(&realm, &indication, &from, NOW, 0), 0);
    plain.length--;
    want("no message", cause_of(&realm, &plain, &from, NOW, 0), 0);
    struct message bare = message_of(STUNP_REQUEST, 3);
    int64_t length = stunp_sign(bare.bytes, sizeof bare.bytes, bare.length, STUNP_SHA1,
                                (const uint8_t *)"key", 3);
    bare.length = (size_t)length;
    want("bare", cause_of(&realm, &bare, &from, NOW, 400), STUNP_CAUSE_INCOMPLETE);
    take_challenge(&realm, NOW);
    struct message good = request(&realm, 2, 0, false);
    struct message odd = request(&realm, 3, STUNP_LIFETIME, true);
    want("good", cause_of(&realm, &good, &from, NOW, 0), 0);
    want("odd", cause_of(&realm, &odd, &from, NOW, 420), STUNP_CAUSE_UNKNOWN_ATTRIBUTE);
    want("elsewhere", cause_of(&realm, &good, &other, NOW, 438), STUNP_CAUSE_STALE_NONCE);
    want("later", cause_of(&realm, &good, &from, NOW + 7200, 438), STUNP_CAUSE_STALE_NONCE);
    want("removed", stunp_endpoint_users_remove(&realm.users, "name", 4), 0);
    want("nobody", cause_of(&realm, &good, &from, NOW, 401), STUNP_CAUSE_WRONG_CREDENTIALS);
    want("its text", strcmp(stunp_cause_text(STUNP_CAUSE_STALE_NONCE),
                            "the nonce is not valid any more"), 0);
    want("none", strcmp(stunp_cause_text(0), "it is not refused"), 0);
    want("an error", strcmp(stunp_cause_text(STUNP_EMPTY_HANDLE), "the handle is empty"), 0);
    want("a later one", strcmp(stunp_cause_text(99), "the request is refused"), 0);
    /* The errors, in their order. */
    stunp_endpoint_server_settings open = STUNP_INIT(stunp_endpoint_server_settings);
    open.credentials = STUNP_NO_CREDENTIALS;
    stunp_endpoint_server openly = {0};
    stunp_endpoint_users as_users = {realm.server.is_full, realm.server.state};
    want("open", stunp_endpoint_server_new(&openly, &open), 0);
    want("null", stunp_endpoint_server_cause(NULL, NULL, NULL, 0, &nowhere, LAST + 1),
         STUNP_EMPTY_HANDLE);
    want("open", stunp_endpoint_server_cause(&openly, NULL, NULL, 0, &nowhere, LAST + 1),
         STUNP_WRONG_HANDLE);
    want("no users", stunp_endpoint_server_cause(&realm.server, NULL, NULL, 0, &nowhere, LAST + 1),
         STUNP_EMPTY_HANDLE);
    want("a server", stunp_endpoint_server_cause(&realm.server, &as_users, NULL, 0, &nowhere,
         LAST + 1), STUNP_WRONG_HANDLE);
    want("time", stunp_endpoint_server_cause(&realm.server, &realm.users, NULL, 0, &from, LAST + 1),
         STUNP_BAD_ARGUMENT);
    want("nowhere", stunp_endpoint_server_cause(&realm.server, &realm.users, NULL, 0, &nowhere, NOW),
         STUNP_BAD_ARGUMENT);
    stunp_heap_bound(0);
    want("memory", stunp_endpoint_server_cause(&realm.server, &realm.users, good.bytes, good.length,
         &from, NOW), STUNP_OUT_OF_MEMORY);
    want("no memory", stunp_endpoint_server_cause(&realm.server, &realm.users, indication.bytes,
         indication.length, &from, NOW), 0);
    stunp_heap_bound(SIZE_MAX);
    stunp_endpoint_server_free(&openly);
    free_realm(&realm);
}

/* A server of another realm drops each datagram that it is passed with a table, whatever the
 * datagram is. A server of the same realm accepts what its own settings offer, even if the table was
 * made for a server with other settings. */
static void users_of_other_servers(void) {
    stunp_endpoint_server_settings settings = settings_of(NULL, 0), other = settings;
    struct realm realm = realm_of(&settings), elsewhere, weaker;
    other.realm = "other", elsewhere = realm_of(&other);
    other = settings, other.algorithms = STUNP_SHA1, weaker = realm_of(&other);
    take_challenge(&realm, NOW);
    struct message good = request(&realm, 2, 0, false), plain = message_of(STUNP_REQUEST, 3);
    const struct message *messages[] = {&good, &plain};
    struct realm mixed = {realm.server, elsewhere.users, realm.client};
    for (int i = 0; i < 2; i++) {
        stunp_received received = STUNP_INIT(stunp_received);
        want("cause", cause_of(&mixed, messages[i], &from, NOW, 0), 0);
        want("kind", judge(&mixed, messages[i], NOW, sizeof out, &received), STUNP_DROPPED);
        want("reason", received.why, STUNP_DROP_OTHER_REALM);
    }
    stunp_received received = STUNP_INIT(stunp_received);
    want("no message", stunp_endpoint_server_receive(&mixed.server, &mixed.users, NULL, 0, &from,
         NOW, out, sizeof out, &received), STUNP_DROPPED);
    want("reason", received.why, STUNP_DROP_OTHER_REALM);
    want("text", strcmp(stunp_drop_text(STUNP_DROP_OTHER_REALM),
                        "the users are of another realm than the server"), 0);
    /* A table for HMAC-SHA1 alone serves a server of both algorithms, and the other way round. */
    mixed.users = weaker.users;
    want("both", judge(&mixed, &good, NOW, sizeof out, &received), STUNP_IS_REQUEST);
    want("algorithm", received.algorithm, STUNP_SHA256);
    mixed.server = weaker.server, mixed.users = realm.users;
    want("a list", cause_of(&mixed, &good, &from, NOW, 438), STUNP_CAUSE_STALE_NONCE);
    take_challenge(&weaker, NOW);
    good = request(&weaker, 4, 0, false);
    want("HMAC-SHA1", judge(&mixed, &good, NOW, sizeof out, &received), STUNP_IS_REQUEST);
    want("algorithm", received.algorithm, STUNP_SHA1);
    free_realm(&realm), free_realm(&elsewhere), free_realm(&weaker);
}

/* ---- Batches */

enum { BATCH = 12 };

/* Random numbers, the same in each run. */
static uint32_t drawn(uint32_t below) {
    static uint64_t state = 1;
    state = state * 6364136223846793005 + 1442695040888963407;
    return (uint32_t)(state >> 33) % below;
}

/* A copy of one of some messages, cut or changed now and then. */
static struct message spoiled(const struct message *messages, uint32_t count) {
    struct message message = messages[drawn(count)];
    if (drawn(4) == 0) message.length = drawn((uint32_t)message.length + 1);
    if (drawn(4) == 0 && message.length > 0)
        message.bytes[drawn((uint32_t)message.length)] ^= (uint8_t)(1 + drawn(255));
    return message;
}

/* Datagrams of a batch, with the result that a call of its own gives for each. */
struct batch {
    struct message messages[BATCH];
    stunp_received received[BATCH], alone[BATCH];
    stunp_datagram datagrams[BATCH];
    stunp_judged judged[BATCH];
    size_t count;
};

/* Makes a random batch. One datagram in three has no place for its result. */
static void draw(struct batch *batch, const struct message *messages, uint32_t count) {
    const stunp_address sources[] = {from, {{192, 0, 2, 1}, 3479, 4}, from, nowhere, from};
    batch->count = drawn(BATCH + 1);
    for (size_t i = 0; i < batch->count; i++) {
        batch->messages[i] = spoiled(messages, count);
        memset(&batch->received[i], 0, sizeof batch->received[i]);
        batch->received[i].size = sizeof batch->received[i];
        batch->received[i].kind = STUNP_LOOKUP; /* no call here returns it */
        batch->alone[i] = batch->received[i];
        batch->datagrams[i] = (stunp_datagram){batch->messages[i].bytes, batch->messages[i].length,
                                               sources[drawn(5)],
                                               drawn(3) == 0 ? NULL : &batch->received[i]};
    }
}

/* Judges a batch with room for some bytes, and then its datagrams one by one with the same room.
 * Their kinds are added to `seen`. */
static void want_batch(struct batch *batch, const struct realm *realm, size_t room,
                       uint32_t seen[9]) {
    static uint8_t bytes[BATCH * 512], single[BATCH * 512];
    size_t used = 0, i;
    memset(bytes, 0xaa, sizeof bytes), memset(single, 0xaa, sizeof single);
    memset(batch->judged, 0x55, sizeof batch->judged);
    size_t done = stunp_endpoint_server_receive_many(&realm->server, &realm->users,
                                                     batch->datagrams, batch->count, NOW, bytes,
                                                     room, batch->judged);
    for (i = 0; i < batch->count; i++) {
        const stunp_datagram *one = &batch->datagrams[i];
        const stunp_judged *told = &batch->judged[i];
        stunp_received *received = &batch->alone[i];
        stunp_cause why;
        int64_t kind = stunp_endpoint_server_receive_with_cause(
            &realm->server, &realm->users, one->bytes, one->length, &one->from, NOW, single + used,
            room - used, received, &why);
        seen[kind < 0 ? 8 : kind]++;
        want("kind", told->kind, kind), want("cause", told->cause, why);
        want("offset", (int64_t)told->offset, kind == STUNP_ANSWER ? (int64_t)used : 0);
        if (one->received != NULL) want_same_result(one->received, received);
        if (kind == STUNP_BUFFER_TOO_SMALL) {
            want("needed", (int64_t)told->length, (int64_t)received->needed);
            if (used > 0) break; /* else it does not fit into the whole buffer, and counts */
            continue;
        }
        want("length", (int64_t)told->length, (int64_t)received->length);
        used += received->length;
    }
    want("done", (int64_t)done, (int64_t)i);
    want("progress", done > 0 || batch->count == 0, true);
    want("the answers", memcmp(bytes, single, sizeof bytes), 0);
    /* The rest is unchanged. */
    for (i++; i < batch->count; i++) {
        stunp_judged unwritten;
        memset(&unwritten, 0x55, sizeof unwritten);
        want("unwritten", memcmp(&batch->judged[i], &unwritten, sizeof unwritten), 0);
        want("unjudged", batch->received[i].kind, STUNP_LOOKUP);
    }
}

static void batches(void) {
    static struct batch batch;
    stunp_endpoint_server_settings settings = settings_of(NULL, 0);
    struct realm realm = realm_of(&settings);
    uint32_t seen[9] = {0};
    take_challenge(&realm, NOW);
    struct message messages[7] = {message_of(STUNP_REQUEST, 1), message_of(STUNP_INDICATION, 2),
                                  message_of(STUNP_SUCCESS, 3), request(&realm, 4, 0, false),
                                  request(&realm, 5, 0, true)};
    messages[5] = request(&realm, 6, STUNP_LIFETIME, true);
    messages[6] = message_of(STUNP_REQUEST, 7);
    messages[6].length = 3;
    for (int i = 0; i < 2000; i++) {
        draw(&batch, messages, 7);
        want_batch(&batch, &realm, drawn(3) == 0 ? drawn(600) : BATCH * 512, seen);
    }
    const stunp_kind wanted[] = {STUNP_DROPPED, STUNP_ANSWER, STUNP_IS_REQUEST,
                                 STUNP_IS_INDICATION, STUNP_IS_RESPONSE, (stunp_kind)8};
    for (size_t i = 0; i < sizeof wanted / sizeof *wanted; i++)
        want("seen", seen[wanted[i]] > 100, true);
    want("none", (int64_t)stunp_endpoint_server_receive_many(&realm.server, &realm.users, NULL, 0,
         NOW, NULL, 0, NULL), 0);
    free_realm(&realm);
}

/* The calls that answer a request refuse a reply that is not one, and write nothing. `good` started
 * the response that the other reply finishes. */
static void refuses_reply(const stunp_reply *good, const stunp_reply *reply) {
    uint8_t kept[sizeof out];
    stunp_writer started = stunp_reply_success(good, out, sizeof out);
    memcpy(kept, out, sizeof out);
    stunp_writer success = stunp_reply_success(reply, out, sizeof out);
    want("no reply", stunp_written(&success), STUNP_BAD_ARGUMENT);
    want("no reply", stunp_reply_finish(reply, &success), STUNP_BAD_ARGUMENT);
    stunp_writer error = stunp_reply_error(reply, 486, "Quota", out, sizeof out);
    want("no reply", stunp_written(&error), STUNP_BAD_ARGUMENT);
    want("no reply", stunp_reply_finish(reply, &started), STUNP_BAD_ARGUMENT);
    want("its length", (int64_t)started.length, STUNP_HEADER_LENGTH);
    want_same("nothing", out, kept, sizeof out);
}

/* A request that the caller answers, and what the answer contains. */
static void replies(uint32_t algorithms, bool has_fingerprint) {
    const uint16_t understood[] = {STUNP_LIFETIME};
    stunp_endpoint_server_settings settings = settings_of(understood, 1);
    settings.algorithms = algorithms;
    struct realm realm = realm_of(&settings);
    stunp_received received = STUNP_INIT(stunp_received);
    take_challenge(&realm, NOW);
    int64_t wanted = algorithms == STUNP_SHA1 ? STUNP_SHA1 : STUNP_SHA256;
    struct message message = request(&realm, 2, STUNP_LIFETIME, has_fingerprint);
    want("request", judge(&realm, &message, NOW + 10, 0, &received), STUNP_IS_REQUEST);
    want("method", received.method, STUNP_BINDING);
    want("algorithm", received.algorithm, wanted);
    want("name", (int64_t)received.name_length, 4);
    want_same("name", received.name, "name", 5);
    /* The same, after the server is freed. */
    stunp_reply reply = received.reply;
    stunp_reply_wipe(&received.reply);
    for (size_t i = 0; i < sizeof reply; i++)
        want("wiped", ((uint8_t *)&received.reply)[i], 0);
    stunp_endpoint_server_free(&realm.server);
    for (int is_error = 0; is_error < 2; is_error++) {
        stunp_writer answer = is_error ? stunp_reply_error(&reply, 486, "Quota", out, sizeof out)
                                       : stunp_reply_success(&reply, out, sizeof out);
        stunp_write_number(&answer, STUNP_LIFETIME, 600, 4);
        int64_t length = stunp_reply_finish(&reply, &answer);
        want("its length", length, (int64_t)answer.length);
        stunp_header header;
        want("header", stunp_read_header(out, (size_t)length, &header), 0);
        want("class", header.message_class, is_error ? STUNP_ERROR : STUNP_SUCCESS);
        want_same("id", header.id, message.bytes + 8, STUNP_ID_LENGTH);
        want("signed", judge_response(&realm.client, out, (size_t)length), wanted);
        want("FINGERPRINT", stunp_check_fingerprint(out, (size_t)length),
             has_fingerprint ? STUNP_RIGHT_FINGERPRINT : STUNP_NO_FINGERPRINT);
    }
    stunp_writer small = stunp_reply_error(&reply, 486, "Quota", out, 24);
    want("no room", stunp_reply_finish(&reply, &small), STUNP_BUFFER_TOO_SMALL);
    stunp_writer wrong = stunp_reply_error(&reply, 299, "", out, sizeof out);
    want("no error", stunp_reply_finish(&reply, &wrong), STUNP_BAD_ARGUMENT);
    refuses_reply(&reply, &received.reply);
    stunp_reply longer = reply;
    for (int length = 65; length < 256; length++) {
        longer.key_length = (uint8_t)length;
        refuses_reply(&reply, &longer);
    }
    longer = reply, longer.integrity = 4;
    refuses_reply(&reply, &longer);
    /* The first error of a writer stays its error. */
    small = stunp_reply_error(&reply, 486, "Quota", out, 24);
    want("no room", stunp_reply_finish(&received.reply, &small), STUNP_BUFFER_TOO_SMALL);
    free_realm(&realm);
}

/* 420 and 438, stored keys, another secret, and a server that answers Binding. */
static void whole_server(void) {
    stunp_endpoint_server_settings settings = settings_of(NULL, 0);
    settings.answers_binding = true;
    settings.software = "example 1.0";
    struct realm realm = realm_of(&settings);
    stunp_received received = STUNP_INIT(stunp_received);
    uint8_t octets[16], key[32];
    uint16_t port, types[4];
    take_challenge(&realm, NOW);
    struct message message = request(&realm, 2, 0, true);
    want("Binding", judge(&realm, &message, NOW, sizeof out, &received), STUNP_ANSWER);
    want("success", received.code, 0);
    want("signed", judge_response(&realm.client, out, received.length), STUNP_SHA256);
    want("the address", stunp_xor_mapped_address(out, received.length, octets, 16, &port), 4);
    want_same("the address", octets, from.octets, 4);
    want("FINGERPRINT", stunp_has_right_fingerprint(out, received.length), true);
    message = request(&realm, 3, STUNP_LIFETIME, false);
    want("unknown", judge(&realm, &message, NOW, sizeof out, &received), STUNP_ANSWER);
    want("420", received.code, 420);
    want("signed", judge_response(&realm.client, out, received.length), STUNP_SHA256);
    want("types", stunp_find_types(out, received.length, STUNP_UNKNOWN_ATTRIBUTES, types, 4), 1);
    want("type", types[0], STUNP_LIFETIME);
    want("stale", judge(&realm, &message, NOW + 7200, sizeof out, &received), STUNP_ANSWER);
    want("438", received.code, 438);
    /* The same users by their keys. */
    want("removed", stunp_endpoint_users_remove(&realm.users, "name", 4), 0);
    message = request(&realm, 4, 0, false);
    want("nobody", judge(&realm, &message, NOW, sizeof out, &received), STUNP_ANSWER);
    want("401", received.code, 401);
    want("key", stunp_long_term_key(STUNP_SHA256, "name", 4, "realm", 5, "password", 8, key, 32),
         32);
    want("added", stunp_endpoint_users_add_keys(&realm.users, "name", 4, NULL, 0, key, 32), 0);
    want("by a key", judge(&realm, &message, NOW, sizeof out, &received), STUNP_ANSWER);
    want("success", received.code, 0);
    /* A new secret, with and without the one before. */
    stunp_endpoint_server_free(&realm.server);
    settings.secret = other_secret;
    want("another", stunp_endpoint_server_new(&realm.server, &settings), 0);
    want("another secret", judge(&realm, &message, NOW, sizeof out, &received), STUNP_ANSWER);
    want("438", received.code, 438);
    stunp_endpoint_server_free(&realm.server);
    settings.previous_secret = secret;
    want("another", stunp_endpoint_server_new(&realm.server, &settings), 0);
    want("the secret before", judge(&realm, &message, NOW, sizeof out, &received), STUNP_ANSWER);
    want("success", received.code, 0);
    free_realm(&realm);
}

/* Judges a datagram in two steps, with a user who has a password, stored keys or another name, or
 * with nobody. */
static int64_t identify(const struct realm *realm, const struct message *message, uint64_t now,
                        size_t room, stunp_received *received) {
    return stunp_endpoint_server_identify(&realm->server, message->bytes, message->length, &from,
                                          now, out, room, received);
}

static int64_t resume(const struct realm *realm, const stunp_found_user *found,
                      const struct message *message, stunp_received *received) {
    return stunp_endpoint_server_resume(&realm->server, found, message->bytes, message->length,
                                        &from, NOW, out, sizeof out, received);
}

static int64_t cause_for(const struct realm *realm, const stunp_found_user *found,
                         const struct message *message, uint64_t now) {
    return stunp_endpoint_server_cause_for(&realm->server, found, message->bytes, message->length,
                                           &from, now);
}

static void look_ups(bool is_hashed) {
    stunp_endpoint_server_settings settings = settings_of(NULL, 0);
    settings.answers_binding = true;
    struct realm realm = realm_of(&settings), none = realm;
    stunp_received received = STUNP_INIT(stunp_received), before = received;
    uint8_t sha1[16], sha256[32], hash[STUNP_USERHASH_LENGTH];
    realm.client.sends_hash = is_hashed;
    struct message plain = message_of(STUNP_REQUEST, 1);
    want("unsigned", identify(&realm, &plain, NOW, sizeof out, &received), STUNP_ANSWER);
    want("401", received.code, 401);
    want("a 401", judge_response(&realm.client, out, received.length), RESEND);
    struct message message = request(&realm, 2, 0, true);
    memset(out, 0xaa, sizeof out);
    want("waits", identify(&realm, &message, NOW, 0, &received), STUNP_LOOKUP);
    want("nothing is written", out[0], 0xaa);
    want("kind", received.kind, STUNP_LOOKUP);
    want("method", received.method, STUNP_BINDING);
    want("hash", received.is_hash, is_hashed);
    want("length", (int64_t)received.name_length, is_hashed ? STUNP_USERHASH_LENGTH : 4);
    want("userhash", stunp_userhash("name", 4, "realm", 5, hash, sizeof hash), sizeof hash);
    want_same("name", received.name, is_hashed ? (const void *)hash : "name",
              received.name_length);
    want("a final zero", received.name[received.name_length], 0);
    /* Nobody, another user, the user by a password and by each key. */
    stunp_found_user found = STUNP_INIT(stunp_found_user), good;
    found.name = "name", found.name_length = 4, found.password = "password", good = found;
    want("nobody", resume(&realm, NULL, &message, &received), STUNP_ANSWER);
    want("401", received.code, 401);
    want("why", cause_for(&realm, NULL, &message, NOW), STUNP_CAUSE_WRONG_CREDENTIALS);
    want("why not", cause_for(&realm, &good, &message, NOW), 0);
    want("unsigned", cause_for(&realm, NULL, &plain, NOW), STUNP_CAUSE_NO_SIGNATURE);
    want("later", cause_for(&realm, &good, &message, NOW + 7200), STUNP_CAUSE_STALE_NONCE);
    want("no hash", received.is_hash, false);
    found.name = "Name";
    want("another name", resume(&realm, &found, &message, &received), STUNP_ANSWER);
    want("401", received.code, 401);
    found = good, found.password = "passw0rd";
    want("another password", resume(&realm, &found, &message, &received), STUNP_ANSWER);
    want("401", received.code, 401);
    want("the user", resume(&realm, &good, &message, &received), STUNP_ANSWER);
    want("success", received.code, 0);
    want("signed", judge_response(&realm.client, out, received.length), STUNP_SHA256);
    want("key", stunp_long_term_key(STUNP_SHA1, "name", 4, "realm", 5, "password", 8, sha1, 16), 16);
    want("key", stunp_long_term_key(STUNP_SHA256, "name", 4, "realm", 5, "password", 8, sha256, 32),
         32);
    found = good, found.password = NULL, found.sha256_key = sha256;
    want("by its key", resume(&realm, &found, &message, &received), STUNP_ANSWER);
    want("success", received.code, 0);
    found.sha256_key = NULL, found.sha1_key = sha1;
    want("by another key", resume(&realm, &found, &message, &received), STUNP_ANSWER);
    want("401", received.code, 401);
    want("no such key", cause_for(&realm, &found, &message, NOW), STUNP_CAUSE_WRONG_CREDENTIALS);
    /* If the request has no nonce that was sent to its address, nobody is looked up. */
    want("later", identify(&realm, &message, NOW + 7200, sizeof out, &received), STUNP_ANSWER);
    want("438", received.code, 438);
    /* Each refusal in its order. */
    found.sha1_key = NULL;
    want("no secret", resume(&realm, &found, &message, &received), STUNP_BAD_ARGUMENT);
    want("no secret", cause_for(&realm, &found, &message, LAST + 1), STUNP_BAD_ARGUMENT);
    found = good, found.name = NULL;
    want("no name", resume(&realm, &found, &message, &received), STUNP_BAD_ARGUMENT);
    found = good, found.password = "", found.sha1_key = sha1;
    want("no password", resume(&none, &found, &message, &received), STUNP_BAD_ARGUMENT);
    found = good, found.size--, none.server.is_full = false;
    want("size", resume(&none, &found, &message, &received), STUNP_BAD_ARGUMENT);
    want("an answer", judge(&realm, &plain, NOW, sizeof out, &received), STUNP_ANSWER);
    found = good, found.name = "\xff", found.name_length = 1;
    want("no server", resume(&none, &found, &message, &received), STUNP_EMPTY_HANDLE);
    want_failed("no server", &received, 0);
    before = received, before.kind = 1, before.length = 9, before.code = 401, before.size--;
    want("no server", resume(&none, &found, &message, &before), STUNP_EMPTY_HANDLE);
    want("failed", before.kind, STUNP_FAILED);
    want("no length", (int64_t)before.length, 0);
    want("left", before.code, 401);
    before = received;
    want("no server", cause_for(&none, &found, &message, LAST + 1), STUNP_EMPTY_HANDLE);
    want("no text", resume(&realm, &found, &message, &received), STUNP_NOT_TEXT);
    want("no text", cause_for(&realm, &found, &message, LAST + 1), STUNP_NOT_TEXT);
    want("time", cause_for(&realm, &good, &message, LAST + 1), STUNP_BAD_ARGUMENT);
    stunp_endpoint_users table = {0};
    want("no text", stunp_endpoint_users_new_found(&table, &realm.server, &found), STUNP_NOT_TEXT);
    want("no table", table.is_full, false);
    want("a table", stunp_endpoint_users_new_found(&table, &realm.server, &good), 0);
    want("full", stunp_endpoint_users_new_found(&table, &none.server, &found), STUNP_FULL_HANDLE);
    stunp_endpoint_users_free(&table);
    before.size--;
    want("no server", identify(&none, &message, NOW, 0, &before), STUNP_EMPTY_HANDLE);
    want("size", identify(&realm, &message, NOW, 0, &before), STUNP_BAD_ARGUMENT);
    want("time", identify(&realm, &message, LAST + 1, 0, NULL), STUNP_BAD_ARGUMENT);
    want("nowhere", stunp_endpoint_server_identify(&realm.server, plain.bytes, plain.length,
         &nowhere, NOW, out, sizeof out, NULL), STUNP_BAD_ARGUMENT);
    stunp_heap_bound(0);
    received.kind = 1;
    want("memory", identify(&realm, &message, NOW, 0, &received), STUNP_OUT_OF_MEMORY);
    want_failed("memory", &received, 0);
    received.kind = 1;
    want("memory", resume(&realm, &good, &message, &received), STUNP_OUT_OF_MEMORY);
    want_failed("memory", &received, 0);
    want("memory", cause_for(&realm, &good, &message, NOW), STUNP_OUT_OF_MEMORY);
    stunp_heap_bound(SIZE_MAX);
    want("an answer", identify(&realm, &plain, NOW, sizeof out, &received), STUNP_ANSWER);
    const size_t needed = received.length;
    want("no room", identify(&realm, &plain, NOW, 20, &received), STUNP_BUFFER_TOO_SMALL);
    want_failed("no room", &received, needed);
    free_realm(&realm);
}

static bool find_alice(const stunp_received *named, stunp_found_user *found) {
    uint8_t hash[STUNP_USERHASH_LENGTH];
    found->name = "alice", found->name_length = 5, found->password = "wonderland";
    want("hash", stunp_userhash("alice", 5, "example.org", 11, hash, sizeof hash), sizeof hash);
    return named->is_hash ? memcmp(named->name, hash, sizeof hash) == 0
                          : named->name_length == 5 && memcmp(named->name, "alice", 5) == 0;
}

/* Each allocation in turn is refused: the call fails, and the next call gives what it gave
 * before. */
static void each_allocation(void) {
    stunp_endpoint_server_settings settings = settings_of(NULL, 0);
    settings.answers_binding = true;
    settings.software = "example 1.0";
    struct realm realm = realm_of(&settings);
    stunp_received received = STUNP_INIT(stunp_received);
    take_challenge(&realm, NOW);
    struct message messages[] = {message_of(STUNP_REQUEST, 1), request(&realm, 2, 0, true),
                                 request(&realm, 3, STUNP_LIFETIME, true)};
    for (size_t i = 0; i < sizeof messages / sizeof *messages; i++) {
        int64_t kind = STUNP_OUT_OF_MEMORY;
        for (size_t n = 1; kind == STUNP_OUT_OF_MEMORY; n++) {
            stunp_heap_refuse(n);
            kind = judge(&realm, &messages[i], NOW, sizeof out, &received);
        }
        stunp_heap_refuse(0);
        want("in the end", kind, STUNP_ANSWER);
    }
    stunp_endpoint_server server = {0};
    int64_t made = STUNP_OUT_OF_MEMORY;
    for (size_t n = 1; made == STUNP_OUT_OF_MEMORY; n++) {
        stunp_heap_refuse(n);
        made = stunp_endpoint_server_new(&server, &settings);
        want("empty", server.is_full, made == 0);
    }
    stunp_heap_refuse(0);
    want("made", made, 0);
    stunp_endpoint_server_free(&server);
    free_realm(&realm);
}

/* The settings of a server without a realm. */
static stunp_endpoint_server_settings settings_alone(stunp_credentials credentials) {
    stunp_endpoint_server_settings settings = STUNP_INIT(stunp_endpoint_server_settings);
    settings.credentials = credentials;
    return settings;
}

/* Such settings may not have fields that need a realm, nor credentials that do not exist. */
static void settings_without_realm(stunp_credentials credentials) {
    stunp_endpoint_server server = {0}, full = {0};
    stunp_endpoint_server_settings good = settings_alone(credentials), settings = good;
    static char longest[765];
    memset(longest, 'x', 764);
    want("good", stunp_endpoint_server_new(&full, &good), 0);
    settings.realm = "realm";
    want("realm", stunp_endpoint_server_new(&server, &settings), STUNP_BAD_ARGUMENT);
    settings = good, settings.secret = secret;
    want("secret", stunp_endpoint_server_new(&server, &settings), STUNP_BAD_ARGUMENT);
    settings = good, settings.previous_secret = secret;
    want("previous", stunp_endpoint_server_new(&server, &settings), STUNP_BAD_ARGUMENT);
    settings = good, settings.nonce_seconds = 3600;
    want("nonces", stunp_endpoint_server_new(&server, &settings), STUNP_BAD_ARGUMENT);
    settings = good, settings.algorithms = STUNP_SHA1;
    want("algorithms", stunp_endpoint_server_new(&server, &settings), STUNP_BAD_ARGUMENT);
    settings = good, settings.anonymous_username = STUNP_DISABLED;
    want("hashes", stunp_endpoint_server_new(&server, &settings), STUNP_BAD_ARGUMENT);
    settings = good, settings.credentials = (stunp_credentials)3;
    want("credentials", stunp_endpoint_server_new(&server, &settings), STUNP_BAD_ARGUMENT);
    settings = good, settings.software = "\xff";
    want("no text", stunp_endpoint_server_new(&server, &settings), STUNP_NOT_TEXT);
    want("full first", stunp_endpoint_server_new(&full, &settings), STUNP_FULL_HANDLE);
    settings.software = longest;
    want("long", stunp_endpoint_server_new(&server, &settings), STUNP_TEXT_TOO_LONG);
    longest[763] = 0;
    int64_t made = STUNP_OUT_OF_MEMORY;
    for (size_t n = 1; made == STUNP_OUT_OF_MEMORY; n++) {
        stunp_heap_refuse(n);
        made = stunp_endpoint_server_new(&server, &settings);
        want("empty", server.is_full, made == 0);
    }
    stunp_heap_refuse(0);
    want("longest", made, 0);
    stunp_endpoint_server_free(&server);
    stunp_endpoint_server_free(&full);
}

/* A server without credentials: everybody is answered, nothing is signed, and there are no users. */
static void open_server(void) {
    const uint16_t understood[] = {STUNP_LIFETIME};
    stunp_endpoint_server_settings settings = settings_alone(STUNP_NO_CREDENTIALS);
    stunp_endpoint_server server = {0};
    stunp_endpoint_users users = {0};
    stunp_received received = STUNP_INIT(stunp_received);
    settings.understood = understood, settings.understood_count = 1;
    want("open", stunp_endpoint_server_new(&server, &settings), 0);
    want("no users", stunp_endpoint_users_new(&users, &server), STUNP_WRONG_HANDLE);
    want("no look-ups", stunp_endpoint_server_identify(&server, NULL, 0, &from, 0, out, sizeof out,
         &received), STUNP_WRONG_HANDLE);
    want("no look-ups", stunp_endpoint_server_resume(&server, NULL, NULL, 0, &from, 0, out,
         sizeof out, &received), STUNP_WRONG_HANDLE);
    struct message plain = message_of(STUNP_REQUEST, 1);
    memset(received.name, 9, sizeof received.name);
    received.size--;
    want("size", stunp_endpoint_server_receive(&server, NULL, plain.bytes, 20, &nowhere, 0, out,
         sizeof out, &received), STUNP_BAD_ARGUMENT);
    want("failed", received.kind, STUNP_FAILED);
    received.size++;
    want("time", stunp_endpoint_server_receive(&server, NULL, plain.bytes, 20, &from, LAST + 1, out,
         sizeof out, &received), STUNP_BAD_ARGUMENT);
    want("nowhere", stunp_endpoint_server_receive(&server, NULL, plain.bytes, 20, &nowhere, 0, out,
         sizeof out, &received), STUNP_BAD_ARGUMENT);
    want("asked", stunp_endpoint_server_receive(&server, NULL, plain.bytes, 20, &from, 0, out,
         sizeof out, &received), STUNP_IS_REQUEST);
    want("method", received.method, STUNP_BINDING);
    want("nobody", (int64_t)received.name_length, 0);
    want("nobody", received.name[0] | received.name[513], 0);
    want("no algorithm", received.algorithm, 0);
    stunp_writer answer = stunp_reply_success(&received.reply, out, sizeof out);
    want("reply", stunp_reply_finish(&received.reply, &answer), 20);
    stunp_writer unknown = stunp_write_on(20, plain.bytes, sizeof plain.bytes);
    stunp_write_number(&unknown, STUNP_REQUESTED_TRANSPORT, 17, 4);
    want("unknown", stunp_endpoint_server_receive(&server, NULL, plain.bytes, unknown.length, &from,
         0, out, sizeof out, &received), STUNP_ANSWER);
    want("420", received.code, 420);
    struct message indication = message_of(STUNP_INDICATION, 2);
    want("heard", stunp_endpoint_server_receive(&server, NULL, indication.bytes, 20, &from, 0, out,
         sizeof out, &received), STUNP_IS_INDICATION);
    want("a response", stunp_endpoint_server_receive(&server, NULL, message_of(STUNP_SUCCESS,
         3).bytes, 20, &from, 0, out, sizeof out, &received), STUNP_IS_RESPONSE);
    stunp_endpoint_server_free(&server);
    /* Any table may be passed, and it is not looked at. */
    want("worked", set_up_openly(&server), 0);
    stunp_endpoint_server_settings of_realm = settings_of(NULL, 0);
    struct realm realm = realm_of(&of_realm);
    want("served", serve(&server, &realm.users, message_of(STUNP_REQUEST, 4).bytes, 20, &from, 0,
         out, sizeof out) > 20, true);
    want("served", serve(&server, NULL, message_of(STUNP_REQUEST, 4).bytes, 20, &from, 0, out,
         sizeof out) > 20, true);
    free_realm(&realm);
    stunp_endpoint_server_free(&server);
}

/* A message that a user signed with a password. */
static struct message signed_by(stunp_message_class class, uint32_t number, const char *name,
                                stunp_algorithm algorithm, const char *password) {
    struct message message = message_of(class, number);
    stunp_writer writer = stunp_write_on(20, message.bytes, sizeof message.bytes);
    if (name != NULL) stunp_write_text(&writer, STUNP_USERNAME, name);
    stunp_write_integrity(&writer, algorithm, (const uint8_t *)password, strlen(password));
    want("signed", stunp_written(&writer), 0);
    message.length = writer.length;
    return message;
}

/* A key of any length can sign. One that is longer than a block of HMAC is hashed (RFC 2104,
 * section 2). The user is in a table, or is looked up. */
static void password_of(size_t length, stunp_algorithm algorithm, bool is_looked_up) {
    static char password[300];
    stunp_endpoint_server_settings settings = settings_alone(STUNP_SHORT_TERM);
    struct realm realm = {{0}, {0}, {0}};
    stunp_received received = STUNP_INIT(stunp_received);
    stunp_found_user found = STUNP_INIT(stunp_found_user);
    for (size_t i = 0; i < length; i++) password[i] = (char)('a' + i % 26);
    password[length] = 0;
    want("server", stunp_endpoint_server_new(&realm.server, &settings), 0);
    want("users", stunp_endpoint_users_new(&realm.users, &realm.server), 0);
    want("add", stunp_endpoint_users_add(&realm.users, "name", 4, password, length), 0);
    struct message request = signed_by(STUNP_REQUEST, 1, "name", algorithm, password);
    found.name = "name", found.name_length = 4, found.password = password;
    want("accepted",
         is_looked_up ? stunp_endpoint_server_resume(&realm.server, &found, request.bytes,
                                                     request.length, &from, 0, out, sizeof out,
                                                     &received)
                      : judge(&realm, &request, 0, sizeof out, &received), STUNP_IS_REQUEST);
    for (int is_error = 0; is_error < 2; is_error++) {
        stunp_writer answer = is_error
                                  ? stunp_reply_error(&received.reply, 400, "", out, sizeof out)
                                  : stunp_reply_success(&received.reply, out, sizeof out);
        int64_t written = stunp_reply_finish(&received.reply, &answer);
        want("under the password", stunp_verify(out, (size_t)written, (const uint8_t *)password,
                                                length), algorithm);
    }
    free_realm(&realm);
}

static void long_passwords(void) {
    const size_t lengths[] = {1, 20, 32, 62, 63, 64, 65, 66, 67, 68, 127, 128, 129, 256, 299};
    for (size_t i = 0; i < sizeof lengths / sizeof *lengths; i++)
        for (int is_looked_up = 0; is_looked_up < 2; is_looked_up++) {
            password_of(lengths[i], STUNP_SHA1, is_looked_up);
            password_of(lengths[i], STUNP_SHA256, is_looked_up);
        }
}

/* A server with short-term credentials, and the tables that it accepts. */
static void short_term_server(stunp_algorithm algorithm) {
    stunp_endpoint_server_settings settings = settings_alone(STUNP_SHORT_TERM);
    stunp_endpoint_server_settings of_realm = settings_of(NULL, 0);
    struct realm other = realm_of(&of_realm), realm = other;
    stunp_received received = STUNP_INIT(stunp_received);
    const uint8_t key[32] = {1}, byte = 0xff;
    realm.server = (stunp_endpoint_server){0}, realm.users = (stunp_endpoint_users){0};
    want("short-term", stunp_endpoint_server_new(&realm.server, &settings), 0);
    want("users", stunp_endpoint_users_new(&realm.users, &realm.server), 0);
    struct message request = signed_by(STUNP_REQUEST, 1, "name", algorithm, "a password");
    struct message plain = message_of(STUNP_REQUEST, 2);
    const stunp_endpoint_users users = realm.users, of_other = other.users;
    realm.users.is_full = false;
    want("no users", judge(&realm, &request, 0, sizeof out, &received), STUNP_EMPTY_HANDLE);
    realm.users = other.users;
    want("of a realm", judge(&realm, &request, 0, sizeof out, &received), STUNP_WRONG_HANDLE);
    realm.users = users, other.users.state = users.state;
    want("in a realm", judge(&other, &request, 0, sizeof out, &received), STUNP_WRONG_HANDLE);
    want("no look-ups", stunp_endpoint_server_identify(&realm.server, request.bytes, request.length,
         &from, 0, out, sizeof out, &received), STUNP_WRONG_HANDLE);
    want("no keys", stunp_endpoint_users_add_keys(&realm.users, (const char *)&byte, 1, key, 16,
                                                  key, 32),
         STUNP_WRONG_HANDLE);
    want("name", stunp_endpoint_users_add(&realm.users, (const char *)&byte, 1, "", 0),
         STUNP_NOT_TEXT);
    want("nobody", judge(&realm, &request, 0, sizeof out, &received), STUNP_ANSWER);
    want("401", received.code, 401);
    int64_t added = STUNP_OUT_OF_MEMORY;
    for (size_t n = 1; added == STUNP_OUT_OF_MEMORY; n++) {
        stunp_heap_refuse(n);
        added = stunp_endpoint_users_add(&realm.users, "name", 4, "a password", 10);
    }
    stunp_heap_refuse(0);
    want("added", added, 0);
    want("not signed", judge(&realm, &plain, 0, sizeof out, &received), STUNP_ANSWER);
    want("400", received.code, 400);
    want("accepted", judge(&realm, &request, 0, sizeof out, &received), STUNP_IS_REQUEST);
    want("name", (int64_t)received.name_length, 4);
    want_same("name", received.name, "name", 5);
    want("algorithm", received.algorithm, algorithm);
    stunp_writer answer = stunp_reply_success(&received.reply, out, sizeof out);
    int64_t length = stunp_reply_finish(&received.reply, &answer);
    want("signed", stunp_verify(out, (size_t)length, (const uint8_t *)"a password", 10), algorithm);
    /* The user is looked up. */
    stunp_found_user found = STUNP_INIT(stunp_found_user);
    found.name = "name", found.name_length = 4, found.password = "a password";
    want("resumed", stunp_endpoint_server_resume(&realm.server, &found, request.bytes,
         request.length, &from, 0, out, sizeof out, &received), STUNP_IS_REQUEST);
    found.password = NULL, found.sha1_key = key;
    want("keys", stunp_endpoint_server_resume(&realm.server, &found, request.bytes, request.length,
         &from, 0, out, sizeof out, &received), STUNP_WRONG_HANDLE);
    /* Indications are signed too. */
    struct message indication = signed_by(STUNP_INDICATION, 3, "name", algorithm, "a password");
    want("heard", judge(&realm, &indication, 0, sizeof out, &received), STUNP_IS_INDICATION);
    want("by", (int64_t)received.name_length, 4);
    want_same("by", received.name, "name", 5);
    want("algorithm", received.algorithm, algorithm);
    indication = signed_by(STUNP_INDICATION, 4, "name", algorithm, "another");
    want("forged", judge(&realm, &indication, 0, sizeof out, &received), STUNP_DROPPED);
    want("why", received.why, STUNP_DROP_NOT_SIGNED);
    want("code", received.code, 401);
    want("text", strcmp(stunp_drop_text(received.why), "an indication is not signed by a user"), 0);
    indication = signed_by(STUNP_INDICATION, 5, NULL, algorithm, "a password");
    want("of nobody", judge(&realm, &indication, 0, sizeof out, &received), STUNP_DROPPED);
    want("code", received.code, 400);
    want("again", stunp_endpoint_users_add(&realm.users, "name", 4, "another", 7), 0);
    want("the old one", judge(&realm, &request, 0, sizeof out, &received), STUNP_ANSWER);
    want("code", received.code, 401);
    want("removed", stunp_endpoint_users_remove(&realm.users, "name", 4), 0);
    want("nobody", stunp_endpoint_users_remove(&realm.users, "name", 4), 0);
    want("no name", stunp_endpoint_users_remove(&realm.users, (const char *)&byte, 1),
         STUNP_NOT_TEXT);
    request = signed_by(STUNP_REQUEST, 6, "name", algorithm, "another");
    want("removed", judge(&realm, &request, 0, sizeof out, &received), STUNP_ANSWER);
    want("code", received.code, 401);
    other.users = of_other;
    free_realm(&other);
    free_realm(&realm);
}

/* The worked example answers its one user, and refuses a method that it does not know. */
static void worked(void) {
    stunp_endpoint_server server = {0};
    stunp_endpoint_users users = {0};
    struct user client = {.name = "alice", .password = "wonderland", .only_sha1 = true};
    want("set up", set_up(&server, &users, secret), 0);
    for (uint32_t i = 0; i < 3; i++) {
        const uint8_t id[STUNP_ID_LENGTH] = {(uint8_t)i};
        uint8_t bytes[512];
        stunp_writer request = stunp_write(STUNP_REQUEST, i == 2 ? STUNP_ALLOCATE : STUNP_BINDING,
                                           id, bytes, sizeof bytes);
        write_signature(&request, &client);
        size_t length = serve(&server, &users, bytes, request.length, &from, NOW, out, sizeof out);
        if (i == 1)
            want("looked up", (int64_t)serve_looked_up(&server, find_alice, bytes, request.length,
                 &from, NOW, out, sizeof out), (int64_t)length);
        int64_t wanted = i == 0 ? RESEND : STUNP_SHA1;
        want("judged", judge_response(&client, out, length), wanted);
        const int64_t codes[] = {401, STUNP_MISSING_ATTRIBUTE, 400};
        want("code", stunp_error_code(out, length), codes[i]);
    }
    want("nothing to send", (int64_t)serve(&server, &users, out, 1, &from, NOW, out, sizeof out), 0);
    stunp_endpoint_users_free(&users);
    stunp_endpoint_server_free(&server);
}

int main(void) {
    want("version", stunp_endpoint_version(), STUNP_VERSION);
    want("release", stunp_endpoint_release_0_3(), STUNP_VERSION);
    settings_in_order();
    users_in_order();
    receiving_in_order();
    kinds();
    causes();
    causes_beside_errors();
    users_of_other_servers();
    batches();
    for (uint32_t algorithms = 0; algorithms <= 3; algorithms++) {
        replies(algorithms, true);
        replies(algorithms, false);
    }
    whole_server();
    look_ups(false);
    look_ups(true);
    worked();
    settings_without_realm(STUNP_SHORT_TERM);
    settings_without_realm(STUNP_NO_CREDENTIALS);
    open_server();
    short_term_server(STUNP_SHA1);
    short_term_server(STUNP_SHA256);
    long_passwords();
    each_allocation();
    want_no_blocks("in the end");
    puts("endpoint: passed");
    return 0;
}
