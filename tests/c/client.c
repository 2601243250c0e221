/* A client of stunp_endpoint.h: what only C can pass, each refusal in its order, the times of RFC
 * 8489, section 6.2.1, each end of a request, challenges of a server of the same header, and memory
 * that is refused. */
#include "fixture.h"
#include "samples.h"
#include "serve.h" /* the worked examples, which check.sh copies from stunp_endpoint.h */
#include <sys/socket.h>
#include <unistd.h>

static const stunp_address here = {{192, 0, 2, 1}, 3478, 4}, mine = {{192, 0, 2, 9}, 4000, 4};
static const stunp_address nowhere = {{0}, 1, 5};
static const stunp_address seen = {{203, 0, 113, 7}, 5555, 4};
static const uint8_t seed[32] = {1, 2, 3, 4, 5};
static const uint64_t MILLISECOND = 1000000;

static stunp_event event;

static stunp_endpoint_client_settings settings_of(const char *name, const char *key) {
    stunp_endpoint_client_settings settings = STUNP_INIT(stunp_endpoint_client_settings);
    settings.server = here, settings.seed = seed, settings.name = name, settings.password = key;
    return settings;
}

static stunp_endpoint_client client_with(const stunp_endpoint_client_settings *settings) {
    stunp_endpoint_client client = {0};
    want("client", stunp_endpoint_client_new(&client, settings), 0);
    return client;
}

static stunp_endpoint_client client_of(const char *name, const char *key) {
    stunp_endpoint_client_settings settings = settings_of(name, key);
    return client_with(&settings);
}

static uint64_t ask(stunp_endpoint_client *client, uint32_t method, const stunp_body *body,
                    uint64_t now) {
    uint64_t number = 77;
    want("request", stunp_endpoint_client_request(client, method, body, now, &number), 0);
    return number;
}

static int64_t polled(stunp_endpoint_client *client, uint64_t now) {
    event = (stunp_event)STUNP_INIT(stunp_event);
    int64_t kind = stunp_endpoint_client_poll(client, now, out, sizeof out, &event);
    want("kind", event.kind, kind);
    return kind;
}

static int64_t heard(stunp_endpoint_client *client, const stunp_writer *message, uint64_t now,
                     uint32_t *why) {
    want("written", stunp_written(message), 0);
    return stunp_endpoint_client_receive(client, message->bytes, message->length, &here, now, why);
}

/* An answer to the request in `out`, with an address or an error code. */
static stunp_writer answer(uint32_t code, uint8_t *bytes) {
    stunp_header header;
    want("header", stunp_read_header(out, event.length, &header), 0);
    stunp_writer told = stunp_write(code == 0 ? STUNP_SUCCESS : STUNP_ERROR,
                                    header.method, out + 8, bytes, 512);
    if (code == 0)
        stunp_write_xor_address(&told, STUNP_XOR_MAPPED_ADDRESS, seen.octets, 4, seen.port);
    else
        stunp_write_error(&told, code, "");
    return told;
}

/* No request is outstanding, and there is no event. */
static void is_idle(stunp_endpoint_client *client, uint64_t now) {
    want("idle", polled(client, now), STUNP_WAIT);
    want("for ever", event.until == UINT64_MAX, true);
    want("timeout", stunp_poll_timeout(&event, now), -1);
}

static void settings_in_order(void) {
    char text[800];
    stunp_endpoint_client_settings good = settings_of("name", "password"), settings = good;
    stunp_endpoint_client client = {0}, full = client_with(&good);
    settings.size--;
    want("size", stunp_endpoint_client_new(&full, &settings), STUNP_BAD_ARGUMENT);
    settings = good, settings.seed = NULL;
    want("seed", stunp_endpoint_client_new(&full, &settings), STUNP_BAD_ARGUMENT);
    settings = good, settings.password = NULL;
    want("password", stunp_endpoint_client_new(&full, &settings), STUNP_BAD_ARGUMENT);
    /* A name or a password that was never filled in is refused, and does not mean that there is no
     * user. */
    settings = good, settings.name = "";
    want("empty name", stunp_endpoint_client_new(&full, &settings), STUNP_BAD_ARGUMENT);
    settings.password = "";
    want("both empty", stunp_endpoint_client_new(&full, &settings), STUNP_BAD_ARGUMENT);
    settings = good, settings.password = "";
    want("empty password", stunp_endpoint_client_new(&full, &settings), STUNP_BAD_ARGUMENT);
    const stunp_client_options defaults = {0};
    want("no name", stunp_endpoint_client_new_with(&client, &here, seed, NULL, 0, "\xff", 1, "", 0,
         NULL, 0, &defaults), STUNP_BAD_ARGUMENT);
    want("no password", stunp_endpoint_client_new_with(&client, &here, seed, "\xff", 1, NULL, 0, "",
         0, NULL, 0, &defaults), STUNP_BAD_ARGUMENT);
    want("full", stunp_endpoint_client_new_with(&full, &here, seed, "\xff", 1, NULL, 0, "", 0, NULL,
         0, &defaults), STUNP_FULL_HANDLE);
    uint8_t repeated[32];
    for (int byte = 0; byte < 256; byte++) {
        memset(repeated, byte, 32);
        settings = good, settings.name = "\xff", settings.seed = repeated;
        want("repeated", stunp_endpoint_client_new(&client, &settings), STUNP_BAD_ARGUMENT);
        repeated[byte % 32] ^= 1;
        want("drawn", stunp_endpoint_client_new(&client, &settings), STUNP_NOT_TEXT);
    }
    settings = good, settings.server = nowhere, settings.algorithms = 4, settings.name = "\xff";
    want("full", stunp_endpoint_client_new(&full, &settings), STUNP_FULL_HANDLE);
    want("nowhere", stunp_endpoint_client_new(&client, &settings), STUNP_BAD_ARGUMENT);
    settings.server = here;
    want("algorithms", stunp_endpoint_client_new(&client, &settings), STUNP_BAD_ARGUMENT);
    settings.algorithms = 3, settings.anonymous_username = (stunp_feature)3;
    want("feature", stunp_endpoint_client_new(&client, &settings), STUNP_BAD_ARGUMENT);
    settings.anonymous_username = (stunp_feature)0, settings.credentials = (stunp_credentials)2;
    want("credentials", stunp_endpoint_client_new(&client, &settings), STUNP_BAD_ARGUMENT);
    settings.credentials = STUNP_SHORT_TERM;
    want("two algorithms", stunp_endpoint_client_new(&client, &settings), STUNP_BAD_ARGUMENT);
    settings.algorithms = 0;
    want("name", stunp_endpoint_client_new(&client, &settings), STUNP_NOT_TEXT);
    settings.name = memset(text, 'x', sizeof text), text[514] = 0, settings.password = "\xff";
    want("text first", stunp_endpoint_client_new(&client, &settings), STUNP_NOT_TEXT);
    settings.password = "p";
    want("long name", stunp_endpoint_client_new(&client, &settings), STUNP_TEXT_TOO_LONG);
    settings.name = "name", text[514] = 'x', text[764] = 0, settings.software = text;
    want("long text", stunp_endpoint_client_new(&client, &settings), STUNP_TEXT_TOO_LONG);
    text[763] = 0;
    stunp_heap_bound(0);
    want("memory", stunp_endpoint_client_new(&client, &settings), STUNP_OUT_OF_MEMORY);
    stunp_heap_bound(SIZE_MAX);
    want("longest text", stunp_endpoint_client_new(&client, &settings), 0);
    stunp_endpoint_client_free(&client);
    stunp_endpoint_client_free(&full);
    stunp_endpoint_client_free(&full);
    stunp_endpoint_client_free(NULL);
    /* A field that counts only if there is a user. */
    settings = settings_of(NULL, NULL), settings.credentials = (stunp_credentials)9;
    client = client_with(&settings);
    stunp_endpoint_client_free(&client);
    want_no_blocks("settings");
}

/* The refusals of the handle come first, by name. */
static void handles(void) {
    const uint8_t secret[32] = {7};
    stunp_endpoint_server_settings settings = STUNP_INIT(stunp_endpoint_server_settings);
    settings.realm = "realm", settings.secret = secret;
    stunp_endpoint_server server = {0};
    want("server", stunp_endpoint_server_new(&server, &settings), 0);
    stunp_endpoint_client empty = {0}, wrong = {server.is_full, server.state};
    const struct { stunp_endpoint_client *client; int64_t wanted; } rows[] = {
        {&empty, STUNP_EMPTY_HANDLE}, {&wrong, STUNP_WRONG_HANDLE}};
    for (size_t i = 0; i < COUNT(rows); i++) {
        stunp_event bad = {0};
        stunp_dropped dropped;
        want("request", stunp_endpoint_client_request(rows[i].client, 9999, NULL, 0, NULL),
             rows[i].wanted);
        want("receive", stunp_endpoint_client_receive(rows[i].client, NULL, 0, &nowhere, 0, NULL),
             rows[i].wanted);
        want("poll", stunp_endpoint_client_poll(rows[i].client, 0, NULL, 0, &bad), rows[i].wanted);
        want("cancel", stunp_endpoint_client_cancel(rows[i].client, 0), rows[i].wanted);
        want("dropped", stunp_endpoint_client_dropped(rows[i].client, 0, &dropped), rows[i].wanted);
    }
    stunp_endpoint_server_free(&server);
    stunp_endpoint_client client = client_of(NULL, NULL);
    stunp_ice_checker as_agent = {client.is_full, client.state};
    want("of a client", stunp_ice_checker_is_controlling(&as_agent), STUNP_WRONG_HANDLE);
    stunp_event bad = {0};
    want("method", stunp_endpoint_client_request(&client, 4096, NULL, 0, NULL), STUNP_BAD_ARGUMENT);
    want("from", stunp_endpoint_client_receive(&client, NULL, 0, &nowhere, 0, NULL),
         STUNP_BAD_ARGUMENT);
    want("size", stunp_endpoint_client_poll(&client, 0, NULL, 0, &bad), STUNP_BAD_ARGUMENT);
    want("no such request", stunp_endpoint_client_cancel(&client, 0), 0);
    stunp_endpoint_client_free(&client);
    want_no_blocks("handles");
}

/* Section 6.2.1: with an RTO of 500 ms, Rc of 7 and Rm of 16, a request is sent at 0, 500, 1500,
 * 3500, 7500, 15500 and 31500 ms, and ends at 39500 ms. */
static void times(void) {
    static const uint64_t sent[] = {0, 500, 1500, 3500, 7500, 15500, 31500, 39500};
    stunp_endpoint_client client = client_of(NULL, NULL);
    const uint64_t start = 7 * SECOND;
    uint64_t number = ask(&client, STUNP_BINDING, NULL, start);
    uint8_t first[20];
    for (size_t i = 0; i < 7; i++) {
        uint64_t now = start + sent[i] * MILLISECOND;
        if (i > 0) want("early", polled(&client, now - 1), STUNP_WAIT);
        want("transmit", polled(&client, now), STUNP_TRANSMIT);
        want("length", (int64_t)event.length, 20);
        if (i == 0) memcpy(first, out, 20);
        want_same("the same bytes", out, first, 20);
        want("then", polled(&client, now), STUNP_WAIT);
        want("until", (int64_t)(event.until - start), (int64_t)(sent[i + 1] * MILLISECOND));
        want("timeout", stunp_poll_timeout(&event, now),
             (int64_t)(sent[i + 1] - sent[i]) + 1);
    }
    want("ended", polled(&client, start + 39500 * MILLISECOND), STUNP_ENDED);
    want("timed out", event.result, STUNP_RESULT_TIMED_OUT);
    want("number", event.request == number, true);
    want("no response", (int64_t)event.length, 0);
    want("nothing dropped", event.dropped.count, 0);
    is_idle(&client, start + 39500 * MILLISECOND);
    stunp_endpoint_client_free(&client);
    /* Over a stream a request is sent once, and the client waits as long. */
    stunp_endpoint_client_settings settings = settings_of(NULL, NULL);
    settings.is_stream = true;
    client = client_with(&settings);
    ask(&client, STUNP_BINDING, NULL, start);
    want("once", polled(&client, start), STUNP_TRANSMIT);
    want("then", polled(&client, start), STUNP_WAIT);
    want("until", (int64_t)(event.until - start), (int64_t)(39500 * MILLISECOND));
    want("ended", polled(&client, event.until), STUNP_ENDED);
    stunp_endpoint_client_free(&client);
    want_no_blocks("times");
}

/* How each response ends a request. */
static void ends(void) {
    const struct { uint32_t code, type, result, told; } rows[] = {
        {0, 0, STUNP_RESULT_SUCCESS, 0},
        {500, 0, STUNP_RESULT_REFUSED, 500},
        {300, STUNP_ALTERNATE_SERVER, STUNP_RESULT_REDIRECTED, 300},
        {0, 0x7777, STUNP_RESULT_NOT_UNDERSTOOD, 0},
        {1, 0, STUNP_RESULT_MALFORMED, 0},
    };
    stunp_endpoint_client client = client_of(NULL, NULL);
    uint8_t bytes[512];
    for (size_t i = 0; i < COUNT(rows); i++) {
        uint64_t number = ask(&client, STUNP_BINDING, NULL, i);
        want("number", (int64_t)number, (int64_t)i);
        want("transmit", polled(&client, i), STUNP_TRANSMIT);
        want("of", (int64_t)event.request, (int64_t)number);
        stunp_writer told = answer(rows[i].code == 1 ? 0 : rows[i].code, bytes);
        if (rows[i].code == 1) told = stunp_write(STUNP_ERROR, STUNP_BINDING, out + 8, bytes, 512);
        if (rows[i].type == STUNP_ALTERNATE_SERVER)
            stunp_write_address(&told, STUNP_ALTERNATE_SERVER, seen.octets, 4, seen.port);
        else if (rows[i].type != 0)
            stunp_write_number(&told, rows[i].type, 7, 4);
        uint32_t why = 99;
        want("response", heard(&client, &told, i, &why), STUNP_IS_RESPONSE);
        want("why is left", why, 99);
        want("twice", heard(&client, &told, i, &why), STUNP_NOT_OURS);
        want("ended", polled(&client, i), STUNP_ENDED);
        want("result", event.result, rows[i].result);
        want("which", (int64_t)event.request, (int64_t)number);
        want("code", event.code, rows[i].told);
        want("type", event.not_understood,
             rows[i].result == STUNP_RESULT_NOT_UNDERSTOOD ? 0x7777 : 0);
        want("signed", event.signed_by, 0);
        want("length", (int64_t)event.length, (int64_t)told.length);
        want_same("response", out, bytes, event.length);
        is_idle(&client, i);
    }
    stunp_endpoint_client_free(&client);
    /* The caller understands a type. */
    static const uint16_t more[] = {0x7777};
    stunp_endpoint_client_settings settings = settings_of(NULL, NULL);
    settings.understood = more, settings.understood_count = 1;
    client = client_with(&settings);
    ask(&client, STUNP_BINDING, NULL, 0);
    want("transmit", polled(&client, 0), STUNP_TRANSMIT);
    stunp_writer told = answer(0, bytes);
    stunp_write_number(&told, 0x7777, 7, 4);
    want("response", heard(&client, &told, 0, NULL), STUNP_IS_RESPONSE);
    want("ended", polled(&client, 0), STUNP_ENDED);
    want("understood", event.result, STUNP_RESULT_SUCCESS);
    stunp_endpoint_client_free(&client);
    want_no_blocks("ends");
}

/* Datagrams that are not for a client, and those that it drops. */
static void strangers(void) {
    stunp_endpoint_client client = client_of(NULL, NULL);
    uint8_t bytes[512];
    uint64_t number = ask(&client, STUNP_BINDING, NULL, 0);
    stunp_dropped dropped = {9, 9, 9};
    want("transmit", polled(&client, 0), STUNP_TRANSMIT);
    stunp_writer told = answer(0, bytes);
    stunp_address other = here;
    other.port++;
    want("elsewhere", stunp_endpoint_client_receive(&client, bytes, told.length, &other, 0, NULL),
         STUNP_NOT_OURS);
    want("nothing", stunp_endpoint_client_receive(&client, NULL, 0, &here, 0, NULL), STUNP_NOT_OURS);
    want("text", stunp_endpoint_client_receive(&client, BYTES("text"), &here, 0, NULL),
         STUNP_NOT_OURS);
    want("a request", stunp_endpoint_client_receive(&client, out, event.length, &here, 0, NULL),
         STUNP_NOT_OURS);
    bytes[8] ^= 1;
    want("another id", stunp_endpoint_client_receive(&client, bytes, told.length, &here, 0, NULL),
         STUNP_NOT_OURS);
    bytes[8] ^= 1;
    stunp_writer indication = stunp_write(STUNP_INDICATION, STUNP_BINDING, id, bytes + 256, 256);
    want("indication", heard(&client, &indication, 0, NULL), STUNP_IS_INDICATION);
    /* An answer whose FINGERPRINT is wrong is dropped, and the request stays outstanding. */
    want("none yet", stunp_endpoint_client_dropped(&client, number, &dropped), 1);
    want("count", dropped.count, 0);
    stunp_write_fingerprint(&told);
    bytes[told.length - 1] ^= 1;
    uint32_t why = 0;
    want("damaged", heard(&client, &told, 0, &why), STUNP_DROPPED);
    want("why", why, STUNP_DROP_WRONG_FINGERPRINT);
    want("dropped", stunp_endpoint_client_dropped(&client, number, &dropped), 1);
    want("count", dropped.count, 1);
    want("why", dropped.why, STUNP_DROP_WRONG_FINGERPRINT);
    want("code", dropped.code, 0);
    bytes[told.length - 1] ^= 1;
    /* The same address mapped into IPv6. */
    const stunp_address spelled = {{0, 0, 0, 0, 0, 0, 0, 0, 0, 0, 255, 255, 192, 0, 2, 1}, 3478, 16};
    want("spelled", stunp_endpoint_client_receive(&client, bytes, told.length, &spelled, 0, NULL),
         STUNP_IS_RESPONSE);
    want("cancel", stunp_endpoint_client_cancel(&client, number), 0);
    want("ended", polled(&client, 0), STUNP_ENDED);
    want("dropped", stunp_endpoint_client_dropped(&client, number, &dropped), 0);
    /* A request that is cancelled. */
    number = ask(&client, STUNP_BINDING, NULL, 0);
    want("cancel", stunp_endpoint_client_cancel(&client, number), 1);
    want("twice", stunp_endpoint_client_cancel(&client, number), 0);
    want("ended", polled(&client, 0), STUNP_ENDED);
    want("cancelled", event.result, STUNP_RESULT_CANCELLED);
    want("which", (int64_t)event.request, (int64_t)number);
    want("text", strcmp(stunp_result_text(event.result), "cancelled"), 0);
    is_idle(&client, 0);
    stunp_endpoint_client_free(&client);
    want_no_blocks("strangers");
}

/* Messages are signed by a key that both sides have. One that is not signed by it is dropped, and
 * its code is told. */
static void short_term(void) {
    uint8_t bytes[512];
    const stunp_algorithm algorithms[] = {STUNP_SHA1, STUNP_SHA256};
    for (size_t i = 0; i < COUNT(algorithms); i++) {
        stunp_endpoint_client_settings settings = settings_of("name", "key");
        settings.credentials = STUNP_SHORT_TERM, settings.has_fingerprint = true;
        settings.algorithms = i == 0 ? 0 : STUNP_SHA256, settings.software = "test";
        stunp_endpoint_client client = client_with(&settings);
        uint64_t number = ask(&client, STUNP_BINDING, NULL, 0);
        want("transmit", polled(&client, 0), STUNP_TRANSMIT);
        want("signed", stunp_verify(out, event.length, (const uint8_t *)"key", 3), algorithms[i]);
        want("FINGERPRINT", stunp_has_right_fingerprint(out, event.length), true);
        size_t length;
        int64_t at = stunp_find_text(out, event.length, STUNP_SOFTWARE, &length);
        want("SOFTWARE", length == 4 && memcmp(out + at, "test", 4) == 0, true);
        stunp_writer told = answer(438, bytes);
        uint32_t why = 0;
        want("unsigned", heard(&client, &told, 0, &why), STUNP_DROPPED);
        stunp_dropped dropped;
        want("dropped", stunp_endpoint_client_dropped(&client, number, &dropped), 1);
        want("code", dropped.code, 438);
        want("why", dropped.why, why);
        told = answer(0, bytes);
        stunp_write_integrity(&told, algorithms[i], (const uint8_t *)"another", 7);
        want("another key", heard(&client, &told, 0, &why), STUNP_DROPPED);
        want("why", why, STUNP_DROP_NOT_VERIFIED);
        want("at the end", polled(&client, 39500 * MILLISECOND) >= 0, true);
        told = answer(0, bytes);
        stunp_write_integrity(&told, algorithms[i], (const uint8_t *)"key", 3);
        stunp_endpoint_client_free(&client);
        client = client_with(&settings);
        ask(&client, STUNP_BINDING, NULL, 0);
        want("transmit", polled(&client, 0), STUNP_TRANSMIT);
        told = answer(0, bytes);
        stunp_write_integrity(&told, algorithms[i], (const uint8_t *)"key", 3);
        want("signed", heard(&client, &told, 0, NULL), STUNP_IS_RESPONSE);
        want("ended", polled(&client, 0), STUNP_ENDED);
        want("by", event.signed_by, algorithms[i]);
        stunp_endpoint_client_free(&client);
    }
    want_no_blocks("short-term");
}

/* A client with a user and a server of this header exchange messages until the request ends; the
 * client's datagrams are counted. */
static int exchange(stunp_endpoint_client *client, const stunp_endpoint_server *server,
                    const stunp_endpoint_users *users) {
    static uint8_t said[STUNP_LONGEST_MESSAGE];
    int sent = 0;
    uint64_t now = 0;
    for (int64_t kind; (kind = polled(client, now)) != STUNP_ENDED;) {
        stunp_received got = STUNP_INIT(stunp_received);
        if (kind == STUNP_WAIT && now != 0) return -1;
        if (kind == STUNP_WAIT) {
            now = 500 * MILLISECOND;
            continue;
        }
        sent++;
        kind = stunp_endpoint_server_receive(server, users, out, event.length, &mine, 1000, said,
                                             sizeof said, &got);
        if (kind == STUNP_IS_REQUEST) {
            stunp_writer told = stunp_reply_success(&got.reply, said, sizeof said);
            stunp_write_xor_address(&told, STUNP_XOR_RELAYED_ADDRESS, seen.octets, 4, seen.port);
            kind = stunp_reply_finish(&got.reply, &told);
            got.length = (size_t)kind;
        }
        want("answer", kind > 0, true);
        int64_t came = stunp_endpoint_client_receive(client, said, got.length, &here, now, NULL);
        want("came", came == STUNP_IS_RESPONSE || came == STUNP_DROPPED, true);
    }
    return sent;
}

static void user(void) {
    const uint8_t secret[32] = {7};
    stunp_endpoint_server_settings settings = STUNP_INIT(stunp_endpoint_server_settings);
    settings.realm = "realm", settings.secret = secret;
    stunp_endpoint_server server = {0};
    stunp_endpoint_users users = {0};
    static const uint16_t types[] = {STUNP_LIFETIME, STUNP_XOR_PEER_ADDRESS};
    settings.understood = types, settings.understood_count = COUNT(types);
    want("server", stunp_endpoint_server_new(&server, &settings), 0);
    want("users", stunp_endpoint_users_new(&users, &server), 0);
    want("user", stunp_endpoint_users_add(&users, "name", 4, "password", 8), 0);
    uint8_t room[96];
    stunp_address peer = {{0x20, 0x01, 0x0d, 0xb8, [15] = 1}, 7, 16}, found = {{0}, 0, 16};
    stunp_body body = stunp_body_on(room, sizeof room);
    want("peer", stunp_body_add_peer(&body, &peer), 0);
    want("number", stunp_body_add_number(&body, STUNP_LIFETIME, 600, 4), 0);
    want("unknown", stunp_body_add(&body, 0xc0de, "abc", 3), 0);
    stunp_endpoint_client client = client_of("name", "password");
    uint64_t number = ask(&client, STUNP_ALLOCATE, &body, 0);
    want("datagrams", exchange(&client, &server, &users), 2);
    want("result", event.result, STUNP_RESULT_SUCCESS);
    want("which", (int64_t)event.request, (int64_t)number);
    want("signed", event.signed_by != 0, true);
    /* The next request is signed from the start, and its body is what was added, in the same
     * order. */
    ask(&client, STUNP_ALLOCATE, &body, 0);
    want("transmit", polled(&client, 0), STUNP_TRANSMIT);
    want("peer", stunp_find_xor_address(out, event.length, STUNP_XOR_PEER_ADDRESS, found.octets, 16,
                                        &found.port), 16);
    want_same("peer", &found, &peer, sizeof peer);
    uint64_t value;
    want("number", stunp_find_number(out, event.length, STUNP_LIFETIME, &value), 4);
    want("value", (int64_t)value, 600);
    want("in order", out[20] << 8 | out[21], STUNP_XOR_PEER_ADDRESS);
    want_same("in order", out + 44, "\0\x0d\0\4\0\0\2\x58\xc0\xde\0\3abc\0", 16);
    stunp_endpoint_client_free(&client);
    /* With a wrong password an unsigned request is sent, and then a signed one, twice. */
    client = client_of("name", "another");
    ask(&client, STUNP_ALLOCATE, NULL, 0);
    want("datagrams", exchange(&client, &server, &users), 3);
    want("unauthorized", event.result, STUNP_RESULT_UNAUTHORIZED);
    stunp_endpoint_client_free(&client);
    stunp_endpoint_users_free(&users);
    stunp_endpoint_server_free(&server);
    want_no_blocks("long-term");
}

static void bodies(void) {
    static uint8_t room[STUNP_BODY_MAX + 8];
    stunp_endpoint_client client = client_of(NULL, NULL), empty = {0};
    stunp_body body = stunp_body_on(room, 7);
    want("small", stunp_body_add(&body, 0xc0de, "abc", 3), STUNP_BUFFER_TOO_SMALL);
    want("for ever", stunp_body_add(&body, 0xc0de, "", 0), STUNP_BUFFER_TOO_SMALL);
    want("and then", stunp_endpoint_client_request(&empty, 9999, &body, 0, NULL),
         STUNP_BUFFER_TOO_SMALL);
    body = stunp_body_on(room, sizeof room);
    want("type", stunp_body_add(&body, 65536, large, sizeof large), STUNP_BAD_ARGUMENT);
    body = stunp_body_on(room, sizeof room);
    want("peer", stunp_body_add(&body, STUNP_XOR_PEER_ADDRESS, large, sizeof large),
         STUNP_NOT_ALLOWED);
    body = stunp_body_on(room, sizeof room);
    want("nowhere", stunp_body_add_peer(&body, &nowhere), STUNP_BAD_ARGUMENT);
    body = stunp_body_on(room, sizeof room);
    want("nine bytes", stunp_body_add_number(&body, 0xc0de, 1, 9), STUNP_BAD_ARGUMENT);
    /* What stunp_write_number refuses. */
    for (size_t size = 0; size <= 16; size++)
        for (int bits = 0; bits <= 64; bits++) {
            const uint64_t number = bits == 64 ? UINT64_MAX : ((uint64_t)1 << bits) - 1;
            const uint8_t id[STUNP_ID_LENGTH] = {1};
            uint8_t bytes[64];
            body = stunp_body_on(room, sizeof room);
            stunp_writer writer = stunp_write(STUNP_REQUEST, 1, id, bytes, sizeof bytes);
            stunp_write_number(&writer, 0xc0de, number, size);
            want("as a writer", stunp_body_add_number(&body, 0xc0de, number, size),
                 stunp_written(&writer));
            if (body.refusal == 0) want_same("the same", room, bytes + 20, body.length);
            want("for ever", stunp_body_add_number(&body, 0xc0de, 1, 4), body.refusal);
        }
    body = stunp_body_on(room, sizeof room);
    want("large", stunp_body_add(&body, 0xc0de, large, STUNP_BODY_MAX - 3), STUNP_MESSAGE_TOO_LONG);
    body = stunp_body_on(room, sizeof room);
    want("no bytes", stunp_body_add(&body, 0xc0de, NULL, 0), 0);
    want("eight bytes", stunp_body_add_number(&body, 0xc0de, 0x0102030405060708, 8), 0);
    want_same("encoded", room, "\xc0\xde\0\0\xc0\xde\0\x08\1\2\3\4\5\6\7\x08", 16);
    want("largest", stunp_body_add(&body, 0xc0de, large, STUNP_BODY_MAX - 16 - 4), 0);
    want("full", (int64_t)body.length, STUNP_BODY_MAX);
    ask(&client, STUNP_BINDING, &body, 0);
    want("transmit", polled(&client, 0), STUNP_TRANSMIT);
    want("length", (int64_t)event.length, 20 + STUNP_BODY_MAX);
    want_same("as given", out + 20, room, STUNP_BODY_MAX);
    /* The client writes these itself, or they depend on the transaction ID. */
    static const uint16_t types[] = {STUNP_USERNAME, STUNP_MESSAGE_INTEGRITY, STUNP_ERROR_CODE,
                                     STUNP_REALM, STUNP_NONCE, STUNP_XOR_MAPPED_ADDRESS,
                                     STUNP_SOFTWARE, STUNP_FINGERPRINT};
    for (size_t i = 0; i < COUNT(types); i++) {
        body = stunp_body_on(room, sizeof room);
        want("added", stunp_body_add(&body, types[i], "abcd", 4), 0);
        want("own", stunp_endpoint_client_request(&client, STUNP_BINDING, &body, 0, NULL),
             STUNP_NOT_ALLOWED);
    }
    uint64_t number = 77;
    want("half", stunp_endpoint_client_request_with(&client, 1, (const uint8_t *)"\xc0\xde\0\4abc",
         7, 0, &number), STUNP_BAD_ARGUMENT);
    want("family", stunp_endpoint_client_request_with(&client, 1,
         (const uint8_t *)"\0\x12\0\x08\0\2\0\7abcd", 12, 0, &number), STUNP_BAD_ARGUMENT);
    want("left", (int64_t)number, 77);
    stunp_endpoint_client_free(&client);
    want_no_blocks("bodies");
}

/* If there is no room for the bytes, they are lost like a datagram, and are sent again. */
static void room(void) {
    stunp_endpoint_client client = client_of(NULL, NULL);
    ask(&client, STUNP_BINDING, NULL, 0);
    event = (stunp_event)STUNP_INIT(stunp_event);
    memset(out, 0xaa, 64), memcpy(before, out, 64);
    want("small", stunp_endpoint_client_poll(&client, 0, out, 19, &event), STUNP_BUFFER_TOO_SMALL);
    want_same("nothing is written", out, before, 64);
    want("failed", event.kind, STUNP_FAILED);
    want("no length", (int64_t)event.length, 0);
    want("needed", (int64_t)event.needed, 20);
    want("nothing has ended", event.result, 0);
    want("wait", polled(&client, 0), STUNP_WAIT);
    want("again", polled(&client, event.until), STUNP_TRANSMIT);
    want("it had room", (int64_t)event.needed, 0);
    const uint64_t sent = event.until;
    want("no event", stunp_endpoint_client_poll(&client, sent, NULL, 0, NULL), STUNP_WAIT);
    /* If there is no room for a response, its request and its result are still told. */
    uint8_t bytes[512];
    stunp_writer told = answer(0, bytes);
    want("read", heard(&client, &told, sent, NULL), STUNP_IS_RESPONSE);
    want("lost", stunp_endpoint_client_poll(&client, sent, out, told.length - 1, &event),
         STUNP_BUFFER_TOO_SMALL);
    want("failed", event.kind, STUNP_FAILED);
    want("no length", (int64_t)event.length, 0);
    want("needed", (int64_t)event.needed, (int64_t)told.length);
    want("request", (int64_t)event.request, 0);
    want("result", event.result, STUNP_RESULT_SUCCESS);
    /* After each other error, too, the event of an earlier call is gone. */
    event.kind = STUNP_TRANSMIT, event.length = 9;
    stunp_endpoint_client none = {0};
    want("empty", stunp_endpoint_client_poll(&none, 0, out, 9, &event), STUNP_EMPTY_HANDLE);
    want("failed", event.kind, STUNP_FAILED);
    want("no length", (int64_t)event.length, 0);
    want("no result", event.result, 0);
    event.kind = STUNP_TRANSMIT, event.length = 9, event.code = 9, event.size--;
    want("size", stunp_endpoint_client_poll(&client, 0, out, 9, &event), STUNP_BAD_ARGUMENT);
    want("failed", event.kind, STUNP_FAILED);
    want("no length", (int64_t)event.length, 0);
    want("left", event.code, 9);
    stunp_endpoint_client_free(&client);
    want_no_blocks("room");
}

/* Many requests are due at once. An answer that is read between two of them ends the request that
 * it answers. */
static void many(void) {
    enum { REQUESTS = 300 };
    stunp_endpoint_client client = client_of(NULL, NULL);
    uint8_t bytes[512];
    stunp_writer told = {0};
    for (int i = 0; i < REQUESTS; i++) {
        ask(&client, STUNP_BINDING, NULL, 0);
        want("transmit", polled(&client, 0), STUNP_TRANSMIT);
        if (i == REQUESTS - 1) told = answer(0, bytes);
    }
    want("again", polled(&client, 600 * MILLISECOND), STUNP_TRANSMIT);
    want("read", heard(&client, &told, 600 * MILLISECOND, NULL), STUNP_IS_RESPONSE);
    int sent = 1, ended = 0;
    for (int64_t kind; (kind = polled(&client, 600 * MILLISECOND)) != STUNP_WAIT;)
        if (kind == STUNP_TRANSMIT) sent++;
        else ended++;
    want("ended", ended, 1);
    want("sent again", sent, REQUESTS - 1);
    stunp_endpoint_client_free(&client);
    want_no_blocks("many");
}

/* Each allocation of a request with a user is refused once. Nothing breaks, and the client can
 * still be used. */
static void memory(void) {
    for (size_t n = 1, failed = 1; failed > 0; n++) {
        uint8_t bytes[512];
        stunp_endpoint_client client = client_of(NULL, NULL);
        uint64_t number = 77;
        stunp_heap_refuse(n);
        int64_t asked = stunp_endpoint_client_request(&client, STUNP_BINDING, NULL, 0, &number);
        failed = 0;
        if (asked < 0) {
            want("memory", asked, STUNP_OUT_OF_MEMORY);
            want("left", (int64_t)number, 77);
            is_idle(&client, 0);
            number = ask(&client, STUNP_BINDING, NULL, 0), failed++;
        }
        want("number", (int64_t)number, 0);
        want("transmit", polled(&client, 0), STUNP_TRANSMIT);
        stunp_writer told = answer(0, bytes);
        uint32_t why = 0;
        if (heard(&client, &told, 0, &why) == STUNP_DROPPED) {
            want("why", why, STUNP_DROP_OUT_OF_MEMORY);
            want("again", heard(&client, &told, 0, NULL), STUNP_IS_RESPONSE);
            failed++;
        }
        stunp_heap_refuse(0);
        want("ended", polled(&client, 0), STUNP_ENDED);
        want("success", event.result, STUNP_RESULT_SUCCESS);
        stunp_endpoint_client_free(&client);
        want_no_blocks("memory");
    }
}

/* The attributes of TURN whose number takes up only some of their four bytes (RFC 8656, section
 * 18). */
static void turn_bodies(void) {
    static const uint8_t wanted[] = {0x00, 0x19, 0, 4, 17, 0, 0, 0, 0x00, 0x0c, 0, 4,
                                     0x4f, 0xff, 0, 0, 0x00, 0x17, 0, 4, 2, 0, 0, 0,
                                     0x00, 0x17, 0, 4, 1, 0, 0, 0};
    uint8_t bytes[64];
    stunp_body body = stunp_body_on(bytes, sizeof bytes);
    want("transport", stunp_body_add_requested_transport(&body, 17), 0);
    want("channel", stunp_body_add_channel_number(&body, 0x4fff), 0);
    want("family", stunp_body_add_requested_family(&body, 16), 0);
    want("family", stunp_body_add_requested_family(&body, 4), 0);
    want("length", (int64_t)body.length, sizeof wanted);
    want_same("bytes", bytes, wanted, sizeof wanted);
    want("family", stunp_body_add_requested_family(&body, 6), STUNP_BAD_ARGUMENT);
    want("for ever", stunp_body_add_requested_transport(&body, 17), STUNP_BAD_ARGUMENT);
    for (uint32_t channel = 0x3fff; channel <= 0x5000; channel += 0x1001) {
        body = stunp_body_on(bytes, sizeof bytes);
        want("channel", stunp_body_add_channel_number(&body, channel), STUNP_BAD_ARGUMENT);
        want("nothing", (int64_t)body.length, 0);
    }
    body = stunp_body_on(bytes, 7);
    want("small", stunp_body_add_channel_number(&body, 0x4000), STUNP_BUFFER_TOO_SMALL);
}

/* A keepalive is due at its time, only once however late the call comes, and never if none was
 * set. */
static void keepalives(void) {
    const uint64_t second = 1000 * MILLISECOND;
    stunp_keepalive every = stunp_keepalive_every(15 * second, 100);
    want("first", every.next == 15 * second + 100, true);
    want("before", stunp_keepalive_is_due(&every, 15 * second + 99), false);
    want("until", stunp_keepalive_until(&every, UINT64_MAX) == every.next, true);
    want("until", stunp_keepalive_until(&every, 7) == 7, true);
    want("at", stunp_keepalive_is_due(&every, 15 * second + 100), true);
    want("once", stunp_keepalive_is_due(&every, 15 * second + 100), false);
    want("late", stunp_keepalive_is_due(&every, 1000 * second), true);
    want("once", stunp_keepalive_is_due(&every, 1000 * second), false);
    want("next", every.next == 1015 * second, true);
    every.next = 1001 * second;
    want("set", stunp_keepalive_is_due(&every, 1001 * second), true);
    static const uint64_t lifetimes[][2] = {{600, 540}, {3600, 3540}, {120, 60}};
    for (size_t i = 0; i < COUNT(lifetimes); i++)
        want("before", stunp_keepalive_before(lifetimes[i][0], 5).next
                       == 5 + lifetimes[i][1] * second, true);
    want("half", stunp_keepalive_before(119, 0).next == 59500 * MILLISECOND, true);
    want("half", stunp_keepalive_before(1, 0).next == 500 * MILLISECOND, true);
    stunp_keepalive never[] = {stunp_keepalive_every(0, 9), stunp_keepalive_before(0, 9),
                               stunp_keepalive_before(UINT64_MAX, 9),
                               stunp_keepalive_every(UINT64_MAX, 9)};
    for (size_t i = 0; i < COUNT(never); i++) {
        want("never", stunp_keepalive_is_due(&never[i], UINT64_MAX - 1), false);
        want("never", stunp_keepalive_until(&never[i], 12345) == 12345, true);
    }
    uint8_t bytes[28], copy[28] = {0};
    memset(bytes, 0, sizeof bytes);
    want("small", stunp_build_keepalive(seed, bytes, 27), STUNP_BUFFER_TOO_SMALL);
    want_same("nothing", bytes, copy, sizeof bytes);
    want("keepalive", stunp_build_keepalive(seed, bytes, 28), 28);
    want("class", stunp_class(bytes, 28), STUNP_INDICATION);
    want("method", stunp_method(bytes, 28), STUNP_BINDING);
    want("fingerprint", stunp_has_right_fingerprint(bytes, 28), true);
    want_same("id", bytes + 8, seed, 12);
}

/* The worked example of the header, run against a peer at the other end of a pair of sockets. */
static void worked(void) {
    int ends_of[2];
    stunp_address found = {{0}, 0, 0};
    want("sockets", socketpair(AF_UNIX, SOCK_DGRAM, 0, ends_of), 0);
    pid_t peer = fork();
    if (peer == 0) {
        uint8_t bytes[512];
        event.length = (size_t)recv(ends_of[1], out, sizeof out, 0);
        stunp_writer told = answer(0, bytes);
        _exit(send(ends_of[1], bytes, told.length, 0) < 0);
    }
    want("my address", my_address(ends_of[0], &here, seed, &found), 4);
    want_same("seen", &found, &seen, sizeof seen);
    close(ends_of[0]), close(ends_of[1]);
    want_no_blocks("worked");
}

int main(void) {
    settings_in_order();
    handles();
    times();
    ends();
    strangers();
    short_term();
    user();
    bodies();
    turn_bodies();
    keepalives();
    room();
    many();
    memory();
    worked();
    puts("client: passed");
    return 0;
}
