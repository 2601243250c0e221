/* The part of endpoint.c that is about clients: two clients with the same settings, of which one
 * has allocations refused, at a server of servers.h over a network that loses and changes
 * datagrams. */
#ifndef STUN_FUZZ_CLIENTS_H
#define STUN_FUZZ_CLIENTS_H

#include "servers.h"

enum { MOST_REQUESTS = 32, STORED = 4, MOST_POLLS = 400 };

static struct {
    stunp_endpoint_client client, twin;
    uint64_t now, unix_seconds;
    uint64_t requests;             /* how many were started */
    bool has_ended[MOST_REQUESTS]; /* each by its number */
    bool is_right;                 /* the server has this user, of this kind of credentials */
    bool has_refused;              /* the twin dropped something for want of memory */
    bool has_forgotten;            /* it may have forgotten a message that another one was sent in
                                    * place of, for want of memory, and be asked otherwise since */
    uint8_t sent[STORED][ROOM];    /* the latest messages that were sent */
    size_t sent_lengths[STORED], sent_number;
} asking;

static void open_clients(void) {
    static const uint8_t seed[32] = {9, 8, 7};
    static const uint16_t types[] = {0x7ffe};
    stunp_endpoint_client_settings settings = STUNP_INIT(stunp_endpoint_client_settings);
    uint8_t person = choose() % (USERS + 1);
    settings.server = places[0], settings.seed = seed;
    if (person < USERS) settings.name = people[person].name;
    if (person < USERS) settings.password = maybe(8) ? "wrong" : people[person].password;
    settings.credentials = (stunp_credentials)(choose() % 2);
    settings.algorithms = choose() % (settings.credentials == STUNP_SHORT_TERM ? 3 : 4);
    settings.anonymous_username = (stunp_feature)(choose() % 3);
    settings.challenges = choose() % 4;
    if (maybe(4)) settings.software = "fuzz";
    if (maybe(4)) settings.understood = types, settings.understood_count = 1;
    settings.is_stream = maybe(8), settings.accepts_unsigned = maybe(8);
    settings.has_fingerprint = maybe(2), settings.requires_fingerprint = maybe(8);
    if (maybe(4)) settings.initial = choose_number(), settings.last = choose_number();
    if (maybe(4)) settings.transmissions = choose() % 5, settings.longest = choose_number();
    asking.is_right = person < USERS && settings.credentials == serving.settings.credentials
                      && strcmp(settings.password, "wrong") != 0
                      && !settings.requires_fingerprint;
    require(stunp_endpoint_client_new(&asking.client, &settings) == 0, "no client");
    for (size_t n = 1;; n++) {
        stunp_heap_refuse(n);
        int64_t made = stunp_endpoint_client_new(&asking.twin, &settings);
        stunp_heap_refuse(0);
        require(made == 0 || (made == STUNP_OUT_OF_MEMORY && !asking.twin.is_full), "no twin");
        if (made == 0) break;
    }
}

/* ---- Steps */

/* A body of the input. */
static stunp_body choose_body(uint8_t *room, size_t length) {
    stunp_body body = stunp_body_on(room, length);
    uint8_t bytes[64];
    for (uint8_t parts = choose() % 4; parts > 0; parts--) switch (choose() % 6) {
        case 0: stunp_body_add_requested_transport(&body, choose()); break;
        case 1: stunp_body_add_channel_number(&body, 0x4000u + choose()); break;
        case 2: stunp_body_add_peer(&body, choose_place()); break;
        case 3: stunp_body_add_number(&body, STUNP_LIFETIME, choose_number(), 4); break;
        case 4: stunp_body_add_requested_family(&body, choose() % 20); break;
        default: stunp_body_add(&body, choose() * 257u, bytes, choose_bytes(bytes, sizeof bytes));
        }
    require(body.length <= body.room && body.refusal <= 0, "a body outside");
    return body;
}

static void start_request(void) {
    static const uint32_t methods[] = {STUNP_BINDING, STUNP_ALLOCATE, STUNP_REFRESH, 4095, 4096};
    uint8_t room[256];
    uint64_t number = 77, twins = 77;
    uint32_t method = methods[choose() % 5];
    if (asking.requests == MOST_REQUESTS) return;
    stunp_body body = choose_body(room, choose());
    const stunp_body *with = maybe(2) ? &body : NULL;
    int64_t asked = named(stunp_endpoint_client_request(&asking.client, method, with, asking.now,
                                                        &number));
    for (size_t n = choose() % 32;; n = 0) {
        stunp_heap_refuse(n);
        int64_t same = stunp_endpoint_client_request(&asking.twin, method, with, asking.now,
                                                     &twins);
        stunp_heap_refuse(0);
        if (same == STUNP_OUT_OF_MEMORY && n > 0) continue;
        require(same == asked, "another answer to a request");
        break;
    }
    require((asked == 0) == (number == asking.requests) && number == twins, "another number");
    if (asked == 0) asking.requests++;
}

/* What a client does next, without an allocation. */
static int64_t poll_client(stunp_endpoint_client *client, stunp_event *event, uint8_t *to,
                           size_t room) {
    size_t asked = stunp_heap_asked();
    memset(event, 7, sizeof *event);
    event->size = sizeof *event;
    fill(to, ROOM);
    int64_t kind = named(stunp_endpoint_client_poll(client, asking.now, to, room, event));
    require(stunp_heap_asked() == asked, "a poll allocates");
    require(event->kind == (kind < 0 ? (uint32_t)STUNP_FAILED : (uint32_t)kind), "another kind");
    require_unwritten(to, event->length, ROOM, "a poll writes more");
    return kind;
}

static void require_same_event(const stunp_event *one, const stunp_event *other) {
    require(one->kind == other->kind && one->result == other->result
                && one->request == other->request && one->until == other->until
                && one->length == other->length && one->needed == other->needed
                && one->code == other->code && one->not_understood == other->not_understood
                && one->signed_by == other->signed_by, "twins do otherwise");
    if (!asking.has_refused)
        require(one->dropped.count == other->dropped.count && one->dropped.why == other->dropped.why
                    && one->dropped.code == other->dropped.code, "twins drop otherwise");
    require(memcmp(out, again, ROOM) == 0, "twins write otherwise");
}

static void end_request(const stunp_event *event) {
    require(event->request < asking.requests && !asking.has_ended[event->request],
            "a request ends that was not started, or twice");
    require(event->result >= STUNP_RESULT_SUCCESS
                && event->result <= STUNP_RESULT_TOO_MANY_CHALLENGES,
            "another result");
    if (event->result == STUNP_RESULT_SUCCESS)
        require(stunp_class(out, event->length) == STUNP_SUCCESS, "a success that is none");
    if (event->result == STUNP_RESULT_REFUSED)
        require(stunp_error_code(out, event->length) == (int64_t)event->code, "another code");
    asking.has_ended[event->request] = true;
}

/* Polls both clients until they wait. Some have no room for what they would write. */
static void poll_clients(void) {
    stunp_event event, same;
    for (int polls = 0; polls < MOST_POLLS; polls++) {
        size_t room = maybe(32) ? choose() : ROOM;
        int64_t kind = poll_client(&asking.client, &event, out, room);
        int64_t twins = poll_client(&asking.twin, &same, again, room);
        require(twins == kind || asking.has_forgotten, "a twin is asked otherwise");
        if (!asking.has_forgotten) require_same_event(&event, &same);
        if (kind == STUNP_WAIT) {
            require(event.until > asking.now || asking.now == UINT64_MAX, "a wait in the past");
            return;
        }
        if (kind == STUNP_BUFFER_TOO_SMALL) require(event.needed > room, "a small room");
        if (kind == STUNP_BUFFER_TOO_SMALL && event.result != 0)
            asking.has_ended[event.request] = true;
        if (kind == STUNP_ENDED) end_request(&event);
        if (kind != STUNP_TRANSMIT) continue;
        require(stunp_class(out, event.length) == STUNP_REQUEST, "no request is sent");
        size_t at = asking.sent_number++ % STORED;
        memcpy(asking.sent[at], out, event.length), asking.sent_lengths[at] = event.length;
    }
    require(asking.now == UINT64_MAX, "polls without an end");
}

/* Both clients read a datagram. Returns what it was. */
static int64_t hear(const uint8_t *bytes, size_t length, const stunp_address *from, uint32_t *why) {
    uint32_t same_why = 7;
    *why = 7;
    int64_t kind = named(stunp_endpoint_client_receive(&asking.client, bytes, length, from,
                                                       asking.now, why));
    for (size_t n = choose() % 32;; n = 0) {
        same_why = 7;
        size_t asked = stunp_heap_asked();
        stunp_heap_refuse(n);
        int64_t same = stunp_endpoint_client_receive(&asking.twin, bytes, length, from, asking.now,
                                                     &same_why);
        bool was_refused = n > 0 && stunp_heap_asked() - asked >= n;
        stunp_heap_refuse(0);
        if (was_refused && same == STUNP_DROPPED && same_why == STUNP_DROP_OUT_OF_MEMORY) {
            asking.has_refused = true;
            continue;
        }
        require((same == kind && same_why == *why) || asking.has_forgotten,
                "a twin hears otherwise");
        asking.has_forgotten = asking.has_forgotten || was_refused;
        break;
    }
    require(kind == STUNP_DROPPED || *why == 7 || *why == 0, "a reason for nothing");
    return kind;
}

/* A message that was sent reaches the server, and its answer the clients. */
static void meet_server(void) {
    static uint8_t message[ROOM], answer[ROOM];
    stunp_received received = STUNP_INIT(stunp_received);
    uint32_t why;
    if (asking.sent_number == 0) return;
    size_t at = choose() % (asking.sent_number < STORED ? asking.sent_number : STORED);
    size_t length = asking.sent_lengths[at];
    memcpy(message, asking.sent[at], length);
    bool is_changed = maybe(4);
    if (is_changed) length = change(message, length);
    int64_t kind = stunp_endpoint_server_receive(&serving.server, &serving.users, message, length,
                                                 places, asking.unix_seconds, answer, ROOM,
                                                 &received);
    size_t answered = received.length;
    if (kind == STUNP_IS_REQUEST) {
        stunp_writer reply = stunp_reply_success(&received.reply, answer, ROOM);
        stunp_write_number(&reply, STUNP_LIFETIME, 600, 4);
        kind = stunp_reply_finish(&received.reply, &reply);
        require(kind > 0, "no reply");
        answered = (size_t)kind;
    } else if (kind != STUNP_ANSWER) return;
    if (maybe(4)) answered = change(answer, answered), is_changed = true;
    const stunp_address *from = maybe(8) ? choose_place() : places;
    int64_t code = stunp_error_code(answer, answered);
    kind = hear(answer, answered, from, &why);
    /* A challenge to another message than the one that was sent last counts as forged. */
    if (!is_changed && from == places && asking.is_right && code != 401 && code != 438)
        require(kind != STUNP_DROPPED || why != STUNP_DROP_NOT_VERIFIED, "a true answer is forged");
}

static void cancel_some(void) {
    uint64_t number = choose() % (MOST_REQUESTS + 1);
    stunp_dropped dropped, same;
    int64_t is_there = named(stunp_endpoint_client_dropped(&asking.client, number, &dropped));
    int64_t twins = stunp_endpoint_client_dropped(&asking.twin, number, &same);
    require(is_there == twins || asking.has_forgotten, "a twin");
    require(is_there == (number < asking.requests && !asking.has_ended[number]) || is_there == 0,
            "a request that has ended is there");
    size_t asked = stunp_heap_asked();
    int64_t cancelled = named(stunp_endpoint_client_cancel(&asking.client, number));
    require(cancelled == is_there, "cancelled otherwise");
    twins = stunp_endpoint_client_cancel(&asking.twin, number);
    require(cancelled == twins || asking.has_forgotten, "a twin");
    require(stunp_heap_asked() == asked, "cancelling allocates");
}

static void play_clients(void) {
    uint8_t bytes[LONGEST_DATAGRAM];
    uint32_t why;
    open_clients();
    asking.unix_seconds = 1000000;
    while (input_length > 0) switch (choose() % 8) {
        case 0: start_request(); break;
        case 1: case 2: meet_server(); break;
        case 3: hear(bytes, choose_bytes(bytes, sizeof bytes), choose_place(), &why); break;
        case 4: asking.now += choose_number() % 10000000000u; break;
        case 5: cancel_some(); break;
        case 6: asking.unix_seconds += choose() * 60u; break;
        default: poll_clients();
        }
    for (uint64_t number = 0; number < asking.requests; number++) {
        stunp_endpoint_client_cancel(&asking.client, number);
        stunp_endpoint_client_cancel(&asking.twin, number);
    }
    poll_clients();
    for (uint64_t number = 0; number < asking.requests; number++)
        require(asking.has_ended[number], "a request does not end");
    stunp_endpoint_client_free(&asking.client);
    stunp_endpoint_client_free(&asking.twin);
    memset(&asking, 0, sizeof asking);
}

#endif
