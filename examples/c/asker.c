/* Implements asker.h with a client of stunp_endpoint.h. */
#define _GNU_SOURCE
#include "asker.h"
#include <stdio.h>
#include <string.h>
#include <unistd.h>

/* SOURCE-ADDRESS and CHANGED-ADDRESS of RFC 3489, and BANDWIDTH of a draft of TURN. RFC 8489
 * reserves these types. Older servers send them, and a client may ignore them. */
static const uint16_t older[] = {0x0004, 0x0005, 0x0010};

static bool fails(struct asker *asker, const char *what, const char *why) {
    snprintf(asker->why, sizeof asker->why, "%s%s", what, why);
    return false;
}

bool open_asker(struct asker *asker, const char *host, const char *port,
                const stunp_endpoint_client_settings *settings, uint64_t within) {
    stunp_endpoint_client_settings all = *settings;
    stunp_address own;
    uint8_t seed[32];
    *asker = (struct asker){.give_up = moment() + within};
    asker->socket = open_client(host, port, &asker->peer, &own);
    if (asker->socket < 0) return false;
    fill_randomly(seed, sizeof seed);
    asker->server = all.server = address_of(&asker->peer);
    all.seed = seed, all.understood = older, all.understood_count = sizeof older / sizeof *older;
    int64_t made = stunp_endpoint_client_new(&asker->client, &all);
    if (made < 0) fprintf(stderr, "failed: %s\n", stunp_strerror(made));
    return made >= 0;
}

void close_asker(struct asker *asker) {
    stunp_endpoint_client_free(&asker->client);
    if (asker->socket >= 0) close(asker->socket);
}

/* Describes a request for which no acceptable response arrived, and what was dropped for it, which
 * may show an operator the cause. */
static bool no_answer(struct asker *asker, const stunp_dropped *dropped, int error) {
    char *why = asker->why;
    size_t room = sizeof asker->why;
    int end = snprintf(why, room, "no answer%s%s", error ? ": " : "", error ? strerror(error) : "");
    if (dropped->count > 0 && (size_t)end < room)
        end += snprintf(why + end, room - (size_t)end, "; %u dropped, the last because %s",
                        (unsigned)dropped->count, stunp_drop_text(dropped->why));
    if (dropped->code > 0 && (size_t)end < room)
        snprintf(why + end, room - (size_t)end, " (error %u)", (unsigned)dropped->code);
    return false;
}

/* Returns whether a request succeeded, and otherwise describes how it ended. */
static bool is_success(struct asker *asker, const stunp_event *event) {
    char code[24];
    snprintf(code, sizeof code, "%u", (unsigned)event->code);
    switch (event->result) {
    case STUNP_RESULT_SUCCESS: return true;
    case STUNP_RESULT_REFUSED: case STUNP_RESULT_REDIRECTED: return fails(asker, "refused ", code);
    case STUNP_RESULT_UNAUTHORIZED: return fails(asker, "refused: ", stunp_result_text(event->result));
    case STUNP_RESULT_TIMED_OUT: return no_answer(asker, &event->dropped, 0);
    default: return fails(asker, "failed: ", stunp_result_text(event->result));
    }
}

/* Waits for a datagram, and passes it to the client. Returns an error of the socket after which no
 * datagram will arrive, or 0. */
static int wait_for_response(struct asker *asker, uint64_t until) {
    static struct datagram got;
    enum arrival came = wait_until(asker->socket, until < asker->give_up ? until : asker->give_up);
    if (came == DATAGRAM && receive(asker->socket, &got))
        stunp_endpoint_client_receive(&asker->client, got.bytes, got.length, &got.from, moment(),
                                      NULL);
    return came == ERROR_REPORT ? hard_error(asker->socket) : 0;
}

/* Ends the request, because the time is over or because the socket has the error `error`. */
static bool give_up(struct asker *asker, uint64_t request, int error) {
    stunp_dropped dropped = {0, 0, 0};
    if (stunp_endpoint_client_dropped(&asker->client, request, &dropped) == 1)
        stunp_endpoint_client_cancel(&asker->client, request);
    return no_answer(asker, &dropped, error);
}

bool ask(struct asker *asker, uint32_t method, const stunp_body *body, struct datagram *got) {
    stunp_request_options none = STUNP_INIT(stunp_request_options);
    return ask_as(asker, method, body, &none, got);
}

bool ask_as(struct asker *asker, uint32_t method, const stunp_body *body,
            const stunp_request_options *options, struct datagram *got) {
    stunp_event event = STUNP_INIT(stunp_event);
    uint64_t request;
    int64_t kind = stunp_endpoint_client_request_as(&asker->client, method, body, options, moment(),
                                                    &request);
    while (kind >= 0) {
        kind = stunp_endpoint_client_poll(&asker->client, moment(), got->bytes, sizeof got->bytes,
                                          &event);
        got->length = event.length;
        if (kind == STUNP_TRANSMIT) send_to(asker->socket, got->bytes, got->length, &asker->peer);
        if (kind == STUNP_ENDED && event.request == request) return is_success(asker, &event);
        if (kind != STUNP_WAIT) continue;
        /* Everything that has arrived was read, even if it arrived just before the end of the
         * time. */
        if (moment() >= asker->give_up) return give_up(asker, request, 0);
        int error = wait_for_response(asker, event.until);
        if (error != 0) return give_up(asker, request, error);
    }
    return fails(asker, "failed: ", stunp_strerror(kind));
}

void send_data(const struct asker *asker, const stunp_writer *data) {
    if (stunp_written(data) == 0) send_to(asker->socket, data->bytes, data->length, &asker->peer);
}

bool receive_data(const struct asker *asker, uint64_t until, struct datagram *got) {
    enum arrival came = wait_until(asker->socket, until);
    if (came == ERROR_REPORT) hard_error(asker->socket);
    return came == DATAGRAM && receive(asker->socket, got) && is_same(&got->from, &asker->server);
}
