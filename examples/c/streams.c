/* Implements streams.h on Linux. */
#define _GNU_SOURCE
#include "streams.h"
#include <errno.h>
#include <string.h>
#include <sys/epoll.h>
#include <unistd.h>

static struct connection {
    bool is_open;
    int socket;
    uint64_t since;      /* when the last complete message arrived, or the connection began */
    size_t length;       /* bytes in the buffer below that are not answered yet */
    struct datagram got; /* the buffer, and the address from which the messages come */
} connections[MOST_CONNECTIONS];

static void end(struct connection *one) {
    close(one->socket);
    one->is_open = false;
}

/* Returns a free connection. If there is none, ends the one that has been silent for longest. */
static struct connection *room(void) {
    struct connection *oldest = connections;
    for (struct connection *one = connections; one < connections + MOST_CONNECTIONS; one++) {
        if (!one->is_open) return one;
        if (one->since < oldest->since) oldest = one;
    }
    end(oldest);
    return oldest;
}

bool watch(int queue, int socket, int number) {
    struct epoll_event wanted = {.events = EPOLLIN, .data.fd = number};
    return epoll_ctl(queue, EPOLL_CTL_ADD, socket, &wanted) == 0;
}

void accept_stream(int listening, int queue, int first) {
    struct peer peer = {.name_length = sizeof peer.name};
    int socket = accept4(listening, (struct sockaddr *)&peer.name, &peer.name_length,
                         SOCK_NONBLOCK | SOCK_CLOEXEC);
    if (socket < 0) {
        if (errno != EINTR && errno != EAGAIN && errno != ECONNABORTED) rest_after("accept");
        return;
    }
    struct connection *one = room();
    one->is_open = true;
    one->socket = socket;
    one->since = moment();
    one->length = 0;
    one->got.peer = peer;
    one->got.from = address_of(&peer);
    if (!watch(queue, socket, first + (int)(one - connections))) end(one);
}

/* Answers the complete messages. Returns false if the connection has to end: no message begins at
 * this point of the stream, a message is too long, or there is no room for an answer because the
 * client does not read its answers. */
static bool answer_whole(struct connection *one, answer_message *answer_one) {
    static struct answer answer;
    struct datagram *got = &one->got;
    int64_t wanted;
    while ((wanted = stunp_next_frame(got->bytes, one->length)) > 0
           && (size_t)wanted <= one->length) {
        got->length = (size_t)wanted;
        answer_one(got, &answer);
        if (answer.length > 0
            && send(one->socket, answer.start, answer.length, MSG_NOSIGNAL)
                   != (ssize_t)answer.length)
            return false;
        one->since = moment();
        one->length -= got->length;
        memmove(got->bytes, got->bytes + got->length, one->length);
    }
    return wanted > 0 && (size_t)wanted <= sizeof got->bytes;
}

void read_stream(int number, answer_message *answer) {
    struct connection *one = &connections[number];
    struct datagram *got = &one->got;
    if (!one->is_open) return; /* it was just ended to make room for another one */
    ssize_t more = recv(one->socket, got->bytes + one->length, sizeof got->bytes - one->length, 0);
    if (more < 0 && (errno == EINTR || errno == EAGAIN)) return;
    if (more > 0) one->length += (size_t)more;
    if (more <= 0 || !answer_whole(one, answer)) end(one);
}

void end_idle_streams(uint64_t nanoseconds) {
    static uint64_t next;
    uint64_t now = moment();
    if (now < next) return;
    next = now + SECOND;
    for (struct connection *one = connections; one < connections + MOST_CONNECTIONS; one++)
        if (one->is_open && now - one->since >= nanoseconds) end(one);
}
