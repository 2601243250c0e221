/* A STUN server with one user, over stunp_endpoint.h. It answers that user with the address that
 * the request came from, and challenges everybody else.
 *
 *     endpoint_server PORT REALM NAME PASSWORD
 *
 * Port 0 means any free port. The first line of output is `port N`. udp_server.c is a server with
 * options. */
#define _GNU_SOURCE
#include "net.h"
#include "stunp_endpoint.h"
#include <poll.h>
#include <stdio.h>
#include <stdlib.h>
#include <time.h>

enum { MOST_IN_TURN = 64 /* datagrams of one socket, before the other one has a turn */ };

static stunp_endpoint_server server;
static stunp_endpoint_users users;

/* Creates the server and its user. Returns 0 or more, or the error. */
static int64_t set_up(const char *realm, const char *name, const char *password) {
    static uint8_t secret[32];
    stunp_endpoint_server_settings settings = STUNP_INIT(stunp_endpoint_server_settings);
    fill_randomly(secret, sizeof secret);
    settings.realm = realm, settings.secret = secret, settings.answers_binding = true;
    int64_t made = stunp_endpoint_server_new(&server, &settings);
    if (made >= 0) made = stunp_endpoint_users_new(&users, &server);
    if (made < 0) return made;
    return stunp_endpoint_users_add(&users, name, strlen(name), password, strlen(password));
}

/* Judges a datagram, and sends the answer if there is one. */
static void answer(int socket, const struct datagram *got) {
    static uint8_t out[STUNP_ANSWER_MAX];
    static stunp_received received = STUNP_INIT(stunp_received);
    int64_t kind = stunp_endpoint_server_receive(&server, &users, got->bytes, got->length,
                                                 &got->from, (uint64_t)time(NULL), out,
                                                 sizeof out, &received);
    int64_t length = kind == STUNP_ANSWER ? (int64_t)received.length : 0;
    if (kind < 0) fprintf(stderr, "endpoint_server: %s\n", stunp_strerror(kind));
    if (kind == STUNP_IS_REQUEST) { /* of the user, and not Binding */
        stunp_writer error =
            stunp_reply_error(&received.reply, 400, "Bad Request", out, sizeof out);
        length = stunp_reply_finish(&received.reply, &error);
        stunp_reply_wipe(&received.reply);
    }
    if (length > 0) send_to(socket, out, (size_t)length, &got->peer);
}

int main(int count, char **words) {
    static struct datagram got;
    struct listener listener;
    struct pollfd waiting[MOST_SOCKETS];
    char *end = "";
    unsigned long port = count == 5 ? strtoul(words[1], &end, 10) : 0;
    if (count != 5 || end == words[1] || *end != 0 || port > 65535) {
        fprintf(stderr, "usage: endpoint_server PORT REALM NAME PASSWORD\n");
        return 2;
    }
    int64_t made = set_up(words[2], words[3], words[4]);
    if (made < 0) {
        fprintf(stderr, "endpoint_server: %s\n", stunp_strerror(made));
        return 1;
    }
    if (!open_server(&(struct place){.count = 0}, &port, &listener)) return 1;
    printf("port %lu\n", port);
    fflush(stdout);
    for (int i = 0; i < listener.number; i++)
        waiting[i] = (struct pollfd){listener.sockets[i], POLLIN, 0};
    while (poll(waiting, (nfds_t)listener.number, -1) >= 0)
        for (int i = 0; i < listener.number; i++)
            for (int n = 0; n < MOST_IN_TURN && receive(listener.sockets[i], &got); n++)
                answer(listener.sockets[i], &got);
    return 1;
}
