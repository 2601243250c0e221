/* A client on a UDP socket that waits for the response to each request. udp_client.c and
 * turn_client.c share it. */
#ifndef STUN_ASKER_H
#define STUN_ASKER_H

#include "net.h"
#include "stunp_endpoint.h"

struct asker {
    uint64_t give_up; /* at this time of moment() */
    char why[160];    /* why the last request failed, for example `refused 401` */
    /* The fields below belong to asker.c. */
    int socket;
    struct peer peer;
    stunp_address server;
    stunp_endpoint_client client;
};

/* Finds a server, opens a socket to it, and gives it `within` nanoseconds to answer all requests.
 * The settings name the user, if there is one. If it fails, prints the reason on standard error and
 * returns false; call close_asker even then. */
bool open_asker(struct asker *asker, const char *host, const char *port,
                const stunp_endpoint_client_settings *settings, uint64_t within);
void close_asker(struct asker *asker);

/* Sends a request with these attributes until its response arrives. Data that arrives meanwhile is
 * lost. Returns whether the response is a success, which is then in `got`. Otherwise `why` has the
 * reason, and begins with `no answer`, `refused` or `failed`. */
bool ask(struct asker *asker, uint32_t method, const stunp_body *body, struct datagram *got);

/* Sends a request like `ask`, but as its options say. */
bool ask_as(struct asker *asker, uint32_t method, const stunp_body *body,
            const stunp_request_options *options, struct datagram *got);

/* The first call sends to the server bytes that are not a request. The second waits for a datagram
 * from the server until the time `until`. */
void send_data(const struct asker *asker, const stunp_writer *data);
bool receive_data(const struct asker *asker, uint64_t until, struct datagram *got);

#endif
