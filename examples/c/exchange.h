/* Checks with their socket, for ice_check.c. */
#ifndef STUN_EXCHANGE_H
#define STUN_EXCHANGE_H

#include "net.h"
#include "stunp_endpoint.h"

enum { MOST_OUTSTANDING = 128 };

/* A peer to which requests are sent. */
struct remote {
    struct peer peer;
    stunp_address at;
};

/* Reads a numeric address. If it fails, prints the reason and returns false. */
bool find_remote(const char *host, const char *port, struct remote *remote);

/* Opens a non-blocking socket at a free port of a numeric address, and writes its own address. If
 * it fails, prints the reason and returns -1. */
int open_at(const char *host, stunp_address *own);

/* The checks that are sent from one socket, and the peers to which they go. */
struct exchange {
    int socket;
    stunp_address own;
    const struct remote *remotes;
    int remotes_number;
    unsigned long started, sent; /* checks, and their transmissions */
    stunp_ice_checks checks;
    stunp_ice_outstanding stored[MOST_OUTSTANDING];
};

/* Returns the peer of the remote with this address, which has the scope of a link-local address. */
const struct peer *peer_of(const struct exchange *exchange, const stunp_address *to);

#endif
