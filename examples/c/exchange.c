/* Implements exchange.h. */
#define _GNU_SOURCE
#include "exchange.h"
#include <netdb.h>
#include <stdio.h>
#include <string.h>

bool find_remote(const char *host, const char *port, struct remote *remote) {
    struct addrinfo wanted = {.ai_socktype = SOCK_DGRAM, .ai_flags = AI_NUMERICHOST}, *found;
    int error = getaddrinfo(host, port, &wanted, &found);
    if (error != 0) {
        fprintf(stderr, "%s %s: %s\n", host, port, gai_strerror(error));
        return false;
    }
    remote->peer = (struct peer){.name_length = found->ai_addrlen};
    memcpy(&remote->peer.name, found->ai_addr, found->ai_addrlen);
    freeaddrinfo(found);
    remote->at = address_of(&remote->peer);
    return true;
}

int open_at(const char *host, stunp_address *own) {
    struct remote at;
    if (!find_remote(host, "0", &at)) return -1;
    int fd = open_own(&at.peer, own);
    if (fd < 0) perror(host);
    return fd;
}

const struct peer *peer_of(const struct exchange *exchange, const stunp_address *to) {
    int i = 0;
    while (i < exchange->remotes_number - 1 && !is_same(&exchange->remotes[i].at, to)) i++;
    return &exchange->remotes[i].peer;
}
