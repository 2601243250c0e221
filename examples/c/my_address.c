/* Asks a STUN server over UDP for the address from which it sees this machine, and prints it.
 *
 *     my_address HOST PORT
 *
 * The status is 0; 1, with the reason on standard error; or 2 for wrong arguments. */
#define _GNU_SOURCE
#include "net.h"
#include "stunp_endpoint.h"
#include <stdio.h>
#include <unistd.h>

/* Returns the length of the address, 4 or 16; 0 if no address arrived, with the reason in `event`;
 * or an error. */
static int64_t ask(int fd, const struct peer *server, stunp_address *seen, stunp_event *event) {
    static struct datagram got;
    uint8_t seed[32];
    fill_randomly(seed, sizeof seed);
    stunp_endpoint_client client = {0};
    stunp_endpoint_client_settings settings = STUNP_INIT(stunp_endpoint_client_settings);
    settings.server = address_of(server), settings.seed = seed;
    int64_t kind = stunp_endpoint_client_new(&client, &settings);
    if (kind >= 0)
        kind = stunp_endpoint_client_request(&client, STUNP_BINDING, NULL, moment(), NULL);
    while (kind >= 0 && kind != STUNP_ENDED) {
        kind = stunp_endpoint_client_poll(&client, moment(), got.bytes, sizeof got.bytes, event);
        if (kind == STUNP_TRANSMIT) send_to(fd, got.bytes, event->length, server);
        if (kind != STUNP_WAIT) continue;
        enum arrival came = wait_until(fd, event->until);
        if (came == ERROR_REPORT && hard_error(fd) != 0) break; /* nobody is there */
        if (came == DATAGRAM && receive(fd, &got))
            stunp_endpoint_client_receive(&client, got.bytes, got.length, &got.from, moment(), NULL);
    }
    if (kind == STUNP_ENDED)
        kind = event->result != STUNP_RESULT_SUCCESS ? 0 : stunp_xor_mapped_address(
            got.bytes, event->length, seen->octets, sizeof seen->octets, &seen->port);
    stunp_endpoint_client_free(&client);
    return kind;
}

int main(int count, char **words) {
    struct peer server;
    stunp_address seen;
    stunp_event event = STUNP_INIT(stunp_event);
    if (count != 3) {
        fprintf(stderr, "usage: my_address HOST PORT\n");
        return 2;
    }
    int fd = open_client(words[1], words[2], &server, &seen);
    if (fd < 0) return 1;
    int64_t octets = ask(fd, &server, &seen, &event);
    close(fd);
    seen.length = octets == 4 ? 4 : 16;
    if (octets > 0) return puts(text_of(&seen)) < 0;
    fprintf(stderr, "%s\n",
            octets < 0 ? stunp_strerror(octets) : event.result == 0 ? "nobody answers there"
            : stunp_result_text(event.result));
    return 1;
}
