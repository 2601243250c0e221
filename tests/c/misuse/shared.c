/* Datagrams of one batch have the same struct for their outcomes, next to each other and apart.
 *
 * harmless: 4 judged: 2 -7 2 -7, the first has its own ID
 * named: stunp_datagram: needs a struct of its own */
#include "stunp_endpoint.h"
#include <stdio.h>

int main(void) {
    const stunp_address from = {{192, 0, 2, 1}, 4242, 4};
    uint8_t requests[4][20], out[64];
    stunp_received received[2] = {STUNP_INIT(stunp_received), STUNP_INIT(stunp_received)};
    stunp_received *const places[4] = {&received[1], &received[1], &received[0], &received[1]};
    stunp_datagram datagrams[4];
    stunp_judged judged[4];
    stunp_endpoint_server server = {0};
    stunp_endpoint_server_settings settings = STUNP_INIT(stunp_endpoint_server_settings);
    settings.credentials = STUNP_NO_CREDENTIALS;
    for (uint8_t i = 0; i < 4; i++) {
        const uint8_t id[STUNP_ID_LENGTH] = {i};
        stunp_writer writer = stunp_write(STUNP_REQUEST, STUNP_BINDING, id, requests[i], 20);
        if (stunp_written(&writer) < 0) return 1;
        datagrams[i].bytes = requests[i], datagrams[i].length = writer.length;
        datagrams[i].from = from, datagrams[i].received = places[i];
    }
    if (stunp_endpoint_server_new(&server, &settings) < 0) return 1;
    size_t count = stunp_endpoint_server_receive_many(&server, NULL, datagrams, 4, 0, out,
                                                      sizeof out, judged);
    printf("%d judged:", (int)count);
    for (size_t i = 0; i < count; i++) printf(" %d", (int)judged[i].kind);
    printf(", the first has %s ID\n", received[1].reply.id[0] == 0 ? "its own" : "another");
    stunp_endpoint_server_free(&server);
    return 0;
}
