/* A server that looks at the result's kind and length, but not at what the call returns. The
 * datagram before was answered, and the answer to this one does not fit.
 *
 * harmless: sends 40 bytes, sends 0 bytes */
#include "stunp_endpoint.h"
#include <stdio.h>

static stunp_received received = STUNP_INIT(stunp_received);

static void serve(const stunp_endpoint_server *server, const uint8_t *bytes, size_t length,
                  size_t room) {
    const stunp_address from = {{192, 0, 2, 1}, 4242, 4};
    static uint8_t out[512];
    (void)!stunp_endpoint_server_receive(server, NULL, bytes, length, &from, 0, out, room,
                                         &received);
    printf("%ssends %zu bytes", room < sizeof out ? ", " : "",
           received.kind == STUNP_ANSWER ? received.length : 0);
}

int main(void) {
    uint8_t request[64], id[12] = {1};
    stunp_endpoint_server server = {0};
    stunp_endpoint_server_settings settings = STUNP_INIT(stunp_endpoint_server_settings);
    settings.credentials = STUNP_NO_CREDENTIALS, settings.answers_binding = true;
    stunp_writer writer = stunp_write(STUNP_REQUEST, STUNP_BINDING, id, request, sizeof request);
    stunp_write_fingerprint(&writer);
    if (stunp_endpoint_server_new(&server, &settings) != 0 || stunp_written(&writer) != 0) return 1;
    serve(&server, request, writer.length, 512);
    serve(&server, request, writer.length, 16);
    puts("");
    stunp_endpoint_server_free(&server);
    return 0;
}
