/* A reply is used after it was wiped, a reply of zeros is used, and one whose key is longer than the
 * room for it.
 *
 * harmless: answers 20 bytes; wiped -7 -7 -7; zeros -7 -7 -7; long key -7 -7 -7
 * named: stunp_reply_finish: wipe a reply only after its response is finished */
#include "stunp_endpoint.h"
#include <stdio.h>

/* Prints the results of the three calls that answer a request. */
static void answer(const char *what, const stunp_reply *reply) {
    const uint8_t id[STUNP_ID_LENGTH] = {1};
    uint8_t out[64];
    stunp_writer success = stunp_reply_success(reply, out, sizeof out);
    stunp_writer error = stunp_reply_error(reply, 400, "Bad Request", out, sizeof out);
    stunp_writer started = stunp_write(STUNP_SUCCESS, STUNP_BINDING, id, out, sizeof out);
    printf("; %s %d %d %d", what, (int)stunp_written(&success), (int)stunp_written(&error),
           (int)stunp_reply_finish(reply, &started));
}

int main(void) {
    const uint8_t id[STUNP_ID_LENGTH] = {1};
    const stunp_address from = {{192, 0, 2, 1}, 4242, 4};
    uint8_t request[20], out[64];
    stunp_writer writer = stunp_write(STUNP_REQUEST, STUNP_BINDING, id, request, sizeof request);
    stunp_received received = STUNP_INIT(stunp_received);
    stunp_reply zeros;
    stunp_endpoint_server server = {0};
    stunp_endpoint_server_settings settings = STUNP_INIT(stunp_endpoint_server_settings);
    settings.credentials = STUNP_NO_CREDENTIALS;
    if (stunp_written(&writer) < 0 || stunp_endpoint_server_new(&server, &settings) < 0
        || stunp_endpoint_server_receive(&server, NULL, request, writer.length, &from, 0, out,
                                         sizeof out, &received) != STUNP_IS_REQUEST)
        return 1;
    writer = stunp_reply_success(&received.reply, out, sizeof out);
    printf("answers %d bytes", (int)stunp_reply_finish(&received.reply, &writer));
    stunp_reply_wipe(&received.reply);
    answer("wiped", &received.reply);
    memset(&zeros, 0, sizeof zeros);
    answer("zeros", &zeros);
    zeros.integrity = STUNP_SHA1, zeros.key_length = 255;
    answer("long key", &zeros);
    puts("");
    stunp_endpoint_server_free(&server);
    return 0;
}
