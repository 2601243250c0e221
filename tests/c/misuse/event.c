/* A client that looks at the event's kind and length, but not at what the call returns. The
 * request does not fit.
 *
 * harmless: sends 0 bytes */
#include "stunp_endpoint.h"
#include <stdio.h>

int main(void) {
    uint8_t seed[32] = {1}, room[300], value[200] = {0}, out[100];
    stunp_endpoint_client client = {0};
    stunp_event event = STUNP_INIT(stunp_event);
    stunp_endpoint_client_settings settings = STUNP_INIT(stunp_endpoint_client_settings);
    settings.server = (stunp_address){{192, 0, 2, 1}, 3478, 4}, settings.seed = seed;
    stunp_body body = stunp_body_on(room, sizeof room);
    stunp_body_add(&body, STUNP_DATA, value, sizeof value);
    if (stunp_endpoint_client_new(&client, &settings) != 0) return 1;
    if (stunp_endpoint_client_request(&client, STUNP_SEND, &body, 0, NULL) != 0) return 2;
    (void)!stunp_endpoint_client_poll(&client, 0, out, sizeof out, &event);
    printf("sends %zu bytes\n", event.kind == STUNP_TRANSMIT ? event.length : 0);
    stunp_endpoint_client_free(&client);
    return 0;
}
