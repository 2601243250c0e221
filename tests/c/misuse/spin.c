/* The buffer of a batch is smaller than an answer. The loop still comes to the end of the datagrams,
 * and the program learns which one was not answered.
 *
 * harmless: 2 calls: 40 bytes, -10 for 52 bytes, 40 bytes */
#include "stunp_endpoint.h"
#include <stdio.h>

int main(void) {
    const stunp_address from = {{192, 0, 2, 1}, 4242, 4};
    const stunp_address other = {{0x20, 1, 0x0d, 0xb8}, 4242, 16};
    uint8_t request[20], out[44], id[STUNP_ID_LENGTH] = {1};
    stunp_writer writer = stunp_write(STUNP_REQUEST, STUNP_BINDING, id, request, sizeof request);
    stunp_datagram datagrams[3];
    stunp_judged judged[3];
    size_t done = 0;
    int calls = 0;
    char told[128] = "";
    stunp_endpoint_server server = {0};
    stunp_endpoint_server_settings settings = STUNP_INIT(stunp_endpoint_server_settings);
    settings.credentials = STUNP_NO_CREDENTIALS, settings.answers_binding = true;
    settings.software = "a";
    for (int i = 0; i < 3; i++) {
        datagrams[i].bytes = request, datagrams[i].length = writer.length;
        datagrams[i].from = i == 1 ? other : from, datagrams[i].received = NULL;
    }
    if (stunp_written(&writer) < 0 || stunp_endpoint_server_new(&server, &settings) < 0) return 1;
    for (; done < 3 && calls < 9; calls++) {
        size_t more = stunp_endpoint_server_receive_many(&server, NULL, datagrams + done, 3 - done,
                                                         0, out, sizeof out, judged);
        for (size_t i = 0; i < more; i++, done++) {
            size_t at = strlen(told);
            snprintf(told + at, sizeof told - at,
                     judged[i].kind == STUNP_ANSWER ? "%s%.0d%d bytes" : "%s%d for %d bytes",
                     done > 0 ? ", " : "", judged[i].kind == STUNP_ANSWER ? 0 : (int)judged[i].kind,
                     (int)judged[i].length);
        }
    }
    printf("%d calls: %s\n", calls, told);
    stunp_endpoint_server_free(&server);
    return 0;
}
