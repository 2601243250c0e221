/* The result of a recv that failed is passed as a length. Nothing can be read at the pointer, so a
 * call that reads there ends the program.
 *
 * harmless: -7 -7 -7 -7 -7 0 -7 -7, server -7 (7) -7 (7) -7, client -7, ICE -7 (7) -7 1 */
#include "stunp_endpoint.h"
#include <stdio.h>

static const uint8_t *const bytes = (const uint8_t *)16;
static volatile size_t length = (size_t)-1;
static const stunp_address from = {{192, 0, 2, 1}, 4242, 4};
static uint8_t out[64];

static void messages(void) {
    uint16_t channel, type;
    size_t found;
    stunp_header header;
    stunp_cursor cursor = {0, 0};
    printf("%d %d %d %d %d %d %d %d", (int)stunp_parse(bytes, length),
           (int)stunp_read_header(bytes, length, &header),
           (int)stunp_find(bytes, length, STUNP_USERNAME, &found),
           (int)stunp_walk(bytes, length, &cursor, &type, &found),
           (int)stunp_verify(bytes, length, out, 16), (int)stunp_is_stun(bytes, length),
           (int)stunp_next_frame(bytes, length),
           (int)stunp_read_channel_data(bytes, length, &channel, &found));
}

static void server(void) {
    stunp_endpoint_server server = {0};
    stunp_endpoint_server_settings settings = STUNP_INIT(stunp_endpoint_server_settings);
    uint8_t secret[32] = {1};
    stunp_received received = STUNP_INIT(stunp_received), other = received;
    stunp_datagram datagram = {bytes, length, from, NULL};
    stunp_judged judged;
    settings.realm = "example.org", settings.secret = secret;
    if (stunp_endpoint_server_new(&server, &settings) < 0) return;
    int64_t one = stunp_endpoint_server_receive(&server, NULL, bytes, length, &from, 0, out,
                                                sizeof out, &received);
    int64_t two = stunp_endpoint_server_identify(&server, bytes, length, &from, 0, out, sizeof out,
                                                 &other);
    size_t count = stunp_endpoint_server_receive_many(&server, NULL, &datagram, 1, 0, out,
                                                      sizeof out, &judged);
    printf(", server %d (%d) %d (%d) %d", (int)one, (int)received.kind, (int)two, (int)other.kind,
           count == 1 ? (int)judged.kind : 0);
    stunp_endpoint_server_free(&server);
}

static void client(void) {
    stunp_endpoint_client client = {0};
    stunp_endpoint_client_settings settings = STUNP_INIT(stunp_endpoint_client_settings);
    uint8_t seed[32] = {1};
    settings.server = from, settings.seed = seed;
    if (stunp_endpoint_client_new(&client, &settings) < 0) return;
    printf(", client %d",
           (int)stunp_endpoint_client_receive(&client, bytes, length, &from, 0, NULL));
    stunp_endpoint_client_free(&client);
}

static void ice(void) {
    stunp_ice_checker agent = {0};
    stunp_ice_settings settings = STUNP_INIT(stunp_ice_settings);
    stunp_ice_received received = STUNP_INIT(stunp_ice_received);
    stunp_ice_outstanding places[1];
    stunp_ice_candidate candidate;
    settings.name = "abcd", settings.password = "0123456789012345678901";
    if (stunp_ice_checker_new(&agent, &settings) < 0) return;
    stunp_ice_checks checks = stunp_ice_checks_on(&agent, places, 1);
    int64_t one = stunp_ice_checker_receive(&agent, bytes, length, &from, NULL, out, sizeof out,
                                            &received);
    printf(", ICE %d (%d)", (int)one, (int)received.kind);
    printf(" %d %d\n",
           (int)stunp_ice_checks_receive(&checks, bytes, length, &from, &from, 0, out, sizeof out,
                                         NULL, NULL),
           (int)stunp_ice_candidate_read(&candidate, (const char *)bytes, length)
               == (int)STUNP_ICE_LINE_NO_CANDIDATE);
    stunp_ice_checker_free(&agent);
}

int main(void) {
    messages();
    server();
    client();
    ice();
    return 0;
}
