/* A program that tests/next.sh builds with one library and runs with the next: a server, a client
 * and two ICE agents, with structs that have grown meanwhile. What lies after them in memory must
 * not change. Prints a text of the library, and how many answers were right. */
#include "stunp_endpoint.h"
#include <stdio.h>
#include <stdlib.h>

/* A result, and what lies after it. */
static struct { stunp_received result; uint8_t behind[64]; } received;
static struct { stunp_ice_received result; uint8_t behind[64]; } heard;
static struct { stunp_event result; uint8_t behind[64]; } event;
static struct { stunp_endpoint_server_settings of; uint8_t behind[64]; } server_settings;
static struct { stunp_endpoint_client_settings of; uint8_t behind[64]; } client_settings;
static struct { stunp_ice_settings of; uint8_t behind[64]; } ice_settings;
static struct { stunp_found_user of; uint8_t behind[64]; } found;

static const stunp_address peer = {{192, 0, 2, 1}, 4242, 4};
static uint8_t bytes[2048], out[2048];
static int right;

static void want(const char *what, int64_t answer, int64_t wanted) {
    if (answer != wanted) {
        fprintf(stderr, "%s: %lld (%s)\n", what, (long long)answer, stunp_strerror(answer));
        exit(1);
    }
    right++;
}

static void is_left(const uint8_t behind[64]) {
    for (int i = 0; i < 64; i++)
        if (behind[i] != 0xa5) fprintf(stderr, "what lies behind is written\n"), exit(2);
}

static void mark(void *behind) { memset(behind, 0xa5, 64); }

/* A client asks a server with users of a database, and is answered. */
static void ask(void) {
    stunp_endpoint_server server = {0};
    stunp_endpoint_client client = {0};
    const uint8_t secret[32] = {1}, seed[32] = {2};
    server_settings.of = STUNP_ANEW(stunp_endpoint_server_settings);
    server_settings.of.realm = "realm", server_settings.of.secret = secret;
    server_settings.of.answers_binding = true;
    want("a server", stunp_endpoint_server_new(&server, &server_settings.of), 0);
    client_settings.of = STUNP_ANEW(stunp_endpoint_client_settings);
    client_settings.of.server = peer, client_settings.of.seed = seed;
    client_settings.of.name = "name", client_settings.of.password = "password";
    want("a client", stunp_endpoint_client_new(&client, &client_settings.of), 0);
    found.of = STUNP_ANEW(stunp_found_user);
    found.of.name = "name", found.of.name_length = 4, found.of.password = "password";
    want("a request", stunp_endpoint_client_request(&client, STUNP_BINDING, NULL, 0, NULL), 0);
    int64_t kind;
    for (;;) {
        kind = stunp_endpoint_client_poll(&client, 0, bytes, sizeof bytes, &event.result);
        if (kind != STUNP_TRANSMIT) break;
        int64_t judged = stunp_endpoint_server_identify(&server, bytes, event.result.length, &peer,
                                                        0, out, sizeof out, &received.result);
        if (judged == STUNP_LOOKUP)
            judged = stunp_endpoint_server_resume(&server, &found.of, bytes, event.result.length,
                                                  &peer, 0, out, sizeof out, &received.result);
        want("an answer", judged, STUNP_ANSWER);
        (void)!stunp_endpoint_client_receive(&client, out, received.result.length, &peer, 0, NULL);
    }
    want("the end", kind, STUNP_ENDED);
    want("a success", event.result.result, STUNP_RESULT_SUCCESS);
    stunp_endpoint_client_free(&client);
    stunp_endpoint_server_free(&server);
}

/* A check of one agent, which the other answers. */
static void check(void) {
    stunp_ice_checker left = {0}, other = {0};
    stunp_ice_check kept;
    const uint8_t id[12] = {3};
    const char *password = "a password of more than 22 bytes";
    ice_settings.of = STUNP_ANEW(stunp_ice_settings);
    ice_settings.of.name = "left", ice_settings.of.peer_name = "right";
    ice_settings.of.password = password, ice_settings.of.peer_password = password;
    ice_settings.of.is_controlling = true;
    if (stunp_ice_checker_new(&left, &ice_settings.of) != 0) exit(3);
    ice_settings.of.name = "right", ice_settings.of.peer_name = "left";
    ice_settings.of.is_controlling = false;
    if (stunp_ice_checker_new(&other, &ice_settings.of) != 0) exit(4);
    int64_t length = stunp_ice_checker_check(&left, id, &peer, 1, true, bytes, sizeof bytes, &kept);
    if (length < 0) exit(5);
    want("an answer of ICE", stunp_ice_checker_receive(&other, bytes, (size_t)length, &peer, NULL,
                                                       out, sizeof out, &heard.result),
         STUNP_ANSWER);
    want("accepted", heard.result.outcome, STUNP_ICE_ACCEPTED);
    want("a response", stunp_ice_checker_receive(&left, out, heard.result.length, &peer, &kept,
                                                 bytes, sizeof bytes, &heard.result),
         STUNP_IS_RESPONSE);
    want("valid", heard.result.outcome, STUNP_ICE_VALID);
    stunp_ice_checker_free(&left);
    stunp_ice_checker_free(&other);
}

int main(void) {
    mark(received.behind), mark(heard.behind), mark(event.behind);
    mark(server_settings.behind), mark(client_settings.behind);
    mark(ice_settings.behind), mark(found.behind);
    received.result = STUNP_ANEW(stunp_received), event.result = STUNP_ANEW(stunp_event);
    heard.result = STUNP_ANEW(stunp_ice_received);
    ask();
    check();
    is_left(received.behind), is_left(heard.behind), is_left(event.behind);
    printf("%s: %d answers\n", stunp_strerror(STUNP_TRUNCATED), right);
    return 0;
}
