/* A secret and a seed that nobody filled in, a secret that is its own predecessor, nonces that
 * never expire, and a password that is missing from the database.
 *
 * harmless: 5 of 5 refused */
#include "stunp_endpoint.h"
#include <stdio.h>

static stunp_endpoint_server server;

static int refuses(const uint8_t *secret, const uint8_t *before, uint64_t seconds) {
    stunp_endpoint_server_settings settings = STUNP_INIT(stunp_endpoint_server_settings);
    settings.realm = "example.org", settings.secret = secret, settings.previous_secret = before;
    settings.nonce_seconds = seconds;
    return stunp_endpoint_server_new(&server, &settings) == STUNP_BAD_ARGUMENT;
}

int main(void) {
    uint8_t zeros[32] = {0}, secret[32] = {1};
    stunp_endpoint_users users = {0};
    stunp_endpoint_client client = {0};
    stunp_endpoint_client_settings settings = STUNP_INIT(stunp_endpoint_client_settings);
    settings.server = (stunp_address){{192, 0, 2, 1}, 3478, 4}, settings.seed = zeros;
    int refused = refuses(zeros, NULL, 0) + refuses(secret, secret, 0)
        + refuses(secret, NULL, UINT64_MAX)
        + (stunp_endpoint_client_new(&client, &settings) == STUNP_BAD_ARGUMENT);
    if (refuses(secret, NULL, 0) || stunp_endpoint_users_new(&users, &server) != 0) return 1;
    refused += stunp_endpoint_users_add(&users, "alice", 5, NULL, 0) == STUNP_BAD_ARGUMENT;
    printf("%d of 5 refused\n", refused);
    stunp_endpoint_users_free(&users);
    stunp_endpoint_server_free(&server);
    return 0;
}
