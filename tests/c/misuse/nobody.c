/* Settings and users that lack what they must have: a list of types, a name, a key, a realm.
 *
 * harmless: types -7 -7, names -7 -7 -7, keys -7 -7, realm -7 */
#include "stunp_endpoint.h"
#include <stdio.h>

int main(void) {
    uint8_t secret[32] = {1}, key[16] = {1}, request[20] = {0}, out[64];
    const stunp_address from = {{192, 0, 2, 1}, 4242, 4};
    stunp_endpoint_server server = {0}, none = {0};
    stunp_endpoint_users users = {0};
    stunp_endpoint_client client = {0};
    stunp_endpoint_server_settings settings = STUNP_INIT(stunp_endpoint_server_settings), other;
    stunp_endpoint_client_settings asking = STUNP_INIT(stunp_endpoint_client_settings);
    stunp_found_user found = STUNP_INIT(stunp_found_user);
    settings.realm = "example.org", settings.secret = secret;
    if (stunp_endpoint_server_new(&server, &settings) < 0
        || stunp_endpoint_users_new(&users, &server) < 0)
        return 1;
    other = settings, other.understood_count = 5;
    asking.server = from, asking.seed = secret, asking.understood_count = 5;
    printf("types %d %d", (int)stunp_endpoint_server_new(&none, &other),
           (int)stunp_endpoint_client_new(&client, &asking));
    found.name = "", found.password = "wonderland";
    printf(", names %d %d %d", (int)stunp_endpoint_users_add(&users, "", 0, "wonderland", 10),
           (int)stunp_endpoint_users_add_keys(&users, "", 0, key, sizeof key, NULL, 0),
           (int)stunp_endpoint_server_resume(&server, &found, request, sizeof request, &from, 0, out,
                                             sizeof out, NULL));
    found.name = "alice", found.name_length = 5, found.password = NULL;
    printf(", keys %d %d",
           (int)stunp_endpoint_users_add_keys(&users, "alice", 5, NULL, 0, NULL, 0),
           (int)stunp_endpoint_server_resume(&server, &found, request, sizeof request, &from, 0, out,
                                             sizeof out, NULL));
    other = settings, other.realm = "";
    printf(", realm %d\n", (int)stunp_endpoint_server_new(&none, &other));
    stunp_endpoint_users_free(&users);
    stunp_endpoint_server_free(&server);
    return 0;
}
