/* A client with an empty name and a password: it would sign nothing and accept an unsigned success.
 *
 * harmless: an argument is out of range */
#include "stunp_endpoint.h"
#include <stdio.h>

int main(void) {
    uint8_t seed[32] = {1};
    stunp_endpoint_client client = {0};
    stunp_endpoint_client_settings settings = STUNP_INIT(stunp_endpoint_client_settings);
    settings.server = (stunp_address){{192, 0, 2, 1}, 3478, 4}, settings.seed = seed;
    settings.name = "", settings.password = "secret";
    puts(stunp_strerror(stunp_endpoint_client_new(&client, &settings)));
    return 0;
}
