/* A handle is copied. One copy is freed, and the other is used.
 *
 * named: stunp_endpoint_server: A copy of a handle refers to the same object */
#include "stunp_endpoint.h"

void frees(stunp_endpoint_server *server);
void frees(stunp_endpoint_server *server) {
    stunp_endpoint_server copy = *server;
    stunp_endpoint_server_free(server);
    stunp_endpoint_server_free(&copy);
}
