/* One buffer for the datagram and for its answer.
 *
 * warned: restrict */
#include "stunp_endpoint.h"

int64_t serve(const stunp_endpoint_server *server, uint8_t *buffer, size_t length, size_t room,
              const stunp_address *from, stunp_received *received);
int64_t serve(const stunp_endpoint_server *server, uint8_t *buffer, size_t length, size_t room,
              const stunp_address *from, stunp_received *received) {
    return stunp_endpoint_server_receive(server, NULL, buffer, length, from, 0, buffer, room,
                                         received);
}
