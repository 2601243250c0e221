/* A writer and a body that outlive their buffers.
 *
 * named: stunp_writer: if the buffer is a local variable, do not return the writer from that function
 * named: stunp_body: if the buffer is a local variable, do not return the body from that function */
#include "stunp_endpoint.h"

stunp_writer begun(const uint8_t id[12]);
stunp_writer begun(const uint8_t id[12]) {
    uint8_t out[64];
    return stunp_write(STUNP_REQUEST, STUNP_BINDING, id, out, sizeof out);
}

stunp_body empty(void);
stunp_body empty(void) {
    uint8_t room[64];
    return stunp_body_on(room, sizeof room);
}
