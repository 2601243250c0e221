/* A program of three calls: it writes a request to standard output, and reports whether standard
 * input is a success response with an address. tests/rust_c.sh measures its size. */
#include "stunp.h"
#include <stdio.h>

int main(void) {
    uint8_t bytes[1500], address[16];
    const uint8_t id[STUNP_ID_LENGTH] = {1};
    uint16_t port;
    int64_t written = stunp_begin(STUNP_REQUEST, STUNP_BINDING, id, sizeof id, bytes, sizeof bytes);
    if (written < 0 || fwrite(bytes, 1, (size_t)written, stdout) != (size_t)written) return 1;
    size_t length = fread(bytes, 1, sizeof bytes, stdin);
    if (stunp_class(bytes, length) != STUNP_SUCCESS) return 2;
    return stunp_xor_mapped_address(bytes, length, address, sizeof address, &port) < 0 ? 3 : 0;
}
