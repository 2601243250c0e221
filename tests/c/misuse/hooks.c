/* Only two of the three functions of an allocator are passed. Nothing is allocated, because the
 * use of malloc instead would go unnoticed.
 *
 * harmless: an allocation failed
 * named: stunp_set_memory: one of the three is null */
#include "stunp_endpoint.h"
#include <stdio.h>
#include <stdlib.h>

rattle_allocation rattle_alloc(size_t length, size_t alignment) {
    void *at = malloc(length);
    (void)alignment;
    return (rattle_allocation){at != NULL, at};
}

void rattle_dealloc(void *at) { free(at); }

int main(void) {
    stunp_endpoint_server server = {0};
    stunp_endpoint_server_settings settings = STUNP_INIT(stunp_endpoint_server_settings);
    settings.credentials = STUNP_NO_CREDENTIALS;
    puts(stunp_strerror(stunp_endpoint_server_new(&server, &settings)));
    return 0;
}
