/* Tests that the installed files are enough to build a program. It uses a message from the first
 * archive and a server from the second. Its memory comes from libstunp_heap.a, from heap.c
 * (HEAP_SOURCE) or from this file (OWN_MEMORY). tests/install.sh builds it. Prints the version of
 * the header. */
#include <stdio.h>
#include <stdlib.h>
#include <stunp_endpoint.h>

#ifdef OWN_MEMORY
static size_t blocks;

rattle_allocation rattle_alloc(size_t length, size_t alignment) {
    (void)alignment;
    blocks++;
    return (rattle_allocation){true, malloc(length)};
}

rattle_allocation rattle_realloc(void *at, size_t kept, size_t length, size_t alignment) {
    (void)kept, (void)alignment;
    return (rattle_allocation){true, realloc(at, length)};
}

void rattle_dealloc(void *at) {
    blocks--;
    free(at);
}

static size_t stunp_heap_blocks(void) { return blocks; }
#elif defined HEAP_SOURCE
#include "heap.h"
#else
#include <stunp_heap.h>
#endif

static int use_memory(const uint8_t *bytes, size_t length) {
    const stunp_address from = {{127, 0, 0, 1}, 3478, 4};
    const uint8_t secret[32] = {1};
    uint8_t out[256];
    stunp_endpoint_server server = {0};
    stunp_endpoint_users users = {0};
    stunp_received received = STUNP_INIT(stunp_received);
    stunp_endpoint_server_settings settings = STUNP_INIT(stunp_endpoint_server_settings);
    settings.realm = "realm", settings.secret = secret;
    if (stunp_endpoint_server_new(&server, &settings) != 0) return 2;
    if (stunp_endpoint_users_new(&users, &server) != 0) return 3;
    int64_t kind = stunp_endpoint_server_receive(&server, &users, bytes, length, &from, 0, out,
                                                 sizeof out, &received);
    if (kind != STUNP_ANSWER || received.code != 401) return 4;
    if (stunp_heap_blocks() == 0) return 5;
    stunp_endpoint_server_free(&server);
    stunp_endpoint_users_free(&users);
    return 0;
}

int main(void) {
    uint8_t id[STUNP_ID_LENGTH] = {1}, bytes[STUNP_HEADER_LENGTH];
    stunp_writer request = stunp_write(STUNP_REQUEST, STUNP_BINDING, id, bytes, sizeof bytes);
    if (stunp_written(&request) < 0) return 1;
    int status = use_memory(bytes, sizeof bytes);
    if (status != 0) return status;
    if (stunp_heap_blocks() != 0) return 6;
    printf("%d.%d.%d\n", STUNP_VERSION / 10000, STUNP_VERSION / 100 % 100, STUNP_VERSION % 100);
    return 0;
}
