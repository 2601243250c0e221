/* Prints whose memory the library uses. tests/memory.sh links it in several ways. FUNCTIONS makes a
 * second part of it: the three functions of stunp_endpoint.h, or only two of them with PART, which
 * print that they are called when the first block is allocated. The program itself does not refer
 * to them. With PASSED it passes functions of its own. */
#include "stunp_endpoint.h"
#include <stdio.h>
#include <stdlib.h>

#ifdef FUNCTIONS
static size_t asked, blocks;

rattle_allocation rattle_alloc(size_t length, size_t alignment) {
    void *at = malloc(length);
    (void)alignment;
    if (asked++ == 0) puts("of the program");
    blocks++;
    return (rattle_allocation){at != NULL, at};
}

#ifndef PART
rattle_allocation rattle_realloc(void *at, size_t kept, size_t length, size_t alignment) {
    void *again = realloc(at, length);
    (void)kept, (void)alignment;
    asked++;
    return (rattle_allocation){again != NULL, again};
}
#endif

void rattle_dealloc(void *at) {
    if (--blocks == 0) puts("all given back");
    free(at);
}
#else
#ifdef PASSED
static size_t passed;

static void *allocate(size_t length) {
    if (passed++ == 0) puts("passed");
    return malloc(length);
}

static void release(void *at) {
    if (--passed == 0) puts("all given back");
    free(at);
}

/* Functions can be passed only once, all three together, and before the library allocates. */
static int pass(void) {
    if (stunp_set_memory(allocate, NULL, release) != STUNP_BAD_ARGUMENT) return 10;
    if (stunp_set_memory(allocate, realloc, release) != 0) return 11;
    if (stunp_set_memory(malloc, realloc, free) != STUNP_ALREADY_IN_PROGRESS) return 12;
    return 0;
}
#endif

int main(void) {
#ifdef PASSED
    int refused = pass();
    if (refused != 0) return refused;
#endif
    static const uint8_t secret[32] = {1};
    uint8_t request[STUNP_HEADER_LENGTH], id[STUNP_ID_LENGTH] = {1}, out[512];
    stunp_writer writer = stunp_write(STUNP_REQUEST, STUNP_BINDING, id, request, sizeof request);
    stunp_endpoint_server server = {0};
    stunp_endpoint_users users = {0};
    stunp_endpoint_server_settings settings = STUNP_INIT(stunp_endpoint_server_settings);
    settings.realm = "realm", settings.secret = secret;
    if (stunp_written(&writer) < 0) return 1;
    int64_t made = stunp_endpoint_server_new(&server, &settings);
    if (made == STUNP_OUT_OF_MEMORY) puts(stunp_strerror(made));
    if (made != 0) return made != STUNP_OUT_OF_MEMORY;
    if (stunp_endpoint_users_new(&users, &server) != 0) return 2;
    for (uint16_t port = 1; port < 100; port++) {
        const stunp_address from = {{192, 0, 2, 1}, port, 4};
        if (stunp_endpoint_server_receive(&server, &users, request, sizeof request, &from, 0, out,
                                          sizeof out, NULL)
            != STUNP_ANSWER)
            return 3;
    }
    stunp_endpoint_users_free(&users);
    stunp_endpoint_server_free(&server);
#ifndef PASSED
    if (stunp_set_memory(malloc, realloc, free) != STUNP_ALREADY_IN_PROGRESS) return 5;
#endif
    puts("done");
    return 0;
}
#endif
