/* Looks for a password in the memory that was given back: a server's user is removed, and the heap
 * is searched. */
#define _GNU_SOURCE
#include "stunp_endpoint.h"
#include <stdio.h>
#include <string.h>

enum { LENGTH = 24 };

/* A password that is nowhere in the program: the letters of it are made here, and overwritten. */
static void write_password(char *out) {
    for (int i = 0; i < LENGTH; i++) out[i] = (char)('a' + i * i % 23);
}

static int is_password(const char *at) {
    for (int i = 0; i < LENGTH; i++)
        if (at[i] != (char)('a' + i * i % 23)) return 0;
    return 1;
}

/* How often the password is in the heap of this process. */
static int copies(void) {
    char line[512], name[64];
    unsigned long begin = 0, end = 0;
    int found = 0;
    FILE *maps = fopen("/proc/self/maps", "r");
    while (maps != NULL && fgets(line, sizeof line, maps) != NULL)
        if (sscanf(line, "%lx-%lx %*s %*s %*s %*s %63s", &begin, &end, name) == 3
            && strcmp(name, "[heap]") == 0)
            for (const char *at = (const char *)begin; at + LENGTH <= (const char *)end; at++)
                found += is_password(at);
    if (maps != NULL) fclose(maps);
    return found;
}

int main(void) {
    stunp_endpoint_server server = {0};
    stunp_endpoint_users users = {0};
    stunp_endpoint_server_settings settings = STUNP_INIT(stunp_endpoint_server_settings);
    char password[LENGTH];
    settings.credentials = STUNP_SHORT_TERM;
    write_password(password);
    if (stunp_endpoint_server_new(&server, &settings) != 0) return 1;
    if (stunp_endpoint_users_new(&users, &server) != 0) return 1;
    if (stunp_endpoint_users_add(&users, "name", 4, password, LENGTH) != 0) return 1;
    explicit_bzero(password, sizeof password);
    int held = copies();
    stunp_endpoint_users_free(&users);
    stunp_endpoint_server_free(&server);
    printf("%d copies while in use, %d later\n", held, copies());
    return 0;
}
