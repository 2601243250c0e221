/* Asks a STUN server over UDP (RFC 8489) for the address from which it sees this client, and prints
 * it.
 *
 *     udp_client HOST PORT [NAME PASSWORD] [OPTION]..
 *
 * --user FILE         reads NAME and PASSWORD from the last line of FILE, or of standard input if
 *                     FILE is `-`
 * --sha256            supports HMAC-SHA256 beside HMAC-SHA1
 * --within SECONDS    gives up after SECONDS; without an answer a request ends after 39.5 s, or
 *                     within 79 s if it was challenged
 * --                  what follows is not an option, such as a PASSWORD that begins with `-`
 *
 * Without a name it accepts an unsigned response; with a name, only a response that the server has
 * signed. The status is 0; 1, with the reason on standard error: `no answer`, `refused CODE` or
 * `failed ..`; or 2 for wrong arguments. */
#define _GNU_SOURCE
#include "asker.h"
#include "heap.h"
#include "words.h"
#include <stdio.h>
#include <string.h>

enum { MOST_MEMORY = 1 << 20 };

/* Reads the user of the arguments or of a file, if there is one, into `line`. A file without a user
 * is an error, because whoever names a file does not want an unsigned answer. */
static bool set_user(stunp_endpoint_client_settings *settings, char **words, int count,
                     const char *file, char line[LONGEST_LINE]) {
    char *pair[2] = {NULL, NULL};
    if (count == 4) memcpy(pair, words + 2, sizeof pair);
    else if (file != NULL && !read_user(file, line, pair)) return false;
    settings->name = pair[0], settings->password = pair[1];
    return true;
}

static bool print_address(struct asker *asker) {
    struct datagram got;
    stunp_address seen;
    if (!ask(asker, STUNP_BINDING, NULL, &got)) {
        fprintf(stderr, "%s\n", asker->why);
        return false;
    }
    int64_t octets = stunp_xor_mapped_address(got.bytes, got.length, seen.octets,
                                              sizeof seen.octets, &seen.port);
    if (octets < 0) fprintf(stderr, "failed: %s\n", stunp_strerror(octets));
    seen.length = octets == 4 ? 4 : 16;
    return octets >= 0 && puts(text_of(&seen)) >= 0;
}

int main(int count, char **words) {
    bool has_sha256 = false;
    char line[LONGEST_LINE] = "";
    const char *file = NULL;
    uint64_t within = 60 * SECOND;
    const struct option options[] = {
        {"--sha256", .flag = &has_sha256},
        {"--user", .text = &file},
        {"--within", .nanoseconds = &within, .least = 0, .most = 1000000},
        {.name = NULL},
    };
    count = read_options(count, words, options);
    if (count != 2 && (count != 4 || file != NULL || *words[2] == 0)) {
        fprintf(stderr, "usage: udp_client HOST PORT [NAME PASSWORD] [--user FILE] [--sha256] "
                        "[--within SECONDS]\n");
        return 2;
    }
    struct asker asker = {.socket = -1};
    stunp_endpoint_client_settings settings = STUNP_INIT(stunp_endpoint_client_settings);
    settings.algorithms = has_sha256 ? 0 : STUNP_SHA1;
    stunp_heap_bound(MOST_MEMORY);
    bool is_right = set_user(&settings, words, count, file, line)
                    && open_asker(&asker, words[0], words[1], &settings, within);
    if (count == 4) explicit_bzero(words[3], strlen(words[3]));
    explicit_bzero(line, sizeof line);
    is_right = is_right && print_address(&asker);
    close_asker(&asker);
    return is_right ? 0 : 1;
}
