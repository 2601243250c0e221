/* Writes a signed Binding request to standard output.
 *
 *     build 1|2 USERNAME PASSWORD > MESSAGE
 *
 * 1 is MESSAGE-INTEGRITY, and 2 is MESSAGE-INTEGRITY-SHA256. The status is 0; 1, with the reason on
 * standard error; or 2 for wrong arguments. */
#include "stunp.h"
#include <stdbool.h>
#include <stdio.h>
#include <string.h>
#include <sys/random.h>

static int fails(const char *what, const char *why) {
    fprintf(stderr, "%s: %s\n", what, why);
    return 1;
}

int main(int count, char **words) {
    uint8_t id[STUNP_ID_LENGTH], bytes[STUNP_LONGEST_SIGNED];
    if (count != 4 || (strcmp(words[1], "1") != 0 && strcmp(words[1], "2") != 0)) {
        fprintf(stderr, "usage: build 1|2 USERNAME PASSWORD > MESSAGE\n");
        return 2;
    }
    const char *name = words[2], *password = words[3];
    stunp_algorithm algorithm = *words[1] == '1' ? STUNP_SHA1 : STUNP_SHA256;
    if (getrandom(id, sizeof id, 0) != sizeof id) return fails("getrandom", "no random bytes");
    int64_t answer = stunp_build_signed(algorithm, id, sizeof id, name, strlen(name),
                                        stunp_short_term_key(password),
                                        strlen(password), bytes, sizeof bytes);
    stunp_writer request = stunp_write_on(answer, bytes, sizeof bytes);
    if (answer < 0) return fails("refused", stunp_strerror(answer));
    bool is_out = fwrite(bytes, 1, request.length, stdout) == request.length;
    return is_out && fflush(stdout) == 0 ? 0 : fails("standard output", "not written");
}
