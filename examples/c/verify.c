/* Prints which signature of the message on standard input is valid under a password.
 *
 *     verify PASSWORD < MESSAGE
 *
 * The status is 0; 1 if no signature is valid or nothing can be read; or 2 for wrong arguments. */
#include "stunp.h"
#include <stdio.h>

static const char *text_of(int64_t verdict) {
    switch (verdict) {
    case STUNP_SHA1: return "valid MESSAGE-INTEGRITY";
    case STUNP_SHA256: return "valid MESSAGE-INTEGRITY-SHA256";
    case STUNP_NO_INTEGRITY: return "no integrity";
    case STUNP_MALFORMED_INTEGRITY: return "malformed integrity";
    case STUNP_INTEGRITY_FAILED: return "invalid";
    default: return "not a message";
    }
}

int main(int count, char **words) {
    static uint8_t message[STUNP_LONGEST_MESSAGE + 1];
    if (count != 2) {
        fprintf(stderr, "usage: verify PASSWORD < MESSAGE\n");
        return 2;
    }
    size_t length = fread(message, 1, sizeof message, stdin);
    if (ferror(stdin)) {
        perror("standard input");
        return 1;
    }
    int64_t verdict = stunp_verify(message, length, stunp_short_term_key(words[1]),
                                   strlen(words[1]));
    puts(text_of(verdict));
    return verdict > 0 ? 0 : 1;
}
