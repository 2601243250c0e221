/* The worked examples of stunp.h, which check.sh copies from the header, run against requests of
 * this program. It is C99 and C++17. */
#include "stunp.h"
#include <stdio.h>
#include <stdlib.h>
#include <string.h>

#include "answer.h"

#define TEXT(letters) (letters), sizeof(letters) - 1

static void want(const char *what, int64_t answer, int64_t wanted) {
    if (answer == wanted) return;
    fprintf(stderr, "worked: %s: %lld, not %lld\n", what, (long long)answer, (long long)wanted);
    exit(1);
}

/* ---- stunp.h */

static void answers(void) {
    static const uint8_t address[4] = {192, 0, 2, 1};
    uint8_t request[64], out[128], id[STUNP_ID_LENGTH] = {7}, octets[16];
    uint16_t port, type;
    size_t length = (size_t)stunp_begin(STUNP_REQUEST, STUNP_BINDING, id, sizeof id, request,
                                        sizeof request), value_length;
    size_t written = answer(request, length, address, sizeof address, 32853, out, sizeof out);
    want("the address", stunp_xor_mapped_address(out, written, octets, sizeof octets, &port), 4);
    want("its octets", memcmp(octets, address, 4), 0);
    want("its port", port, 32853);
    length = (size_t)stunp_add(request, sizeof request, length, 0x0024, TEXT("\1\2\3\4"));
    length = (size_t)stunp_add(request, sizeof request, length, STUNP_SOFTWARE, TEXT("test"));
    length = (size_t)stunp_add(request, sizeof request, length, 0x7fff, TEXT(""));
    written = answer(request, length, address, sizeof address, 32853, out, sizeof out);
    want("unknown types", stunp_error_code(out, written), 420);
    want("the code", stunp_next(out, written, 0, &type, &value_length), 24);
    int64_t place = stunp_next(out, written, 24, &type, &value_length);
    want("UNKNOWN-ATTRIBUTES", type, STUNP_UNKNOWN_ATTRIBUTES);
    want("its length", (int64_t)value_length, 4);
    want("the types", memcmp(out + place, "\x00\x24\x7f\xff", 4), 0);
}

int main(void) {
    answers();
    puts("worked: passed");
    return 0;
}
