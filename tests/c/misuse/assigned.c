/* A struct that is set to its initial state again.
 *
 * harmless: 1 0 */
#include "stunp_endpoint.h"
#include <stdio.h>

int main(void) {
    stunp_received received = STUNP_INIT(stunp_received);
    received.kind = STUNP_ANSWER;
    received = STUNP_ANEW(stunp_received);
    printf("%d %d\n", received.size == sizeof received, (int)received.kind);
    return 0;
}
