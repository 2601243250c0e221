/* Results in conditions, where an error counts as true. The comment on each call names another call
 * that returns no errors, and that returns false here.
 *
 * harmless: 0 of 4
 * named: stunp_verify: In a condition, an error would count as true: call stunp_is_signed there
 * named: stunp_ice_checker_is_controlling: call stunp_ice_checker_controls there
 * named: stunp_endpoint_client_cancel: call stunp_endpoint_client_try_cancel there
 * named: stunp_check_fingerprint: call stunp_has_right_fingerprint */
#include "stunp_endpoint.h"
#include <stdio.h>

int main(void) {
    const uint8_t forged[20] = {0, 1, 0, 0, 0x21, 0x12, 0xa4, 0x42}, key[16] = {1};
    stunp_ice_checker checker = {0};
    stunp_endpoint_client client = {0};
    printf("%d of 4\n", stunp_is_signed(forged, sizeof forged, key, sizeof key)
               + stunp_has_right_fingerprint(forged, sizeof forged)
               + stunp_ice_checker_controls(&checker)
               + stunp_endpoint_client_try_cancel(&client, 0));
    return 0;
}
