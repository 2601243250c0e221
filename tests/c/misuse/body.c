/* A program changes the fields of a body itself: more bytes than its buffer has, more than a message
 * has, and no buffer.
 *
 * harmless: -7 -7, -7 -7, -7 -7; the first attribute 0
 * named: stunp_body_add: only calls with a body may change its fields */
#include "stunp_endpoint.h"
#include <stdio.h>

static void use(stunp_endpoint_client *client, uint8_t *bytes, size_t room, size_t length,
                const char *after) {
    stunp_body body = stunp_body_on(bytes, room);
    body.length = length;
    stunp_body kept = body;
    int64_t added = stunp_body_add_number(&body, STUNP_LIFETIME, 600, 4);
    int64_t asked = stunp_endpoint_client_request(client, STUNP_ALLOCATE, &kept, 0, NULL);
    printf("%d %d%s", (int)added, (int)asked, after);
}

int main(void) {
    uint8_t room[16], seed[32] = {1};
    stunp_endpoint_client client = {0};
    stunp_endpoint_client_settings settings = STUNP_INIT(stunp_endpoint_client_settings);
    settings.server.length = 4, settings.seed = seed;
    if (stunp_endpoint_client_new(&client, &settings) < 0) return 1;
    use(&client, room, sizeof room, sizeof room + 1, ", ");
    use(&client, room, SIZE_MAX, STUNP_BODY_MAX + 1, ", ");
    use(&client, NULL, sizeof room, 0, "; ");
    stunp_body body = stunp_body_on(room, sizeof room);
    printf("the first attribute %d\n", (int)stunp_body_add_number(&body, STUNP_LIFETIME, 600, 4));
    stunp_endpoint_client_free(&client);
    return 0;
}
