/* The password before the name. Both are texts, so no compiler sees it.
 *
 * named: stunp_endpoint_users_add: The name comes first */
#include "stunp_endpoint.h"

int64_t adds(stunp_endpoint_users *users);
int64_t adds(stunp_endpoint_users *users) {
    return stunp_endpoint_users_add(users, "wonderland", 10, "alice", 5);
}
