/* The address of a pointer to a text in place of the pointer, and a password in place of a key.
 *
 * warned: incompatible-pointer-types
 * warned: pointer-sign */
#include "stunp_endpoint.h"

int64_t adds(stunp_endpoint_users *users, const char *name, const char *password);
int64_t adds(stunp_endpoint_users *users, const char *name, const char *password) {
    int64_t added = stunp_endpoint_users_add(users, &name, strlen(name), password,
                                             strlen(password));
    if (added < 0) return added;
    return stunp_endpoint_users_add_keys(users, name, strlen(name), password, 16, NULL, 0);
}
