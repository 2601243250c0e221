/* stunp_sockaddr.h: converts socket addresses to stunp_address, and back
 *
 * This header is optional. Its calls are inline, so they need no archive. It needs POSIX, and C99
 * or C++.
 *
 *     struct sockaddr_storage name;
 *     socklen_t name_length = sizeof name;
 *     ssize_t length = recvfrom(fd, bytes, sizeof bytes, 0, (struct sockaddr *)&name, &name_length);
 *     stunp_address from = stunp_address_of((struct sockaddr *)&name, name_length);
 *
 * To answer, pass `name` to sendto unchanged, because an IPv6 address may have a scope (the
 * interface of a link-local address), which a stunp_address does not have. */
#ifndef STUNP_SOCKADDR_H
#define STUNP_SOCKADDR_H

#include "stunp.h"
#include <netinet/in.h>
#include <string.h>
#include <sys/socket.h>

#ifdef __cplusplus
extern "C" {
#endif

/* Converts a socket address of `length` bytes. An IPv4 address that is mapped into IPv6
 * (::ffff:a.b.c.d), as a socket for both families returns it, becomes an IPv4 address. The flow
 * label and the scope are left out. If the socket address is neither IPv4 nor IPv6, or is too
 * short, the result has length 0. Test for this: calls of stunp_endpoint.h fail with
 * STUNP_BAD_ARGUMENT for such an address, unless length 0 has a meaning of its own there. */
static inline stunp_address stunp_address_of(const struct sockaddr *name, socklen_t length) {
    stunp_address address = {{0}, 0, 0};
    struct sockaddr_in four;
    struct sockaddr_in6 six;
    sa_family_t family = AF_UNSPEC;
    if ((size_t)length >= offsetof(struct sockaddr, sa_data)) family = name->sa_family;
    if (family == AF_INET && (size_t)length >= sizeof four) {
        memcpy(&four, name, sizeof four);
        memcpy(address.octets, &four.sin_addr, 4);
        address.port = ntohs(four.sin_port), address.length = 4;
    } else if (family == AF_INET6 && (size_t)length >= sizeof six) {
        memcpy(&six, name, sizeof six);
        size_t before = IN6_IS_ADDR_V4MAPPED(&six.sin6_addr) ? 12 : 0;
        memcpy(address.octets, six.sin6_addr.s6_addr + before, 16 - before);
        address.port = ntohs(six.sin6_port), address.length = (uint16_t)(16 - before);
    }
    return address;
}

/* Writes an address to `*name` as a socket address, for a socket of the family `family`: AF_INET,
 * AF_INET6, or AF_UNSPEC for the family of the address itself. For AF_INET6, an IPv4 address is
 * mapped into IPv6. The flow label and the scope are 0.
 *
 * Returns the length of the socket address. If the address is neither IPv4 nor IPv6, or cannot be
 * written for this family, returns 0 and writes nothing. */
static inline socklen_t stunp_sockaddr_of(const stunp_address *address, int family,
                                          struct sockaddr_storage *name) {
    struct sockaddr_in four;
    struct sockaddr_in6 six;
    bool is_four = address->length == 4;
    if (!is_four && address->length != 16) return 0;
    if (family == AF_UNSPEC) family = is_four ? AF_INET : AF_INET6;
    if (family == AF_INET && is_four) {
        memset(&four, 0, sizeof four);
        four.sin_family = AF_INET, four.sin_port = htons(address->port);
        memcpy(&four.sin_addr, address->octets, 4);
        memcpy(name, &four, sizeof four);
        return (socklen_t)sizeof four;
    }
    if (family != AF_INET6) return 0;
    memset(&six, 0, sizeof six);
    six.sin6_family = AF_INET6, six.sin6_port = htons(address->port);
    if (is_four) memset(six.sin6_addr.s6_addr + 10, 0xff, 2);
    memcpy(six.sin6_addr.s6_addr + (is_four ? 12 : 0), address->octets, is_four ? 4 : 16);
    memcpy(name, &six, sizeof six);
    return (socklen_t)sizeof six;
}

#ifdef __cplusplus
}
#endif

#endif
