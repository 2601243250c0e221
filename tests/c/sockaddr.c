/* Converts addresses of sockets to those of the library, and back. The expected bytes are those
 * that inet_pton reads. */
#include "stunp_sockaddr.h"
#include <arpa/inet.h>
#include <stdio.h>
#include <stdlib.h>

#define CHECK(wanted) check(wanted, #wanted, __LINE__)

static void check(bool is_right, const char *wanted, int line) {
    if (is_right) return;
    fprintf(stderr, "sockaddr.c:%d: not so: %s\n", line, wanted);
    exit(1);
}

/* Makes a socket address from a text and a port. An address of IPv6 gets a flow label and a scope,
 * too. */
static struct sockaddr_storage name_of(const char *text, uint16_t port) {
    struct sockaddr_storage name;
    struct sockaddr_in four;
    struct sockaddr_in6 six;
    memset(&name, 0, sizeof name), memset(&four, 0, sizeof four), memset(&six, 0, sizeof six);
    four.sin_family = AF_INET, four.sin_port = htons(port);
    six.sin6_family = AF_INET6, six.sin6_port = htons(port);
    six.sin6_flowinfo = 7, six.sin6_scope_id = 2;
    if (inet_pton(AF_INET, text, &four.sin_addr) == 1) memcpy(&name, &four, sizeof four);
    else if (inet_pton(AF_INET6, text, &six.sin6_addr) == 1) memcpy(&name, &six, sizeof six);
    return name;
}

static stunp_address read_whole(const char *text, uint16_t port) {
    struct sockaddr_storage name = name_of(text, port);
    return stunp_address_of((const struct sockaddr *)&name, sizeof name);
}

static void there_and_back(const char *text, const char *read, int family, int in_family) {
    char back[INET6_ADDRSTRLEN] = "";
    struct sockaddr_storage name;
    stunp_address address = read_whole(text, 32853);
    CHECK(address.port == 32853);
    CHECK(address.length == (strchr(read, ':') == NULL ? 4 : 16));
    CHECK(inet_ntop(strchr(read, ':') == NULL ? AF_INET : AF_INET6, address.octets, back,
                    sizeof back) != NULL);
    CHECK(strcmp(back, read) == 0);
    memset(&name, 0xaa, sizeof name);
    socklen_t length = stunp_sockaddr_of(&address, family, &name);
    CHECK(name.ss_family == in_family);
    struct sockaddr_in6 six;
    memcpy(&six, &name, sizeof six);
    if (in_family == AF_INET6)
        CHECK(length == sizeof six && six.sin6_flowinfo == 0 && six.sin6_scope_id == 0);
    else CHECK(length == sizeof(struct sockaddr_in));
    stunp_address again = stunp_address_of((const struct sockaddr *)&name, length);
    CHECK(memcmp(&again, &address, sizeof again) == 0);
}

int main(void) {
    struct sockaddr_storage name = name_of("192.0.2.1", 1);
    const struct sockaddr *short_name = (const struct sockaddr *)&name;
    there_and_back("192.0.2.1", "192.0.2.1", AF_UNSPEC, AF_INET);
    there_and_back("192.0.2.1", "192.0.2.1", AF_INET, AF_INET);
    there_and_back("192.0.2.1", "192.0.2.1", AF_INET6, AF_INET6);
    there_and_back("::ffff:192.0.2.1", "192.0.2.1", AF_UNSPEC, AF_INET);
    there_and_back("2001:db8::7", "2001:db8::7", AF_UNSPEC, AF_INET6);
    there_and_back("fe80::1", "fe80::1", AF_INET6, AF_INET6);
    CHECK(stunp_address_of(short_name, 0).length == 0);
    CHECK(stunp_address_of(short_name, sizeof(struct sockaddr_in) - 1).length == 0);
    CHECK(stunp_address_of(short_name, sizeof(struct sockaddr_in)).length == 4);
    name = name_of("::1", 1);
    CHECK(stunp_address_of(short_name, sizeof(struct sockaddr_in6) - 1).length == 0);
    CHECK(stunp_address_of(short_name, sizeof(struct sockaddr_in6)).length == 16);
    name.ss_family = AF_UNIX;
    CHECK(stunp_address_of(short_name, sizeof name).length == 0);
    stunp_address six = read_whole("::1", 1), none = {{0}, 1, 5};
    memset(&name, 0xaa, sizeof name);
    CHECK(stunp_sockaddr_of(&six, AF_INET, &name) == 0);
    CHECK(stunp_sockaddr_of(&six, AF_UNIX, &name) == 0);
    CHECK(stunp_sockaddr_of(&none, AF_UNSPEC, &name) == 0);
    CHECK(*(uint8_t *)&name == 0xaa);
    puts("sockaddr: passed");
    return 0;
}
