/* Implements net.h on Linux. */
#define _GNU_SOURCE
#include "net.h"
#include <arpa/inet.h>
#include <errno.h>
#include <fcntl.h>
#include <linux/errqueue.h>
#include <netdb.h>
#include <poll.h>
#include <stdio.h>
#include <stdlib.h>
#include <string.h>
#include <sys/random.h>
#include <time.h>
#include <unistd.h>

enum { RECEIVE_BUFFER = 4 << 20, REST = 10000000 /* nanoseconds */ };

/* A port that is free in one family may be in use in the other. */
enum { MOST_TRIES = 16 };

uint64_t moment(void) {
    struct timespec now;
    if (clock_gettime(CLOCK_BOOTTIME, &now) != 0) clock_gettime(CLOCK_MONOTONIC, &now);
    return (uint64_t)now.tv_sec * SECOND + (uint64_t)now.tv_nsec;
}

const char *time_text(char text[TIME_LENGTH]) {
    struct timespec now;
    struct tm date;
    clock_gettime(CLOCK_REALTIME, &now);
    size_t length = strftime(text, TIME_LENGTH, "%Y-%m-%dT%H:%M:%S", gmtime_r(&now.tv_sec, &date));
    snprintf(text + length, TIME_LENGTH - length, ".%03dZ", (int)(now.tv_nsec / 1000000));
    return text;
}

void fill_randomly(void *out, size_t length) {
    for (size_t filled = 0; filled < length;) {
        ssize_t more = getrandom((uint8_t *)out + filled, length - filled, 0);
        if (more < 0 && errno != EINTR) {
            perror("getrandom");
            exit(1);
        }
        if (more > 0) filled += (size_t)more;
    }
}

/* ---- Addresses */

stunp_address address_of(const struct peer *peer) {
    stunp_address address = {{0}, 0, 4};
    if (peer->name.ss_family == AF_INET) {
        const struct sockaddr_in *four = (const struct sockaddr_in *)&peer->name;
        address.port = ntohs(four->sin_port);
        memcpy(address.octets, &four->sin_addr, 4);
    } else {
        const struct sockaddr_in6 *six = (const struct sockaddr_in6 *)&peer->name;
        size_t mapped = IN6_IS_ADDR_V4MAPPED(&six->sin6_addr) ? 12 : 0;
        address.length = (uint16_t)(16 - mapped);
        address.port = ntohs(six->sin6_port);
        memcpy(address.octets, six->sin6_addr.s6_addr + mapped, address.length);
    }
    return address;
}

const char *text_of(const stunp_address *address) {
    static char text[INET6_ADDRSTRLEN + 9];
    char octets[INET6_ADDRSTRLEN] = "?";
    inet_ntop(address->length == 4 ? AF_INET : AF_INET6, address->octets, octets, sizeof octets);
    snprintf(text, sizeof text, address->length == 4 ? "%s:%u" : "[%s]:%u", octets,
             (unsigned)address->port);
    return text;
}

bool is_same(const stunp_address *one, const stunp_address *other) {
    return one->length == other->length && one->port == other->port
           && memcmp(one->octets, other->octets, one->length) == 0;
}

static bool is_link_local_4(const uint8_t octets[4]) {
    return octets[0] == 169 && octets[1] == 254;
}

/* Removes the interface on which the request arrived, so that the answer takes whatever route leads
 * to the client. Only a link-local address keeps its interface, because it needs one. */
static void forget_interface(struct msghdr *message) {
    for (struct cmsghdr *one = CMSG_FIRSTHDR(message); one != NULL;
         one = CMSG_NXTHDR(message, one)) {
        struct in6_pktinfo six;
        struct in_pktinfo four;
        if (one->cmsg_level == IPPROTO_IPV6 && one->cmsg_type == IPV6_PKTINFO) {
            memcpy(&six, CMSG_DATA(one), sizeof six);
            if (!IN6_IS_ADDR_LINKLOCAL(&six.ipi6_addr)) six.ipi6_ifindex = 0;
            memcpy(CMSG_DATA(one), &six, sizeof six);
        } else if (one->cmsg_level == IPPROTO_IP && one->cmsg_type == IP_PKTINFO) {
            memcpy(&four, CMSG_DATA(one), sizeof four);
            if (!is_link_local_4((const uint8_t *)&four.ipi_spec_dst)) four.ipi_ifindex = 0;
            memcpy(CMSG_DATA(one), &four, sizeof four);
        }
    }
}

/* ---- Sockets */

/* Closes a socket, and returns -1. errno stays as it was. */
static int give_up(int fd) {
    int error = errno;
    close(fd);
    errno = error;
    return -1;
}

static void set(int fd, int level, int name, int value) {
    setsockopt(fd, level, name, &value, sizeof value);
}

/* Makes the kernel report at which address each datagram arrived, and sets the size of the buffer
 * in which a burst waits. Without the rights of root the buffer has at most net.core.rmem_max
 * bytes. */
static void prepare(int fd, int family) {
    if (family == AF_INET6) set(fd, IPPROTO_IPV6, IPV6_RECVPKTINFO, 1);
    else set(fd, IPPROTO_IP, IP_PKTINFO, 1);
    set(fd, SOL_SOCKET, SO_RCVBUF, RECEIVE_BUFFER);
    set(fd, SOL_SOCKET, SO_RCVBUFFORCE, RECEIVE_BUFFER);
}

/* Reads the port of a socket. It is at the same offset in addresses of both families. */
static bool has_port(int fd, unsigned long *port) {
    struct sockaddr_in6 name;
    socklen_t length = sizeof name;
    if (getsockname(fd, (struct sockaddr *)&name, &length) != 0) return false;
    *port = ntohs(name.sin6_port);
    return true;
}

/* Opens a socket of a type at an address and a port. Returns -1 if that fails, with the reason in
 * errno. After a restart, old connections do not keep a TCP port in use. */
static int open_at(const struct sockaddr_storage *at, int type, unsigned long *port,
                   bool is_shared) {
    struct sockaddr_in6 name;
    int fd = socket(at->ss_family, type | SOCK_NONBLOCK | SOCK_CLOEXEC, 0);
    if (fd < 0) return -1;
    memcpy(&name, at, sizeof name);
    name.sin6_port = htons((uint16_t)*port);
    if (at->ss_family == AF_INET6) set(fd, IPPROTO_IPV6, IPV6_V6ONLY, 1);
    if (type == SOCK_DGRAM) prepare(fd, at->ss_family);
    else set(fd, SOL_SOCKET, SO_REUSEADDR, 1);
    if (is_shared) set(fd, SOL_SOCKET, SO_REUSEPORT, 1);
    size_t length = at->ss_family == AF_INET6 ? sizeof name : sizeof(struct sockaddr_in);
    bool is_bound = bind(fd, (struct sockaddr *)&name, (socklen_t)length) == 0
                    && has_port(fd, port) && (type == SOCK_DGRAM || listen(fd, SOMAXCONN) == 0);
    return is_bound ? fd : give_up(fd);
}

/* Uses standard input as the socket. Other processes may have the same socket. */
static int inherited(unsigned long *port) {
    struct sockaddr_storage name;
    socklen_t length = sizeof name;
    if (getsockname(STDIN_FILENO, (struct sockaddr *)&name, &length) != 0) return -1;
    int fd = fcntl(STDIN_FILENO, F_DUPFD_CLOEXEC, 3);
    if (fd < 0) return -1;
    prepare(fd, name.ss_family);
    if (fcntl(fd, F_SETFL, O_NONBLOCK) == 0 && has_port(fd, port)) return fd;
    return give_up(fd);
}

/* Reads an address. Sets errno to EINVAL if the text is not an address. */
static bool read_address(const char *word, struct sockaddr_storage *at) {
    struct sockaddr_in *four = (struct sockaddr_in *)at;
    struct sockaddr_in6 *six = (struct sockaddr_in6 *)at;
    memset(at, 0, sizeof *at);
    at->ss_family = AF_INET;
    if (inet_pton(AF_INET, word, &four->sin_addr) == 1) return true;
    at->ss_family = AF_INET6;
    if (inet_pton(AF_INET6, word, &six->sin6_addr) == 1) return true;
    errno = EINVAL;
    return false;
}

bool read_host(const char *host, unsigned long port, stunp_address *address) {
    struct peer peer;
    if (!read_address(host, &peer.name)) return false;
    *address = address_of(&peer);
    address->port = (uint16_t)port;
    return true;
}

/* Opens a socket for each address on one port, and one for TCP at each of these addresses. */
static bool open_each(const char *const *at, int count, const struct place *place,
                      unsigned long *port, struct listener *listener) {
    for (int i = 0; i < count; i++) {
        struct sockaddr_storage name;
        socklen_t length = sizeof name;
        int fd = -1;
        if (listener->number == MOST_SOCKETS) errno = EMFILE;
        else if (strcmp(at[i], "-") == 0) fd = inherited(port);
        else if (read_address(at[i], &name))
            fd = open_at(&name, SOCK_DGRAM, port, place->is_shared);
        if (fd < 0) return false;
        listener->sockets[listener->number++] = fd;
        if (!place->has_tcp) continue;
        if (getsockname(fd, (struct sockaddr *)&name, &length) != 0) return false;
        fd = open_at(&name, SOCK_STREAM, port, place->is_shared);
        if (fd < 0) return false;
        listener->streams[listener->streams_number++] = fd;
    }
    return true;
}

/* Opens sockets of both families on one port, or of the family that the machine has. */
static bool open_both(const struct place *place, unsigned long *port, struct listener *listener) {
    static const char *const all[] = {"::", "0.0.0.0"};
    for (int i = 0; i < 2; i++)
        if (!open_each(&all[i], 1, place, port, listener) && errno != EAFNOSUPPORT
            && errno != EADDRNOTAVAIL)
            return false;
    return listener->number > 0;
}

bool open_server(const struct place *place, unsigned long *port, struct listener *listener) {
    for (int tries = *port == 0 ? MOST_TRIES : 1; tries > 0; tries--) {
        unsigned long found = *port;
        *listener = (struct listener){.number = 0};
        if (place->count > 0 ? open_each(place->at, place->count, place, &found, listener)
                             : open_both(place, &found, listener)) {
            *port = found;
            return true;
        }
        int error = errno;
        close_server(listener);
        errno = error;
    }
    perror("socket");
    return false;
}

void close_server(const struct listener *listener) {
    for (int i = 0; i < listener->number; i++) close(listener->sockets[i]);
    for (int i = 0; i < listener->streams_number; i++) close(listener->streams[i]);
}

int open_own(const struct peer *at, stunp_address *own) {
    struct peer peer = *at;
    int fd = socket(peer.name.ss_family, SOCK_DGRAM | SOCK_NONBLOCK | SOCK_CLOEXEC, 0);
    if (fd < 0) return -1;
    if (bind(fd, (struct sockaddr *)&peer.name, peer.name_length) < 0
        || getsockname(fd, (struct sockaddr *)&peer.name, &peer.name_length) < 0)
        return give_up(fd);
    *own = address_of(&peer);
    return fd;
}

/* Returns whether this machine has a route to a server. It connects a socket, which sends nothing. */
static bool has_route(const struct peer *server) {
    int fd = socket(server->name.ss_family, SOCK_DGRAM | SOCK_CLOEXEC, 0);
    if (fd < 0) return false;
    int error = connect(fd, (const struct sockaddr *)&server->name, server->name_length);
    give_up(fd);
    return error == 0;
}

int open_client(const char *host, const char *port, struct peer *server, stunp_address *own) {
    struct addrinfo wanted = {.ai_socktype = SOCK_DGRAM}, *found;
    int error = getaddrinfo(host, port, &wanted, &found), fd = -1;
    if (error != 0) {
        fprintf(stderr, "%s: %s\n", host, gai_strerror(error));
        return -1;
    }
    for (struct addrinfo *one = found; one != NULL && fd < 0; one = one->ai_next) {
        *server = (struct peer){.name_length = one->ai_addrlen};
        memcpy(&server->name, one->ai_addr, one->ai_addrlen);
        if (!has_route(server)) continue;
        fd = open_own(&(struct peer){.name.ss_family = server->name.ss_family,
                                     .name_length = server->name_length}, own);
    }
    if (fd < 0) perror("socket");
    else if (server->name.ss_family == AF_INET6) set(fd, IPPROTO_IPV6, IPV6_RECVERR, 1);
    else set(fd, IPPROTO_IP, IP_RECVERR, 1);
    freeaddrinfo(found);
    return fd;
}

enum arrival wait_until(int socket, uint64_t until) {
    struct pollfd one = {socket, POLLIN, 0};
    uint64_t now = moment(), left = until > now ? until - now : 0;
    struct timespec most = {(time_t)(left / SECOND), (long)(left % SECOND)};
    if (ppoll(&one, 1, &most, NULL) <= 0) return NOTHING;
    return (one.revents & POLLERR) != 0 ? ERROR_REPORT : DATAGRAM;
}

int hard_error(int socket) {
    size_t control[64];
    int hard = 0;
    for (;;) {
        struct msghdr message = {.msg_control = control, .msg_controllen = sizeof control};
        if (recvmsg(socket, &message, MSG_ERRQUEUE | MSG_DONTWAIT) < 0) return hard;
        for (struct cmsghdr *one = CMSG_FIRSTHDR(&message); one != NULL;
             one = CMSG_NXTHDR(&message, one)) {
            struct sock_extended_err error;
            memcpy(&error, CMSG_DATA(one), sizeof error);
            bool is_icmp =
                error.ee_origin == SO_EE_ORIGIN_ICMP || error.ee_origin == SO_EE_ORIGIN_ICMP6;
            /* There is no such port or protocol. If a network or host is unreachable, this may be
             * temporary. */
            if (is_icmp && (error.ee_errno == ECONNREFUSED || error.ee_errno == ENOPROTOOPT))
                hard = (int)error.ee_errno;
        }
    }
}

void rest_after(const char *what) {
    static uint64_t next;
    const struct timespec rest = {0, REST};
    char time[TIME_LENGTH];
    if (moment() >= next) fprintf(stderr, "%s %s: %s\n", time_text(time), what, strerror(errno));
    if (moment() >= next) next = moment() + 10 * SECOND;
    nanosleep(&rest, NULL);
}

/* Returns the header with which a datagram and its peer are read, or an answer is sent. */
static struct msghdr header_of(struct peer *peer, struct iovec *data) {
    return (struct msghdr){.msg_name = &peer->name,
                           .msg_namelen = sizeof peer->name,
                           .msg_iov = data,
                           .msg_iovlen = 1,
                           .msg_control = peer->here,
                           .msg_controllen = sizeof peer->here};
}

/* Sets the length and the sender of a datagram that was read. Returns false if it was too long. */
static bool was_read(struct msghdr *message, size_t length, struct datagram *got) {
    forget_interface(message);
    got->peer.name_length = message->msg_namelen;
    got->peer.here_length = message->msg_controllen;
    got->from = address_of(&got->peer);
    got->length = length;
    return (message->msg_flags & MSG_TRUNC) == 0;
}

bool receive(int socket, struct datagram *got) {
    struct iovec data = {got->bytes, sizeof got->bytes};
    struct msghdr message = header_of(&got->peer, &data);
    ssize_t length = recvmsg(socket, &message, 0);
    if (length < 0) {
        if (errno != EINTR && errno != EAGAIN) rest_after("recvmsg");
        return false;
    }
    return was_read(&message, (size_t)length, got);
}

int receive_batch(int socket, struct datagram got[BATCH]) {
    struct iovec data[BATCH];
    struct mmsghdr messages[BATCH];
    for (int i = 0; i < BATCH; i++) {
        data[i] = (struct iovec){got[i].bytes, sizeof got[i].bytes};
        messages[i] = (struct mmsghdr){.msg_hdr = header_of(&got[i].peer, &data[i])};
    }
    int number = recvmmsg(socket, messages, BATCH, 0, NULL);
    if (number < 0 && errno != EINTR && errno != EAGAIN) rest_after("recvmsg");
    for (int i = 0; i < number; i++)
        if (!was_read(&messages[i].msg_hdr, messages[i].msg_len, &got[i])) got[i].length = 0;
    return number < 0 ? 0 : number;
}

/* Returns the header of an answer to the sender of a datagram. */
static struct msghdr answer_to(struct peer *to, struct iovec *data) {
    struct msghdr message = header_of(to, data);
    message.msg_namelen = to->name_length;
    message.msg_controllen = to->here_length;
    return message;
}

void send_to(int socket, const uint8_t *bytes, size_t length, const struct peer *peer) {
    struct peer to = *peer;
    struct iovec data = {(uint8_t *)bytes, length};
    struct msghdr message = answer_to(&to, &data);
    sendmsg(socket, &message, 0);
}

void answer_batch(int socket, const struct datagram *got, const struct answer *answers,
                  int number) {
    static struct peer to[BATCH];
    struct iovec data[BATCH];
    struct mmsghdr messages[BATCH];
    unsigned left = 0;
    for (int i = 0; i < number; i++) {
        if (answers[i].length == 0) continue;
        to[left] = got[i].peer;
        data[left] = (struct iovec){(uint8_t *)answers[i].start, answers[i].length};
        messages[left] = (struct mmsghdr){.msg_hdr = answer_to(&to[left], &data[left])};
        left++;
    }
    /* An answer that cannot be sent is left out, but the next ones are sent. */
    for (unsigned sent = 0; sent < left;) {
        int more = sendmmsg(socket, messages + sent, left - sent, 0);
        sent += more > 0 ? (unsigned)more : 1;
    }
}
