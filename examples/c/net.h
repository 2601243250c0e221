/* What the library leaves to you: a clock, random bytes, UDP sockets and their addresses. */
#ifndef STUN_NET_H
#define STUN_NET_H

#include "stunp.h"
#include <netinet/in.h>
#include <sys/socket.h>
#include <sys/types.h>

#define SECOND UINT64_C(1000000000)

/* Returns nanoseconds of a clock that never goes back, and that continues while the machine
 * sleeps. */
uint64_t moment(void);

/* Writes the current time in UTC in the form of a log, such as 2026-11-28T19:41:07.250Z, and
 * returns the text. */
enum { TIME_LENGTH = 32 };
const char *time_text(char text[TIME_LENGTH]);

/* Fills a buffer with random bytes. Ends the program if this fails, because IDs and nonces depend
 * on them. */
void fill_randomly(void *out, size_t length);

/* The other end of a datagram, and the address of this machine at which it arrived. */
struct peer {
    struct sockaddr_storage name;
    socklen_t name_length;
    /* aligned as its headers must be */
    size_t here[CMSG_SPACE(sizeof(struct in6_pktinfo)) / sizeof(size_t)];
    size_t here_length;
};

/* A datagram that arrived, and its sender. */
enum { MOST_BYTES = 4096 };
struct datagram {
    uint8_t bytes[MOST_BYTES];
    size_t length;
    struct peer peer;
    stunp_address from;
};

/* Returns the address of a peer for the library. An IPv4 address that is mapped into IPv6 becomes
 * an IPv4 address. */
stunp_address address_of(const struct peer *peer);

bool is_same(const stunp_address *one, const stunp_address *other);

/* Reads a numeric IPv4 or IPv6 address. */
bool read_host(const char *host, unsigned long port, stunp_address *address);

/* Returns an address as `IPv4:PORT` or `[IPv6]:PORT`. The text is valid until the next call. */
const char *text_of(const stunp_address *address);

/* The addresses at which a server listens: `count` IPv4 or IPv6 addresses, or, if `count` is 0, all
 * addresses of this machine, of both families if it has both. `-` is the UDP socket that is
 * standard input, with its port. If the port is shared, other sockets may be bound to it too. */
struct place {
    const char *const *at;
    int count;
    bool is_shared, has_tcp;
};

/* The sockets of a server, on one port: one for each of its addresses and, with TCP, one more that
 * listens for connections. */
enum { MOST_SOCKETS = 16 };
struct listener {
    int sockets[MOST_SOCKETS], streams[MOST_SOCKETS];
    int number, streams_number;
};

/* Opens the sockets of a server, which are non-blocking (use epoll). Port 0 becomes a port that was
 * free at each address. If it fails, prints the reason on standard error and returns false. */
bool open_server(const struct place *place, unsigned long *port, struct listener *listener);
void close_server(const struct listener *listener);

/* Opens a non-blocking socket at an address, and writes its own address with its port. Returns -1
 * if this fails, with the reason in errno. */
int open_own(const struct peer *at, stunp_address *own);

/* Finds a server, opens a socket of its family, and writes the socket's own address. If the host
 * has several addresses, it uses the first to which this machine has a route. Returns the socket,
 * or prints the reason on standard error and returns -1. */
int open_client(const char *host, const char *port, struct peer *server, stunp_address *own);

/* Waits until this time of moment() for a datagram at a socket, or for an error report about a
 * datagram that was sent. */
enum arrival { NOTHING, DATAGRAM, ERROR_REPORT };
enum arrival wait_until(int socket, uint64_t until);

/* Reads what ICMP reported about the datagrams that a client sent. Returns the error if no datagram
 * will ever be answered, for example because a port is closed, or 0. */
int hard_error(int socket);

/* Prints why a call on a socket failed, at most every ten seconds, and waits for 10 ms, because the
 * next call may fail at once too. */
void rest_after(const char *what);

/* Reads a datagram. Returns false if none was there or it was too long. If the socket fails, it
 * waits for 10 ms and prints the reason now and then. */
bool receive(int socket, struct datagram *got);

/* Sends a datagram from the address at which the peer's datagram arrived. It may be lost, as it may
 * on the network. */
void send_to(int socket, const uint8_t *bytes, size_t length, const struct peer *peer);

/* `receive_batch` reads up to BATCH datagrams in one system call, and returns how many it has read;
 * a datagram that was too long has length 0. `answer_batch` sends the answers in one system call,
 * except those of length 0. */
enum { BATCH = 32 };
struct answer {
    const uint8_t *start; /* in `bytes`, or elsewhere */
    size_t length;
    uint8_t bytes[MOST_BYTES];
};
int receive_batch(int socket, struct datagram got[BATCH]);
void answer_batch(int socket, const struct datagram *got, const struct answer *answers, int number);

#endif
