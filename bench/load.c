/* Loads a STUN server on 127.0.0.1 from many ports:
 * load PORT COUNT SOCKETS WINDOW MIX [NAME PASSWORD]
 *
 * Sends COUNT datagrams from SOCKETS ports, of the kinds of MIX in turn. u is an unsigned Binding
 * request; s answers the challenge that each port drew before the clock starts; g is 20 to 99
 * random bytes, which nobody answers. At most WINDOW requests are unanswered at a time. Where
 * WINDOW is a number and `/s`, so many datagrams are sent a second, answered or not. An answer that
 * does not come within 300 ms after all others is lost.
 *
 * Prints one line: how many were sent, how many drew a success, a 401, another error or nothing,
 * and the seconds.
 * Build: cc -O2 -I../include load.c ../crates/stun_c/out/libstun_c.a */
#define _GNU_SOURCE
#include "stunp.h"
#include <arpa/inet.h>
#include <netinet/in.h>
#include <stdio.h>
#include <stdlib.h>
#include <string.h>
#include <sys/epoll.h>
#include <sys/random.h>
#include <sys/resource.h>
#include <sys/socket.h>
#include <time.h>
#include <unistd.h>

enum { MOST_SOCKETS = 20000, KINDS = 3 };

struct datagram { uint8_t bytes[512]; size_t length; };
static struct sender {
    int fd;
    size_t turn;
    int is_waiting;
    struct datagram unsigned_one, signed_one, garbage;
} *senders;
static struct { unsigned long sent, requests, successes, challenges, errors, lost; } counts;
static const char *mix, *name, *password;

static double now(void) {
    struct timespec moment;
    clock_gettime(CLOCK_MONOTONIC, &moment);
    return (double)moment.tv_sec + (double)moment.tv_nsec / 1e9;
}

static void fail(const char *what) {
    perror(what);
    exit(1);
}

static size_t value_of(const uint8_t *message, size_t length, uint16_t wanted,
                       const uint8_t **value) {
    uint16_t type;
    size_t value_length;
    for (int64_t at = 0; (at = stunp_next(message, length, (size_t)at, &type, &value_length)) > 0;)
        if (type == wanted) {
            *value = message + at;
            return value_length;
        }
    return 0;
}

/* A request that answers a challenge, by HMAC-SHA1. */
static void sign(struct datagram *out, const uint8_t *challenge, size_t length) {
    const uint8_t *realm = NULL, *nonce = NULL, *offer = NULL;
    uint8_t id[STUNP_ID_LENGTH], key[STUNP_SHA1_KEY_LENGTH];
    const size_t room = sizeof out->bytes;
    size_t realm_length = value_of(challenge, length, STUNP_REALM, &realm);
    size_t nonce_length = value_of(challenge, length, STUNP_NONCE, &nonce);
    size_t offer_length = value_of(challenge, length, STUNP_PASSWORD_ALGORITHMS, &offer);
    if (realm == NULL || nonce == NULL) fail("load: no challenge");
    if (getrandom(id, sizeof id, 0) != sizeof id) fail("getrandom");
    if (stunp_long_term_key(STUNP_SHA1, name, strlen(name), (const char *)realm, realm_length,
                            password,
                            strlen(password), key, sizeof key) < 0)
        fail("load: no key");
    int64_t at = stunp_begin(STUNP_REQUEST, STUNP_BINDING, id, sizeof id, out->bytes, room);
    at = stunp_add(out->bytes, room, (size_t)at, STUNP_USERNAME, (const uint8_t *)name,
                   strlen(name));
    at = stunp_add(out->bytes, room, (size_t)at, STUNP_REALM, realm, realm_length);
    at = stunp_add(out->bytes, room, (size_t)at, STUNP_NONCE, nonce, nonce_length);
    if (offer != NULL) {
        at = stunp_add(out->bytes, room, (size_t)at, STUNP_PASSWORD_ALGORITHMS, offer,
                       offer_length);
        at = stunp_add(out->bytes, room, (size_t)at, STUNP_PASSWORD_ALGORITHM,
                       (const uint8_t *)"\0\1\0\0", 4);
    }
    at = stunp_sign(out->bytes, room, (size_t)at, STUNP_SHA1, key, sizeof key);
    if (at < 0) fail("load: sign");
    out->length = (size_t)at;
}

/* Opens a port, and draws a challenge where requests are to be signed. */
static void open_sender(struct sender *sender, const struct sockaddr_in *server, int epoll) {
    uint8_t id[STUNP_ID_LENGTH], answer[1024], random_bytes[128];
    struct timeval wait = {1, 0};
    sender->fd = socket(AF_INET, SOCK_DGRAM, 0);
    if (sender->fd < 0 || connect(sender->fd, (const struct sockaddr *)server, sizeof *server) < 0)
        fail("load: socket");
    if (getrandom(id, sizeof id, 0) < 0 || getrandom(random_bytes, sizeof random_bytes, 0) < 0)
        fail("getrandom");
    sender->unsigned_one.length = (size_t)stunp_begin(STUNP_REQUEST, STUNP_BINDING, id, sizeof id,
                                                      sender->unsigned_one.bytes, 512);
    sender->garbage.length = 20 + random_bytes[127] % 80;
    memcpy(sender->garbage.bytes, random_bytes, sender->garbage.length);
    sender->garbage.bytes[0] |= 0x80; /* no message of STUN */
    if (strchr(mix, 's') != NULL) {
        ssize_t length = -1;
        setsockopt(sender->fd, SOL_SOCKET, SO_RCVTIMEO, &wait, sizeof wait);
        for (int ask = 0; ask < 5 && length < 0; ask++) {
            send(sender->fd, sender->unsigned_one.bytes, sender->unsigned_one.length, 0);
            length = recv(sender->fd, answer, sizeof answer, 0);
        }
        if (length < 0) fail("load: no challenge");
        sign(&sender->signed_one, answer, (size_t)length);
    }
    struct epoll_event event = {.events = EPOLLIN, .data.ptr = sender};
    epoll_ctl(epoll, EPOLL_CTL_ADD, sender->fd, &event);
}

/* Sends the next datagrams of a port, up to one that is to be answered. Answers whether there was
 * one. */
static int send_next(struct sender *sender, unsigned long count) {
    while (counts.sent < count) {
        char kind = mix[sender->turn++ % strlen(mix)];
        const struct datagram *one = kind == 'u' ? &sender->unsigned_one
            : kind == 's' ? &sender->signed_one : &sender->garbage;
        counts.sent++;
        send(sender->fd, one->bytes, one->length, 0);
        if (kind == 'g') continue;
        counts.requests++;
        return sender->is_waiting = 1;
    }
    return 0;
}

static void count_answer(const uint8_t *answer, size_t length) {
    int64_t code = stunp_error_code(answer, length);
    if (stunp_class(answer, length) == STUNP_SUCCESS) counts.successes++;
    else if (code == 401) counts.challenges++;
    else counts.errors++;
}

/* Sends so many datagrams a second, and reads what comes. Where this program had to wait for longer
 * than 10 ms it does not send all that it is behind with at once. */
static void run_at(int epoll, unsigned long count, size_t number, double rate) {
    struct epoll_event events[64];
    uint8_t answer[2048];
    unsigned long answered = 0;
    double begun = now(), last = begun;
    for (size_t next = 0;
         counts.sent < count || (answered < counts.requests && now() - last < 0.3);) {
        double late = now() - begun - (double)counts.sent / rate - 0.01;
        if (late > 0) begun += late;
        while (counts.sent < count && (double)counts.sent < (now() - begun) * rate) {
            send_next(&senders[next], counts.sent + 1);
            next = (next + 1) % number;
        }
        int ready = epoll_wait(epoll, events, 64, counts.sent < count ? 0 : 1);
        for (int i = 0; i < ready; i++) {
            struct sender *sender = events[i].data.ptr;
            ssize_t length = recv(sender->fd, answer, sizeof answer, MSG_DONTWAIT);
            if (length < 0) continue;
            last = now();
            answered++;
            count_answer(answer, (size_t)length);
        }
    }
    counts.lost = counts.requests - answered;
}

static void run(int epoll, unsigned long count, size_t number, size_t window) {
    struct epoll_event events[64];
    uint8_t answer[2048];
    size_t waiting = 0, next = 0;
    for (;;) {
        while (waiting < window && counts.sent < count) {
            for (size_t tries = 0; senders[next].is_waiting && tries < number; tries++)
                next = (next + 1) % number;
            if (senders[next].is_waiting) break;
            waiting += (size_t)send_next(&senders[next], count);
            next = (next + 1) % number;
        }
        if (waiting == 0) return;
        int ready = epoll_wait(epoll, events, 64, 300);
        if (ready == 0) {
            counts.lost += waiting;
            waiting = 0;
            for (size_t i = 0; i < number; i++) senders[i].is_waiting = 0;
        }
        for (int i = 0; i < ready; i++) {
            struct sender *sender = events[i].data.ptr;
            ssize_t length = recv(sender->fd, answer, sizeof answer, MSG_DONTWAIT);
            if (length < 0 || !sender->is_waiting) continue;
            sender->is_waiting = 0;
            waiting--;
            count_answer(answer, (size_t)length);
        }
    }
}

int main(int words_count, char **words) {
    if (words_count != 6 && words_count != 8) {
        fprintf(stderr, "usage: load PORT COUNT SOCKETS WINDOW MIX [NAME PASSWORD]\n");
        return 2;
    }
    struct sockaddr_in server = {.sin_family = AF_INET, .sin_addr.s_addr = htonl(INADDR_LOOPBACK)};
    unsigned long count = strtoul(words[2], NULL, 10);
    size_t number = strtoul(words[3], NULL, 10), window = strtoul(words[4], NULL, 10);
    struct rlimit files = {number + 100, number + 100};
    server.sin_port = htons((uint16_t)atoi(words[1]));
    mix = words[5];
    name = words_count == 8 ? words[6] : "";
    password = words_count == 8 ? words[7] : "";
    if (number == 0 || number > MOST_SOCKETS || strspn(mix, "usg") != strlen(mix) || *mix == 0)
        return 2;
    setrlimit(RLIMIT_NOFILE, &files);
    senders = calloc(number, sizeof *senders);
    int epoll = epoll_create1(0);
    for (size_t i = 0; i < number; i++) {
        open_sender(&senders[i], &server, epoll);
        senders[i].turn = i;
    }
    double start = now();
    if (strstr(words[4], "/s") != NULL) run_at(epoll, count, number, (double)window);
    else run(epoll, count, number, window);
    printf("sent %lu requests %lu successes %lu challenges %lu errors %lu lost %lu seconds %.3f\n",
           counts.sent, counts.requests, counts.successes, counts.challenges, counts.errors,
           counts.lost, now() - start);
    return 0;
}
