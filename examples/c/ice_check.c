/* Connectivity checks of ICE (RFC 8445) on a timer: two programs check each pair of their
 * candidates, of which they may have many, and the controlling program nominates a pair.
 *
 *     ice_check controlling|controlled [OPTION]..
 *
 * --at HOST           the address of the candidates (by default 127.0.0.1)
 * --candidates N      the number of candidates, each with its own port (by default 1). With 71 on
 *                     both sides there are 5041 pairs
 * --pace SECONDS      the time from one check to the next (section 14.2; by default 0.05)
 * --tie-breaker N     the tie-breaker, in place of a random one
 * --within SECONDS    gives up after SECONDS (by default 30)
 *
 * Its first line of output is `HOST PORT[,PORT].. UFRAG PASSWORD`, and it reads the line of the
 * other program from standard input. The caller has to exchange the lines, as SDP does.
 *
 *     mkfifo one other
 *     ice_check controlling <other | tee one & ice_check controlled <one | tee other
 *
 * Once a pair is nominated, the program prints `nominated HOST:PORT as ROLE, seen as HOST:PORT` and
 * sends data over it. It prints `data TEXT` for data that arrives, and at the end `checked N pairs
 * in SECONDS s, N valid, N failed, N requests sent again`. The status is 0; 1, with the reason on
 * standard error; or 2 for wrong arguments.
 *
 * stunp_ice_checks (stunp_endpoint.h) writes, retransmits and judges the checks. This file has the
 * parts that it leaves to its caller: sockets, pairs and pacing. */
#define _GNU_SOURCE
#include "exchange.h"
#include "heap.h"
#include "stunp_endpoint.h"
#include "words.h"
#include <ctype.h>
#include <poll.h>
#include <stdio.h>
#include <string.h>
#include <unistd.h>

/* The most candidates of this side, and the most of the peer, including those that are learned from
 * checks. */
enum { MOST_CANDIDATES = 100, MOST_REMOTES = MOST_CANDIDATES + 16 };
enum { MOST_PAIRS = MOST_CANDIDATES * MOST_REMOTES, STORED_CHECKS = 4 };
enum { MOST_MEMORY = 16 << 20, AT_ONCE = 16, MOST_PORTS = 6 * MOST_CANDIDATES };

/* The longest wait, the time from one datagram of data to the next, and the time for which checks
 * are answered after this program is done, because the other program may not be done. */
static const uint64_t TICK = SECOND / 20, REPEAT = SECOND / 5, AFTERWARDS = SECOND;

/* The priority that our first candidate would have if the peer learned it from our check (section
 * 5.1.2.1). Each later candidate has a lower local preference. */
static const uint32_t PEER_REFLEXIVE = (110 << 24) + (65535 << 8) + 255, LOCAL_PREFERENCE = 1 << 8;

/* A pair of two candidates, ours and theirs (section 6.1.2.6). The last few checks that were sent
 * for it are stored, the current one at `sent` modulo their number, because a check that was
 * replaced may still be answered (section 7.3.1.4). */
struct pair {
    enum { UNPAIRED, WAITING, CHECKING, VALID, FAILED } state;
    bool is_queued; /* it is checked before the others */
    unsigned sent;
    stunp_ice_check checks[STORED_CHECKS];
    stunp_address seen; /* our candidate, as the peer sees it */
};

static stunp_ice_checker checker;
static struct exchange ours[MOST_CANDIDATES]; /* a socket and checks for each candidate */
static struct remote theirs[MOST_REMOTES];
static int ours_number, theirs_number;

/* The list. Pairs for which a check arrived are in a queue, and are checked first (section
 * 6.1.4.1). */
static struct pair pairs[MOST_PAIRS], *queue[MOST_PAIRS];
static struct pair *told, *nominated; /* the pair that the peer nominates, and the one that both
                                       * sides use */
static int pairs_number, next_pair, first_queued, queued, open_pairs, valid_pairs;
static const char *why = "no time left"; /* why the last pair failed */
static bool has_data;

static bool fails(const char *reason) {
    fprintf(stderr, "failed: %s\n", reason);
    return false;
}

static bool is_controlling(void) { return stunp_ice_checker_is_controlling(&checker) == 1; }

/* ---- The list */

static struct pair *pair_at(int our, int their) { return &pairs[our * MOST_REMOTES + their]; }
static int our_of(const struct pair *pair) { return (int)(pair - pairs) / MOST_REMOTES; }
static int their_of(const struct pair *pair) { return (int)(pair - pairs) % MOST_REMOTES; }

static stunp_ice_check *current(struct pair *pair) {
    return &pair->checks[pair->sent % STORED_CHECKS];
}

static bool is_open(const struct pair *pair) {
    return pair->state == WAITING || pair->state == CHECKING;
}

static void set_state(struct pair *pair, int state) {
    open_pairs -= is_open(pair);
    valid_pairs -= pair->state == VALID;
    pairs_number += pair->state == UNPAIRED;
    pair->state = state;
    open_pairs += is_open(pair);
    valid_pairs += state == VALID;
}

/* Ends a pair as failed if `check` is its current check, but not if it is a check that was
 * replaced. */
static void fail_pair(struct pair *pair, const stunp_ice_check *check, const char *reason) {
    if (pair->state != CHECKING || check != current(pair)) return;
    why = reason;
    set_state(pair, FAILED);
}

/* Puts a pair in front of the others, unless it is valid. A check in progress is replaced: it is
 * not sent again, but may still be answered (section 7.3.1.4). */
static void trigger(struct pair *pair) {
    if (pair->state == VALID || pair->is_queued) return;
    if (pair->state == CHECKING)
        stunp_ice_checks_stop_sending(&ours[our_of(pair)].checks, current(pair)->id);
    set_state(pair, WAITING);
    pair->is_queued = true;
    queue[(first_queued + queued++) % MOST_PAIRS] = pair;
}

/* Finds the pair of a candidate of ours that has a stored check with this ID, and that check. */
static struct pair *checked_by(int our, const uint8_t *id, stunp_ice_check **check) {
    for (int their = 0; their < theirs_number; their++) {
        struct pair *pair = pair_at(our, their);
        for (int i = 0; i < STORED_CHECKS; i++)
            if (pair->checks[i].to.length > 0
                && memcmp(pair->checks[i].id, id, STUNP_ID_LENGTH) == 0) {
                *check = &pair->checks[i];
                return pair;
            }
    }
    return NULL;
}

/* Returns the pair over which a datagram arrived, or NULL if it did not come from a candidate that
 * we know. */
static struct pair *pair_over(int our, const stunp_address *from) {
    int their = 0;
    while (their < theirs_number && !is_same(&theirs[their].at, from)) their++;
    return their < theirs_number && pair_at(our, their)->state != UNPAIRED ? pair_at(our, their)
                                                                          : NULL;
}

/* Returns the pair over which a check of the peer arrived. If its source is new and there is room,
 * it becomes a peer-reflexive candidate (section 7.3.1.3). */
static struct pair *learn(int our, const struct datagram *got) {
    int their = 0;
    while (their < theirs_number && !is_same(&theirs[their].at, &got->from)) their++;
    if (their == MOST_REMOTES) return NULL;
    if (their == theirs_number) {
        theirs[theirs_number++] = (struct remote){got->peer, got->from};
        for (int i = 0; i < ours_number; i++) ours[i].remotes_number = theirs_number;
    }
    return pair_at(our, their);
}

/* Returns the pair to check next, or NULL. Once each pair was checked, the controlling side checks
 * the valid pair with the highest priority again, to nominate it (section 8.1.1). */
static struct pair *to_check(void) {
    while (queued > 0) {
        struct pair *pair = queue[first_queued];
        first_queued = (first_queued + 1) % MOST_PAIRS;
        queued--;
        pair->is_queued = false;
        if (pair->state == WAITING) return pair;
    }
    while (next_pair < MOST_PAIRS && pairs[next_pair].state != WAITING) next_pair++;
    if (next_pair < MOST_PAIRS) return &pairs[next_pair];
    if (!is_controlling() || nominated != NULL || open_pairs > 0) return NULL;
    for (int their = 0; their < theirs_number; their++)
        for (int our = 0; our < ours_number; our++)
            if (pair_at(our, their)->state == VALID) return pair_at(our, their);
    return NULL;
}

/* ---- Our checks, and what arrives */

static int64_t send_check(struct pair *pair) {
    struct exchange *our = &ours[our_of(pair)];
    stunp_ice_new_check check = STUNP_INIT(stunp_ice_new_check);
    check.from = our->own, check.to = theirs[their_of(pair)].at;
    check.priority = PEER_REFLEXIVE - (uint32_t)our_of(pair) * LOCAL_PREFERENCE;
    check.nominates = pair->state == VALID;
    fill_randomly(check.id, sizeof check.id);
    set_state(pair, CHECKING);
    pair->sent++;
    int64_t started = stunp_ice_checks_start(&our->checks, &check, moment());
    if (started < 0) return started;
    *current(pair) = *stunp_ice_checks_find(&our->checks, check.id);
    our->started++;
    return 0;
}

/* Handles the end of a check of ours (section 7.2.5). */
static void end_check(struct pair *pair, const stunp_ice_check *check,
                      const stunp_ice_received *ended) {
    uint64_t tie_breaker;
    switch (ended->outcome) {
    case STUNP_ICE_VALID:
        pair->seen = ended->mapped;
        set_state(pair, VALID);
        if (check->nominates && is_controlling()) nominated = pair;
        break;
    case STUNP_ICE_CONFLICT:
        fill_randomly(&tie_breaker, sizeof tie_breaker);
        stunp_ice_checker_set_tie_breaker(&checker, tie_breaker);
        trigger(pair);
        break;
    case STUNP_ICE_ERROR: fail_pair(pair, check, "an error response"); break;
    case STUNP_ICE_OTHER_PATH: fail_pair(pair, check, "a response from another address"); break;
    case STUNP_ICE_MALFORMED: fail_pair(pair, check, "no mapped address"); break;
    default: fail_pair(pair, check, "a response that is not understood"); break;
    }
}

/* Handles a check of the peer that was accepted (section 7.3.1). */
static void read_check(int our, const struct datagram *got, const stunp_ice_received *check) {
    struct pair *pair = learn(our, got);
    if (pair == NULL) return;
    if (check->nominated) told = pair;
    trigger(pair);
}

/* Handles data, which may arrive before the pair is nominated on this side. */
static void take_data(int our, const struct datagram *got) {
    if (has_data || pair_over(our, &got->from) == NULL) return;
    has_data = true;
    printf("data ");
    for (size_t i = 0; i < got->length; i++) putchar(isprint(got->bytes[i]) ? got->bytes[i] : '?');
    putchar('\n');
}

/* Handles a datagram, which is data or a message of ICE. */
static void take(int our, const struct datagram *got) {
    static uint8_t out[STUNP_ANSWER_MAX];
    static stunp_ice_received received = STUNP_INIT(stunp_ice_received);
    stunp_ice_check *check = NULL;
    stunp_ice_ended ended;
    struct pair *pair = NULL;
    if (stunp_is_stun(got->bytes, got->length) == 0) {
        take_data(our, got);
        return;
    }
    int64_t kind = stunp_ice_checks_receive(&ours[our].checks, got->bytes, got->length,
                                            &ours[our].own, &got->from, moment(), out, sizeof out,
                                            &received, &ended);
    if (kind == STUNP_ANSWER) {
        send_to(ours[our].socket, out, received.length, &got->peer);
        if (received.outcome == STUNP_ICE_ACCEPTED) read_check(our, got, &received);
    }
    if (kind == STUNP_IS_RESPONSE) pair = checked_by(our, ended.check.id, &check);
    if (pair != NULL) end_check(pair, check, &received);
}

/* Sends checks again that are due, and ends those that were not answered. Returns the time at which
 * there is more to do, or `until`. */
static uint64_t go_on(uint64_t now, uint64_t until) {
    for (int our = 0; our < ours_number; our++) {
        struct exchange *by = &ours[our];
        stunp_ice_event event;
        stunp_event_kind kind;
        while ((kind = stunp_ice_checks_poll(&by->checks, now, &event)) != STUNP_WAIT) {
            stunp_ice_check *check;
            struct pair *pair = checked_by(our, event.check.id, &check);
            if (kind == STUNP_TRANSMIT) {
                send_to(by->socket, event.bytes, event.length, peer_of(by, &event.to));
                by->sent++;
            } else if (pair != NULL) {
                fail_pair(pair, check, "no answer");
            }
        }
        until = stunp_ice_checks_until(&by->checks, until);
    }
    return until;
}

/* The controlled side follows a USE-CANDIDATE, once its own check of the pair succeeded (section
 * 7.3.1.5). */
static void follow(void) {
    static bool is_printed;
    bool is_to_follow = nominated == NULL && told != NULL && !is_controlling();
    if (is_to_follow && told->state == VALID) nominated = told;
    if (nominated == NULL || is_printed) return;
    is_printed = true;
    printf("nominated %s as %s", text_of(&theirs[their_of(nominated)].at),
           is_controlling() ? "controlling" : "controlled");
    printf(", seen as %s\n", text_of(&nominated->seen));
}

/* Waits for datagrams until a time, and handles some from each socket. */
static void receive_some(uint64_t now, uint64_t until) {
    struct pollfd sockets[MOST_CANDIDATES];
    static struct datagram got;
    uint64_t wait = until > now ? until - now : 0;
    struct timespec most = {(time_t)(wait / SECOND), (long)(wait % SECOND)};
    for (int our = 0; our < ours_number; our++)
        sockets[our] = (struct pollfd){ours[our].socket, POLLIN, 0};
    if (ppoll(sockets, (nfds_t)ours_number, &most, NULL) <= 0) return;
    for (int our = 0; our < ours_number; our++)
        for (int taken = 0; sockets[our].revents != 0 && taken < AT_ONCE; taken++) {
            if (!receive(sockets[our].fd, &got)) break;
            take(our, &got);
            follow();
        }
}

/* ---- The session */

static void send_data(const struct pair *pair, const char *ufrag) {
    char data[64];
    int length = snprintf(data, sizeof data, "from %s", ufrag);
    send_to(ours[our_of(pair)].socket, (const uint8_t *)data, (size_t)length,
            &theirs[their_of(pair)].peer);
}

static void print_checked(uint64_t nanoseconds) {
    unsigned long repeated = 0;
    for (int our = 0; our < ours_number; our++)
        if (ours[our].sent > ours[our].started) repeated += ours[our].sent - ours[our].started;
    printf("checked %d pairs in %.3f s, %d valid, %d failed, %lu requests sent again\n",
           pairs_number, (double)nanoseconds / SECOND, valid_pairs,
           pairs_number - valid_pairs - open_pairs, repeated);
}

/* Checks a pair, if there is one to check and it is time. Prints an error and returns false if no
 * pair can be valid. */
static bool check_some(uint64_t now, uint64_t pace, uint64_t *next) {
    struct pair *pair = now >= *next ? to_check() : NULL;
    if (pair != NULL) {
        int64_t asked = send_check(pair);
        if (asked < 0) fail_pair(pair, current(pair), stunp_strerror(asked));
        *next = now + pace;
    }
    return open_pairs > 0 || valid_pairs > 0 || fails(why);
}

/* Checks until each pair was checked and one is nominated, sends data until some arrives, and goes
 * on answering for a while. */
static bool run(uint64_t pace, uint64_t give_up, const char *ufrag) {
    uint64_t end = give_up, now, begun = moment(), checked = 0, next_check = 0, next_data = 0;
    while ((now = moment()) < end) {
        if (!check_some(now, pace, &next_check)) return false;
        if (nominated != NULL && now >= next_data) {
            send_data(nominated, ufrag);
            next_data = now + REPEAT;
        }
        bool is_done = open_pairs == 0;
        if (is_done && checked == 0) checked = now - begun;
        if (is_done && nominated != NULL && has_data && end == give_up) end = now + AFTERWARDS;
        receive_some(now, go_on(now, next_check > now ? next_check : now + TICK));
    }
    if (nominated != NULL && has_data) print_checked(checked);
    return (nominated != NULL && has_data) || fails("no time left");
}

/* ---- The lines that the programs exchange */

/* Fills a text with random characters (section 5.3). */
static void fill_text(char *text, size_t length) {
    static const char characters[] =
        "ABCDEFGHIJKLMNOPQRSTUVWXYZabcdefghijklmnopqrstuvwxyz0123456789+/";
    fill_randomly(text, length);
    for (size_t i = 0; i < length; i++) text[i] = characters[(uint8_t)text[i] % 64];
    text[length] = 0;
}

/* Opens a socket and the checks for each of our candidates, and prints our line. */
static bool open_ours(const char *host, const stunp_ice_settings *settings) {
    printf("%s ", host);
    for (int i = 0; i < ours_number; i++) {
        struct exchange *our = &ours[i];
        our->socket = open_at(host, &our->own), our->remotes = theirs;
        if (our->socket < 0) return false;
        our->checks = stunp_ice_checks_on(&checker, our->stored, MOST_OUTSTANDING);
        printf("%s%u", i == 0 ? "" : ",", (unsigned)our->own.port);
    }
    printf(" %s %s\n", settings->name, settings->password);
    return true;
}

/* Reads the line of the peer, and creates the checker and the pairs. */
static bool read_theirs(stunp_ice_settings *settings) {
    static char host[64], ports[MOST_PORTS + 1];
    static char name[STUNP_ICE_NAME_MAX + 1], password[STUNP_ICE_PASSWORD_MAX + 1];
    if (scanf("%63s %600s %256s %256s", host, ports, name, password) != 4)
        return fails("no line of the other side's");
    for (char *rest = ports, *port; (port = strsep(&rest, ",")) != NULL; theirs_number++)
        if (theirs_number == MOST_CANDIDATES || !find_remote(host, port, &theirs[theirs_number]))
            return false;
    settings->peer_name = name, settings->peer_password = password;
    int64_t made = stunp_ice_checker_new(&checker, settings);
    if (made < 0) return fails(stunp_strerror(made));
    for (int our = 0; our < ours_number; our++) {
        ours[our].remotes_number = theirs_number;
        for (int their = 0; their < theirs_number; their++)
            set_state(pair_at(our, their), WAITING);
    }
    return true;
}

static void close_ours(void) {
    stunp_ice_checker_free(&checker);
    for (int i = 0; i < ours_number; i++)
        if (ours[i].socket > 0) close(ours[i].socket);
}

int main(int count, char **words) {
    const char *host = "127.0.0.1";
    unsigned long tie_breaker = 0, candidates = 1;
    uint64_t within = 30 * SECOND, pace = SECOND / 20;
    char ufrag[5], password[25];
    const struct option options[] = {
        {"--at", .text = &host},
        {"--candidates", .number = &candidates, .least = 1, .most = MOST_CANDIDATES},
        {"--pace", .nanoseconds = &pace, .least = 0, .most = 1},
        {"--tie-breaker", .number = &tie_breaker, .least = 1, .most = UINT64_MAX},
        {"--within", .nanoseconds = &within, .least = 0, .most = 1000000},
        {.name = NULL},
    };
    stunp_ice_settings settings = STUNP_INIT(stunp_ice_settings);
    count = read_options(count, words, options);
    settings.is_controlling = count == 1 && strcmp(words[0], "controlling") == 0;
    if (!settings.is_controlling && (count != 1 || strcmp(words[0], "controlled") != 0)) {
        fprintf(stderr, "usage: ice_check controlling|controlled [--at HOST] [--candidates N] "
                        "[--pace SECONDS] [--tie-breaker N] [--within SECONDS]\n");
        return 2;
    }
    stunp_heap_bound(MOST_MEMORY);
    setvbuf(stdout, NULL, _IOLBF, 0);
    fill_randomly(&settings.tie_breaker, sizeof settings.tie_breaker);
    if (tie_breaker != 0) settings.tie_breaker = tie_breaker;
    fill_text(ufrag, 4);
    fill_text(password, 24);
    settings.name = ufrag, settings.password = password;
    ours_number = (int)candidates;
    bool is_right =
        open_ours(host, &settings) && read_theirs(&settings) && run(pace, moment() + within, ufrag);
    close_ours();
    return is_right ? 0 : 1;
}
