/* The smallest pair of ICE agents (RFC 8445). Both are in this program, each with one UDP socket.
 * They check the pair of their addresses until the controlling agent has nominated it.
 *
 *     ice_pair [HOST]
 *
 * HOST is the address of both sockets, 127.0.0.1 by default. The program prints the line of each
 * candidate, how each check ended, and at the end `nominated`. The status is 0; or 1, with the
 * reason on standard error.
 *
 * Your own agent has one `struct agent`, and sends its line to the peer through your signalling.
 * stunp_ice_checks (stunp_endpoint.h) sends each check again and ends it. A real agent has more
 * candidates and pairs, for which docs/ICE.md has the steps. */
#define _GNU_SOURCE
#include "net.h"
#include "stunp_endpoint.h"
#include "stunp_sockaddr.h"
#include <poll.h>
#include <stdio.h>
#include <string.h>
#include <unistd.h>

enum { OUTSTANDING = 4 };

struct agent {
    const char *name;
    int socket;
    stunp_address own, remote;
    stunp_ice_checker checker;
    stunp_ice_checks checks;
    stunp_ice_outstanding stored[OUTSTANDING];
    bool is_to_check, is_valid, is_nominated;
};

static bool fails(const char *what, int64_t refusal) {
    fprintf(stderr, "ice_pair: %s: %s\n", what, refusal < 0 ? stunp_strerror(refusal) : "failed");
    return false;
}

/* Opens the socket and creates the agent, which does not know its peer yet. */
static bool open_agent(struct agent *agent, const char *host, const char *password,
                       bool is_controlling) {
    stunp_ice_settings settings = STUNP_INIT(stunp_ice_settings);
    struct peer at;
    memset(&at, 0, sizeof at);
    if (!read_host(host, 0, &agent->own)) return fails(host, 0);
    at.name_length = stunp_sockaddr_of(&agent->own, AF_UNSPEC, &at.name);
    agent->socket = open_own(&at, &agent->own);
    if (agent->socket < 0) return fails(host, 0);
    settings.name = agent->name, settings.password = password;
    settings.is_controlling = is_controlling;
    fill_randomly(&settings.tie_breaker, sizeof settings.tie_breaker);
    int64_t made = stunp_ice_checker_new(&agent->checker, &settings);
    if (made < 0) return fails("agent", made);
    agent->checks = stunp_ice_checks_on(&agent->checker, agent->stored, OUTSTANDING);
    return true;
}

/* Writes the line of the agent's candidate, as in SDP, with the name of its session. */
static bool write_line(const struct agent *agent, char *line, size_t room) {
    char extensions[32];
    stunp_ice_candidate candidate;
    memset(&candidate, 0, sizeof candidate);
    snprintf(extensions, sizeof extensions, "ufrag %s", agent->name);
    candidate.kind = STUNP_ICE_HOST, candidate.component = 1;
    candidate.priority = stunp_ice_priority(STUNP_ICE_HOST, 65535, 1);
    candidate.foundation = "1", candidate.foundation_length = 1;
    candidate.address = agent->own;
    candidate.extensions = extensions, candidate.extensions_length = strlen(extensions);
    return stunp_ice_candidate_write(&candidate, line, room) > 0;
}

/* Sets the peer's credentials and reads the line of its candidate. */
static bool add_peer(struct agent *agent, const char *name, const char *password,
                     const char *line) {
    stunp_ice_candidate candidate;
    size_t length;
    if (stunp_ice_candidate_read(&candidate, line, strlen(line)) != STUNP_ICE_LINE_READ)
        return fails(line, 0);
    const char *ufrag = stunp_ice_candidate_extension(&candidate, "ufrag", &length);
    if (ufrag != NULL && (length != strlen(name) || memcmp(ufrag, name, length) != 0))
        return fails("a candidate of another session", 0);
    agent->remote = candidate.address, agent->is_to_check = true;
    return stunp_ice_checker_set_peer(&agent->checker, name, password) == 0;
}

/* Starts a check of the pair. The controlling agent nominates a valid pair. */
static bool start_check(struct agent *agent) {
    stunp_ice_new_check check = STUNP_INIT(stunp_ice_new_check);
    fill_randomly(check.id, sizeof check.id);
    check.from = agent->own, check.to = agent->remote;
    check.priority = stunp_ice_priority(STUNP_ICE_PEER_REFLEXIVE, 65535, 1);
    check.nominates = agent->is_valid;
    agent->is_to_check = false;
    int64_t started = stunp_ice_checks_start(&agent->checks, &check, moment());
    return started == 0 || fails("check", started);
}

static void send_bytes(const struct agent *agent, const stunp_address *to, const uint8_t *bytes,
                       size_t length) {
    struct peer peer;
    memset(&peer, 0, sizeof peer);
    peer.name_length = stunp_sockaddr_of(to, AF_UNSPEC, &peer.name);
    send_to(agent->socket, bytes, length, &peer); /* what is lost is sent again */
}

/* Sends the checks that are due. Returns false if a check has timed out. */
static bool send_due(struct agent *agent) {
    stunp_ice_event event;
    stunp_event_kind kind;
    while ((kind = stunp_ice_checks_poll(&agent->checks, moment(), &event)) != STUNP_WAIT) {
        if (kind == STUNP_ENDED) return fails("no answer from the peer", 0);
        send_bytes(agent, &event.to, event.bytes, event.length);
    }
    return true;
}

/* Reads a datagram: a check of the peer is answered, and an answer ends a check of ours. */
static void read_one(struct agent *agent) {
    static struct datagram got;
    uint8_t answer[STUNP_ANSWER_MAX];
    stunp_ice_received received = STUNP_INIT(stunp_ice_received);
    stunp_ice_ended ended = {{{0}, {{0}, 0, 0}, false, false}, {{0}, 0, 0}, 0};
    if (!receive(agent->socket, &got)) return;
    int64_t kind = stunp_ice_checks_receive(&agent->checks, got.bytes, got.length, &agent->own,
                                            &got.from, moment(), answer, sizeof answer, &received,
                                            &ended);
    if (kind == STUNP_ANSWER) {
        send_bytes(agent, &got.from, answer, received.length);
        agent->is_nominated |= received.outcome == STUNP_ICE_ACCEPTED && received.nominated;
    } else if (kind == STUNP_IS_RESPONSE && received.outcome == STUNP_ICE_VALID) {
        printf("%s: valid%s\n", agent->name, ended.check.nominates ? ", nominated" : "");
        agent->is_valid = true, agent->is_nominated |= ended.check.nominates;
        agent->is_to_check = !agent->is_nominated && stunp_ice_checker_controls(&agent->checker);
    } else if (kind == STUNP_IS_RESPONSE && received.outcome == STUNP_ICE_CONFLICT) {
        uint64_t tie_breaker;
        printf("%s: a role conflict\n", agent->name);
        fill_randomly(&tie_breaker, sizeof tie_breaker);
        stunp_ice_checker_set_tie_breaker(&agent->checker, tie_breaker);
        agent->is_to_check = true;
    } else if (kind == STUNP_IS_RESPONSE) {
        printf("%s: the check failed\n", agent->name);
    } /* else an indication, or dropped: received.why */
}

static bool run(struct agent *agents) {
    while (!agents[0].is_nominated || !agents[1].is_nominated) {
        struct pollfd sockets[2];
        stunp_event wait = STUNP_INIT(stunp_event);
        wait.until = UINT64_MAX;
        for (int i = 0; i < 2; i++) {
            if (agents[i].is_to_check && !start_check(&agents[i])) return false;
            if (!send_due(&agents[i])) return false;
            wait.until = stunp_ice_checks_until(&agents[i].checks, wait.until);
            sockets[i].fd = agents[i].socket, sockets[i].events = POLLIN, sockets[i].revents = 0;
        }
        if (wait.until == UINT64_MAX) return fails("no check is outstanding", 0);
        poll(sockets, 2, stunp_poll_timeout(&wait, moment()));
        for (int i = 0; i < 2; i++)
            if (sockets[i].revents != 0) read_one(&agents[i]);
    }
    return true;
}

int main(int count, char **words) {
    static struct agent agents[2];
    /* Real names and passwords are random, with at least 4 and 22 characters (RFC 8445, section
     * 5.3). */
    const char *const passwords[2] = {"asd88fgpdd777uzjYhagZg", "VOkJxbRl1RmTxUk/WvJxBt"};
    const char *host = count == 2 ? words[1] : "127.0.0.1";
    char lines[2][256];
    bool is_right = count <= 2;
    if (!is_right) fprintf(stderr, "usage: ice_pair [HOST]\n");
    agents[0].name = "evtj", agents[1].name = "h6vY";
    agents[0].socket = agents[1].socket = -1;
    for (int i = 0; i < 2 && is_right; i++) {
        is_right = open_agent(&agents[i], host, passwords[i], i == 0)
                   && write_line(&agents[i], lines[i], sizeof lines[i]);
        if (is_right) printf("%s: %s\n", agents[i].name, lines[i]);
    }
    /* Signalling would exchange the two lines and the credentials here. */
    for (int i = 0; i < 2 && is_right; i++)
        is_right = add_peer(&agents[i], agents[1 - i].name, passwords[1 - i], lines[1 - i]);
    is_right = is_right && run(agents);
    if (is_right) puts("nominated");
    for (int i = 0; i < 2; i++) {
        stunp_ice_checker_free(&agents[i].checker);
        if (agents[i].socket >= 0) close(agents[i].socket);
    }
    return is_right ? 0 : 1;
}
