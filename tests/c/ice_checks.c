/* Checks of ICE with their timers, and lines of candidates. Addresses in lines are compared with
 * those of the C library. */
#include "fixture.h"
#include "stunp_endpoint.h"
#include <arpa/inet.h>

#define COUNT(array) (sizeof(array) / sizeof *(array))

enum { STORED = 4 };

static const char *const evtj_password = "VOkJxbRl1RmTxUk/WvJxBt";
static const char *const h6vy_password = "0123456789abcdefghijkl";
static const uint32_t PRIORITY = 0x6e0001ff;
static const stunp_address left_at = {{192, 0, 2, 1}, 1, 4}, right_at = {{192, 0, 2, 2}, 2, 4};
static const stunp_address elsewhere = {{192, 0, 2, 9}, 2, 4}, nowhere = {{0}, 1, 5};
static const stunp_address mapped_left = {{0, 0, 0, 0, 0, 0, 0, 0, 0, 0, 255, 255, 192, 0, 2, 1}, 1, 16};

/* The agent `evtj`, on the left, or its peer `h6vY`. */
static stunp_ice_checker agent_of(bool is_left, bool is_controlling) {
    stunp_ice_checker agent = {0};
    stunp_ice_settings settings = STUNP_INIT(stunp_ice_settings);
    settings.name = is_left ? "evtj" : "h6vY", settings.peer_name = is_left ? "h6vY" : "evtj";
    settings.password = is_left ? evtj_password : h6vy_password;
    settings.peer_password = is_left ? h6vy_password : evtj_password;
    settings.tie_breaker = is_left, settings.is_controlling = is_controlling;
    want("agent", stunp_ice_checker_new(&agent, &settings), 0);
    return agent;
}

static const uint8_t some_id[12] = {7, 7, 7, 7, 7, 7, 7, 7, 7, 7, 7, 7};

static stunp_ice_new_check check_of(uint8_t number) {
    stunp_ice_new_check check = STUNP_INIT(stunp_ice_new_check);
    memset(check.id, number, sizeof check.id);
    check.from = left_at, check.to = right_at, check.priority = PRIORITY;
    return check;
}

static void starts(void) {
    static stunp_ice_outstanding stored[STORED];
    stunp_ice_checker agent = agent_of(true, true), offering = {0};
    stunp_ice_checks checks = stunp_ice_checks_on(&agent, stored, STORED);
    stunp_ice_new_check check = check_of(1);
    stunp_ice_event event;
    want("none", (int64_t)stunp_ice_checks_outstanding(&checks), 0);
    want("nothing", stunp_ice_checks_poll(&checks, 5, &event), STUNP_WAIT);
    want("kind", event.kind, STUNP_WAIT);
    want("for ever", stunp_ice_checks_until(&checks, UINT64_MAX) == UINT64_MAX, true);
    check.size--;
    want("size", stunp_ice_checks_start(&checks, &check, 5), STUNP_BAD_ARGUMENT);
    check = check_of(1), check.from = nowhere;
    want("from nowhere", stunp_ice_checks_start(&checks, &check, 5), STUNP_BAD_ARGUMENT);
    check = check_of(1), check.transmissions = 256;
    want("too often", stunp_ice_checks_start(&checks, &check, 5), STUNP_BAD_ARGUMENT);
    check = check_of(1), check.to = nowhere;
    want("to nowhere", stunp_ice_checks_start(&checks, &check, 5), STUNP_BAD_ARGUMENT);
    want("none", (int64_t)stunp_ice_checks_outstanding(&checks), 0);
    for (uint8_t number = 1; number <= STORED; number++) {
        check = check_of(number);
        want("start", stunp_ice_checks_start(&checks, &check, 5), 0);
        want("found", stunp_ice_checks_find(&checks, check.id) != NULL, true);
    }
    want("outstanding", (int64_t)stunp_ice_checks_outstanding(&checks), STORED);
    want("in progress", stunp_ice_checks_start(&checks, &check, 5), STUNP_ALREADY_IN_PROGRESS);
    check = check_of(9);
    want("full", stunp_ice_checks_start(&checks, &check, 5), STUNP_BUFFER_TOO_SMALL);
    want("cancel", stunp_ice_checks_cancel(&checks, check.id), false);
    want("stop", stunp_ice_checks_stop_sending(&checks, check.id), false);
    want("find", stunp_ice_checks_find(&checks, check.id) == NULL, true);
    check = check_of(2);
    want("cancel", stunp_ice_checks_cancel(&checks, check.id), true);
    want("cancel", stunp_ice_checks_cancel(&checks, check.id), false);
    want("again", stunp_ice_checks_start(&checks, &check, 5), 0);
    want("cancel", stunp_ice_checks_cancel(&checks, check.id), true);
    stunp_ice_settings settings = STUNP_INIT(stunp_ice_settings);
    settings.name = "evtj", settings.password = evtj_password;
    want("offering", stunp_ice_checker_new(&offering, &settings), 0);
    checks = stunp_ice_checks_on(&offering, stored, STORED), check = check_of(1);
    want("no peer", stunp_ice_checks_start(&checks, &check, 5), STUNP_CANNOT_SIGN);
    want("none", (int64_t)stunp_ice_checks_outstanding(&checks), 0);
    stunp_ice_checker_free(&offering);
    stunp_ice_checker_free(&agent);
}

/* The plan of RFC 8489, section 6.2.1: seven transmissions at these milliseconds, and the end. */
static void timers(void) {
    static const uint32_t plan[] = {0, 500, 1500, 3500, 7500, 15500, 31500, 39500};
    const uint64_t millisecond = 1000000;
    static stunp_ice_outstanding stored[STORED];
    stunp_ice_checker agent = agent_of(true, true);
    stunp_ice_checks checks = stunp_ice_checks_on(&agent, stored, STORED);
    uint8_t bytes[STUNP_ICE_CHECK_MAX];
    stunp_ice_event event;
    int64_t length = stunp_ice_checker_check(&agent, some_id, &right_at, PRIORITY, false, bytes,
                                             sizeof bytes, NULL);
    /* A check that is sent until its end, and one that is not sent again after the third time but
     * has the same end. */
    for (size_t sent = 3; sent <= 7; sent += 4) {
        stunp_ice_new_check check = check_of(7);
        want("start", stunp_ice_checks_start(&checks, &check, 5), 0);
        for (size_t i = 0; i < COUNT(plan); i++) {
            uint64_t due = 5 + plan[i] * millisecond;
            if (i >= sent && i < 7) continue;
            want("due", stunp_ice_checks_until(&checks, UINT64_MAX) == due, true);
            want("sooner", stunp_ice_checks_until(&checks, 4), 4);
            if (i > 0) want("wait", stunp_ice_checks_poll(&checks, due - 1, &event), STUNP_WAIT);
            want("poll", stunp_ice_checks_poll(&checks, due, &event),
                 i < 7 ? STUNP_TRANSMIT : STUNP_ENDED);
            want_same("from", &event.from, &left_at, sizeof left_at);
            want_same("to", &event.to, &right_at, sizeof right_at);
            want_same("check", event.check.id, some_id, sizeof some_id);
            want("length", (int64_t)event.length, i < 7 ? length : 0);
            if (i < 7) want_same("bytes", event.bytes, bytes, event.length);
            if (i + 1 == sent && i < 6)
                want("stop", stunp_ice_checks_stop_sending(&checks, some_id), true);
        }
        want("over", stunp_ice_checks_poll(&checks, UINT64_MAX, &event), STUNP_WAIT);
        want("ended", stunp_ice_checks_cancel(&checks, some_id), false);
    }
    /* A check with further attributes, which need not outlive the call. */
    uint8_t room[16], further[STUNP_ICE_CHECK_MAX];
    stunp_body body = stunp_body_on(room, sizeof room);
    want("cost", stunp_body_add_number(&body, 0xc057, 0x00010032, 4), 0);
    length = stunp_ice_checker_check_body(&agent, some_id, &right_at, PRIORITY, false, &body, further,
                                          sizeof further, NULL);
    stunp_ice_new_check with_more = check_of(7);
    with_more.body = &body;
    want("start", stunp_ice_checks_start(&checks, &with_more, 0), 0);
    memset(room, 0, sizeof room);
    want("poll", stunp_ice_checks_poll(&checks, 0, &event), STUNP_TRANSMIT);
    want("length", (int64_t)event.length, length);
    want_same("bytes", event.bytes, further, event.length);
    want("cancel", stunp_ice_checks_cancel(&checks, some_id), true);
    /* Other timers: three transmissions, and waits of at most 300 ms. */
    stunp_ice_new_check check = check_of(7);
    check.initial = 200 * millisecond, check.longest = 300 * millisecond;
    check.last = 100 * millisecond, check.transmissions = 3;
    want("start", stunp_ice_checks_start(&checks, &check, 0), 0);
    static const uint32_t shorter[] = {0, 200, 500, 600};
    for (size_t i = 0; i < COUNT(shorter); i++)
        want("poll", stunp_ice_checks_until(&checks, UINT64_MAX) == shorter[i] * millisecond
             && stunp_ice_checks_poll(&checks, shorter[i] * millisecond, &event)
                    == (i < 3 ? STUNP_TRANSMIT : STUNP_ENDED), true);
    /* At the end of the clock nothing is due before its time. */
    check.initial = check.longest = check.last = UINT64_MAX;
    want("start", stunp_ice_checks_start(&checks, &check, 9), 0);
    want("poll", stunp_ice_checks_poll(&checks, 9, &event), STUNP_TRANSMIT);
    want("wait", stunp_ice_checks_poll(&checks, UINT64_MAX - 1, &event), STUNP_WAIT);
    stunp_ice_checker_free(&agent);
}

/* An answer ends its check once. An answer on another path makes the check fail, and one that is
 * not signed ends nothing. */
static void answers(void) {
    static stunp_ice_outstanding stored[STORED];
    uint8_t answer[STUNP_ANSWER_MAX], out[STUNP_ANSWER_MAX];
    stunp_ice_checker left = agent_of(true, true), right = agent_of(false, false);
    stunp_ice_checks checks = stunp_ice_checks_on(&left, stored, STORED);
    const struct { const stunp_address *at, *from; stunp_ice_outcome outcome; } ways[] = {
        {&left_at, &right_at, STUNP_ICE_VALID}, {&mapped_left, &right_at, STUNP_ICE_VALID},
        {&elsewhere, &right_at, STUNP_ICE_OTHER_PATH}, {&left_at, &elsewhere, STUNP_ICE_OTHER_PATH},
    };
    for (size_t i = 0; i < COUNT(ways); i++) {
        stunp_ice_new_check check = check_of((uint8_t)(i + 1)), other = check_of(99);
        stunp_ice_received got = STUNP_INIT(stunp_ice_received);
        stunp_ice_event event;
        stunp_ice_ended ended;
        check.nominates = true;
        want("start", stunp_ice_checks_start(&checks, &check, 100), 0);
        want("another", stunp_ice_checks_start(&checks, &other, 100), 0);
        want("send", stunp_ice_checks_poll(&checks, 100, &event), STUNP_TRANSMIT);
        want("answer", stunp_ice_checker_receive(&right, event.bytes, event.length, &left_at, NULL,
             answer, sizeof answer, &got), STUNP_ANSWER);
        size_t length = got.length;
        memset(&ended, 7, sizeof ended);
        want("to nowhere", stunp_ice_checks_receive(&checks, answer, length, &nowhere, &right_at, 140,
             out, sizeof out, &got, &ended), STUNP_BAD_ARGUMENT);
        want("failed", got.kind, STUNP_FAILED);
        want("from nowhere", stunp_ice_checks_receive(&checks, answer, length, &elsewhere, &nowhere,
             140, out, sizeof out, NULL, &ended), STUNP_BAD_ARGUMENT);
        answer[length - 1] ^= 1;
        want("damaged", stunp_ice_checks_receive(&checks, answer, length, ways[i].at, ways[i].from,
             140, out, sizeof out, NULL, &ended), STUNP_DROPPED);
        answer[length - 1] ^= 1;
        want("none has ended", ended.elapsed == 0x0707070707070707, true);
        want("ended", stunp_ice_checks_receive(&checks, answer, length, ways[i].at, ways[i].from, 140,
             out, sizeof out, &got, &ended), STUNP_IS_RESPONSE);
        want("outcome", got.outcome, ways[i].outcome);
        want("elapsed", (int64_t)ended.elapsed, 40);
        want_same("check", ended.check.id, check.id, sizeof check.id);
        want("nominates", ended.check.nominates, true);
        want_same("from", &ended.from, &left_at, sizeof left_at);
        want("gone", stunp_ice_checks_find(&checks, check.id) == NULL, true);
        want("the other is not", stunp_ice_checks_find(&checks, other.id) != NULL, true);
        want("once", stunp_ice_checks_receive(&checks, answer, length, ways[i].at, ways[i].from, 140,
             out, sizeof out, &got, &ended), STUNP_DROPPED);
        want("not asked", got.why, STUNP_DROP_NOT_ASKED);
        want("cancel", stunp_ice_checks_cancel(&checks, other.id), true);
        want("none", (int64_t)stunp_ice_checks_outstanding(&checks), 0);
    }
    /* A check of the peer that has the ID of one of our checks is answered, and ends nothing. */
    stunp_ice_new_check check = check_of(1);
    want("start", stunp_ice_checks_start(&checks, &check, 0), 0);
    int64_t length = stunp_ice_checker_check(&right, check.id, &left_at, PRIORITY, false, answer,
                                             sizeof answer, NULL);
    want("its check", stunp_ice_checks_receive(&checks, answer, (size_t)length, &left_at, &right_at, 0,
         out, sizeof out, NULL, NULL), STUNP_ANSWER);
    want("goes on", (int64_t)stunp_ice_checks_outstanding(&checks), 1);
    stunp_ice_checker_free(&left);
    stunp_ice_checker_free(&right);
}

static uint64_t state;

static uint32_t random_below(uint32_t most) {
    state = state * 6364136223846793005u + 1442695040888963407u;
    return (uint32_t)(state >> 33) % most;
}

/* Datagrams under way, and how often each check has ended. */
static struct datagram { bool is_there, is_to_left; uint8_t bytes[256]; size_t length; } net[32];
static int ends[256];

static void put_on_net(bool is_to_left, const uint8_t *bytes, size_t length) {
    struct datagram *one = &net[random_below(COUNT(net))]; /* a datagram that is already there is
                                                            * lost */
    one->is_there = true, one->is_to_left = is_to_left, one->length = length;
    memcpy(one->bytes, bytes, length);
}

/* Two agents that both begin as the controlling one, over a network that loses, repeats and
 * reorders datagrams. Each check that was started ends once, whatever happens to its datagrams. */
static void each_ends_once(uint64_t seed) {
    static stunp_ice_outstanding stored[2][STORED];
    stunp_ice_checker agents[2] = {agent_of(true, true), agent_of(false, true)};
    stunp_ice_checks both[2] = {stunp_ice_checks_on(&agents[0], stored[0], STORED),
                                stunp_ice_checks_on(&agents[1], stored[1], STORED)};
    int started = 0;
    uint64_t now = 0;
    state = seed, memset(net, 0, sizeof net), memset(ends, 0, sizeof ends);
    for (int step = 0; step < 400 || stunp_ice_checks_outstanding(&both[0]) > 0
                       || stunp_ice_checks_outstanding(&both[1]) > 0; step++) {
        size_t side = random_below(2);
        stunp_ice_checks *checks = &both[side];
        const stunp_address *at = side == 0 ? &left_at : &right_at;
        const stunp_address *from = side == 0 ? &right_at : &left_at;
        uint8_t out[STUNP_ANSWER_MAX], id[12];
        stunp_ice_received got = STUNP_INIT(stunp_ice_received);
        stunp_ice_event event;
        stunp_ice_ended ended;
        struct datagram *one = &net[random_below(COUNT(net))];
        now += random_below(step < 400 ? 100000000 : 2000000000);
        memset(id, (int)random_below(256), sizeof id);
        if (step < 400 && started < 256 && random_below(2) == 0) {
            stunp_ice_new_check check = check_of((uint8_t)started);
            check.from = *at, check.to = *from;
            if (stunp_ice_checks_start(checks, &check, now) == 0) started++;
        }
        if (random_below(40) == 0 && stunp_ice_checks_cancel(checks, id)) ends[id[0]]++;
        if (random_below(20) == 0) (void)stunp_ice_checks_stop_sending(checks, id);
        for (stunp_event_kind kind; (kind = stunp_ice_checks_poll(checks, now, &event))
                                    != STUNP_WAIT;) {
            if (kind == STUNP_ENDED) ends[event.check.id[0]]++;
            else if (random_below(3) > 0) put_on_net(side == 1, event.bytes, event.length);
        }
        if (!one->is_there || one->is_to_left != (side == 0)) continue;
        if (random_below(4) > 0) one->is_there = false; /* otherwise it is repeated */
        int64_t kind = stunp_ice_checks_receive(checks, one->bytes, one->length,
                                                random_below(9) > 0 ? at : &elsewhere, from, now, out,
                                                sizeof out, &got, &ended);
        if (kind == STUNP_ANSWER && random_below(3) > 0) put_on_net(side == 1, out, got.length);
        if (kind == STUNP_IS_RESPONSE) ends[ended.check.id[0]]++;
    }
    for (int i = 0; i < 256; i++) want("ends", ends[i], i < started);
    stunp_ice_checker_free(&agents[0]);
    stunp_ice_checker_free(&agents[1]);
}

static stunp_ice_line read_line(stunp_ice_candidate *candidate, const char *line) {
    return stunp_ice_candidate_read(candidate, line, strlen(line));
}

static void is_word(const char *what, const char *at, size_t length, const char *text) {
    want(what, length == strlen(text) && memcmp(at, text, length) == 0, true);
}

static void candidates(void) {
    char line[512];
    size_t length;
    stunp_ice_candidate candidate, zero;
    memset(&zero, 0, sizeof zero);
    /* The two candidates of RFC 8839, section 5.1. */
    const char *const host = "candidate:1 1 UDP 2130706431 203.0.113.141 8998 typ host";
    const char *const reflexive = "a=candidate:2 1 UDP 1694498815 192.0.2.3 45664 typ srflx raddr "
                                  "203.0.113.141 rport 8998\r\n";
    want("host", read_line(&candidate, host), STUNP_ICE_LINE_READ);
    want("kind", candidate.kind, STUNP_ICE_HOST);
    want("component", candidate.component, 1);
    want("priority", candidate.priority, 2130706431);
    want("priority", candidate.priority, stunp_ice_priority(STUNP_ICE_HOST, 65535, 1));
    want("related", candidate.has_related, false);
    want("port", candidate.address.port, 8998);
    want_same("address", candidate.address.octets, "\xcb\0\x71\x8d", 4);
    is_word("foundation", candidate.foundation, candidate.foundation_length, "1");
    want("extensions", candidate.extensions == NULL && candidate.extensions_length == 0, true);
    want("reflexive", read_line(&candidate, reflexive), STUNP_ICE_LINE_READ);
    want("kind", candidate.kind, STUNP_ICE_SERVER_REFLEXIVE);
    want("related", candidate.has_related && candidate.related.port == 8998, true);
    want_same("related", candidate.related.octets, "\xcb\0\x71\x8d", 4);
    int64_t written = stunp_ice_candidate_write(&candidate, line, sizeof line);
    want("line", strcmp(line, "candidate:2 1 udp 1694498815 192.0.2.3 45664 typ srflx raddr "
                              "203.0.113.141 rport 8998"), 0);
    want("length", written, (int64_t)strlen(line));
    /* As a browser writes it. */
    const char *const browser = "candidate:842163049 1 udp 1677729535 203.0.113.9 4242 typ srflx "
                                "raddr 0.0.0.0 rport 0 generation 0 ufrag h6vY network-cost 999";
    want("browser", read_line(&candidate, browser), STUNP_ICE_LINE_READ);
    const char *value = stunp_ice_candidate_extension(&candidate, "ufrag", &length);
    is_word("ufrag", value, length, "h6vY");
    value = stunp_ice_candidate_extension(&candidate, "network-cost", &length);
    is_word("cost", value, length, "999");
    want("a value is no name", stunp_ice_candidate_extension(&candidate, "h6vY", &length) == NULL
         && length == 0, true);
    want("write", stunp_ice_candidate_write(&candidate, line, sizeof line),
         (int64_t)strlen(browser));
    want("line", strcmp(line, browser), 0);
    stunp_ice_candidate again;
    want("again", read_line(&again, line), STUNP_ICE_LINE_READ);
    is_word("extensions", again.extensions, again.extensions_length,
            "generation 0 ufrag h6vY network-cost 999");
    /* Whatever separates two words, even a line break, is written as a space. */
    want("break", read_line(&candidate, "candidate:1 1 udp 1 192.0.2.1 5 typ host ufrag  x\r\n"
                                        "a=candidate:2\t1"), STUNP_ICE_LINE_READ);
    want("one line", stunp_ice_candidate_write(&candidate, line, sizeof line), 64);
    want("line", strcmp(line, "candidate:1 1 udp 1 192.0.2.1 5 typ host ufrag x a=candidate:2 1"),
         0);
    want("without a value", read_line(&candidate,
         "candidate:1 1 udp 1 192.0.2.1 5 typ host ufrag"), STUNP_ICE_LINE_READ);
    want("none", stunp_ice_candidate_extension(&candidate, "ufrag", &length) == NULL, true);
    want("a name", read_line(&candidate, "candidate:1 1 udp 1 192.0.2.1 5 typ relay raddr host.local "
         "rport 9 ufrag x"), STUNP_ICE_LINE_READ);
    want("no related", candidate.has_related, false);
    is_word("extensions", candidate.extensions, candidate.extensions_length, "ufrag x");
    const char *const last = "candidate:1 256 udp 1 192.0.2.1 5 typ host";
    want("the last component", read_line(&candidate, last), STUNP_ICE_LINE_READ);
    want("component", candidate.component, 256);
    want("write", stunp_ice_candidate_write(&candidate, line, sizeof line), (int64_t)strlen(last));
    want("line", strcmp(line, last), 0);
    /* Each refusal. The first that applies is returned. */
    const struct { const char *line; stunp_ice_line why; } rows[] = {
        {"", STUNP_ICE_LINE_NO_CANDIDATE}, {"candidate", STUNP_ICE_LINE_NO_CANDIDATE},
        {"candidate:1 1 udp 1 192.0.2.1 5 typ", STUNP_ICE_LINE_NO_CANDIDATE},
        {"candidate:1 1 udp 1 192.0.2.1 5 tip host", STUNP_ICE_LINE_NO_CANDIDATE},
        {"candidate:1_ 1 tcp 1 192.0.2.1 5 typ host", STUNP_ICE_LINE_NO_CANDIDATE},
        {"candidate:123456789012345678901234567890123 1 udp 1 192.0.2.1 5 typ host",
         STUNP_ICE_LINE_NO_CANDIDATE},
        {"candidate:1 0 tcp 1 192.0.2.1 5 typ host", STUNP_ICE_LINE_NOT_UDP},
        {"candidate:1 0 udp 0 192.0.2.1 5 typ host", STUNP_ICE_LINE_NO_COMPONENT},
        {"candidate:1 257 udp 0 192.0.2.1 5 typ host", STUNP_ICE_LINE_NO_COMPONENT},
        {"candidate:1 +1 udp 0 192.0.2.1 5 typ host", STUNP_ICE_LINE_NO_COMPONENT},
        {"candidate:1 1 udp 0 x 5 typ host", STUNP_ICE_LINE_NO_PRIORITY},
        {"candidate:1 1 udp 2147483648 x 5 typ host", STUNP_ICE_LINE_NO_PRIORITY},
        {"candidate:1 1 udp 99999999999999999999 x 5 typ host", STUNP_ICE_LINE_NO_PRIORITY},
        {"candidate:1 1 udp 1 8f2d7e1c.local 5 typ best", STUNP_ICE_LINE_NO_ADDRESS},
        {"candidate:1 1 udp 1 192.0.2.1 65536 typ best", STUNP_ICE_LINE_NO_ADDRESS},
        {"candidate:1 1 udp 1 192.0.2.1 5 typ best", STUNP_ICE_LINE_NO_KIND},
        {"candidate:1 1 udp 1 192.0.2.1 5 typ hostx", STUNP_ICE_LINE_NO_KIND},
    };
    for (size_t i = 0; i < COUNT(rows); i++) {
        want(rows[i].line, read_line(&candidate, rows[i].line), rows[i].why);
        want_same("nothing", &candidate, &zero, sizeof zero);
    }
    want("nothing", stunp_ice_candidate_read(&candidate, NULL, 0), STUNP_ICE_LINE_NO_CANDIDATE);
    /* What cannot be written. */
    want("host", read_line(&candidate, host), STUNP_ICE_LINE_READ);
    length = strlen(host);
    memset(line, 'x', sizeof line);
    want("no room", stunp_ice_candidate_write(&candidate, line, length), STUNP_BUFFER_TOO_SMALL);
    want("nothing", line[0], 'x');
    want("as much", stunp_ice_candidate_write(&candidate, line, length + 1), (int64_t)length);
    want("not more", line[length + 1], 'x');
    want("no buffer", stunp_ice_candidate_write(&candidate, NULL, 0), STUNP_BUFFER_TOO_SMALL);
    const stunp_ice_candidate good = candidate;
    candidate.kind = (stunp_ice_candidate_kind)1;
    want("kind", stunp_ice_candidate_write(&candidate, line, 99), STUNP_BAD_ARGUMENT);
    candidate = good, candidate.component = 0;
    want("component", stunp_ice_candidate_write(&candidate, line, 99), STUNP_BAD_ARGUMENT);
    candidate.component = 257;
    want("component", stunp_ice_candidate_write(&candidate, line, 99), STUNP_BAD_ARGUMENT);
    candidate = good, candidate.priority = 0;
    want("priority", stunp_ice_candidate_write(&candidate, line, 99), STUNP_BAD_ARGUMENT);
    candidate.priority = (uint32_t)1 << 31;
    want("priority", stunp_ice_candidate_write(&candidate, line, 99), STUNP_BAD_ARGUMENT);
    candidate = good, candidate.address = nowhere;
    want("address", stunp_ice_candidate_write(&candidate, line, 99), STUNP_BAD_ARGUMENT);
    candidate = good, candidate.has_related = true;
    want("related", stunp_ice_candidate_write(&candidate, line, 99), STUNP_BAD_ARGUMENT);
    candidate = good, candidate.foundation_length = 0;
    want("foundation", stunp_ice_candidate_write(&candidate, line, 99), STUNP_BAD_ARGUMENT);
}

/* Reads an address in a line, compares it with what the C library reads, and writes it. */
static void address_in_line(const char *text) {
    char line[256], wanted[INET6_ADDRSTRLEN];
    stunp_ice_candidate candidate;
    uint8_t octets[16] = {0};
    int family = strchr(text, ':') == NULL ? AF_INET : AF_INET6;
    bool is_one = inet_pton(family, text, octets) == 1;
    snprintf(line, sizeof line, "candidate:1 1 udp 1 %s 5 typ host", text);
    want(text, read_line(&candidate, line), is_one ? STUNP_ICE_LINE_READ : STUNP_ICE_LINE_NO_ADDRESS);
    if (!is_one) return;
    want(text, candidate.address.length, family == AF_INET ? 4 : 16);
    want_same(text, candidate.address.octets, octets, sizeof octets);
    want("writes", stunp_ice_candidate_write(&candidate, line, sizeof line) > 0, true);
    /* The C library also writes the obsolete IPv4-compatible addresses with dots. */
    if (inet_ntop(family, octets, wanted, sizeof wanted) == NULL
        || (strchr(wanted, '.') != NULL && family == AF_INET6 && octets[11] != 0xff)) return;
    want(line, strncmp(line + 20, wanted, strlen(wanted)) == 0 && line[20 + strlen(wanted)] == ' ',
         true);
}

static void addresses(void) {
    const char *const texts[] = {
        "0.0.0.0", "255.255.255.255", "256.1.1.1", "1.2.3", "1.2.3.4.5", "1.2.3.", ".1.2.3", "1..2.3",
        "::", "::1", "1::", "2001:db8::1", "2001:DB8:0:0:1:0:0:1", "1:2:3:4:5:6:7:8", ":", ":::",
        "1:2:3:4:5:6:7", "1:2:3:4:5:6:7:8:9", "1:2:3:4:5:6:7::", "::2:3:4:5:6:7:8", "1::2::3", "1:",
        ":1", "12345::", "g::", "::ffff:192.0.2.1", "::ffff:1.2.3", "64:ff9b::192.0.2.33", "1:2:3:4:5:6:1.2.3.4",
        "1:2:3:4:5:6:7:1.2.3.4", "::1.2.3.4:5", "1.2.3.4::", "fe80::1%eth0", "0:0:1::", "1:0:0:2:0:0:0:3",
        "1:0:2:3:4:5:6:7", "::1:0:0:0:0:0:0", "0:0:0:0:0:0:0:0",
    };
    for (size_t i = 0; i < COUNT(texts); i++) address_in_line(texts[i]);
    state = 1;
    for (int i = 0; i < 20000; i++) {
        const char letters[] = ":::::00001abF.9";
        char text[40];
        size_t length = 2 + random_below(20);
        for (size_t at = 0; at < length; at++)
            text[at] = letters[random_below(sizeof letters - 1)];
        text[length] = 0;
        if (strchr(text, ':') != NULL) address_in_line(text);
        uint8_t octets[16];
        for (size_t at = 0; at < 16; at++)
            octets[at] = (uint8_t)(random_below(2) == 0 ? 0 : random_below(256));
        address_in_line(inet_ntop(AF_INET6, octets, text, sizeof text));
        address_in_line(inet_ntop(AF_INET, octets, text, sizeof text));
    }
}

int main(void) {
    starts();
    timers();
    answers();
    for (uint64_t seed = 0; seed < 200; seed++) each_ends_once(seed);
    candidates();
    addresses();
    want_no_blocks("in the end");
    puts("ice_checks: passed");
    return 0;
}
