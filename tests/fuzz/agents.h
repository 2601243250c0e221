/* The part of endpoint.c that is about ICE: two agents that check each other over a network that
 * loses and changes datagrams, each with a twin of which allocations are refused. */
#ifndef STUN_FUZZ_AGENTS_H
#define STUN_FUZZ_AGENTS_H

#include "choices.h"

enum { STORED_CHECKS = 4 };

static struct side {
    stunp_ice_checker checker, twin;
    struct {
        uint8_t bytes[STUNP_ICE_CHECK_MAX], answer[ROOM];
        size_t length, answer_length;
        stunp_ice_check check;
    } sent[STORED_CHECKS];
    size_t sent_number;
} sides[2];
static uint32_t ids;

static void open_agents(void) {
    static const char *const names[] = {"left", "right"};
    static const char *const passwords[] = {"a password of the left",
                                            "a password of the right side"};
    memset(sides, 0, sizeof sides);
    ids = 0;
    for (int i = 0; i < 2; i++) {
        stunp_ice_settings settings = STUNP_INIT(stunp_ice_settings);
        settings.name = names[i], settings.password = passwords[i];
        settings.peer_name = names[1 - i], settings.peer_password = passwords[1 - i];
        settings.tie_breaker = choose_number(), settings.is_controlling = maybe(2);
        require(stunp_ice_checker_new(&sides[i].checker, &settings) == 0, "no agent");
        for (size_t n = 1;; n++) {
            stunp_heap_refuse(n);
            int64_t made = stunp_ice_checker_new(&sides[i].twin, &settings);
            stunp_heap_refuse(0);
            require(made == 0 || (made == STUNP_OUT_OF_MEMORY && !sides[i].twin.is_full), "a twin");
            if (made == 0) break;
        }
    }
}

static bool controls(struct side *side) {
    bool answer = stunp_ice_checker_controls(&side->checker);
    require(answer == stunp_ice_checker_controls(&side->twin), "a twin has another role");
    return answer;
}

/* A side writes a check, into each room, and so does its twin. Returns where it is stored. */
static size_t write_check(struct side *side) {
    size_t at = side->sent_number++ % STORED_CHECKS, n = 1;
    uint8_t id[STUNP_ID_LENGTH] = {0};
    uint32_t priority = (uint32_t)choose_number();
    bool nominate = maybe(2);
    const stunp_address *to = places + choose() % 4;
    stunp_ice_check check, same;
    memcpy(id, &ids, sizeof ids);
    ids++;
    fill(out, ROOM);
    int64_t length = stunp_ice_checker_check(&side->checker, id, to, priority, nominate, out, ROOM,
                                             &check);
    require(length > 0 && length <= STUNP_ICE_CHECK_MAX, "no check");
    require_unwritten(out, (size_t)length, ROOM, "more than a check");
    require(check.nominates == (nominate && controls(side)) && memcmp(check.id, id, 12) == 0
                && check.is_controlling == controls(side), "another check is told");
    size_t room = choose() % (size_t)length;
    fill(again, ROOM);
    require(stunp_ice_checker_check(&side->twin, id, to, priority, nominate, again, room, &same)
                == STUNP_BUFFER_TOO_SMALL, "a small room");
    require_unwritten(again, 0, ROOM, "a small room is written to");
    for (int64_t written = STUNP_OUT_OF_MEMORY; written == STUNP_OUT_OF_MEMORY; n++) {
        stunp_heap_refuse(n);
        written = stunp_ice_checker_check(&side->twin, id, to, priority, nominate, again,
                                          (size_t)length, &same);
        stunp_heap_refuse(0);
        require(written == STUNP_OUT_OF_MEMORY || written == length, "a twin writes otherwise");
    }
    require(memcmp(out, again, ROOM) == 0, "a twin writes another check");
    memcpy(side->sent[at].bytes, out, (size_t)length);
    side->sent[at].length = (size_t)length, side->sent[at].check = check;
    side->sent[at].answer_length = 0;
    return at;
}

static void require_same_told(const stunp_ice_received *one, const stunp_ice_received *other) {
    require(one->kind == other->kind && one->why == other->why && one->outcome == other->outcome
                && one->code == other->code && one->priority == other->priority
                && one->not_understood == other->not_understood
                && one->nominated == other->nominated && one->switched == other->switched
                && one->length == other->length
                && memcmp(&one->mapped, &other->mapped, sizeof one->mapped) == 0,
            "a twin reads otherwise");
}

/* A call of one agent. */
static int64_t read_as(stunp_ice_checker *checker, const uint8_t *bytes, size_t length,
                       const stunp_address *from, const stunp_ice_check *check, uint8_t *to,
                       size_t room, stunp_ice_received *got) {
    memset(got, 7, sizeof *got);
    got->size = sizeof *got;
    fill(to, ROOM);
    int64_t kind = named(stunp_ice_checker_receive(checker, bytes, length, from, check, to, room,
                                                   got));
    require(got->kind == (kind < 0 ? (uint32_t)STUNP_FAILED : (uint32_t)kind), "another kind");
    require_unwritten(to, got->length, ROOM, "more than an answer");
    return kind;
}

/* A side reads a datagram: first without room, then with just enough; its twin without memory.
 * Returns the length of the answer in `out`, or 0. */
static size_t read_datagram(struct side *side, const uint8_t *bytes, size_t length,
                            const stunp_address *from, const stunp_ice_check *check,
                            stunp_ice_received *got) {
    stunp_ice_received same;
    bool controlled = controls(side);
    size_t room = choose();
    int64_t kind = read_as(&side->checker, bytes, length, from, check, out, room, got), twins;
    if (kind == STUNP_BUFFER_TOO_SMALL) {
        require(got->needed > room && controls(side) == controlled, "a small room changes a role");
        room = got->needed;
        kind = read_as(&side->checker, bytes, length, from, check, out, room, got);
    }
    bool has_role = stunp_ice_checker_controls(&side->checker);
    for (size_t n = 1;; n++) {
        stunp_heap_refuse(n);
        twins = read_as(&side->twin, bytes, length, from, check, again, room, &same);
        stunp_heap_refuse(0);
        if (twins != STUNP_OUT_OF_MEMORY) break;
        require(stunp_ice_checker_controls(&side->twin) == controlled, "a role without memory");
    }
    require(twins == kind, "a twin is told otherwise");
    require_same_told(got, &same);
    require(memcmp(out, again, ROOM) == 0, "a twin answers otherwise");
    require(kind < 0 || got->switched == (has_role != controlled), "a switch that is not told");
    require(kind >= 0 || has_role == controlled, "a role that changed by an error");
    if (kind == STUNP_ANSWER)
        require(has_fingerprint(out, got->length) && memcmp(out + 8, bytes + 8, 12) == 0,
                "an answer to something else");
    return kind == STUNP_ANSWER ? got->length : 0;
}

/* ---- Steps */

/* A stored check reaches the other side, whose answer is stored. */
static void deliver_check(struct side *from, struct side *to) {
    static uint8_t bytes[STUNP_ICE_CHECK_MAX];
    stunp_ice_received got;
    if (from->sent_number == 0) return;
    size_t at = choose() % (from->sent_number < STORED_CHECKS ? from->sent_number : STORED_CHECKS);
    size_t length = from->sent[at].length;
    memcpy(bytes, from->sent[at].bytes, length);
    if (maybe(4)) length = change(bytes, length);
    size_t answered = read_datagram(to, bytes, length, choose_place(), NULL, &got);
    memcpy(from->sent[at].answer, out, answered);
    from->sent[at].answer_length = answered;
}

/* A stored answer reaches the side that sent the check. */
static void deliver_answer(struct side *to) {
    static uint8_t bytes[ROOM];
    stunp_ice_received got;
    if (to->sent_number == 0) return;
    size_t stored = to->sent_number < STORED_CHECKS ? to->sent_number : STORED_CHECKS;
    size_t at = choose() % stored, other = maybe(8) ? choose() % stored : at;
    size_t length = to->sent[at].answer_length;
    memcpy(bytes, to->sent[at].answer, length);
    if (maybe(4)) length = change(bytes, length);
    const stunp_address *from = maybe(4) ? choose_place() : &to->sent[at].check.to;
    read_datagram(to, bytes, length, from, maybe(16) ? NULL : &to->sent[other].check, &got);
}

/* A check and its answer arrive as they were sent: then the roles are opposite, and the check has
 * succeeded or the roles have conflicted. */
static void exchange(struct side *from, struct side *to) {
    static uint8_t answer[ROOM];
    stunp_ice_received got;
    size_t at = write_check(from);
    size_t length = read_datagram(to, from->sent[at].bytes, from->sent[at].length, places, NULL,
                                  &got);
    require(length > 0 && got.outcome != STUNP_ICE_REFUSED, "a check is refused");
    memcpy(answer, out, length);
    describe(answer, length);
    read_datagram(from, answer, length, &from->sent[at].check.to, &from->sent[at].check, &got);
    require(got.kind == STUNP_IS_RESPONSE, "an answer is no answer");
    require(got.outcome == STUNP_ICE_VALID || got.outcome == STUNP_ICE_CONFLICT, "no valid pair");
    if (got.outcome == STUNP_ICE_VALID)
        require(memcmp(&got.mapped, places, sizeof got.mapped) == 0, "another mapped address");
    require(controls(from) != controls(to), "both have one role");
}

static void play_agents(void) {
    uint8_t bytes[LONGEST_DATAGRAM];
    stunp_ice_received got;
    open_agents();
    while (input_length > 0) {
        bool is_left = maybe(2);
        struct side *one = &sides[is_left], *other = &sides[!is_left];
        uint64_t number;
        switch (choose() % 6) {
        case 0: write_check(one); break;
        case 1: deliver_check(one, other); break;
        case 2: deliver_answer(one); break;
        case 3:
            read_datagram(one, bytes, choose_bytes(bytes, sizeof bytes), choose_place(), NULL,
                          &got);
            break;
        case 4:
            number = choose_number();
            require(stunp_ice_checker_set_tie_breaker(&one->checker, number) == 0, "no number");
            require(stunp_ice_checker_set_tie_breaker(&one->twin, number) == 0, "no number");
            break;
        default: exchange(one, other);
        }
    }
    for (int i = 0; i < 2; i++) {
        stunp_ice_checker_free(&sides[i].checker);
        stunp_ice_checker_free(&sides[i].twin);
    }
}

#endif
