/* An ICE agent: what only C can pass, each refusal in its order, the result for each kind of
 * datagram, two agents that check each other, and memory that is refused. The samples are those of
 * RFC 5769, where the agent `h6vY` checks the agent `evtj`. */
#include "fixture.h"
#include "samples.h"
#include "serve.h" /* the worked examples, which check.sh copies from stunp_endpoint.h */

/* What the sample request says: the priority of RFC 8445, section 5.1.2.1, of a peer-reflexive
 * candidate, and the tie-breaker of a controlled agent. */
static const uint32_t PRIORITY = 0x6e0001ff;
static const uint64_t THEIRS = 0x932ff9b151263b36;

static const stunp_address from = {{192, 0, 2, 1}, 32853, 4}, nowhere = {{0}, 1, 5};
static const char *const other_password = "0123456789abcdefghijkl";

static stunp_ice_settings settings_of(const char *name, const char *peer_name,
                                      uint64_t tie_breaker, bool is_controlling) {
    bool is_evtj = strcmp(name, "evtj") == 0;
    stunp_ice_settings settings = STUNP_INIT(stunp_ice_settings);
    settings.name = name, settings.password = is_evtj ? password : other_password;
    settings.peer_name = peer_name, settings.peer_password = is_evtj ? other_password : password;
    settings.tie_breaker = tie_breaker, settings.is_controlling = is_controlling;
    return settings;
}

static stunp_ice_checker agent_of(const stunp_ice_settings *settings) {
    stunp_ice_checker agent = {0};
    want("agent", stunp_ice_checker_new(&agent, settings), 0);
    return agent;
}

static stunp_ice_checker evtj(uint64_t tie_breaker, bool is_controlling) {
    stunp_ice_settings settings = settings_of("evtj", "h6vY", tie_breaker, is_controlling);
    return agent_of(&settings);
}

static stunp_ice_checker h6vy(uint64_t tie_breaker, bool is_controlling) {
    stunp_ice_settings settings = settings_of("h6vY", "evtj", tie_breaker, is_controlling);
    return agent_of(&settings);
}

/* A text with this number of letters. */
static const char *letters(char *text, size_t count) {
    memset(text, 'x', count);
    text[count] = 0;
    return text;
}

static void settings_in_order(void) {
    char long_one[300], long_other[300];
    const stunp_ice_settings good = settings_of("evtj", "h6vY", 1, true);
    stunp_ice_settings settings = good;
    stunp_ice_checker agent = {0}, full = agent_of(&good);
    settings.size--;
    want("size", stunp_ice_checker_new(&full, &settings), STUNP_BAD_ARGUMENT);
    const char **texts[] = {&settings.name, &settings.password, &settings.peer_name,
                            &settings.peer_password};
    for (size_t i = 0; i < COUNT(texts); i++) {
        settings = good, *texts[i] = NULL;
        want("no text", stunp_ice_checker_new(&full, &settings), STUNP_BAD_ARGUMENT);
        settings = good, *texts[i] = "\xff";
        want("full first", stunp_ice_checker_new(&full, &settings), STUNP_FULL_HANDLE);
        want("not UTF-8", stunp_ice_checker_new(&agent, &settings), STUNP_NOT_TEXT);
        size_t least = i % 2 == 0 ? 4 : 22;
        settings = good, *texts[i] = letters(long_one, least - 1);
        want("short", stunp_ice_checker_new(&agent, &settings), STUNP_BAD_ARGUMENT);
        *texts[i] = letters(long_one, 257);
        want("long", stunp_ice_checker_new(&agent, &settings), STUNP_BAD_ARGUMENT);
        *texts[(i + 1) % 4] = "\xff";
        want("text first", stunp_ice_checker_new(&agent, &settings), STUNP_NOT_TEXT);
        settings = good, *texts[i] = "with:a colon, and of 22";
        want("colon", stunp_ice_checker_new(&agent, &settings), i % 2 == 0 ? STUNP_BAD_ARGUMENT : 0);
        stunp_ice_checker_free(&agent);
        settings = good, *texts[i] = letters(long_one, 256);
        *texts[(i + 2) % 4] = letters(long_other, least);
        want("longest and shortest", stunp_ice_checker_new(&agent, &settings), 0);
        stunp_ice_checker_free(&agent);
        want("empty", agent.is_full, false);
    }
    stunp_heap_bound(0);
    want("memory", stunp_ice_checker_new(&agent, &good), STUNP_OUT_OF_MEMORY);
    settings = good, settings.name = "abc";
    want("name first", stunp_ice_checker_new(&agent, &settings), STUNP_BAD_ARGUMENT);
    stunp_heap_bound(SIZE_MAX);
    stunp_ice_checker_free(&full);
    stunp_ice_checker_free(&full);
    stunp_ice_checker_free(NULL);
}

/* The calls that use nothing but the agent. */
static void plain_calls(void) {
    stunp_ice_checker empty = {0}, agent = evtj(1, true);
    want("controls", stunp_ice_checker_is_controlling(&agent), 1);
    want("controls, as a condition", stunp_ice_checker_controls(&agent), true);
    want("tie-breaker", stunp_ice_checker_set_tie_breaker(&agent, 2), 0);
    want("is to be controlled", stunp_ice_checker_set_role(&agent, false), 0);
    want("is controlled", stunp_ice_checker_is_controlling(&agent), 0);
    want("is controlled already", stunp_ice_checker_set_role(&agent, false), 0);
    want("is controlled", stunp_ice_checker_is_controlling(&agent), 0);
    want("is to control", stunp_ice_checker_set_role(&agent, true), 0);
    want("controls", stunp_ice_checker_is_controlling(&agent), 1);
    stunp_ice_checker_free(&agent);
    agent = evtj(1, false);
    want("is controlled", stunp_ice_checker_is_controlling(&agent), 0);
    want("is controlled, as a condition", stunp_ice_checker_controls(&agent), false);
    want("no agent", stunp_ice_checker_is_controlling(&empty), STUNP_EMPTY_HANDLE);
    want("no agent, as a condition", stunp_ice_checker_controls(&empty), false);
    want("no agent", stunp_ice_checker_set_tie_breaker(&empty, 2), STUNP_EMPTY_HANDLE);
    want("no agent", stunp_ice_checker_set_role(&empty, true), STUNP_EMPTY_HANDLE);
    want("still none", empty.is_full, false);
    /* A handle of another kind has no agent, and the handle of an agent has no server. */
    stunp_endpoint_server as_server = {agent.is_full, agent.state};
    stunp_endpoint_users users = {0};
    want("of an agent", stunp_endpoint_users_new(&users, &as_server), STUNP_WRONG_HANDLE);
    stunp_endpoint_users as_users = {agent.is_full, agent.state};
    want("of an agent", stunp_endpoint_users_add(&as_users, "a", 1, "b", 1), STUNP_WRONG_HANDLE);
    stunp_endpoint_server_settings settings = STUNP_INIT(stunp_endpoint_server_settings);
    const uint8_t secret[32] = {7};
    settings.realm = "realm", settings.secret = secret;
    stunp_endpoint_server server = {0};
    want("server", stunp_endpoint_server_new(&server, &settings), 0);
    stunp_ice_checker as_agent = {server.is_full, server.state};
    want("of a server", stunp_ice_checker_is_controlling(&as_agent), STUNP_WRONG_HANDLE);
    want("of a server", stunp_ice_checker_set_tie_breaker(&as_agent, 1), STUNP_WRONG_HANDLE);
    want("of a server", stunp_ice_checker_set_role(&as_agent, true), STUNP_WRONG_HANDLE);
    want("of a server", stunp_ice_checker_receive(&as_agent, BYTES(request), &from, NULL, out,
         sizeof out, NULL), STUNP_WRONG_HANDLE);
    stunp_endpoint_server_free(&server);
    stunp_ice_checker_free(&agent);
}

/* The sample request arrives at `evtj`, and its answer is compared. */
static void sample_request(void) {
    stunp_ice_received got = STUNP_INIT(stunp_ice_received);
    got.priority = 1, got = STUNP_ANEW(stunp_ice_received);
    want("anew", got.size == sizeof got && got.priority == 0, true);
    uint8_t octets[16];
    uint16_t port;
    /* This agent is controlling, and the sample says that its sender is controlled. */
    stunp_ice_checker agent = evtj(1, true);
    want("sample", stunp_ice_checker_receive(&agent, BYTES(request), &from, NULL, out, sizeof out,
         &got), STUNP_ANSWER);
    want("accepted", got.outcome, STUNP_ICE_ACCEPTED);
    want("priority", got.priority, PRIORITY);
    want("nominated", got.nominated, false);
    want("switched", got.switched, false);
    want("code", got.code, 0);
    want("signed", stunp_verify(out, got.length, (const uint8_t *)password, strlen(password)),
         STUNP_SHA1);
    want("FINGERPRINT", stunp_has_right_fingerprint(out, got.length), true);
    want("seen", stunp_xor_mapped_address(out, got.length, octets, 16, &port), 4);
    want_same("seen", octets, from.octets, 4);
    want("seen", port, from.port);
    want("id", memcmp(out + 8, id, STUNP_ID_LENGTH), 0);
    stunp_ice_checker_free(&agent);
    /* Both agents are controlled: the one with the larger tie-breaker becomes controlling. A
     * tie-breaker that is equal counts as the larger one. */
    const struct { uint64_t ours; uint32_t outcome; } conflicts[] = {
        {THEIRS + 1, STUNP_ICE_ACCEPTED}, {THEIRS, STUNP_ICE_ACCEPTED},
        {THEIRS - 1, STUNP_ICE_PEER_SWITCHES},
    };
    for (size_t i = 0; i < COUNT(conflicts); i++) {
        bool switches = conflicts[i].outcome == STUNP_ICE_ACCEPTED;
        agent = evtj(conflicts[i].ours, false);
        want("conflict", stunp_ice_checker_receive(&agent, BYTES(request), &from, NULL, out,
             sizeof out, &got), STUNP_ANSWER);
        want("outcome", got.outcome, conflicts[i].outcome);
        want("switched", got.switched, switches);
        want("code", got.code, switches ? 0 : 487);
        want("priority", got.priority, switches ? PRIORITY : 0);
        want("role", stunp_ice_checker_is_controlling(&agent), switches);
        want("signed", stunp_verify(out, got.length, (const uint8_t *)password, strlen(password)),
             STUNP_SHA1);
        want("error", stunp_error_code(out, got.length), switches ? STUNP_MISSING_ATTRIBUTE : 487);
        stunp_ice_checker_free(&agent);
    }
}

/* The sample responses arrive at `h6vY`. */
static void sample_responses(void) {
    stunp_ice_received got = STUNP_INIT(stunp_ice_received);
    stunp_ice_checker agent = h6vy(THEIRS, false);
    stunp_ice_check check;
    int64_t length = stunp_ice_checker_check(&agent, id, &from, PRIORITY, true, out, sizeof out,
                                             &check);
    want("its length", length, 20 + 4 + 12 + 8 + 12 + 24 + 8);
    want("signed", stunp_verify(out, (size_t)length, (const uint8_t *)password, strlen(password)),
         STUNP_SHA1);
    want("FINGERPRINT", stunp_has_right_fingerprint(out, (size_t)length), true);
    want_same("id", check.id, id, STUNP_ID_LENGTH);
    want_same("to", &check.to, &from, sizeof from);
    want("role", check.is_controlling, false);
    want("only the controlling agent nominates", check.nominates, false);
    want("response", stunp_ice_checker_receive(&agent, BYTES(response), &from, &check, NULL, 0,
         &got), STUNP_IS_RESPONSE);
    want("valid", got.outcome, STUNP_ICE_VALID);
    const stunp_address seen = {{192, 0, 2, 1}, 32853, 4};
    want_same("seen", &got.mapped, &seen, sizeof seen);
    want("response", stunp_ice_checker_receive(&agent, BYTES(response_6), &from, &check, NULL, 0,
         &got), STUNP_IS_RESPONSE);
    const stunp_address seen_6 = {{0x20, 0x01, 0x0d, 0xb8, 0x12, 0x34, 0x56, 0x78, 0x00, 0x11, 0x22,
                                   0x33, 0x44, 0x55, 0x66, 0x77}, 32853, 16};
    want("valid", got.outcome, STUNP_ICE_VALID);
    want_same("seen", &got.mapped, &seen_6, sizeof seen_6);
    /* A response from another address, one from the same address in its other spelling, one to
     * another check, and one to no check. */
    stunp_address elsewhere = from;
    elsewhere.port++;
    want("elsewhere", stunp_ice_checker_receive(&agent, BYTES(response), &elsewhere, &check, NULL, 0,
         &got), STUNP_IS_RESPONSE);
    want("other path", got.outcome, STUNP_ICE_OTHER_PATH);
    want("no address", got.mapped.length, 0);
    const stunp_address spelled = {{0, 0, 0, 0, 0, 0, 0, 0, 0, 0, 255, 255, 192, 0, 2, 1}, 32853, 16};
    want("spelled", stunp_ice_checker_receive(&agent, BYTES(response), &spelled, &check, NULL, 0,
         &got), STUNP_IS_RESPONSE);
    want("valid", got.outcome, STUNP_ICE_VALID);
    check.id[11] ^= 1;
    want("another", stunp_ice_checker_receive(&agent, BYTES(response), &from, &check, NULL, 0, &got),
         STUNP_DROPPED);
    want("not asked", got.why, STUNP_DROP_NOT_ASKED);
    want("none", stunp_ice_checker_receive(&agent, BYTES(response), &from, NULL, NULL, 0, NULL),
         STUNP_DROPPED);
    stunp_ice_checker_free(&agent);
    /* The agent whose peer has another password. */
    agent = evtj(1, true), check.id[11] ^= 1;
    want("forged", stunp_ice_checker_receive(&agent, BYTES(response), &from, &check, NULL, 0, &got),
         STUNP_DROPPED);
    want("why", got.why, STUNP_DROP_WRONG_SIGNATURE);
    want("its text", strcmp(stunp_drop_text(got.why), "a response is not signed by the peer"), 0);
    stunp_ice_checker_free(&agent);
}

static void refusals_in_order(void) {
    stunp_ice_checker empty = {0}, agent = evtj(THEIRS, false);
    stunp_ice_check check, same, bad;
    stunp_ice_received got = STUNP_INIT(stunp_ice_received), as_it_was;
    memset(&check, 7, sizeof check), same = check;
    want("no agent", stunp_ice_checker_check(&empty, id, &nowhere, 1, false, out, 0, &check),
         STUNP_EMPTY_HANDLE);
    stunp_heap_bound(0);
    want("nowhere", stunp_ice_checker_check(&agent, id, &nowhere, 1, false, out, 0, &check),
         STUNP_BAD_ARGUMENT);
    want("memory", stunp_ice_checker_check(&agent, id, &from, 1, false, out, 0, &check),
         STUNP_OUT_OF_MEMORY);
    stunp_heap_bound(SIZE_MAX);
    memset(out, 0xaa, sizeof out), memcpy(before, out, sizeof out);
    want("no room", stunp_ice_checker_check(&agent, id, &from, 1, false, out, 87, &check),
         STUNP_BUFFER_TOO_SMALL);
    want_same("nothing is written", out, before, sizeof out);
    want_same("nothing is told", &check, &same, sizeof check);
    want("as much", stunp_ice_checker_check(&agent, id, &from, 1, false, out, 88, NULL), 88);
    want("not more", out[88], 0xaa);
    got.kind = 9, got.mapped.octets[3] = 9, as_it_was = got, as_it_was.size--;
    as_it_was.length = 9, as_it_was.code = 9;
    bad = check, bad.to = nowhere;
    want("no agent", stunp_ice_checker_receive(&empty, BYTES(request), &nowhere, &bad, out, 0,
         &as_it_was), STUNP_EMPTY_HANDLE);
    want("size", stunp_ice_checker_receive(&agent, BYTES(request), &from, NULL, out, 1000,
         &as_it_was), STUNP_BAD_ARGUMENT);
    want("failed", as_it_was.kind, STUNP_FAILED);
    want("no length", (int64_t)as_it_was.length, 0);
    want("left", as_it_was.code, 9);
    as_it_was = (stunp_ice_received)STUNP_INIT(stunp_ice_received);
    as_it_was.kind = STUNP_FAILED;
    want("nowhere", stunp_ice_checker_receive(&agent, BYTES(request), &nowhere, NULL, out, 1000,
         &got), STUNP_BAD_ARGUMENT);
    want("a check to nowhere", stunp_ice_checker_receive(&agent, BYTES(request), &from, &bad, out,
         1000, &got), STUNP_BAD_ARGUMENT);
    stunp_heap_bound(0);
    want("memory", stunp_ice_checker_receive(&agent, BYTES(request), &from, NULL, out, 0, &got),
         STUNP_OUT_OF_MEMORY);
    stunp_heap_bound(SIZE_MAX);
    want_same("it has failed", &got, &as_it_was, sizeof got);
    /* The answer is 64 bytes: header, address, signature and FINGERPRINT. The check would switch
     * the role, but its answer has no room. */
    memset(out, 0xaa, sizeof out);
    want("no room", stunp_ice_checker_receive(&agent, BYTES(request), &from, NULL, out, 63, &got),
         STUNP_BUFFER_TOO_SMALL);
    want_same("nothing is written", out, before, sizeof out);
    as_it_was.needed = 64;
    want_same("what it needs is told, and nothing else", &got, &as_it_was, sizeof got);
    want("no switch", stunp_ice_checker_is_controlling(&agent), 0);
    want("as much", stunp_ice_checker_receive(&agent, BYTES(request), &from, NULL, out, 64, &got),
         STUNP_ANSWER);
    want("not more", out[64], 0xaa);
    want("switched", stunp_ice_checker_is_controlling(&agent), 1);
    stunp_ice_checker_free(&agent);
}

/* A check to `evtj`, of which some attributes are changed. */
static size_t check_with(uint8_t *bytes, const char *name, bool has_priority, uint32_t unknown,
                         const char *signs, stunp_algorithm algorithm) {
    stunp_writer check = stunp_write(STUNP_REQUEST, STUNP_BINDING, id, bytes, 512);
    if (name != NULL) stunp_write_text(&check, STUNP_USERNAME, name);
    if (has_priority) stunp_write_number(&check, STUNP_PRIORITY, 7, 4);
    if (unknown != 0) stunp_write_number(&check, unknown, 7, 4);
    stunp_write_bytes(&check, STUNP_USE_CANDIDATE, NULL, 0);
    if (signs != NULL) stunp_write_integrity(&check, algorithm, (const uint8_t *)signs,
                                             strlen(signs));
    stunp_write_fingerprint(&check);
    want("written", stunp_written(&check), 0);
    return check.length;
}

static void judged(stunp_ice_checker *agent, const uint8_t *bytes, size_t length, uint32_t code,
                   int64_t signature) {
    stunp_ice_received got = STUNP_INIT(stunp_ice_received);
    want("answer", stunp_ice_checker_receive(agent, bytes, length, &from, NULL, out, sizeof out,
         &got), STUNP_ANSWER);
    want("outcome", got.outcome, code == 0 ? STUNP_ICE_ACCEPTED : STUNP_ICE_REFUSED);
    want("code", got.code, code);
    want("in the answer", stunp_error_code(out, got.length),
         code == 0 ? STUNP_MISSING_ATTRIBUTE : (int64_t)code);
    want("signed", stunp_verify(out, got.length, (const uint8_t *)password, strlen(password)),
         signature);
    want("FINGERPRINT", stunp_has_right_fingerprint(out, got.length), true);
    want("nominated", got.nominated, code == 0);
}

static void checks_of_the_peer(void) {
    uint8_t bytes[512];
    stunp_ice_checker agent = evtj(1, false);
    size_t length = check_with(bytes, "evtj:h6vY", true, 0, password, STUNP_SHA1);
    judged(&agent, bytes, length, 0, STUNP_SHA1);
    length = check_with(bytes, "evtj:h6vY", true, 0, password, STUNP_SHA256);
    judged(&agent, bytes, length, 0, STUNP_SHA256);
    length = check_with(bytes, "evtj:h6vY", true, 0, NULL, STUNP_SHA1);
    judged(&agent, bytes, length, 400, STUNP_NO_INTEGRITY);
    length = check_with(bytes, NULL, true, 0, password, STUNP_SHA1);
    judged(&agent, bytes, length, 400, STUNP_NO_INTEGRITY);
    /* Only the first half of the name counts. */
    length = check_with(bytes, "evtj:other", true, 0, password, STUNP_SHA1);
    judged(&agent, bytes, length, 0, STUNP_SHA1);
    length = check_with(bytes, "h6vY:evtj", true, 0, password, STUNP_SHA1);
    judged(&agent, bytes, length, 401, STUNP_NO_INTEGRITY);
    length = check_with(bytes, "evtjh6vY", true, 0, password, STUNP_SHA1);
    judged(&agent, bytes, length, 401, STUNP_NO_INTEGRITY);
    length = check_with(bytes, "evtj:h6vY", true, 0, other_password, STUNP_SHA1);
    judged(&agent, bytes, length, 401, STUNP_NO_INTEGRITY);
    length = check_with(bytes, "evtj:h6vY", false, 0x7777, password, STUNP_SHA1);
    judged(&agent, bytes, length, 420, STUNP_SHA1);
    length = check_with(bytes, "evtj:h6vY", false, 0, password, STUNP_SHA1);
    judged(&agent, bytes, length, 400, STUNP_SHA1);
    stunp_ice_checker_free(&agent);
}

/* An agent that makes an offer, and that receives a check before the answer to the offer. */
static void before_the_answer(void) {
    uint8_t bytes[512], answer[512];
    stunp_ice_settings settings = settings_of("evtj", "h6vY", 1, true);
    stunp_ice_checker knowing = agent_of(&settings), agent, empty = {0};
    stunp_ice_check stored;
    settings.peer_name = settings.peer_password = NULL;
    agent = agent_of(&settings);
    want("full", stunp_ice_checker_new(&agent, &settings), STUNP_FULL_HANDLE);
    settings.name = "abc";
    want("short", stunp_ice_checker_new(&empty, &settings), STUNP_BAD_ARGUMENT);
    settings.name = "\xff";
    want("not UTF-8", stunp_ice_checker_new(&empty, &settings), STUNP_NOT_TEXT);
    settings.name = "evtj";
    stunp_heap_bound(0);
    want("memory", stunp_ice_checker_new(&empty, &settings), STUNP_OUT_OF_MEMORY);
    stunp_heap_bound(SIZE_MAX);
    want("empty", empty.is_full, false);
    const char *names[] = {"evtj:h6vY", "h6vY:evtj"};
    for (size_t i = 0; i < COUNT(names); i++) {
        stunp_ice_received got = STUNP_INIT(stunp_ice_received), same = got;
        size_t length = check_with(bytes, names[i], true, 0, password, STUNP_SHA1);
        want("answer", stunp_ice_checker_receive(&knowing, bytes, length, &from, NULL, answer,
             sizeof answer, &got), STUNP_ANSWER);
        want("the same", stunp_ice_checker_receive(&agent, bytes, length, &from, NULL, out,
             sizeof out, &same), STUNP_ANSWER);
        want_same("answer", out, answer, got.length);
        want_same("told", &got, &same, sizeof got);
    }
    want("no peer", stunp_ice_checker_check(&agent, id, &from, 1, true, out, 0, &stored),
         STUNP_CANNOT_SIGN);
    want("nowhere first", stunp_ice_checker_check(&agent, id, &nowhere, 1, true, out, 0, &stored),
         STUNP_BAD_ARGUMENT);
    want("no agent", stunp_ice_checker_set_peer(&empty, "h6vY", other_password), STUNP_EMPTY_HANDLE);
    want("not UTF-8", stunp_ice_checker_set_peer(&agent, "\xff", "short"), STUNP_NOT_TEXT);
    want("short", stunp_ice_checker_set_peer(&agent, "h6v", other_password), STUNP_BAD_ARGUMENT);
    want("colon", stunp_ice_checker_set_peer(&agent, "h6:Y", other_password), STUNP_BAD_ARGUMENT);
    want("password", stunp_ice_checker_set_peer(&agent, "h6vY", "short"), STUNP_BAD_ARGUMENT);
    stunp_heap_bound(0);
    want("memory", stunp_ice_checker_set_peer(&agent, "h6vY", other_password), STUNP_OUT_OF_MEMORY);
    stunp_heap_bound(SIZE_MAX);
    want("still none", stunp_ice_checker_check(&agent, id, &from, 1, true, out, 0, &stored),
         STUNP_CANNOT_SIGN);
    want("peer", stunp_ice_checker_set_peer(&agent, "h6vY", other_password), 0);
    want("check", stunp_ice_checker_check(&agent, id, &from, 1, true, out, sizeof out, &stored), 92);
    want("of the other", stunp_ice_checker_check(&knowing, id, &from, 1, true, answer, sizeof answer,
         NULL), 92);
    want_same("check", out, answer, 92);
    stunp_ice_checker_free(&agent);
    stunp_ice_checker_free(&knowing);
}

/* A check with attributes that the caller adds. */
static void further_attributes(void) {
    enum { PLAIN = 88, NETWORK_COST = 0xc057 };
    uint8_t plain[PLAIN], room[64];
    stunp_ice_checker left = evtj(THEIRS, false), right = h6vy(1, true);
    stunp_ice_check check, stored;
    stunp_ice_received got = STUNP_INIT(stunp_ice_received);
    stunp_body body = stunp_body_on(room, sizeof room);
    want("plain", stunp_ice_checker_check(&left, id, &from, PRIORITY, true, plain, PLAIN, &stored),
         PLAIN);
    memset(out, 0xaa, sizeof out);
    want("no body", stunp_ice_checker_check_body(&left, id, &from, PRIORITY, true, NULL, out, PLAIN,
         &check), PLAIN);
    want_same("as without", out, plain, PLAIN);
    want_same("as without", &check, &stored, sizeof check);
    want("not more", out[PLAIN], 0xaa);
    want("empty", stunp_ice_checker_check_body(&left, id, &from, PRIORITY, true, &body, out, PLAIN,
         NULL), PLAIN);
    want_same("as without", out, plain, PLAIN);
    want("cost", stunp_body_add_number(&body, NETWORK_COST, 0x00010032, 4), 0);
    want("text", stunp_body_add(&body, STUNP_SOFTWARE, "me", 2), 0);
    want("small", stunp_ice_checker_check_body(&left, id, &from, PRIORITY, true, &body, out,
         PLAIN + 15, &check), STUNP_BUFFER_TOO_SMALL);
    want_same("nothing is written", out, plain, PLAIN);
    want("both", stunp_ice_checker_check_body(&left, id, &from, PRIORITY, true, &body, out,
         PLAIN + 16, &check), PLAIN + 16);
    want_same("to be stored", &check, &stored, sizeof check);
    want_same("their place", out + PLAIN - 32, room, 16);
    want("signed", stunp_verify(out, PLAIN + 16, (const uint8_t *)other_password,
         strlen(other_password)), STUNP_SHA1);
    want("FINGERPRINT", stunp_has_right_fingerprint(out, PLAIN + 16), true);
    uint64_t cost = 0;
    want("read", stunp_find_number(out, PLAIN + 16, NETWORK_COST, &cost), 4);
    want("cost", (int64_t)cost, 0x00010032);
    want("accepted", stunp_ice_checker_receive(&right, out, PLAIN + 16, &from, NULL, before,
         sizeof before, &got), STUNP_ANSWER);
    want("accepted", got.outcome, STUNP_ICE_ACCEPTED);
    stunp_ice_checker_free(&left);
    stunp_ice_checker_free(&right);
}

/* Which attributes a check cannot have, and the order of the refusals. */
static void refused_attributes(void) {
    static const struct { uint32_t type; int64_t refusal; } rows[] = {
        {STUNP_USERNAME, STUNP_ATTRIBUTE_EXISTS}, {STUNP_PRIORITY, STUNP_ATTRIBUTE_EXISTS},
        {STUNP_USE_CANDIDATE, STUNP_NOT_ALLOWED}, {STUNP_ICE_CONTROLLED, STUNP_NOT_ALLOWED},
        {STUNP_ICE_CONTROLLING, STUNP_NOT_ALLOWED}, {STUNP_XOR_PEER_ADDRESS, STUNP_NOT_ALLOWED},
        {STUNP_MESSAGE_INTEGRITY, STUNP_NOT_ALLOWED},
        {STUNP_MESSAGE_INTEGRITY_SHA256, STUNP_NOT_ALLOWED}, {STUNP_FINGERPRINT, STUNP_NOT_ALLOWED},
    };
    uint8_t room[64];
    stunp_ice_checker empty = {0}, agent = evtj(THEIRS, false), alone = {0};
    stunp_ice_settings settings = settings_of("evtj", NULL, 1, true);
    stunp_ice_check check, same;
    settings.peer_password = NULL, alone = agent_of(&settings);
    memset(&check, 7, sizeof check), same = check;
    memset(out, 0xaa, sizeof out), memcpy(before, out, sizeof out);
    stunp_body body = stunp_body_on(room, 7);
    want("no room", stunp_body_add_number(&body, STUNP_LIFETIME, 1, 4), STUNP_BUFFER_TOO_SMALL);
    want("the body first", stunp_ice_checker_check_body(&empty, id, &nowhere, 1, false, &body, out, 0,
         &check), STUNP_BUFFER_TOO_SMALL);
    body = stunp_body_on(room, sizeof room);
    want("own", stunp_body_add(&body, STUNP_USE_CANDIDATE, NULL, 0), 0);
    want("no agent", stunp_ice_checker_check_body(&empty, id, &nowhere, 1, false, &body, out, 0,
         &check), STUNP_EMPTY_HANDLE);
    stunp_heap_bound(0);
    want("nowhere", stunp_ice_checker_check_body(&agent, id, &nowhere, 1, false, &body, out, 0,
         &check), STUNP_BAD_ARGUMENT);
    want("no peer", stunp_ice_checker_check_body(&alone, id, &from, 1, false, &body, out, 0, &check),
         STUNP_CANNOT_SIGN);
    want("memory", stunp_ice_checker_check_body(&agent, id, &from, 1, false, &body, out, 0, &check),
         STUNP_OUT_OF_MEMORY);
    stunp_heap_bound(SIZE_MAX);
    for (size_t i = 0; i < COUNT(rows); i++) {
        body = stunp_body_on(room, sizeof room);
        want("fine", stunp_body_add(&body, STUNP_SOFTWARE, "me", 2), 0);
        want("other", stunp_body_put(&body, rows[i].type, "four", 4), 0);
        want("twice", stunp_body_add(&body, STUNP_SOFTWARE, "me", 2), 0);
        want("refused", stunp_ice_checker_check_body(&agent, id, &from, 1, false, &body, out, 0,
             &check), rows[i].refusal);
    }
    body = stunp_body_on(room, sizeof room);
    want("once", stunp_body_add(&body, STUNP_SOFTWARE, "me", 2), 0);
    want("twice", stunp_body_add(&body, STUNP_SOFTWARE, "me", 2), 0);
    want("own", stunp_body_add(&body, STUNP_USE_CANDIDATE, NULL, 0), 0);
    want("the first", stunp_ice_checker_check_body(&agent, id, &from, 1, false, &body, out, 0,
         &check), STUNP_ATTRIBUTE_EXISTS);
    want("not whole", stunp_ice_checker_check_body_with(&agent, id, &from, 1, false, room, 7, out, 0,
         &check), STUNP_BAD_ARGUMENT);
    /* The longest message has 65552 bytes: 56 before the attribute, and 32 of the signature and
     * FINGERPRINT after it. The last attribute is too long by itself. */
    const struct { uint16_t value; int64_t answer; } lengths[] = {
        {65460, STUNP_BUFFER_TOO_SMALL}, {65464, STUNP_MESSAGE_TOO_LONG},
        {65532, STUNP_MESSAGE_TOO_LONG},
    };
    for (size_t i = 0; i < COUNT(lengths); i++) {
        memset(large, 0, sizeof large), large[0] = 0x7f;
        large[2] = (uint8_t)(lengths[i].value >> 8), large[3] = (uint8_t)lengths[i].value;
        want("long", stunp_ice_checker_check_body_with(&agent, id, &from, 1, false, large,
             4u + lengths[i].value, out, 65551, &check), lengths[i].answer);
    }
    want_same("nothing is written", out, before, sizeof out);
    want_same("nothing is told", &check, &same, sizeof check);
    want("controls", stunp_ice_checker_is_controlling(&agent), 0);
    stunp_ice_checker_free(&agent);
    stunp_ice_checker_free(&alone);
}

/* Datagrams that are neither a check nor an answer to one. */
static void drops(void) {
    stunp_ice_received got = STUNP_INIT(stunp_ice_received);
    stunp_ice_checker agent = evtj(1, true);
    uint8_t bytes[512];
    const struct { stunp_message_class message_class; uint32_t method, type, why; } rows[] = {
        {STUNP_INDICATION, STUNP_BINDING, 0, 0},
        {STUNP_INDICATION, STUNP_BINDING, 0x7777, STUNP_DROP_UNKNOWN_ATTRIBUTE},
        {STUNP_REQUEST, STUNP_ALLOCATE, 0, STUNP_DROP_OTHER_METHOD},
        {STUNP_SUCCESS, STUNP_BINDING, 0, STUNP_DROP_NOT_ASKED},
    };
    for (size_t i = 0; i < COUNT(rows); i++) {
        stunp_writer message = stunp_write(rows[i].message_class, rows[i].method, id, bytes,
                                           sizeof bytes);
        if (rows[i].type != 0) stunp_write_number(&message, rows[i].type, 7, 4);
        size_t bare = message.length;
        stunp_write_fingerprint(&message);
        want("row", stunp_ice_checker_receive(&agent, bytes, message.length, &from, NULL, NULL, 0,
             &got), rows[i].why == 0 ? STUNP_IS_INDICATION : STUNP_DROPPED);
        want("why", got.why, rows[i].why);
        bytes[message.length - 1] ^= 1;
        want("damaged", stunp_ice_checker_receive(&agent, bytes, message.length, &from, NULL, NULL, 0,
             &got), STUNP_DROPPED);
        want("why", got.why, STUNP_DROP_WRONG_FINGERPRINT);
        want("cut", stunp_ice_checker_receive(&agent, bytes, bare, &from, NULL, NULL, 0, &got),
             STUNP_DROPPED);
        want("why", got.why, STUNP_DROP_MALFORMED);
    }
    want("nothing", stunp_ice_checker_receive(&agent, NULL, 0, &from, NULL, NULL, 0, &got),
         STUNP_DROPPED);
    want("why", got.why, STUNP_DROP_NOT_STUN);
    struct message plain = message_of(STUNP_REQUEST, 1);
    want("no FINGERPRINT", stunp_ice_checker_receive(&agent, plain.bytes, plain.length, &from, NULL,
         NULL, 0, &got), STUNP_DROPPED);
    want("why", got.why, STUNP_DROP_WRONG_FINGERPRINT);
    stunp_ice_checker_free(&agent);
}

/* The response of `evtj` with these attributes, read by `h6vY`, which sent the check in a role. */
static stunp_ice_received response_to(stunp_ice_checker *agent, const stunp_ice_check *check,
                                      uint32_t code, uint32_t unknown) {
    uint8_t bytes[512];
    stunp_ice_received got = STUNP_INIT(stunp_ice_received);
    stunp_writer answer = stunp_write(code == 0 ? STUNP_SUCCESS : STUNP_ERROR, STUNP_BINDING, id,
                                      bytes, sizeof bytes);
    if (code > 1) stunp_write_error(&answer, code, "");
    if (unknown != 0) stunp_write_number(&answer, unknown, 7, 4);
    stunp_write_integrity(&answer, STUNP_SHA1, (const uint8_t *)password, strlen(password));
    stunp_write_fingerprint(&answer);
    want("response", stunp_ice_checker_receive(agent, bytes, answer.length, &from, check, NULL, 0,
         &got), STUNP_IS_RESPONSE);
    return got;
}

static void ends_of_a_check(void) {
    stunp_ice_checker agent = h6vy(1, true);
    stunp_ice_check check;
    want("check", stunp_ice_checker_check(&agent, id, &from, 1, true, out, sizeof out, &check), 92);
    want("nominates", check.nominates, true);
    want("controls", check.is_controlling, true);
    want("no address", response_to(&agent, &check, 0, 0).outcome, STUNP_ICE_MALFORMED);
    want("no code", response_to(&agent, &check, 1, 0).outcome, STUNP_ICE_MALFORMED);
    stunp_ice_received got = response_to(&agent, &check, 500, 0);
    want("an error", got.outcome, STUNP_ICE_ERROR);
    want("code", got.code, 500);
    got = response_to(&agent, &check, 500, 0x7777);
    want("unknown", got.outcome, STUNP_ICE_NOT_UNDERSTOOD);
    want("type", got.not_understood, 0x7777);
    want("no code", got.code, 0);
    for (int i = 0; i < 2; i++) {
        got = response_to(&agent, &check, 487, 0);
        want("conflict", got.outcome, STUNP_ICE_CONFLICT);
        want("code", got.code, 487);
        want("switched", got.switched, i == 0);
        want("role", stunp_ice_checker_is_controlling(&agent), 0);
    }
    stunp_ice_checker_free(&agent);
}

/* The longest check, and the longest answer: a 420 that lists a type for every four bytes. */
static void longest(void) {
    char name[257], peer_name[257], words[257];
    stunp_ice_settings settings = settings_of(letters(name, 256), letters(peer_name, 256), 1, true);
    settings.password = settings.peer_password = letters(words, 256);
    stunp_ice_checker agent = agent_of(&settings);
    want("check", stunp_ice_checker_check(&agent, id, &from, 1, true, out, STUNP_ICE_CHECK_MAX, NULL),
         STUNP_ICE_CHECK_MAX);
    stunp_ice_checker_free(&agent);
    stunp_ice_received got = STUNP_INIT(stunp_ice_received);
    agent = evtj(1, true);
    stunp_writer check = stunp_write(STUNP_REQUEST, STUNP_BINDING, id, large, sizeof large);
    stunp_write_text(&check, STUNP_USERNAME, "evtj:h6vY");
    size_t most = STUNP_LONGEST_MESSAGE - 36 - 8, length = check.length;
    for (; length + 4 <= most; length += 4) memcpy(large + length, "\x77\x77\0\0", 4);
    large[2] = (uint8_t)((length - 20) >> 8), large[3] = (uint8_t)(length - 20);
    check = stunp_write_on((int64_t)length, large, sizeof large);
    stunp_write_integrity(&check, STUNP_SHA256, (const uint8_t *)password, strlen(password));
    stunp_write_fingerprint(&check);
    want("written", stunp_written(&check), 0);
    want("420", stunp_ice_checker_receive(&agent, large, check.length, &from, NULL, out,
         STUNP_ANSWER_MAX, &got), STUNP_ANSWER);
    want("code", got.code, 420);
    stunp_ice_checker_free(&agent);
}

/* Two agents that begin in the same role, run by the worked example. */
static void worked(bool both_control) {
    stunp_ice_checker left = evtj(1, both_control), right = h6vy(2, both_control);
    const stunp_address left_at = {{192, 0, 2, 1}, 1, 4}, right_at = {{192, 0, 2, 2}, 2, 4};
    struct ice_pair at_left = {.remote = right_at}, at_right = {.remote = left_at};
    uint8_t bytes[STUNP_ICE_CHECK_MAX], number = 0, ids[STUNP_ID_LENGTH] = {0};
    at_left.is_to_be_checked = at_right.is_to_be_checked = true;
    while (at_left.is_to_be_checked || at_right.is_to_be_checked || !at_right.is_nominated) {
        bool is_left = at_left.is_to_be_checked || !at_right.is_to_be_checked;
        bool nominate = !at_left.is_to_be_checked && !at_right.is_to_be_checked;
        if (nominate) is_left = stunp_ice_checker_is_controlling(&left) == 1;
        struct ice_pair *pair = is_left ? &at_left : &at_right;
        struct ice_pair *other = is_left ? &at_right : &at_left;
        ids[0] = number++;
        int64_t length = check_pair(is_left ? &left : &right, pair, ids, nominate, bytes,
                                    sizeof bytes);
        want("a check", length > 0, true);
        size_t answer = read_on_pair(is_left ? &right : &left, other, bytes, (size_t)length,
                                     is_left ? &left_at : &right_at, out, sizeof out);
        want("an answer", answer > 0, true);
        want("nothing", (int64_t)read_on_pair(is_left ? &left : &right, pair, out, answer,
             is_left ? &right_at : &left_at, bytes, sizeof bytes), 0);
        if (number > 10 || at_left.is_nominated) break;
    }
    want("valid", at_left.is_valid && at_right.is_valid, true);
    want("roles", stunp_ice_checker_is_controlling(&left)
         + stunp_ice_checker_is_controlling(&right), 1);
    want("the larger controls", stunp_ice_checker_is_controlling(&right), 1);
    want("nominated", at_left.is_nominated, true);
    stunp_ice_checker_free(&left);
    stunp_ice_checker_free(&right);
}

/* Each allocation in turn is refused: the call fails, and the next call gives what it gave
 * before. */
static void each_allocation(void) {
    const stunp_ice_settings settings = settings_of("evtj", "h6vY", THEIRS, false);
    stunp_ice_received got = STUNP_INIT(stunp_ice_received);
    stunp_ice_checker agent = {0};
    int64_t answer = STUNP_OUT_OF_MEMORY;
    for (size_t n = 1; answer == STUNP_OUT_OF_MEMORY; n++) {
        stunp_heap_refuse(n);
        answer = stunp_ice_checker_new(&agent, &settings);
        want("empty", agent.is_full, answer == 0);
    }
    want("made", answer, 0);
    answer = STUNP_OUT_OF_MEMORY;
    for (size_t n = 1; answer == STUNP_OUT_OF_MEMORY; n++) {
        stunp_heap_refuse(n);
        answer = stunp_ice_checker_check(&agent, id, &from, 1, false, out, sizeof out, NULL);
    }
    want("written", answer, 88);
    answer = STUNP_OUT_OF_MEMORY;
    for (size_t n = 1; answer == STUNP_OUT_OF_MEMORY; n++) {
        want("no switch", stunp_ice_checker_is_controlling(&agent), 0);
        stunp_heap_refuse(n);
        answer = stunp_ice_checker_receive(&agent, BYTES(request), &from, NULL, out, sizeof out,
                                           &got);
    }
    stunp_heap_refuse(0);
    want("judged", answer, STUNP_ANSWER);
    want("switched", got.switched, true);
    stunp_ice_checker_free(&agent);
}

/* Priorities are those of RFC 8445, and the timers those of RFC 7675. */
static void around_checks(void) {
    const uint64_t second = 1000000000;
    const uint32_t random = (uint32_t)1 << 31; /* in the middle */
    want("host", stunp_ice_priority(STUNP_ICE_HOST, 65535, 1), 2130706431);
    want("reflexive", stunp_ice_priority(STUNP_ICE_PEER_REFLEXIVE, 65535, 1), 1862270975);
    want("relayed", stunp_ice_priority(STUNP_ICE_RELAYED, 0, 255), 1);
    want("the last component", stunp_ice_priority(STUNP_ICE_RELAYED, 1, 256), 256);
    want("none after it", stunp_ice_priority(STUNP_ICE_RELAYED, 1, 257), 256);
    want("pair", stunp_ice_pair_priority(3, 2) == (((uint64_t)2 << 32) | 7), true);
    want("pair", stunp_ice_pair_priority(2, 3) == (((uint64_t)2 << 32) | 6), true);
    want("pair", stunp_ice_pair_priority(3, 3) == (((uint64_t)3 << 32) | 6), true);
    want("most", stunp_ice_pair_priority(UINT32_MAX, UINT32_MAX)
         == (((uint64_t)0x7fffffff << 32) | 0xfffffffe), true);

    size_t length = 9;
    int64_t place = stunp_ice_find_sender(BYTES(request), &length);
    want("sender", place > 0 && length == 4 && memcmp(request + place, "h6vY", 4) == 0, true);
    want("no message", stunp_ice_find_sender((const uint8_t *)request, 7, &length), STUNP_TRUNCATED);
    want("nobody", length, 0);
    want("no name", stunp_ice_find_sender(BYTES(response), &length), STUNP_MISSING_ATTRIBUTE);

    stunp_ice_consent consent = stunp_ice_consent_from(7, random);
    want("first", stunp_ice_consent_until(&consent, UINT64_MAX) == 7 + 5 * second, true);
    want("sooner", stunp_ice_consent_until(&consent, 9), 9);
    want("wait", stunp_ice_consent_poll(&consent, 6 + 5 * second, random), STUNP_ICE_CONSENT_WAIT);
    want("ask", stunp_ice_consent_poll(&consent, 7 + 5 * second, 0), STUNP_ICE_CONSENT_ASK);
    want("next", consent.next == 7 + 9 * second, true);
    stunp_ice_consent_answered(&consent, 8 + 5 * second);
    want("renewed", consent.until == 8 + 35 * second, true);
    stunp_ice_consent_answered(&consent, 7);
    want("not shortened", consent.until == 8 + 35 * second, true);
    want("ask", stunp_ice_consent_poll(&consent, 7 + 35 * second, UINT32_MAX),
         STUNP_ICE_CONSENT_ASK);
    want("end", stunp_ice_consent_until(&consent, UINT64_MAX) == 8 + 35 * second, true);
    want("over", stunp_ice_consent_poll(&consent, 8 + 35 * second, 0), STUNP_ICE_CONSENT_OVER);
    stunp_ice_consent_answered(&consent, 8 + 35 * second);
    want("stays over", stunp_ice_consent_poll(&consent, 9 + 35 * second, 0),
         STUNP_ICE_CONSENT_OVER);
}

int main(void) {
    settings_in_order();
    plain_calls();
    sample_request();
    sample_responses();
    refusals_in_order();
    checks_of_the_peer();
    before_the_answer();
    further_attributes();
    refused_attributes();
    drops();
    ends_of_a_check();
    longest();
    worked(true);
    worked(false);
    each_allocation();
    around_checks();
    want_no_blocks("in the end");
    puts("ice: passed");
    return 0;
}
