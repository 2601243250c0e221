/* The rows of this library, over libstunp.a of `make lib`. */
#include "driver.h"
#include "stunp_endpoint.h"

static uint8_t sample256[120], check[STUNP_ICE_CHECK_MAX], out[2048];
static int64_t check_length;
static const stunp_address from = {{192, 0, 2, 1}, 32853, 4};
static const uint64_t now = 1000, unix_seconds = 7200;
static const uint8_t *const secret = (const uint8_t *)"secretsecretsecretsecretsecretse";

static void must(int64_t result, const char *what) {
    if (result >= 0) return;
    fprintf(stderr, "%s: %s\n", what, stunp_strerror(result));
    exit(1);
}

/* ---- Messages */

static int parse(void) { return stunp_parse(sample, SAMPLE_LENGTH) != 0; }

static int verify(void) {
    return stunp_verify(sample, SAMPLE_LENGTH, (const uint8_t *)password,
                        PASSWORD_LENGTH) != STUNP_SHA1;
}

static int verify256(void) {
    return stunp_verify(sample256, sizeof sample256, (const uint8_t *)password,
                        PASSWORD_LENGTH) != STUNP_SHA256;
}

static int build(void) {
    return stunp_build_signed(STUNP_SHA1, sample + 8, 12, "evtj:h6vY", 9,
                              (const uint8_t *)password, PASSWORD_LENGTH,
                              out, sizeof out) != 60;
}

static int fingerprint(void) {
    return stunp_check_fingerprint(sample, SAMPLE_LENGTH) != STUNP_RIGHT_FINGERPRINT;
}

/* ---- ICE */

static stunp_ice_checker here, there;
static stunp_ice_check record;

static int64_t write_check(uint8_t *bytes) {
    return stunp_ice_checker_check(&here, sample + 8, &from, 0x6e0001ff, true, bytes,
                                   STUNP_ICE_CHECK_MAX, &record);
}

static int check_written(void) { return write_check(out) != check_length; }

static int check_answered(void) {
    stunp_ice_received received = STUNP_INIT(stunp_ice_received);
    return stunp_ice_checker_receive(&there, check, (size_t)check_length, &from, NULL, out,
                                     sizeof out, &received) != STUNP_ANSWER ||
           received.outcome != STUNP_ICE_ACCEPTED;
}

static void prepare_checks(void) {
    stunp_ice_settings settings = STUNP_INIT(stunp_ice_settings);
    settings.name = "h6vY";
    settings.password = password;
    settings.tie_breaker = 9;
    settings.peer_name = "evtj";
    settings.peer_password = "asd88fgpdd777uzjYhagZg";
    must(stunp_ice_checker_new(&there, &settings), "an agent");
    settings.name = "evtj";
    settings.password = "asd88fgpdd777uzjYhagZg";
    settings.peer_name = "h6vY";
    settings.peer_password = password;
    settings.tie_breaker = 7;
    settings.is_controlling = true;
    must(stunp_ice_checker_new(&here, &settings), "an agent");
    check_length = write_check(check);
    must(check_length, "a check");
}

/* ---- Servers: `one` offers HMAC-SHA1 alone, and `both` both algorithms. */

static const uint8_t unsigned_request[20] = {0, 1, 0, 0, 0x21, 0x12, 0xa4, 0x42, 1, 2,
                                             3, 4, 5, 6, 7,    8,    9,    1,    2, 3};
static struct served {
    stunp_endpoint_server server;
    stunp_endpoint_users users;
    uint8_t request[512];
    size_t length;
} one, both;
static stunp_endpoint_server open_to_all;

static int answers(const stunp_endpoint_server *server, const stunp_endpoint_users *users,
                   const uint8_t *bytes, size_t length, unsigned code) {
    stunp_received received = STUNP_INIT(stunp_received);
    int64_t kind = stunp_endpoint_server_receive(server, users, bytes, length, &from, unix_seconds,
                                                 out, sizeof out, &received);
    return kind != STUNP_ANSWER || received.code != code;
}

static int server_open(void) { return answers(&open_to_all, NULL, unsigned_request, 20, 0); }

static int server_401(void) {
    return answers(&one.server, &one.users, unsigned_request, 20, 401);
}

static int server_401_both(void) {
    return answers(&both.server, &both.users, unsigned_request, 20, 401);
}

static int server_signed(void) {
    return answers(&one.server, &one.users, one.request, one.length, 0);
}

static int server_signed256(void) {
    return answers(&both.server, &both.users, both.request, both.length, 0);
}

/* Signs the request of a new client, by what the server answers to its first one. */
static void sign_request(struct served *served) {
    stunp_endpoint_client client = {0};
    stunp_endpoint_client_settings settings = STUNP_INIT(stunp_endpoint_client_settings);
    stunp_event event = STUNP_INIT(stunp_event);
    stunp_received received = STUNP_INIT(stunp_received);
    settings.server = from;
    settings.seed = secret;
    settings.name = "alice";
    settings.password = "wonderland";
    settings.algorithms = STUNP_SHA1 | STUNP_SHA256;
    must(stunp_endpoint_client_new(&client, &settings), "a client");
    must(stunp_endpoint_client_request(&client, STUNP_BINDING, NULL, now, NULL), "a request");
    must(stunp_endpoint_client_poll(&client, now, served->request, sizeof served->request, &event),
         "its bytes");
    must(stunp_endpoint_server_receive(&served->server, &served->users, served->request,
                                       event.length, &from, unix_seconds, out, sizeof out,
                                       &received),
         "a challenge");
    must(stunp_endpoint_client_receive(&client, out, received.length, &from, now, NULL), "reading");
    must(stunp_endpoint_client_poll(&client, now, served->request, sizeof served->request, &event),
         "the signed bytes");
    served->length = event.length;
    stunp_endpoint_client_free(&client);
}

static void prepare_server(struct served *served, uint32_t algorithms) {
    stunp_endpoint_server_settings settings = STUNP_INIT(stunp_endpoint_server_settings);
    settings.realm = "example.org";
    settings.secret = secret;
    settings.answers_binding = true;
    settings.algorithms = algorithms;
    must(stunp_endpoint_server_new(&served->server, &settings), "a server");
    must(stunp_endpoint_users_new(&served->users, &served->server), "users");
    must(stunp_endpoint_users_add(&served->users, "alice", 5, "wonderland", 10), "a user");
    sign_request(served);
}

/* ---- A client without credentials */

static stunp_endpoint_client client;

static int client_unsigned(void) {
    static uint8_t answer[32];
    stunp_event event = STUNP_INIT(stunp_event);
    uint64_t number;
    if (stunp_endpoint_client_request(&client, STUNP_BINDING, NULL, now, &number) < 0) return 1;
    if (stunp_endpoint_client_poll(&client, now, out, sizeof out, &event) != STUNP_TRANSMIT)
        return 1;
    memcpy(answer, "\1\1\0\x0c", 4);
    memcpy(answer + 4, out + 4, 16);
    memcpy(answer + 20, "\0\x20\0\x8\0\1\xa1\x47\xe1\x12\xa6\x43", 12);
    if (stunp_endpoint_client_receive(&client, answer, 32, &from, now, NULL) < 0) return 1;
    return stunp_endpoint_client_poll(&client, now, out, sizeof out, &event) != STUNP_ENDED;
}

static void prepare(void) {
    stunp_writer message = stunp_write(STUNP_REQUEST, STUNP_BINDING, sample + 8, sample256,
                                       sizeof sample256);
    stunp_write_bytes(&message, STUNP_SOFTWARE, sample + 24, 16);
    stunp_write_bytes(&message, STUNP_PRIORITY, sample + 44, 4);
    stunp_write_bytes(&message, STUNP_ICE_CONTROLLED, sample + 52, 8);
    stunp_write_bytes(&message, STUNP_USERNAME, sample + 64, 9);
    stunp_write_integrity(&message, STUNP_SHA256, (const uint8_t *)password, PASSWORD_LENGTH);
    stunp_write_fingerprint(&message);
    must(stunp_written(&message), "a message signed with HMAC-SHA256");
    prepare_checks();
    prepare_server(&one, STUNP_SHA1);
    prepare_server(&both, STUNP_SHA1 | STUNP_SHA256);
    stunp_endpoint_server_settings settings = STUNP_INIT(stunp_endpoint_server_settings);
    settings.credentials = STUNP_NO_CREDENTIALS;
    settings.answers_binding = true;
    must(stunp_endpoint_server_new(&open_to_all, &settings), "a server");
    stunp_endpoint_client_settings plain = STUNP_INIT(stunp_endpoint_client_settings);
    plain.server = from;
    plain.seed = secret;
    must(stunp_endpoint_client_new(&client, &plain), "a client");
}

static const struct row rows[] = {
    {"parse", parse},
    {"verify", verify},
    {"verify256", verify256},
    {"build", build},
    {"fingerprint", fingerprint},
    {"check_written", check_written},
    {"check_answered", check_answered},
    {"server_401", server_401},
    {"server_401_both", server_401_both},
    {"server_signed", server_signed},
    {"server_signed256", server_signed256},
    {"server_open", server_open},
    {"client_unsigned", client_unsigned},
};
MAIN(rows)
