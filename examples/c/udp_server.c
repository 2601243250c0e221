/* A STUN server on UDP and TCP (RFC 8489), IPv4 and IPv6, with users, built on stunp_endpoint.h.
 *
 * It answers everybody with the address that the request came from. If it has a realm, it answers
 * only the users of that realm, and challenges everybody else (section 9.2.4). It stores nothing
 * about an address, so a flood uses no memory, and any number of processes and machines can serve
 * the same clients if they have the same secret.
 *
 *     udp_server PORT [REALM [NAME PASSWORD].. [--users FILE]] [OPTION]..
 *
 * `--help` lists the options. At SIGHUP it reads the file of users again, at SIGUSR1 it prints its
 * counters, and at SIGTERM it ends with status 0. */
#define _GNU_SOURCE
#include "counters.h"
#include "heap.h"
#include "net.h"
#include "processes.h"
#include "reload.h"
#include "streams.h"
#include "stunp_endpoint.h"
#include "users.h"
#include "words.h"
#include <errno.h>
#include <stdio.h>
#include <string.h>
#include <sys/epoll.h>
#include <time.h>
#include <unistd.h>

static const char usage[] =
    "usage: udp_server PORT [REALM [NAME PASSWORD].. [--users FILE]] [OPTION]..\n";
static const char help[] =
    "\n"
    "Answers everybody with the address that the request came from or, if it has a REALM, the\n"
    "users of that realm alone. PORT 0 is any free one. The first line of output is `port N`.\n"
    "\n"
    "  --users FILE      users of a file, or of standard input if it is -. A line is `NAME\n"
    "                    PASSWORD` or `NAME 0xKEY [0xKEY]` with stored keys of 16 bytes\n"
    "                    (HMAC-SHA1) and 32 bytes (HMAC-SHA256) in hexadecimal; `#` begins a\n"
    "                    comment. SIGHUP reads it again, while the server goes on, in one process\n"
    "                    after the other\n"
    "  --secret FILE     what nonces are made of: 32 bytes, or 64 hexadecimal digits. Servers\n"
    "                    with the same secret, REALM, users, --expiry and --sha256 serve each\n"
    "                    other's clients. Random unless given\n"
    "  --previous FILE   another secret whose nonces are accepted too, but not sent: the one\n"
    "                    before, so that a new --secret costs no client a 438\n"
    "  --sha256          offer HMAC-SHA256 beside HMAC-SHA1\n"
    "  --expiry SECONDS  how long a nonce is sent, from 30; it is accepted for up to twice as\n"
    "                    long. 3600 unless given\n"
    "  --at ADDRESS      an IP address to serve; may be repeated. `-` is the socket that is\n"
    "                    standard input. All of this machine unless given\n"
    "  --tcp             serve TCP too, 256 connections at a time in each process: one more ends\n"
    "                    the connection that has been silent for longest\n"
    "  --idle SECONDS    end a connection without a whole message for SECONDS. 30 unless given\n"
    "  --workers N       the number of processes: 1 unless given\n"
    "  --shared          let other servers have the port too (SO_REUSEPORT)\n"
    "  --any-method      judge requests of other methods too, and answer them 420 if they have\n"
    "                    attributes of TURN, 400 if an Allocate lacks REQUESTED-TRANSPORT, and\n"
    "                    508 otherwise\n"
    "  --counts SECONDS  print a line of counters every SECONDS; SIGUSR1 prints one at once\n"
    "  --metrics FILE    write the counters to FILE every 5 seconds, as Prometheus reads them, by\n"
    "                    way of FILE.new\n"
    "  --ahead SECONDS   SIGUSR2 moves the clock of the process that gets it so far ahead, to\n"
    "                    see nonces expire (for tests; with --workers send it to each worker)\n"
    "  -v                print a line for each datagram: from where, the answer, the cause of a\n"
    "                    refusal, and who had signed, if the request was accepted and all its\n"
    "                    attributes are known\n"
    "  --                what follows is not an option, such as a PASSWORD that begins with `-`\n"
    "  --help, --version\n";

enum { MOST_BATCHES = 4 /* of one socket in turn */ };
enum { MOST_WAIT = 1000, MOST_WAIT_IN_RELOAD = 10 /* milliseconds of a turn of the loop */ };
enum { MEMORY = 1 << 30 /* the most bytes that one process allocates, for users and one answer */ };

static struct {
    unsigned long port, workers, expiry, ahead, counts, idle;
    const char *file, *secret, *previous, *metrics;
    struct texts at;
    bool has_users, has_sha256, has_tcp, is_verbose, is_shared, takes_any_method;
    bool wants_help, wants_version;
} settings = {.workers = 1, .expiry = 3600, .idle = 30};

static const struct option options[] = {
    {"-v", .flag = &settings.is_verbose},
    {"--users", .text = &settings.file},
    {"--secret", .text = &settings.secret},
    {"--previous", .text = &settings.previous},
    {"--metrics", .text = &settings.metrics},
    {"--at", .texts = &settings.at},
    {"--sha256", .flag = &settings.has_sha256},
    {"--tcp", .flag = &settings.has_tcp},
    {"--idle", .number = &settings.idle, .least = 1, .most = 1000000},
    {"--shared", .flag = &settings.is_shared},
    {"--any-method", .flag = &settings.takes_any_method},
    {"--workers", .number = &settings.workers, .least = 1, .most = MOST_PROCESSES},
    {"--expiry", .number = &settings.expiry, .least = 30, .most = 1000000},
    {"--counts", .number = &settings.counts, .least = 1, .most = 1000000},
    {"--ahead", .number = &settings.ahead, .least = 0, .most = 1000000},
    {"--help", .flag = &settings.wants_help},
    {"--version", .flag = &settings.wants_version},
    {.name = NULL},
};

static stunp_endpoint_server server;
static stunp_endpoint_users users;
static struct { char **texts; int count; } words_of_users;
static volatile sig_atomic_t jumps;

static void jump(int number) { jumps += number == SIGUSR2; }

/* Returns the seconds of the wall clock. With another clock, nonces of an earlier run could be
 * current again. */
static uint64_t now(void) {
    struct timespec now;
    clock_gettime(CLOCK_REALTIME, &now);
    return (uint64_t)now.tv_sec + (uint64_t)jumps * settings.ahead;
}

/* ---- Answers */

static void count_code(uint32_t code) {
    count(code == 200   ? ANSWERED
          : code == 400 ? REFUSED_400
          : code == 401 ? REFUSED_401
          : code == 420 ? REFUSED_420
          : code == 438 ? REFUSED_438
                        : NOT_BINDING);
}

/* The types of attributes that must be understood, and that this server understands. */
static const uint16_t known[] = {
    STUNP_MAPPED_ADDRESS,     STUNP_USERNAME, STUNP_MESSAGE_INTEGRITY,
    STUNP_UNKNOWN_ATTRIBUTES, STUNP_REALM,    STUNP_MESSAGE_INTEGRITY_SHA256,
    STUNP_PASSWORD_ALGORITHM, STUNP_USERHASH, STUNP_XOR_MAPPED_ADDRESS,
    STUNP_ERROR_CODE,         STUNP_NONCE,
};
enum { KNOWN_TYPES = sizeof known / sizeof *known };

/* Returns the code of the answer to a request that is understood: 200 to Binding, 400 to an
 * Allocate without REQUESTED-TRANSPORT (RFC 8656, section 7.2), and 508 to everything else. */
static uint32_t code_of(const struct datagram *got, uint32_t method) {
    bool is_malformed =
        method == STUNP_ALLOCATE
        && stunp_find(got->bytes, got->length, STUNP_REQUESTED_TRANSPORT, &(size_t){0}) < 0;
    return method == STUNP_BINDING ? 200 : is_malformed ? 400 : 508;
}

/* Adds the contents of an answer with this code: the address of the client, or the error. */
static void fill_answer(stunp_writer *writer, uint32_t code, const stunp_address *from) {
    if (code == 200)
        stunp_write_xor_address(writer, STUNP_XOR_MAPPED_ADDRESS, from->octets, from->length,
                                from->port);
    else stunp_write_error(writer, code, code == 400 ? "Bad Request" : "Insufficient Capacity");
}

/* Returns the counter for the cause of a refusal. */
static enum number counter_of_cause(stunp_cause cause) {
    return (enum number)(NO_SIGNATURE + (uint32_t)cause - STUNP_CAUSE_NO_SIGNATURE);
}

/* Counts an answer, and logs it with the cause, if it is a refusal that has one. The name is that
 * of the user whom the library accepted, and not the USERNAME of a message. */
static void tell(const stunp_address *from, uint32_t code, stunp_cause cause,
                 const stunp_received *received) {
    count_code(code);
    if (cause != 0) count(counter_of_cause(cause));
    if (!settings.is_verbose) return;
    if (cause != 0)
        say_at_time("%s %u %s\n", text_of(from), code, label_of(counter_of_cause(cause)));
    else if (received == NULL || received->kind != STUNP_IS_REQUEST)
        say_at_time("%s %u\n", text_of(from), code);
    else
        say_at_time("%s %u %s %.*s\n", text_of(from), code,
                    received->algorithm == STUNP_SHA256 ? "SHA256" : "SHA1",
                    (int)received->name_length, (const char *)received->name);
}

static void drop(const stunp_address *from, enum number what, const char *why) {
    count(what);
    if (settings.is_verbose) say_at_time("%s dropped: %s\n", text_of(from), why);
}

/* Returns the counter for the reason for which the server dropped a datagram. */
static enum number counter_of(uint32_t why) {
    return why == STUNP_DROP_NOT_STUN             ? NOT_STUN
           : why == STUNP_DROP_MALFORMED          ? MALFORMED
           : why == STUNP_DROP_WRONG_FINGERPRINT  ? WRONG_FINGERPRINT
           : why == STUNP_DROP_UNKNOWN_ATTRIBUTE  ? UNKNOWN_ATTRIBUTE
           : why == STUNP_DROP_OUT_OF_MEMORY      ? OUT_OF_MEMORY
                                                  : OTHER;
}

/* Answers an accepted request. */
static uint32_t reply(const struct datagram *got, const stunp_received *received,
                      struct answer *answer) {
    uint32_t code = code_of(got, received->method);
    const stunp_reply *to = &received->reply;
    stunp_writer writer = stunp_write(code == 200 ? STUNP_SUCCESS : STUNP_ERROR, to->method, to->id,
                                      answer->bytes, sizeof answer->bytes);
    fill_answer(&writer, code, &got->from);
    int64_t length = stunp_reply_finish(to, &writer);
    answer->length = length < 0 ? 0 : (size_t)length;
    return code;
}

/* Ends the answer to a datagram that the server of users has judged, and counts and logs it. */
static void settle(const struct datagram *got, const stunp_judged *judged,
                   stunp_received *received, struct answer *answer) {
    if (judged->kind == STUNP_ANSWER) {
        answer->length = judged->length;
        tell(&got->from, received->code, judged->cause, received);
    } else if (judged->kind == STUNP_IS_REQUEST) {
        tell(&got->from, reply(got, received, answer), 0, received);
        stunp_reply_wipe(&received->reply);
    } else if (judged->kind == STUNP_DROPPED)
        drop(&got->from, counter_of(received->why), stunp_drop_text(received->why));
    else if (judged->kind < 0)
        drop(&got->from, judged->kind == STUNP_OUT_OF_MEMORY ? OUT_OF_MEMORY : OTHER,
             stunp_strerror(judged->kind));
    else drop(&got->from, NOT_BINDING, "not a request");
}

/* Judges datagrams at a server with users in one call, and answers them. */
static void answer_users(const struct datagram *const *got, struct answer *const *answers,
                         size_t number) {
    /* An answer has fewer bytes than its request may have, so all fit. */
    static uint8_t out[BATCH * MOST_BYTES];
    static stunp_received received[BATCH];
    static stunp_datagram datagrams[BATCH];
    static stunp_judged judged[BATCH];
    for (size_t i = 0; i < number; i++) {
        received[i].size = sizeof received[i];
        datagrams[i] = (stunp_datagram){got[i]->bytes, got[i]->length, got[i]->from, &received[i]};
    }
    size_t done = stunp_endpoint_server_receive_many(&server, &users, datagrams, number, now(), out,
                                                     sizeof out, judged);
    for (size_t i = 0; i < done; i++) {
        if (judged[i].kind == STUNP_ANSWER) answers[i]->start = out + judged[i].offset;
        settle(got[i], &judged[i], &received[i], answers[i]);
    }
}

/* Judges a datagram at a server that answers everybody, and answers it. */
static void answer_anybody(const struct datagram *got, struct answer *answer) {
    stunp_header header;
    int64_t fingerprint = stunp_check_fingerprint(got->bytes, got->length);
    if (fingerprint < 0)
        drop(&got->from, stunp_is_stun(got->bytes, got->length) ? MALFORMED : NOT_STUN,
             stunp_strerror(fingerprint));
    else if (fingerprint > STUNP_RIGHT_FINGERPRINT)
        drop(&got->from, WRONG_FINGERPRINT, "wrong FINGERPRINT");
    else if (stunp_read_header(got->bytes, got->length, &header) != 0
             || header.message_class != STUNP_REQUEST)
        drop(&got->from, NOT_BINDING, "not a request");
    else {
        const size_t room = sizeof answer->bytes;
        int64_t refusal = stunp_refuse_unknown(got->bytes, got->length, known, KNOWN_TYPES,
                                               answer->bytes, room);
        uint32_t code = refusal != 0 ? 420 : code_of(got, header.method);
        stunp_writer writer =
            refusal != 0 ? stunp_write_on(refusal, answer->bytes, room)
                         : stunp_write(code == 200 ? STUNP_SUCCESS : STUNP_ERROR, header.method,
                                       header.id, answer->bytes, room);
        if (refusal == 0) fill_answer(&writer, code, &got->from);
        if (fingerprint == STUNP_RIGHT_FINGERPRINT) stunp_write_fingerprint(&writer);
        answer->length = stunp_written(&writer) < 0 ? 0 : writer.length;
        tell(&got->from, code, 0, NULL);
    }
}

/* Returns whether to judge a datagram. Begins its answer, which has no bytes yet. */
static bool is_taken(const struct datagram *got, struct answer *answer) {
    int64_t method = stunp_method(got->bytes, got->length);
    answer->start = answer->bytes, answer->length = 0;
    if (method < 0 || method == STUNP_BINDING || settings.takes_any_method) return true;
    drop(&got->from, NOT_BINDING, "not a Binding request");
    return false;
}

/* Answers at most BATCH datagrams. */
static void answer_all(const struct datagram *got, struct answer *answers, int number) {
    const struct datagram *taken[BATCH];
    struct answer *to[BATCH];
    size_t count = 0;
    for (int i = 0; i < number; i++)
        if (is_taken(&got[i], &answers[i])) taken[count] = &got[i], to[count++] = &answers[i];
    if (settings.has_users) answer_users(taken, to, count);
    else
        for (size_t i = 0; i < count; i++) answer_anybody(taken[i], to[i]);
}

/* ---- Users */

/* Fills a table with the users of the arguments and of the file. */
static bool fill(stunp_endpoint_users *table, const char *what) {
    int64_t answer = stunp_endpoint_users_new(table, &server);
    if (answer < 0) {
        complain("%s%s\n", what, stunp_strerror(answer));
        return false;
    }
    if (add_words(table, words_of_users.texts, words_of_users.count)
        && (settings.file == NULL || add_file(table, settings.file, what)))
        return true;
    stunp_endpoint_users_free(table);
    return false;
}

static bool fill_again(stunp_endpoint_users *table) {
    return fill(table, "the users are unchanged: ");
}

/* Reads the file of users again, if a SIGHUP arrived after the last reading began. A file with a
 * bad line changes nothing. */
static void follow_hangups(unsigned long number) {
    static sig_atomic_t read_at; /* 0, so that a SIGHUP that arrived before the first turn counts */
    if (is_reloading()) {
        if (!go_on_with_reload(&users)) return;
        say_hangup_is_done(number);
    }
    sig_atomic_t heard = hangups;
    bool has_file = settings.file != NULL && strcmp(settings.file, "-") != 0;
    if (read_at != heard && !(has_file && start_reload(fill_again))) say_hangup_is_done(number);
    read_at = heard;
}

/* Ends a reload that is in progress. It stops reading when `is_ending`. */
static void end_reload(void) {
    const struct timespec rest = {0, 1000000};
    while (is_reloading() && !go_on_with_reload(&users)) nanosleep(&rest, NULL);
}

/* ---- The sockets */

/* Answers a message of a stream. */
static void answer_one(const struct datagram *got, struct answer *answer) {
    answer_all(got, answer, 1);
}

/* Answers datagrams that wait at a socket, but not all of them, so that other sockets get a
 * turn. */
static void serve_some(int socket) {
    static struct datagram got[BATCH];
    static struct answer answers[BATCH];
    for (int batch = 0, number = BATCH; batch < MOST_BATCHES && number == BATCH; batch++) {
        number = receive_batch(socket, got);
        answer_all(got, answers, number);
        answer_batch(socket, got, answers, number);
    }
}

/* The numbers of what epoll waits for: UDP sockets, listening sockets, and from FIRST_CONNECTION on
 * the connections. */
enum { FIRST_STREAM = MOST_SOCKETS, FIRST_CONNECTION = 2 * MOST_SOCKETS };

/* Returns an epoll for the sockets, or -1. */
static int watch_all(const struct listener *listener) {
    int queue = epoll_create1(EPOLL_CLOEXEC);
    bool is_right = queue >= 0;
    for (int i = 0; i < listener->number; i++)
        is_right = is_right && watch(queue, listener->sockets[i], i);
    for (int i = 0; i < listener->streams_number; i++)
        is_right = is_right && watch(queue, listener->streams[i], FIRST_STREAM + i);
    return is_right ? queue : -1;
}

static void serve_one(const struct listener *listener, int queue, int number) {
    if (number >= FIRST_CONNECTION) read_stream(number - FIRST_CONNECTION, answer_one);
    else if (number < FIRST_STREAM) serve_some(listener->sockets[number]);
    else accept_stream(listener->streams[number - FIRST_STREAM], queue, FIRST_CONNECTION);
}

/* Prints the counters if they are due or were requested, and starts the thread that writes them to
 * a file. The first process calls this now and then. */
static void look(void) {
    static sig_atomic_t told;
    static uint64_t due;
    static bool has_metrics;
    if (settings.metrics != NULL && !has_metrics && !start_metrics(settings.metrics))
        complain("%s: %s\n", settings.metrics, strerror(errno));
    has_metrics = true;
    bool is_due = settings.counts > 0 && moment() >= due;
    if (is_due) due = (due == 0 ? moment() : due) + settings.counts * SECOND;
    if (told != reports || is_due) log_counters();
    told = reports;
}

static bool serve(const struct listener *listener, unsigned long number) {
    struct epoll_event ready[MOST_SOCKETS];
    int queue = watch_all(listener);
    count_as(number);
    if (queue < 0) perror("epoll");
    while (queue >= 0 && !is_ending) {
        int most = is_reloading() ? MOST_WAIT_IN_RELOAD : MOST_WAIT;
        int events = epoll_wait(queue, ready, MOST_SOCKETS, most);
        for (int i = 0; i < events; i++) serve_one(listener, queue, ready[i].data.fd);
        if (settings.has_tcp) end_idle_streams(settings.idle * SECOND);
        follow_hangups(number);
        if (settings.workers == 1) look();
    }
    end_reload();
    return queue >= 0 && close(queue) == 0;
}

/* ---- Settings */

/* Creates the server of a realm, and fills the table of its users. */
static bool begin(const char *realm) {
    uint8_t secret[32], previous[32];
    stunp_endpoint_server_settings wanted = STUNP_INIT(stunp_endpoint_server_settings);
    if (settings.secret == NULL) fill_randomly(secret, sizeof secret);
    else if (!read_secret(settings.secret, secret)) return false;
    if (settings.previous != NULL && !read_secret(settings.previous, previous)) return false;
    if (settings.previous != NULL && memcmp(secret, previous, sizeof secret) == 0) {
        complain("--previous and --secret have the same secret\n");
        return false;
    }
    wanted.realm = realm, wanted.secret = secret;
    wanted.previous_secret = settings.previous == NULL ? NULL : previous;
    wanted.nonce_seconds = settings.expiry;
    wanted.algorithms = settings.has_sha256 ? STUNP_SHA1 | STUNP_SHA256 : STUNP_SHA1;
    int64_t answer = stunp_endpoint_server_new(&server, &wanted);
    explicit_bzero(secret, sizeof secret);
    explicit_bzero(previous, sizeof previous);
    if (answer >= 0) return fill(&users, "");
    complain("%s\n", stunp_strerror(answer));
    return false;
}

/* Returns whether there is a port and, if there is a realm, users from arguments or from a file. */
static bool has_right_words(int number, char **words) {
    bool has_rest = number == 1 ? settings.file == NULL
                                : number % 2 == 0 && (number > 2 || settings.file != NULL);
    bool has_secrets = settings.previous == NULL || settings.secret != NULL;
    return number >= 1 && has_rest && has_secrets
           && read_number(words[0], 0, 65535, &settings.port);
}

int main(int number, char **words) {
    hear_signals(); /* first, so that a SIGHUP while the users are read does not end the program */
    sigaction(SIGUSR2, &(struct sigaction){.sa_handler = jump, .sa_flags = SA_RESTART}, NULL);
    number = read_options(number, words, options);
    if (settings.wants_help || settings.wants_version) {
        if (settings.wants_help) printf("%s%s", usage, help);
        else
            printf("udp_server %d.%d.%d\n", STUNP_VERSION / 10000, STUNP_VERSION / 100 % 100,
                   STUNP_VERSION % 100);
        return 0;
    }
    if (!has_right_words(number, words)) {
        fprintf(stderr, "%s`udp_server --help` lists the options.\n", usage);
        return 2;
    }
    stunp_heap_bound(MEMORY);
    settings.has_users = number > 1;
    words_of_users.count = settings.has_users ? number - 2 : 0;
    words_of_users.texts = hidden_words(words + 2, words_of_users.count);
    if (!open_counters(settings.workers) || words_of_users.texts == NULL
        || (settings.metrics != NULL && !write_metrics(settings.metrics))) {
        perror(settings.metrics != NULL ? settings.metrics : "udp_server");
        return 1;
    }
    if (settings.has_users && !begin(words[1])) return is_ending ? 0 : 1;
    int status = serve_in_processes(&(struct service){
        {settings.at.texts, settings.at.count, settings.is_shared, settings.has_tcp},
        settings.port, settings.workers, serve, look});
    stunp_endpoint_users_free(&users);
    stunp_endpoint_server_free(&server);
    return status;
}
