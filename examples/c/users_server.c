/* A STUN server whose users are rows of a PostgreSQL database, built on stunp_endpoint.h
 * (docs/USERS.md).
 *
 *     users_server CONNECTION REALM serve PORT
 *     users_server CONNECTION REALM set NAME PASSWORD
 *     users_server CONNECTION REALM remove NAME
 *
 * CONNECTION is what libpq takes, such as "host=localhost user=stun dbname=stun". The table is that
 * of docs/USERS.md. `serve` answers the users in the table with the address that the request came
 * from; its first line of output is `port N`, and port 0 means any free port. `set` adds a user or
 * changes the user's password, and `remove` removes a user. Both take effect with the next request.
 *
 * A query takes at most a second, and other datagrams wait meanwhile. A server with many users
 * queries its database on another thread, and calls stunp_endpoint_server_resume when the row has
 * arrived. `make -C examples/c out/users_server` builds it if libpq is installed. */
#define _GNU_SOURCE
#include "net.h"
#include <libpq-fe.h>
#include <poll.h>
#include <stdio.h>
#include <stdlib.h>
#include <time.h>

/* ---- What docs/USERS.md prints */

#include "stunp_endpoint.h"

/* Returns 1 if there is such a user, 0 if not, and -1 if the database failed. */
int find(const stunp_received *named, stunp_found_user *found);

/* Returns the length of the response in `out`, or 0 if there is nothing to send. */
size_t answer(const stunp_endpoint_server *server, const uint8_t *bytes, size_t length,
              const stunp_address *from, uint64_t unix_seconds, uint8_t *out, size_t room) {
    stunp_received received = STUNP_INIT(stunp_received);
    int64_t kind = stunp_endpoint_server_identify(server, bytes, length, from, unix_seconds,
                                                  out, room, &received);
    if (kind == STUNP_LOOKUP) {
        stunp_found_user found = STUNP_INIT(stunp_found_user);
        int there = find(&received, &found);
        if (there < 0) return 0; /* the client sends its request again */
        kind = stunp_endpoint_server_resume(server, there ? &found : NULL, bytes, length, from,
                                            unix_seconds, out, room, &received);
    }
    if (kind == STUNP_IS_REQUEST) {
        /* A signed request from received.name that the server leaves to you. */
        stunp_writer error = stunp_reply_error(&received.reply, 400, "Bad Request", out, room);
        int64_t written = stunp_reply_finish(&received.reply, &error);
        stunp_reply_wipe(&received.reply);
        return written < 0 ? 0 : (size_t)written;
    }
    return kind == STUNP_ANSWER ? received.length : 0;
}

/* ---- The database */

static PGconn *database;

/* Connects, or connects again if the connection was lost. */
static bool is_connected(void) {
    if (PQstatus(database) == CONNECTION_OK) return true;
    PQreset(database);
    return PQstatus(database) == CONNECTION_OK;
}

/* Runs a query with values of the types text (25) and bytea (17), and requests bytes in binary
 * form. */
enum { TEXT = 25, BYTES = 17, MOST_VALUES = 4 };
struct value {
    Oid type;
    const void *bytes;
    size_t length;
};
static PGresult *ask(const char *query, const struct value *values, int count) {
    Oid types[MOST_VALUES];
    const char *bytes[MOST_VALUES];
    int lengths[MOST_VALUES], formats[MOST_VALUES];
    for (int i = 0; i < count; i++) {
        types[i] = values[i].type, bytes[i] = values[i].bytes;
        lengths[i] = (int)values[i].length, formats[i] = 1;
    }
    return PQexecParams(database, query, count, types, bytes, lengths, formats, 1);
}

/* Returns the key in a column of the row, if there is one with this length. */
static const uint8_t *key_at(const PGresult *rows, int column, int length) {
    bool is_there = !PQgetisnull(rows, 0, column) && PQgetlength(rows, 0, column) == length;
    return is_there ? (const uint8_t *)PQgetvalue(rows, 0, column) : NULL;
}

int find(const stunp_received *named, stunp_found_user *found) {
    static PGresult *rows; /* `found` points into the last one */
    const char *query = named->is_hash
        ? "select name, key_sha1, key_sha256 from stun_user where userhash = $1"
        : "select name, key_sha1, key_sha256 from stun_user where name = $1";
    struct value user = {named->is_hash ? BYTES : TEXT, named->name, named->name_length};
    /* PostgreSQL stores no text with a zero byte, so no row has such a name. */
    if (!named->is_hash && memchr(named->name, 0, named->name_length) != NULL) return 0;
    if (!is_connected()) return -1;
    PQclear(rows);
    rows = ask(query, &user, 1);
    if (PQresultStatus(rows) != PGRES_TUPLES_OK) return -1;
    if (PQntuples(rows) == 0) return 0;
    found->name = PQgetvalue(rows, 0, 0), found->name_length = (size_t)PQgetlength(rows, 0, 0);
    found->sha1_key = key_at(rows, 1, STUNP_SHA1_KEY_LENGTH);
    found->sha256_key = key_at(rows, 2, STUNP_SHA256_KEY_LENGTH);
    return 1;
}

/* Runs a command that changes rows. Returns how many, or -1 after it printed the reason. */
static long change(const char *command, const struct value *values, int count) {
    PGresult *result = ask(command, values, count);
    long rows = PQresultStatus(result) == PGRES_COMMAND_OK ? atol(PQcmdTuples(result)) : -1;
    if (rows < 0) fprintf(stderr, "users_server: %s", PQresultErrorMessage(result));
    PQclear(result);
    return rows;
}

static bool set(const char *realm, const char *name, const char *password) {
    uint8_t hash[STUNP_USERHASH_LENGTH];
    uint8_t sha1[STUNP_SHA1_KEY_LENGTH], sha256[STUNP_SHA256_KEY_LENGTH];
    const size_t length = strlen(name), of_realm = strlen(realm), of_password = strlen(password);
    const struct value row[] = {{TEXT, name, length}, {BYTES, hash, sizeof hash},
                                {BYTES, sha1, sizeof sha1}, {BYTES, sha256, sizeof sha256}};
    if (stunp_userhash(name, length, realm, of_realm, hash, sizeof hash) < 0
        || stunp_long_term_key(STUNP_SHA1, name, length, realm, of_realm, password, of_password,
                               sha1, sizeof sha1) < 0
        || stunp_long_term_key(STUNP_SHA256, name, length, realm, of_realm, password, of_password,
                               sha256, sizeof sha256) < 0) {
        fprintf(stderr, "users_server: the name or the realm is too long\n");
        return false;
    }
    return change("insert into stun_user (name, userhash, key_sha1, key_sha256)"
                  " values ($1, $2, $3, $4) on conflict (name) do update"
                  " set userhash = $2, key_sha1 = $3, key_sha256 = $4", row, 4) > 0;
}

static bool remove_user(const char *name) {
    const struct value user = {TEXT, name, strlen(name)};
    return change("delete from stun_user where name = $1", &user, 1) > 0;
}

/* ---- The server */

static bool serve(const char *realm, unsigned long port) {
    static uint8_t secret[32], out[STUNP_ANSWER_MAX];
    static struct datagram got;
    const char *const here = "127.0.0.1";
    stunp_endpoint_server server = {0};
    stunp_endpoint_server_settings settings = STUNP_INIT(stunp_endpoint_server_settings);
    struct listener listener;
    fill_randomly(secret, sizeof secret);
    settings.realm = realm, settings.secret = secret, settings.answers_binding = true;
    int64_t made = stunp_endpoint_server_new(&server, &settings);
    if (made < 0) fprintf(stderr, "users_server: %s\n", stunp_strerror(made));
    if (made < 0 || !open_server(&(struct place){.at = &here, .count = 1}, &port, &listener))
        return false;
    printf("port %lu\n", port);
    fflush(stdout);
    struct pollfd waiting = {listener.sockets[0], POLLIN, 0};
    while (poll(&waiting, 1, -1) >= 0)
        while (receive(waiting.fd, &got)) {
            size_t length = answer(&server, got.bytes, got.length, &got.from, (uint64_t)time(NULL),
                                   out, sizeof out);
            if (length > 0) send_to(waiting.fd, out, length, &got.peer);
        }
    return false;
}

static bool run(int count, char **words) {
    const char *realm = words[2], *command = words[3];
    if (count == 5 && strcmp(command, "serve") == 0)
        return serve(realm, strtoul(words[4], NULL, 10));
    if (count == 6 && strcmp(command, "set") == 0) return set(realm, words[4], words[5]);
    if (count == 5 && strcmp(command, "remove") == 0) return remove_user(words[4]);
    fprintf(stderr, "usage: users_server CONNECTION REALM (serve PORT | set NAME PASSWORD |"
                    " remove NAME)\n");
    return false;
}

int main(int count, char **words) {
    if (count < 4) return run(0, (char *[4]){NULL}) ? 0 : 2;
    const char *const names[] = {"connect_timeout", "options", "dbname", NULL};
    const char *const values[] = {"2", "-c statement_timeout=1000", words[1], NULL};
    database = PQconnectdbParams(names, values, 1); /* those of CONNECTION come before these */
    bool is_right = PQstatus(database) == CONNECTION_OK;
    if (!is_right) fprintf(stderr, "users_server: %s", PQerrorMessage(database));
    is_right = is_right && run(count, words);
    PQfinish(database);
    return is_right ? 0 : 1;
}
