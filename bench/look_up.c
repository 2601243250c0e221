/* Judges one signed request many times at a server of stunp_endpoint.h, for endpoint.py to count:
 *
 *     look_up resume|table|receive ALGORITHM NAMED COUNT
 *
 * `resume` identifies the request and resumes with the user who was found, whose keys are stored;
 * `table` identifies it, and passes it with a table of this user that was made before; `receive`
 * passes it with that table alone. ALGORITHM is 1 for HMAC-SHA1 and 2 for HMAC-SHA256. NAMED is
 * `name`, or `hash` if the request has USERHASH in place of USERNAME.
 *
 * Build: cc -O2 -Iinclude bench/look_up.c target/c/libstunp.a */
#include "stunp_endpoint.h"
#include <stdio.h>
#include <stdlib.h>
#include <string.h>

static const uint64_t NOW = 1000000;
static const char name[] = "alice", realm[] = "example.org", password[] = "correct horse";
static uint8_t message[512], answer[1024];
static size_t length;

static void need(int64_t is, int64_t wanted, const char *what) {
    if (is == wanted) return;
    fprintf(stderr, "look_up: %s: %lld\n", what, (long long)is);
    exit(1);
}

/* Signs a Binding request with what a challenge gives. */
static void sign(size_t challenge, uint32_t algorithm, int is_hashed, const uint8_t *key) {
    uint8_t id[STUNP_ID_LENGTH] = {1, 2, 3}, hash[32];
    const uint8_t offer[8] = {0, 2, 0, 0, 0, 1, 0, 0}, chosen[4] = {0, (uint8_t)algorithm, 0, 0};
    size_t nonce_length;
    int64_t nonce = stunp_find_text(answer, challenge, STUNP_NONCE, &nonce_length);
    if (nonce < 0) need(nonce, 0, "nonce");
    stunp_writer writer = stunp_write(STUNP_REQUEST, STUNP_BINDING, id, message, sizeof message);
    need(stunp_userhash(name, strlen(name), realm, strlen(realm), hash, sizeof hash), 32, "hash");
    if (is_hashed) stunp_write_bytes(&writer, STUNP_USERHASH, hash, sizeof hash);
    else stunp_write_text(&writer, STUNP_USERNAME, name);
    stunp_write_text(&writer, STUNP_REALM, realm);
    stunp_write_bytes(&writer, STUNP_NONCE, answer + nonce, nonce_length);
    stunp_write_bytes(&writer, STUNP_PASSWORD_ALGORITHMS, offer, sizeof offer);
    stunp_write_bytes(&writer, STUNP_PASSWORD_ALGORITHM, chosen, sizeof chosen);
    stunp_write_integrity(&writer, (stunp_algorithm)algorithm, key, algorithm == 1 ? 16 : 32);
    if (stunp_written(&writer) < 0) need(stunp_written(&writer), 0, "written");
    length = writer.length;
}

int main(int count, char **words) {
    if (count != 5) return 2;
    int resumes = !strcmp(words[1], "resume"), looks = resumes || !strcmp(words[1], "table");
    uint32_t algorithm = (uint32_t)atoi(words[2]);
    int is_hashed = !strcmp(words[3], "hash");
    uint8_t secret[32] = "0123456789012345678901234567890", sha1[16], sha256[32], plain[20];
    need(stunp_long_term_key(STUNP_SHA1, name, strlen(name), realm, strlen(realm), password,
                             strlen(password), sha1, 16), 16, "key");
    need(stunp_long_term_key(STUNP_SHA256, name, strlen(name), realm, strlen(realm), password,
                             strlen(password), sha256, 32), 32, "key");
    stunp_endpoint_server_settings settings = STUNP_INIT(stunp_endpoint_server_settings);
    settings.realm = realm, settings.secret = secret, settings.answers_binding = true;
    stunp_endpoint_server server = {false, NULL};
    need(stunp_endpoint_server_new(&server, &settings), 0, "server");
    stunp_found_user found = STUNP_INIT(stunp_found_user);
    found.name = name, found.name_length = strlen(name);
    found.sha1_key = sha1, found.sha256_key = sha256;
    stunp_endpoint_users users = {false, NULL};
    need(stunp_endpoint_users_new_found(&users, &server, &found), 0, "users");
    stunp_address from = {{192, 0, 2, 1}, 40000, 4};
    stunp_received received = STUNP_INIT(stunp_received);
    uint8_t id[STUNP_ID_LENGTH] = {9};
    stunp_writer writer = stunp_write(STUNP_REQUEST, STUNP_BINDING, id, plain, sizeof plain);
    need(stunp_endpoint_server_identify(&server, plain, writer.length, &from, NOW, answer,
                                        sizeof answer, &received), STUNP_ANSWER, "challenge");
    sign(received.length, algorithm, is_hashed, algorithm == 1 ? sha1 : sha256);
    for (long left = atol(words[4]); left > 0; left--) {
        if (looks)
            need(stunp_endpoint_server_identify(&server, message, length, &from, NOW, answer,
                                                sizeof answer, &received), STUNP_LOOKUP, "waits");
        if (resumes)
            need(stunp_endpoint_server_resume(&server, &found, message, length, &from, NOW, answer,
                                              sizeof answer, &received), STUNP_ANSWER, "resumes");
        else
            need(stunp_endpoint_server_receive(&server, &users, message, length, &from, NOW,
                                               answer, sizeof answer, &received), STUNP_ANSWER,
                 "receives");
        need(received.code, 0, "code");
    }
    stunp_endpoint_users_free(&users);
    stunp_endpoint_server_free(&server);
    return 0;
}
