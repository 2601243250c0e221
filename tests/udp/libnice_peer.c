/* libnice's STUN agent as a peer of the programs in examples/c, with long-term credentials:
 *
 *     libnice_peer client HOST PORT NAME PASSWORD     asks, answers the challenge, and judges the
 *                                                     answer
 *     libnice_peer gather HOST PORT NAME PASSWORD     its ICE agent, which asks for an allocation
 *                                                     of TURN, until it has gathered
 *     libnice_peer server REALM NAME PASSWORD         prints `port N`, challenges, judges and
 *                                                     answers until it is ended
 *
 * The client prints the address and has status 0 where libnice validated the signed answer. The
 * server prints `validated` for each request that libnice validated. IPv4 only.
 * Build: cc libnice_peer.c $(pkg-config --cflags --libs nice) */
#define _GNU_SOURCE
#include <arpa/inet.h>
#include <netinet/in.h>
#include <nice/agent.h>
#include <stdio.h>
#include <stdlib.h>
#include <string.h>
#include <stun/stunagent.h>
#include <sys/socket.h>
#include <sys/time.h>

static const char *realm, *name, *password;

static bool password_of(StunAgent *agent, StunMessage *message, uint8_t *user, uint16_t length,
                        uint8_t **key, size_t *key_length, void *data) {
    (void)agent, (void)message, (void)data;
    if (length != strlen(name) || memcmp(user, name, length) != 0) return false;
    *key = (uint8_t *)password;
    *key_length = strlen(password);
    return true;
}

static int client(int fd, const struct sockaddr_in *server) {
    StunAgent agent;
    StunMessage request, response;
    uint8_t out[1024], in[1024];
    char text[INET_ADDRSTRLEN];
    stun_agent_init(&agent, STUN_ALL_KNOWN_ATTRIBUTES, STUN_COMPATIBILITY_RFC5389,
                    STUN_AGENT_USAGE_LONG_TERM_CREDENTIALS | STUN_AGENT_USAGE_USE_FINGERPRINT);
    for (int ask = 0; ask < 3; ask++) {
        stun_agent_init_request(&agent, &request, out, sizeof out, STUN_BINDING);
        if (ask > 0) {
            uint16_t length;
            const uint8_t *value = stun_message_find(&response, STUN_ATTRIBUTE_REALM, &length);
            if (value == NULL) break;
            stun_message_append_bytes(&request, STUN_ATTRIBUTE_USERNAME, name, strlen(name));
            stun_message_append_bytes(&request, STUN_ATTRIBUTE_REALM, value, length);
            value = stun_message_find(&response, STUN_ATTRIBUTE_NONCE, &length);
            if (value == NULL) break;
            stun_message_append_bytes(&request, STUN_ATTRIBUTE_NONCE, value, length);
        }
        size_t length = stun_agent_finish_message(&agent, &request,
                                                  ask > 0 ? (const uint8_t *)password : NULL,
                                                  ask > 0 ? strlen(password) : 0);
        sendto(fd, out, length, 0, (const struct sockaddr *)server, sizeof *server);
        ssize_t got = recv(fd, in, sizeof in, 0);
        if (got <= 0) break;
        StunValidationStatus status = stun_agent_validate(&agent, &response, in, (size_t)got, NULL,
                                                          NULL);
        if (status != STUN_VALIDATION_SUCCESS) {
            fprintf(stderr, "libnice: validation status %d\n", status);
            return 1;
        }
        if (stun_message_get_class(&response) == STUN_ERROR) continue;
        struct sockaddr_storage seen;
        socklen_t seen_length = sizeof seen;
        stun_message_find_xor_addr(&response, STUN_ATTRIBUTE_XOR_MAPPED_ADDRESS, &seen,
                                   &seen_length);
        struct sockaddr_in *four = (struct sockaddr_in *)&seen;
        bool is_signed = stun_message_has_attribute(&response, STUN_ATTRIBUTE_MESSAGE_INTEGRITY);
        printf("%s:%u %s\n", inet_ntop(AF_INET, &four->sin_addr, text, sizeof text),
               (unsigned)ntohs(four->sin_port), is_signed ? "signed" : "unsigned");
        return 0;
    }
    fprintf(stderr, "libnice: no answer\n");
    return 1;
}

static void is_gathered(NiceAgent *agent, guint stream, gpointer loop) {
    (void)agent, (void)stream;
    puts("gathered");
    g_main_loop_quit(loop);
}

static void ignore(NiceAgent *agent, guint stream, guint component, guint length, gchar *bytes,
                   gpointer data) {
    (void)agent, (void)stream, (void)component, (void)length, (void)bytes, (void)data;
}

static gboolean is_too_late(gpointer loop) {
    g_main_loop_quit(loop);
    return FALSE;
}

/* The agent answers challenges by itself. What a server without allocations says at last ends its
 * gathering. */
static void gather(const char *host, const char *port) {
    GMainLoop *loop = g_main_loop_new(NULL, FALSE);
    GMainContext *context = g_main_loop_get_context(loop);
    NiceAgent *agent = nice_agent_new(context, NICE_COMPATIBILITY_RFC5245);
    NiceAddress own;
    nice_address_init(&own);
    nice_address_set_from_string(&own, "127.0.0.1");
    nice_agent_add_local_address(agent, &own);
    g_object_set(agent, "upnp", FALSE, "ice-tcp", FALSE, NULL);
    guint stream = nice_agent_add_stream(agent, 1);
    nice_agent_set_relay_info(agent, stream, 1, host, (guint)atoi(port), name, password,
                              NICE_RELAY_TYPE_TURN_UDP);
    nice_agent_attach_recv(agent, stream, 1, context, ignore, NULL);
    g_signal_connect(agent, "candidate-gathering-done", G_CALLBACK(is_gathered), loop);
    nice_agent_gather_candidates(agent, stream);
    g_timeout_add_seconds(10, is_too_late, loop);
    g_main_loop_run(loop);
}

static void serve(int fd) {
    StunAgent agent;
    StunMessage request, response;
    uint8_t in[1024], out[1024];
    stun_agent_init(&agent, STUN_ALL_KNOWN_ATTRIBUTES, STUN_COMPATIBILITY_RFC5389,
                    STUN_AGENT_USAGE_LONG_TERM_CREDENTIALS);
    for (;;) {
        struct sockaddr_storage from;
        socklen_t from_length = sizeof from;
        ssize_t got = recvfrom(fd, in, sizeof in, 0, (struct sockaddr *)&from, &from_length);
        if (got <= 0) continue;
        StunValidationStatus status = stun_agent_validate(&agent, &request, in, (size_t)got,
                                                          password_of, NULL);
        bool is_signed = stun_message_has_attribute(&request, STUN_ATTRIBUTE_MESSAGE_INTEGRITY);
        if (status == STUN_VALIDATION_SUCCESS && is_signed) {
            stun_agent_init_response(&agent, &response, out, sizeof out, &request);
            stun_message_append_xor_addr(&response, STUN_ATTRIBUTE_XOR_MAPPED_ADDRESS, &from,
                                         from_length);
            puts("validated");
        } else {
            stun_agent_init_error(&agent, &response, out, sizeof out, &request,
                                  STUN_ERROR_UNAUTHORIZED);
            stun_message_append_bytes(&response, STUN_ATTRIBUTE_REALM, realm, strlen(realm));
            stun_message_append_bytes(&response, STUN_ATTRIBUTE_NONCE, "a nonce of libnice", 18);
            printf("refused, status %d\n", status);
        }
        size_t length = stun_agent_finish_message(&agent, &response, (const uint8_t *)password,
                                                  strlen(password));
        sendto(fd, out, length, 0, (struct sockaddr *)&from, from_length);
    }
}

int main(int count, char **words) {
    struct sockaddr_in address = {.sin_family = AF_INET, .sin_addr.s_addr = htonl(INADDR_LOOPBACK)};
    socklen_t length = sizeof address;
    struct timeval wait = {5, 0};
    int fd = socket(AF_INET, SOCK_DGRAM, 0);
    setvbuf(stdout, NULL, _IOLBF, 0);
    if (count == 6 && strcmp(words[1], "client") == 0) {
        name = words[4], password = words[5];
        inet_pton(AF_INET, words[2], &address.sin_addr);
        address.sin_port = htons((uint16_t)atoi(words[3]));
        setsockopt(fd, SOL_SOCKET, SO_RCVTIMEO, &wait, sizeof wait);
        return client(fd, &address);
    }
    if (count == 6 && strcmp(words[1], "gather") == 0) {
        name = words[4], password = words[5];
        gather(words[2], words[3]);
        return 0;
    }
    if (count != 5 || strcmp(words[1], "server") != 0) return 2;
    realm = words[2], name = words[3], password = words[4];
    bind(fd, (struct sockaddr *)&address, sizeof address);
    getsockname(fd, (struct sockaddr *)&address, &length);
    printf("port %u\n", (unsigned)ntohs(address.sin_port));
    serve(fd);
}
