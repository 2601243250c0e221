/* A session at a TURN server over UDP (RFC 8656): Allocate, CreatePermission, data by indications,
 * ChannelBind, data on the channel, and a Refresh that ends it.
 *
 *     turn_client HOST PORT NAME PASSWORD PEER PORT [--address] [--within SECONDS]
 *
 * The peer, an IP address, must send back the data that arrives, as turnutils_peer of coturn does.
 * The program prints what was allocated, and which data came back. With `--address` it asks for its
 * own address before and after the allocation, with an unsigned Binding request, because many
 * servers do not sign the response. It gives up after 30 s. Once it has read what was allocated, it
 * ends the allocation even after an error. The status is 0; 1, with the reason on standard error;
 * or 2 for wrong arguments. Arguments after `--` are not options, such as a PASSWORD that begins
 * with `-`. */
#define _GNU_SOURCE
#include "asker.h"
#include "heap.h"
#include "words.h"
#include <stdio.h>
#include <string.h>

enum { CHANNEL = 0x4000, MOST_MEMORY = 1 << 20 };

static const uint64_t REPEAT = SECOND / 2; /* data that does not come back is sent again */

static bool fails(const char *step, const char *why) {
    fprintf(stderr, "%s: %s\n", step, why);
    return false;
}

/* Reads the address of an attribute. */
static bool find_address(const struct datagram *got, uint32_t type, stunp_address *address) {
    int64_t octets = stunp_find_xor_address(got->bytes, got->length, type, address->octets,
                                            sizeof address->octets, &address->port);
    address->length = octets == 4 ? 4 : 16;
    return octets >= 0;
}

/* ---- Data, which is not signed in either direction, and whose arrival is not confirmed */

/* Writes data to the front of a buffer with room for MOST_BYTES. */
typedef stunp_writer write_data(const stunp_address *peer, const char *text, uint8_t *bytes);
typedef bool is_data(const stunp_address *peer, const char *text, const struct datagram *got);

static stunp_writer write_indication(const stunp_address *peer, const char *text, uint8_t *bytes) {
    uint8_t id[STUNP_ID_LENGTH];
    fill_randomly(id, sizeof id);
    stunp_writer out = stunp_write(STUNP_INDICATION, STUNP_SEND, id, bytes, MOST_BYTES);
    stunp_write_xor_address(&out, STUNP_XOR_PEER_ADDRESS, peer->octets, peer->length, peer->port);
    stunp_write_text(&out, STUNP_DATA, text);
    return out;
}

static bool is_indication(const stunp_address *peer, const char *text, const struct datagram *got) {
    stunp_header header;
    stunp_address from;
    size_t length;
    const uint8_t *data = stunp_find_value(got->bytes, got->length, STUNP_DATA, &length);
    return stunp_read_header(got->bytes, got->length, &header) == 0
           && header.message_class == STUNP_INDICATION && header.method == STUNP_DATA_METHOD
           && find_address(got, STUNP_XOR_PEER_ADDRESS, &from) && is_same(&from, peer)
           && data != NULL && length == strlen(text) && memcmp(data, text, length) == 0;
}

/* ChannelData (section 12.4) is not a STUN message, but is sent like one. */
static stunp_writer write_on_channel(const stunp_address *peer, const char *text, uint8_t *bytes) {
    (void)peer;
    return stunp_write_on(
        stunp_build_channel_data(CHANNEL, text, strlen(text), false, bytes, MOST_BYTES), bytes,
        MOST_BYTES);
}

static bool is_on_channel(const stunp_address *peer, const char *text, const struct datagram *got) {
    uint16_t channel;
    size_t length;
    int64_t place = stunp_read_channel_data(got->bytes, got->length, &channel, &length);
    (void)peer;
    return place > 0 && channel == CHANNEL && length == strlen(text)
           && memcmp(got->bytes + place, text, length) == 0;
}

/* Sends data to the peer until it comes back. */
static bool carry(struct asker *asker, const stunp_address *peer, write_data *write, is_data *is,
                  const char *text) {
    struct datagram got;
    uint8_t bytes[MOST_BYTES];
    for (uint64_t next = 0, now; (now = moment()) < asker->give_up;) {
        if (now >= next) {
            stunp_writer out = write(peer, text, bytes);
            send_data(asker, &out);
            next = now + REPEAT;
        }
        uint64_t until = next < asker->give_up ? next : asker->give_up;
        if (receive_data(asker, until, &got) && is(peer, text, &got)) {
            printf("came back: %s\n", text);
            return true;
        }
    }
    return fails(text, "nothing came back");
}

/* ---- The session */

static bool transact(struct asker *asker, const char *step, uint32_t method, const stunp_body *body,
                     struct datagram *got) {
    return ask(asker, method, body, got) || fails(step, asker->why);
}

/* Prints the address of the socket as the server sees it. */
static bool find_own_address(struct asker *asker) {
    stunp_request_options options = STUNP_INIT(stunp_request_options);
    struct datagram got;
    stunp_address own;
    options.is_unsigned = true;
    if (!ask_as(asker, STUNP_BINDING, NULL, &options, &got)) return fails("Binding", asker->why);
    if (!find_address(&got, STUNP_XOR_MAPPED_ADDRESS, &own)) return fails("Binding", "no address");
    printf("address %s\n", text_of(&own));
    return true;
}

/* Allocates a relayed address of the same family as the peer's address. */
static bool allocate(struct asker *asker, const stunp_address *peer) {
    uint8_t room[32];
    stunp_body body = stunp_body_on(room, sizeof room);
    struct datagram got;
    stunp_address relayed;
    uint64_t seconds;
    stunp_body_add_requested_transport(&body, IPPROTO_UDP);
    if (peer->length == 16) stunp_body_add_requested_family(&body, peer->length);
    if (!transact(asker, "Allocate", STUNP_ALLOCATE, &body, &got)) return false;
    if (!find_address(&got, STUNP_XOR_RELAYED_ADDRESS, &relayed)
        || stunp_find_number(got.bytes, got.length, STUNP_LIFETIME, &seconds) != 4)
        return fails("Allocate", "no address or no lifetime");
    printf("relayed %s for %u s\n", text_of(&relayed), (unsigned)seconds);
    return true;
}

static bool run(struct asker *asker, const stunp_address *peer, bool has_address) {
    uint8_t rooms[3][32];
    stunp_body permission = stunp_body_on(rooms[0], 32), channel = stunp_body_on(rooms[1], 32),
               end = stunp_body_on(rooms[2], 32);
    struct datagram got;
    stunp_body_add_peer(&permission, peer);
    stunp_body_add_channel_number(&channel, CHANNEL);
    stunp_body_add_peer(&channel, peer);
    stunp_body_add_number(&end, STUNP_LIFETIME, 0, 4);
    if (has_address && !find_own_address(asker)) return false;
    if (!allocate(asker, peer)) return false;
    bool is_right =
        (!has_address || find_own_address(asker))
        && transact(asker, "CreatePermission", STUNP_CREATE_PERMISSION, &permission, &got)
        && carry(asker, peer, write_indication, is_indication, "by indication")
        && transact(asker, "ChannelBind", STUNP_CHANNEL_BIND, &channel, &got)
        && carry(asker, peer, write_on_channel, is_on_channel, "on the channel");
    asker->give_up += SECOND;
    if (!transact(asker, "Refresh", STUNP_REFRESH, &end, &got)) return false;
    puts("ended");
    return is_right;
}

int main(int count, char **words) {
    static struct asker asker;
    stunp_address peer;
    unsigned long port;
    uint64_t within = 30 * SECOND;
    bool has_address = false;
    const struct option options[] = {
        {"--address", .flag = &has_address},
        {"--within", .nanoseconds = &within, .least = 0, .most = 1000000},
        {.name = NULL},
    };
    if (read_options(count, words, options) != 6 || *words[2] == 0
        || !read_number(words[5], 0, 65535, &port) || !read_host(words[4], port, &peer)) {
        fprintf(stderr, "usage: turn_client HOST PORT NAME PASSWORD PEER PORT "
                        "[--address] [--within SECONDS]\n");
        return 2;
    }
    stunp_endpoint_client_settings settings = STUNP_INIT(stunp_endpoint_client_settings);
    settings.name = words[2], settings.password = words[3];
    stunp_heap_bound(MOST_MEMORY);
    bool is_right = open_asker(&asker, words[0], words[1], &settings, within);
    explicit_bzero(words[3], strlen(words[3]));
    is_right = is_right && run(&asker, &peer, has_address);
    close_asker(&asker);
    return is_right ? 0 : 1;
}
