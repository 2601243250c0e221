/* A driver for libFuzzer over all calls of stunp_endpoint.h, stunp_sockaddr.h and stunp_log.h. Its
 * first byte chooses a part: a server (servers.h), clients at a server (clients.h), ICE agents
 * (agents.h), or addresses. The rest are the choices of that part. What must hold:
 *
 * - A server judges alike each time, by a table and by a look-up, into its own room and any larger
 *   one. A smaller room is refused, and nothing is written.
 * - If an allocation is refused, the call fails with STUNP_OUT_OF_MEMORY and nothing has changed,
 *   or it does what it would have done. The twin of a client or an agent, whose allocations are
 *   refused and which is asked again, goes on like the other.
 * - Causes and codes agree, answers are messages with the ID, method, address, signature and
 *   FINGERPRINT that they must have, and at most 2048 bytes to a datagram of 1500. The key of a
 *   reply verifies its request.
 * - Each request ends once, a wait is not in the past, polls end in a wait, and polls and cancels
 *   do not allocate. A true answer is not taken for a forged one.
 * - Two agents have opposite roles after an exchange that nobody disturbs. A switch of the role is
 *   told exactly if it happens.
 * - No block is left at the end.
 *
 * With PLAIN it has a main of its own, for where there is no libFuzzer: `endpoint NUMBER` plays so
 * many inputs of a generator, always the same. run.sh builds and runs it. */
#include "agents.h"
#include "clients.h"
#include "stunp_sockaddr.h"

/* ---- A server, with a client that asks it */

static void open_client(stunp_endpoint_client *client) {
    static const uint8_t seed[32] = {3, 2, 1};
    stunp_endpoint_client_settings settings = STUNP_INIT(stunp_endpoint_client_settings);
    uint8_t person = choose() % (USERS + 1);
    settings.server = places[0], settings.seed = seed;
    if (person < USERS && serving.settings.credentials != STUNP_NO_CREDENTIALS) {
        settings.name = people[person].name;
        settings.password = maybe(8) ? "wrong" : people[person].password;
        settings.credentials = serving.settings.credentials;
        settings.algorithms = choose() % 3;
        settings.anonymous_username = (stunp_feature)(choose() % 3);
    }
    settings.has_fingerprint = maybe(2);
    require(stunp_endpoint_client_new(client, &settings) == 0, "no client");
}

/* The client asks, and what it sends is judged, changed or not. */
static void ask_server(stunp_endpoint_client *client, uint64_t now, uint64_t unix_seconds) {
    static const uint32_t methods[] = {STUNP_BINDING, STUNP_ALLOCATE};
    static uint8_t message[ROOM], answer[ROOM];
    static const uint8_t attribute[4] = {1, 2, 3, 4};
    static const uint32_t types[] = {STUNP_LIFETIME, STUNP_DATA, 0x7ffd, 0xfffd};
    stunp_event event = STUNP_INIT(stunp_event);
    uint8_t room[64];
    stunp_body body = stunp_body_on(room, sizeof room);
    if (maybe(2)) stunp_body_add(&body, types[choose() % 4], attribute, choose() % 5);
    if (maybe(2)) {
        int64_t asked = stunp_endpoint_client_request(client, methods[choose() % 2], &body, now,
                                                      NULL);
        require(asked == 0, "no request");
    }
    for (int polls = 0; polls < 40; polls++) {
        int64_t kind = stunp_endpoint_client_poll(client, now, message, ROOM, &event);
        if (kind == STUNP_WAIT) return;
        if (kind != STUNP_TRANSMIT) continue;
        size_t length = event.length;
        if (maybe(2)) length = change(message, length);
        size_t answered = serve(message, length, maybe(8) ? choose_place() : places, unix_seconds);
        memcpy(answer, out, answered);
        if (answered > 0 && !maybe(8))
            (void)stunp_endpoint_client_receive(client, answer, answered, places, now, NULL);
    }
}

static void play_server(void) {
    uint8_t bytes[LONGEST_DATAGRAM];
    stunp_endpoint_client client = {false, NULL};
    uint64_t now = 0, unix_seconds = maybe(8) ? choose_number() : 1000000;
    open_client(&client);
    while (input_length > 0) switch (choose() % 4) {
        case 0:
            serve(bytes, choose_bytes(bytes, sizeof bytes), choose_place(), unix_seconds);
            break;
        case 1: unix_seconds += choose() * 60u, now += choose_number() % 1000000000; break;
        default: ask_server(&client, now, unix_seconds);
        }
    stunp_endpoint_client_free(&client);
}

/* ---- Addresses */

/* An address is the same after the way to a socket's address and back, in a family that has it. */
static void play_addresses(void) {
    static const uint8_t mapped[12] = {0, 0, 0, 0, 0, 0, 0, 0, 0, 0, 0xff, 0xff};
    while (input_length > 0) {
        stunp_address given = {{0}, 0, 0};
        struct sockaddr_storage name;
        uint8_t bytes[sizeof name] = {0};
        given.length = maybe(4) ? choose() : maybe(2) ? 4 : 16;
        for (size_t i = 0; i < 16 && i < given.length; i++) given.octets[i] = choose();
        if (given.length == 16 && maybe(4)) memcpy(given.octets, mapped, 12);
        given.port = (uint16_t)(choose() << 8 | choose());
        int family = maybe(2) ? AF_INET : AF_INET6;
        memset(&name, PATTERN, sizeof name);
        socklen_t length = stunp_sockaddr_of(&given, family, &name);
        if (length > 0) {
            stunp_address back = stunp_address_of((struct sockaddr *)&name, length);
            stunp_address wanted = plain(&given);
            require(memcmp(&back, &wanted, sizeof back) == 0, "another address");
        }
        require((length > 0) == (given.length == 4 || (given.length == 16 && family == AF_INET6)),
                "an address without a name");
        size_t taken = choose_bytes(bytes, sizeof bytes);
        memcpy(&name, bytes, sizeof name);
        stunp_address any = stunp_address_of((struct sockaddr *)&name, (socklen_t)taken);
        require(any.length == 0 || is_place(&any), "an address of another length");
    }
}

/* ---- Inputs */

int LLVMFuzzerTestOneInput(const uint8_t *bytes, size_t length);

int LLVMFuzzerTestOneInput(const uint8_t *bytes, size_t length) {
    input = bytes, input_length = length;
    uint8_t part = choose() % 8;
    describe(input, input_length);
    if (part == 7) {
        play_addresses();
        return 0;
    }
    if (part < 2) play_agents();
    else {
        open_server();
        open_users();
        if (part < 5) play_server();
        else play_clients();
        close_server();
    }
    require(stunp_heap_blocks() == 0 && stunp_heap_bytes() == 0, "a block is lost");
    return 0;
}

#ifdef PLAIN

/* The generator of splitmix64. */
static uint64_t drawn = 1;
static uint64_t draw_number(void) {
    uint64_t number = drawn += 0x9e3779b97f4a7c15;
    number = (number ^ number >> 30) * 0xbf58476d1ce4e5b9;
    number = (number ^ number >> 27) * 0x94d049bb133111eb;
    return number ^ number >> 31;
}

int main(int count, char **words) {
    static uint8_t bytes[1024];
    unsigned long inputs = count > 1 ? strtoul(words[1], NULL, 10) : 1000;
    if (count > 2) drawn = strtoul(words[2], NULL, 10);
    for (unsigned long i = 0; i < inputs; i++) {
        size_t length = draw_number() % sizeof bytes;
        for (size_t at = 0; at < length; at++) bytes[at] = (uint8_t)draw_number();
        if (draw_number() % 2) /* most choices are small */
            for (size_t at = 0; at < length; at++)
                if (draw_number() % 4 > 0) bytes[at] %= 16;
        LLVMFuzzerTestOneInput(bytes, length);
    }
    printf("fuzz: %lu inputs\n", inputs);
    return 0;
}

#endif
