/* Includes the headers in one file with those of other STUN libraries: libnice and coturn (LIBNICE,
 * COTURN), or libre (LIBRE), whose headers cannot be combined with libnice's. Each library reads a
 * request that the other one wrote. check.sh builds it if they are installed. */
#ifdef LIBNICE
#include <stun/stunagent.h>
#include <stun/usages/bind.h>
#include <stun/usages/ice.h>
#include <stun/usages/timer.h>
#include <stun/usages/turn.h>
#endif
#ifdef COTURN
#include <turn/ns_turn_msg.h>
#endif
#ifdef LIBRE
#include <stdint.h> /* re.h needs it */

#include <re.h>
#endif

#include "fixture.h"

static const uint8_t some_id[STUNP_ID_LENGTH] = {1, 2, 3};

/* Our library reads what another library wrote as a request. */
static void reads(const char *whose, const uint8_t *bytes, size_t length) {
    stunp_header header;
    want(whose, stunp_parse(bytes, length), 0);
    want(whose, stunp_read_header(bytes, length, &header), 0);
    want(whose, header.message_class, STUNP_REQUEST);
    want(whose, header.method, STUNP_BINDING);
}

static stunp_writer write_request(uint8_t *bytes, size_t room) {
    stunp_writer request = stunp_write(STUNP_REQUEST, STUNP_BINDING, some_id, bytes, room);
    stunp_write_text(&request, STUNP_SOFTWARE, "beside");
    stunp_write_fingerprint(&request);
    want("written", stunp_written(&request), 0);
    return request;
}

#ifdef LIBNICE
static void libnice(void) {
    static const uint16_t known[] = {0};
    uint8_t bytes[200];
    StunAgent agent;
    StunMessage message;
    stun_agent_init(&agent, known, STUN_COMPATIBILITY_RFC5389, STUN_AGENT_USAGE_USE_FINGERPRINT);
    want("libnice", stun_agent_init_request(&agent, &message, bytes, sizeof bytes, STUN_BINDING),
         1);
    reads("of libnice's", bytes, stun_agent_finish_message(&agent, &message, NULL, 0));
    stunp_writer request = write_request(bytes, sizeof bytes);
    StunValidationStatus status =
        stun_agent_validate(&agent, &message, bytes, request.length, NULL, NULL);
    want("by libnice", status, STUN_VALIDATION_SUCCESS);
}
#endif

#ifdef COTURN
static void coturn(void) {
    uint8_t bytes[STUN_BUFFER_SIZE];
    size_t length = 0;
    stun_init_request_str(STUN_METHOD_BINDING, bytes, &length);
    reads("of coturn's", bytes, length);
    stunp_writer request = write_request(bytes, sizeof bytes);
    want("by coturn", stun_is_request_str(bytes, request.length), 1);
}
#endif

#ifdef LIBRE
static void libre(void) {
    uint8_t bytes[200];
    struct mbuf *written = mbuf_alloc(200), *read = mbuf_alloc(200);
    struct stun_msg *message = NULL;
    struct stun_unknown_attr unknown;
    int refused = stun_msg_encode(written, STUN_METHOD_BINDING, STUN_CLASS_REQUEST, some_id, NULL,
                                  NULL, 0, true, 0, 0);
    want("libre", refused, 0);
    reads("of libre's", written->buf, written->end);
    stunp_writer request = write_request(bytes, sizeof bytes);
    want("libre", mbuf_write_mem(read, bytes, request.length), 0);
    mbuf_set_pos(read, 0);
    want("by libre", stun_msg_decode(&message, read, &unknown), 0);
    want("by libre", stun_msg_method(message), STUN_METHOD_BINDING);
    mem_deref(message);
    mem_deref(written);
    mem_deref(read);
}
#endif

int main(void) {
#ifdef LIBNICE
    libnice();
#endif
#ifdef COTURN
    coturn();
#endif
#ifdef LIBRE
    libre();
#endif
    puts("beside: passed");
    return 0;
}
