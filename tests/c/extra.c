/* FINGERPRINT, unknown attribute types, streams of messages, and channels of TURN. The calls are
 * tested with the samples of RFC 5769, with each bit of the samples flipped, with messages of many
 * types, and with streams that arrive in pieces of any size. The expected values are counted or
 * spelled here, and do not come from the library. */
#include "samples.h"

/* ---- FINGERPRINT */

static void checks_samples(void) {
    for (size_t i = 0; i < 3; i++) {
        CHECK(stunp_check_fingerprint(samples[i].bytes, samples[i].length),
              STUNP_RIGHT_FINGERPRINT);
        for (size_t front = 0; front < samples[i].length; front++)
            CHECK(stunp_check_fingerprint(samples[i].bytes, front), STUNP_TRUNCATED);
    }
    CHECK(stunp_check_fingerprint(BYTES(long_term)), STUNP_NO_FINGERPRINT);
}

/* Whichever bit is changed, the message is refused, or its FINGERPRINT is not right. */
static void notices_each_bit(void) {
    size_t wrong = 0;
    for (size_t i = 0; i < 3; i++)
        for (size_t bit = 0; bit < 8 * samples[i].length; bit++) {
            const size_t length = samples[i].length;
            memcpy(out, samples[i].bytes, length);
            out[bit / 8] ^= (uint8_t)(1 << bit % 8);
            int64_t parsed = stunp_parse(out, length),
                answer = stunp_check_fingerprint(out, length);
            if (parsed < 0) CHECK(answer, parsed);
            CHECK(answer == STUNP_RIGHT_FINGERPRINT, 0);
            /* The value of FINGERPRINT is changed, or the id that it covers. */
            if (bit / 8 >= length - 4 || (bit / 8 >= 8 && bit / 8 < 20))
                CHECK(answer, STUNP_WRONG_FINGERPRINT);
            wrong += answer == STUNP_WRONG_FINGERPRINT;
        }
    CHECK(wrong > 1500, 1);
}

/* A FINGERPRINT that does not end the message, or that has another length, is misplaced. What
 * follows the first one is not looked at. */
static void tells_misplaced(void) {
    static const struct { const char *bytes; size_t length; int64_t wanted; } attributes[] = {
        {"\x80\x28\x00\x04\0\0\0\0", 8, STUNP_WRONG_FINGERPRINT},
        {"\x80\x28\x00\x04\0\0\0\0\x80\x22\x00\x00", 12, STUNP_MISPLACED_FINGERPRINT},
        {"\x80\x28\x00\x04\0\0\0\0\x80\x28\x00\x04\0\0\0\0", 16, STUNP_MISPLACED_FINGERPRINT},
        {"\x80\x28\x00\x00", 4, STUNP_MISPLACED_FINGERPRINT},
        {"\x80\x28\x00\x03\0\0\0\0", 8, STUNP_MISPLACED_FINGERPRINT},
        {"\x80\x28\x00\x08\0\0\0\0\0\0\0\0", 12, STUNP_MISPLACED_FINGERPRINT},
        {"\x80\x22\x00\x04\0\0\0\0", 8, STUNP_NO_FINGERPRINT},
        {"", 0, STUNP_NO_FINGERPRINT},
    };
    for (size_t i = 0; i < COUNT(attributes); i++) {
        CHECK(stunp_begin(STUNP_REQUEST, STUNP_BINDING, id, 12, out, sizeof out), 20);
        memcpy(out + 20, attributes[i].bytes, attributes[i].length);
        out[3] = (uint8_t)attributes[i].length;
        CHECK(stunp_check_fingerprint(out, 20 + attributes[i].length), attributes[i].wanted);
    }
}

/* The samples without their FINGERPRINT get it again, and verify as before. */
static void adds_to_samples(void) {
    for (size_t i = 0; i < 3; i++) {
        const size_t length = samples[i].length;
        memcpy(out, samples[i].bytes, length);
        memset(out + length - 8, 0xa5, 16);
        out[3] = (uint8_t)(out[3] - 8);
        CHECK(stunp_check_fingerprint(out, length - 8), STUNP_NO_FINGERPRINT);
        memcpy(before, out, length + 8);
        CHECK(stunp_add_fingerprint(out, length - 1, length - 8), STUNP_BUFFER_TOO_SMALL);
        CHECK(memcmp(out, before, length + 8), 0);
        CHECK(stunp_add_fingerprint(out, length, length - 8), (int64_t)length);
        CHECK(memcmp(out, samples[i].bytes, length), 0);
        CHECK(out[length], 0xa5);
        CHECK(stunp_verify(out, length, BYTES(password)), STUNP_SHA1);
        CHECK(stunp_add_fingerprint(out, sizeof out, length), STUNP_ATTRIBUTE_EXISTS);
        CHECK(stunp_add(out, sizeof out, length, STUNP_SOFTWARE, BYTES("")), STUNP_CLOSED);
    }
}

/* Each refusal, which comes before the later ones, and the longest message. */
static void refuses_fingerprints(void) {
    CHECK(stunp_begin(STUNP_INDICATION, STUNP_BINDING, id, 12, out, 28), 20);
    CHECK(stunp_add_fingerprint(out, 19, 20), STUNP_BAD_ARGUMENT);
    CHECK(stunp_add_fingerprint(out, 20, SIZE_MAX), STUNP_BAD_ARGUMENT);
    CHECK(stunp_add_fingerprint(out, 20, 19), STUNP_TRUNCATED);
    CHECK(stunp_add_fingerprint(out, 28, 24), STUNP_TOO_LARGE);
    CHECK(stunp_add_fingerprint(out, 27, 20), STUNP_BUFFER_TOO_SMALL);
    CHECK(stunp_add_fingerprint(out, 28, 20), 28);
    CHECK(stunp_check_fingerprint(out, 28), STUNP_RIGHT_FINGERPRINT);
    CHECK(stunp_add_fingerprint(out, 28, 28), STUNP_ATTRIBUTE_EXISTS);
    for (size_t rest = 0; rest <= 8; rest += 4) {
        CHECK(stunp_begin(STUNP_REQUEST, STUNP_BINDING, id, 12, out, sizeof out), 20);
        CHECK(stunp_add(out, sizeof out, 20, STUNP_DATA, large, 65528 - rest),
              (int64_t)(65552 - rest));
        CHECK(stunp_add_fingerprint(out, sizeof out, 65552 - rest),
              rest < 8 ? STUNP_MESSAGE_TOO_LONG : 65552);
    }
    CHECK(stunp_check_fingerprint(out, 65552), STUNP_RIGHT_FINGERPRINT);
}

/* ---- Unknown types */

/* Writes a request with an attribute of each of these types, and returns its length. */
static size_t request_of(const uint16_t *types, size_t count, uint8_t *message) {
    CHECK(stunp_begin(STUNP_REQUEST, STUNP_BINDING, id, 12, message, 20), 20);
    for (size_t i = 0; i < count; i++) {
        const uint8_t header[4] = {(uint8_t)(types[i] >> 8), (uint8_t)types[i], 0, 0};
        memcpy(message + 20 + 4 * i, header, 4);
    }
    message[2] = (uint8_t)(4 * count >> 8);
    message[3] = (uint8_t)(4 * count);
    return 20 + 4 * count;
}

static void tells_types(void) {
    static const uint16_t types[] = {0x7fff, 0x8000, 0x0006, 0x0024, 0x7fff, 0xffff, 0x0001, 0x0024,
                                     0x0000};
    static const uint16_t known[] = {0x0006, 0x0001, 0x8022}, wanted[] = {0x7fff, 0x0024, 0x0000};
    uint16_t told[4] = {7, 7, 7, 7};
    size_t length = request_of(types, COUNT(types), large);
    CHECK(stunp_unknown_types(large, length, known, COUNT(known), told, 4), 3);
    CHECK(memcmp(told, wanted, sizeof wanted) == 0 && told[3] == 7, 1);
    CHECK(stunp_unknown_types(large, length, known, 0, told, 4), 5);
    CHECK(told[0] == 0x7fff && told[1] == 0x0006 && told[2] == 0x0024 && told[3] == 0x0001, 1);
    /* There are more types than there is room for. */
    memset(told, 0, sizeof told);
    CHECK(stunp_unknown_types(large, length, known, COUNT(known), told, 2), 3);
    CHECK(told[0] == 0x7fff && told[1] == 0x0024 && told[2] == 0, 1);
    CHECK(stunp_unknown_types(large, length, known, COUNT(known), told, 0), 3);
    CHECK(stunp_unknown_types(large, length, types, COUNT(types), told, 0), 0);
    /* What follows an integrity attribute is not visible. PRIORITY, USERNAME and MESSAGE-INTEGRITY
     * are. */
    CHECK(stunp_unknown_types(BYTES(request), known, 0, told, 4), 3);
    CHECK(told[0] == STUNP_PRIORITY && told[1] == STUNP_USERNAME
          && told[2] == STUNP_MESSAGE_INTEGRITY, 1);
}

static void refuses_types(void) {
    static uint16_t known[257], told[1];
    size_t length = request_of(known, 1, large);
    CHECK(stunp_unknown_types(large, length, known, 256, told, 1), 0);
    CHECK(stunp_unknown_types(large, length, known, 257, told, 1), STUNP_BAD_ARGUMENT);
    CHECK(stunp_unknown_types(large, length - 1, known, 257, told, 1), STUNP_BAD_ARGUMENT);
    CHECK(stunp_unknown_types(large, length - 1, known, 256, told, 1), STUNP_TRUNCATED);
    CHECK(stunp_refuse_unknown(large, length - 1, known, 257, out, 0), STUNP_BAD_ARGUMENT);
    CHECK(stunp_refuse_unknown(large, length - 1, known, 256, out, 0), STUNP_TRUNCATED);
    CHECK(stunp_refuse_unknown(large, length, known, 256, out, 0), 0);
    CHECK(stunp_refuse_unknown(large, length, known, 0, out, 0), STUNP_BUFFER_TOO_SMALL);
    for (int kind = STUNP_INDICATION; kind <= STUNP_ERROR; kind++) {
        CHECK(stunp_begin((stunp_message_class)kind, STUNP_BINDING, id, 12, out, 20), 20);
        CHECK(stunp_refuse_unknown(out, 20, known, 0, large, 0), STUNP_BAD_ARGUMENT);
    }
}

/* The answer is what the single calls write, and a buffer that is one byte too small is not
 * changed. */
static void writes_answer(const uint8_t *message, size_t length, const uint16_t *known,
                          size_t known_length, const uint8_t *types, size_t types_length) {
    static uint8_t wanted[40000];
    const uint32_t method = (uint32_t)stunp_method(message, length);
    int64_t end = stunp_begin(STUNP_ERROR, method, message + 8, 12, wanted, sizeof wanted);
    end = stunp_add_error(wanted, sizeof wanted, (size_t)end, 420,
                          (const char *)BYTES("Unknown Attribute"));
    end = stunp_add(wanted, sizeof wanted, (size_t)end, STUNP_UNKNOWN_ATTRIBUTES, types,
                    types_length);
    CHECK(end >= 56, 1);
    const size_t written = (size_t)end;
    memset(out, 0xa5, written + 4);
    memcpy(before, out, written + 4);
    CHECK(stunp_refuse_unknown(message, length, known, known_length, out, written - 1),
          STUNP_BUFFER_TOO_SMALL);
    CHECK(memcmp(out, before, written + 4), 0);
    CHECK(stunp_refuse_unknown(message, length, known, known_length, out, written), end);
    CHECK(memcmp(out, wanted, written), 0);
    CHECK(memcmp(out + written, before, 4), 0);
    CHECK(stunp_parse(out, written), 0);
    CHECK(stunp_error_code(out, written), 420);
}

static void answers_420(void) {
    static const uint16_t known[] = {STUNP_USERNAME, STUNP_MESSAGE_INTEGRITY},
        types[] = {0x7fff, 0x0006, 0x0024, 0x0006, 0x0000};
    static uint16_t all[16383];
    static uint8_t spelled[2 * 16383];
    writes_answer(BYTES(request), known, COUNT(known), BYTES("\x00\x24"));
    writes_answer(BYTES(request), known, 1, BYTES("\x00\x24\x00\x08"));
    writes_answer(large, request_of(types, COUNT(types), large), known, COUNT(known),
                  BYTES("\x7f\xff\x00\x24\x00\x00"));
    /* The longest message has 16383 attributes. */
    for (size_t i = 0; i < COUNT(all); i++) {
        all[i] = (uint16_t)(2 * i + 1);
        spelled[2 * i] = (uint8_t)(all[i] >> 8);
        spelled[2 * i + 1] = (uint8_t)all[i];
    }
    all[3] = 0x0008; /* this one hides all others */
    writes_answer(large, request_of(all, COUNT(all), large), known, 0,
                  BYTES("\x00\x01\x00\x03\x00\x05\x00\x08"));
    all[3] = 0x0007;
    writes_answer(large, request_of(all, COUNT(all), large), known, 0, spelled, sizeof spelled);
    CHECK(stunp_sign(out, sizeof out, 48 + 4 + 2 * 16383 + 2, STUNP_SHA1, BYTES(password)),
          48 + 4 + 2 * 16383 + 2 + 24);
}

/* ---- Streams */

/* A stream that arrives in pieces of `size` bytes gives the wanted messages, one after the
 * other. */
static void cuts(int64_t (*next)(const uint8_t *, size_t), const uint8_t *stream, size_t length,
                 size_t piece, const size_t *wanted, size_t count) {
    size_t came = 0, begin = 0, cut = 0;
    while (came < length) {
        came = length - came < piece ? length : came + piece;
        int64_t frame;
        while ((frame = next(stream + begin, came - begin)) <= (int64_t)(came - begin)) {
            CHECK(frame > 0 && cut < count, 1);
            CHECK(frame, (int64_t)wanted[cut++]);
            begin += (size_t)frame;
            if (begin == came) break;
        }
        if (begin < came) CHECK((size_t)frame <= wanted[cut], 1);
    }
    CHECK((int64_t)cut, (int64_t)count);
    CHECK((int64_t)begin, (int64_t)length);
}

static void cuts_streams(void) {
    static const char channel[] = "\x40\x01\x00\x05" "hello\0\0\0", empty[] = "\x4f\xff\x00\x00";
    static uint8_t stream[1024], turn[1024], packets[1024];
    size_t lengths[4], turn_lengths[6], packet_lengths[5] = {2}, length = 0, turn_length = 0,
        packets_length = 2;
    for (size_t i = 0; i < 4; i++) {
        lengths[i] = samples[i].length, turn_lengths[i + 1] = lengths[i],
            packet_lengths[i + 1] = 2 + lengths[i];
        memcpy(stream + length, samples[i].bytes, lengths[i]);
        length += lengths[i];
        packets[packets_length + 1] = (uint8_t)lengths[i];
        memcpy(packets + packets_length + 2, samples[i].bytes, lengths[i]);
        packets_length += packet_lengths[i + 1];
    }
    turn_lengths[0] = 12, turn_lengths[5] = 4;
    memcpy(turn, channel, 12);
    memcpy(turn + 12, stream, length);
    memcpy(turn + 12 + length, empty, 4);
    turn_length = length + 16;
    for (size_t piece = 1; piece <= turn_length; piece++) {
        cuts(stunp_next_frame, stream, length, piece, lengths, 4);
        cuts(stunp_next_turn_frame, stream, length, piece, lengths, 4);
        cuts(stunp_next_turn_frame, turn, turn_length, piece, turn_lengths, 6);
        cuts(stunp_next_packet_frame, packets, packets_length, piece, packet_lengths, 5);
    }
}

static void frames(void) {
    const uint8_t *bytes = (const uint8_t *)request;
    for (size_t there = 0; there <= 300; there++) {
        memcpy(out, samples[there % 3].bytes, 20);
        CHECK(stunp_next_frame(out, there), there < 20 ? 20 : (int64_t)samples[there % 3].length);
        CHECK(stunp_next_packet_frame(BYTES("\0\0")), 2);
    }
    memcpy(out, bytes, 20);
    out[2] = 0xff, out[3] = 0xfc;
    CHECK(stunp_next_frame(out, 20), STUNP_LONGEST_MESSAGE);
    out[3] = 0xfd;
    for (size_t there = 4; there <= 20; there++) {
        CHECK(stunp_next_frame(out, there), STUNP_NOT_STUN);
        CHECK(stunp_next_turn_frame(out, there), STUNP_NOT_STUN);
    }
    CHECK(stunp_next_frame(out, 3), 20);
    CHECK(stunp_next_turn_frame(out, 3), 20);
    CHECK(stunp_next_turn_frame(out, 0), 4);
    out[0] = 0x7f;
    CHECK(stunp_next_turn_frame(out, 3), 4);
    CHECK(stunp_next_turn_frame(out, 4), 4 + 65536);
    CHECK(stunp_next_frame(out, 70000), STUNP_NOT_STUN);
    CHECK(stunp_next_packet_frame(out, 1), 2);
    CHECK(stunp_next_packet_frame(BYTES("\xff\xff")), 2 + 65535);
}

/* A stream that is not STUN is refused at the byte that decides it (RFC 8489, section 5), here the
 * `decides`th, and not before. */
static void refuses_at(const char *stream, size_t length, size_t decides) {
    for (size_t there = 0; there <= length; there++) {
        CHECK(stunp_next_frame((const uint8_t *)stream, there),
              there < decides ? 20 : STUNP_NOT_STUN);
        if ((uint8_t)stream[0] >> 6 != 1 && there > 0)
            CHECK(stunp_next_turn_frame((const uint8_t *)stream, there),
                  there < decides ? 20 : STUNP_NOT_STUN);
    }
}

static void refuses_streams(void) {
    static const char http[] = "GET / HTTP/1.0\r\n\r\n", tls[] = "\x16\x03\x01\x02\x00\x01",
        dns[] = "\0\x1d\xab\xcd\x01\0", cookie[] = "\0\1\0\0\x21\x12\xa4\x43";
    refuses_at("\x40", 1, 1);
    refuses_at("\x80", 1, 1);
    refuses_at("\xff\xff\xff", 3, 1);
    refuses_at(http, sizeof http - 1, 1);
    refuses_at(dns, sizeof dns - 1, 4);
    refuses_at(tls, sizeof tls - 1, 4);
    refuses_at("\0\1\0\0\x20", 5, 5);
    refuses_at("\0\1\0\0\x21\x13", 6, 6);
    refuses_at("\0\1\0\0\x21\x12\xa5", 7, 7);
    refuses_at(cookie, sizeof cookie - 1, 8);
    CHECK(stunp_next_turn_frame((const uint8_t *)http, 18), 4 + 0x5420);
}

static void tells_packets(void) {
    for (unsigned first = 0; first < 256; first++) {
        memcpy(out, request, 20);
        out[0] = (uint8_t)first;
        CHECK(stunp_is_stun(out, 20), first <= 3);
    }
    memcpy(out, request, 20);
    for (size_t length = 0; length < 20; length++) CHECK(stunp_is_stun(out, length), 0);
    out[5] ^= 1;
    CHECK(stunp_is_stun(out, 20), 0);
    CHECK(stunp_is_stun(BYTES("\x80\0\0\0\0\0\0\0\0\0\0\0\0\0\0\0\0\0\0\0")), 0);
}

/* ---- Channels of TURN (RFC 8656, sections 12.4, 12.5, 18.1 and 18.8) */

/* The bytes are spelled as section 12.4 shows them, and a buffer that is one byte too small is not
 * changed. */
static void builds_channel_data(void) {
    static const struct { uint32_t channel; const char *data; bool is_padded; const char *bytes;
                          size_t length; } rows[] = {
        {0x4001, "hello", false, "\x40\x01\x00\x05" "hello", 9},
        {0x4001, "hello", true, "\x40\x01\x00\x05" "hello\0\0\0", 12},
        {0x4fff, "four", true, "\x4f\xff\x00\x04" "four", 8},
        {0x7fff, "", true, "\x7f\xff\x00\x00", 4},
        {0x4000, "", false, "\x40\x00\x00\x00", 4},
    };
    for (size_t i = 0; i < COUNT(rows); i++) {
        const size_t data_length = strlen(rows[i].data), length = rows[i].length;
        memset(out, 0xa5, 64);
        memcpy(before, out, 64);
        for (size_t room = 0; room < length; room++)
            CHECK(stunp_build_channel_data(rows[i].channel, rows[i].data, data_length,
                                           rows[i].is_padded, out, room), STUNP_BUFFER_TOO_SMALL);
        CHECK(memcmp(out, before, 64), 0);
        CHECK(stunp_build_channel_data(rows[i].channel, rows[i].data, data_length,
                                       rows[i].is_padded, out, 64), (int64_t)length);
        CHECK(memcmp(out, rows[i].bytes, length), 0);
        CHECK(memcmp(out + length, before, 64 - length), 0);
        if (rows[i].is_padded) CHECK(stunp_next_turn_frame(out, length), (int64_t)length);
    }
    CHECK(stunp_build_channel_data(0x3fff, large, 65536, true, out, 0), STUNP_BAD_ARGUMENT);
    CHECK(stunp_build_channel_data(0x8000, NULL, 0, true, out, 64), STUNP_BAD_ARGUMENT);
    CHECK(stunp_build_channel_data(0x14000, NULL, 0, true, out, 64), STUNP_BAD_ARGUMENT);
    CHECK(stunp_build_channel_data(0x4000, large, 65536, true, out, 0), STUNP_MESSAGE_TOO_LONG);
    CHECK(stunp_build_channel_data(0x4000, large, 65535, true, out, sizeof out), 65540);
}

/* What is written can be read again, even if bytes follow it. With one byte less it is refused. */
static void reads_channel_data(void) {
    uint16_t channel = 7;
    size_t length = 7;
    for (size_t data_length = 0; data_length < 300; data_length++) {
        memset(large, (int)data_length, data_length);
        int64_t whole = stunp_build_channel_data((uint32_t)(0x4000 + 50 * data_length), large,
                                                 data_length, false, out, sizeof out);
        for (size_t behind = 0; behind < 4; behind++) {
            CHECK(stunp_read_channel_data(out, (size_t)whole + behind, &channel, &length), 4);
            CHECK(channel == 0x4000 + 50 * data_length && length == data_length, 1);
            CHECK(memcmp(out + 4, large, length), 0);
        }
        channel = 7, length = 7;
        for (size_t there = 0; there < (size_t)whole; there++)
            CHECK(stunp_read_channel_data(out, there, &channel, &length), STUNP_TRUNCATED);
        CHECK(channel == 7 && length == 7, 1);
    }
    for (unsigned first = 0; first < 256; first++) {
        out[0] = (uint8_t)first, out[1] = out[2] = out[3] = 0;
        CHECK(stunp_read_channel_data(out, 4, &channel, &length),
              first >> 6 == 1 ? 4 : STUNP_NOT_STUN);
        CHECK(stunp_read_channel_data(out, 3, &channel, &length), STUNP_TRUNCATED);
    }
}

/* A request with one attribute of TURN, whose value is as the RFC shows it. */
static int64_t numbered(uint32_t type, const char *value, size_t value_length,
                        int64_t (*number)(const uint8_t *, size_t)) {
    CHECK(stunp_begin(STUNP_REQUEST, STUNP_CHANNEL_BIND, id, 12, out, sizeof out), 20);
    int64_t length = stunp_add(out, sizeof out, 20, type, value, value_length);
    CHECK(number(out, (size_t)length - 1), STUNP_TRUNCATED);
    return number(out, (size_t)length);
}

static void reads_numbers_of_turn(void) {
    const uint32_t channel = STUNP_CHANNEL_NUMBER, transport = STUNP_REQUESTED_TRANSPORT;
    CHECK(numbered(channel, "\x40\x00\x00\x00", 4, stunp_channel_number), 0x4000);
    CHECK(numbered(channel, "\x7f\xff\x12\x34", 4, stunp_channel_number), 0x7fff);
    CHECK(numbered(channel, "\x3f\xff\x00\x00", 4, stunp_channel_number),
          STUNP_MALFORMED_ATTRIBUTE);
    CHECK(numbered(channel, "\x80\x00\x00\x00", 4, stunp_channel_number),
          STUNP_MALFORMED_ATTRIBUTE);
    CHECK(numbered(channel, "\x40\x00", 2, stunp_channel_number), STUNP_MALFORMED_ATTRIBUTE);
    CHECK(numbered(transport, "\x11\x00\x00\x00", 4, stunp_channel_number),
          STUNP_MISSING_ATTRIBUTE);
    CHECK(numbered(transport, "\x11\x00\x00\x00", 4, stunp_requested_transport), 17);
    CHECK(numbered(transport, "\x06\x01\x02\x03", 4, stunp_requested_transport), 6);
    CHECK(numbered(transport, "\x11", 1, stunp_requested_transport), STUNP_MALFORMED_ATTRIBUTE);
    CHECK(numbered(channel, "\x40\x00\x00\x00", 4, stunp_requested_transport),
          STUNP_MISSING_ATTRIBUTE);
    stunp_writer writer = stunp_write(STUNP_REQUEST, STUNP_ALLOCATE, id, out, sizeof out);
    stunp_write_requested_transport(&writer, 17);
    stunp_write_channel_number(&writer, 0x4abc);
    CHECK(stunp_written(&writer), 0);
    CHECK(memcmp(out + 20, "\x00\x19\x00\x04\x11\0\0\0\x00\x0c\x00\x04\x4a\xbc\0\0", 16), 0);
}

int main(void) {
    checks_samples();
    notices_each_bit();
    tells_misplaced();
    adds_to_samples();
    refuses_fingerprints();
    tells_types();
    refuses_types();
    answers_420();
    cuts_streams();
    frames();
    refuses_streams();
    tells_packets();
    builds_channel_data();
    reads_channel_data();
    reads_numbers_of_turn();
    puts("extra: passed");
    return 0;
}
