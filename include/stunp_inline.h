/* stunp_inline.h: the bodies of the calls of stunp.h that are written in C and use the other calls
 * of the library. stunp.h includes this file if the bodies are compiled into the program
 * (STUNP_INLINE_CALLS of stunp.h). Do not include it yourself. */
#ifndef STUNP_INLINE_H
#define STUNP_INLINE_H

STUNP_INLINED int64_t stunp_find_text(const uint8_t *message, size_t length, uint32_t type,
                                      size_t *text_length) {
    size_t value_length;
    int64_t place = stunp_find(message, length, type, &value_length);
    return place < 0 ? place : stunp_read_text(message, length, (size_t)place, text_length);
}

STUNP_INLINED const uint8_t *stunp_find_value(const uint8_t *message, size_t length, uint32_t type,
                                              size_t *value_length) {
    int64_t place = stunp_find(message, length, type, value_length);
    return place < 0 ? NULL : message + place;
}

STUNP_INLINED int64_t stunp_find_number(const uint8_t *message, size_t length, uint32_t type,
                                        uint64_t *number) {
    size_t value_length;
    int64_t place = stunp_find(message, length, type, &value_length);
    return place < 0 ? place : stunp_read_number(message, length, (size_t)place, number);
}

STUNP_INLINED int64_t stunp_find_address(const uint8_t *STUNP_RESTRICT message, size_t length,
                                         uint32_t type, uint8_t *STUNP_RESTRICT out,
                                         size_t out_length, uint16_t *port) {
    size_t value_length;
    int64_t place = stunp_find(message, length, type, &value_length);
    if (place < 0) return place;
    return stunp_read_address(message, length, (size_t)place, out, out_length, port);
}

STUNP_INLINED int64_t stunp_find_xor_address(const uint8_t *STUNP_RESTRICT message, size_t length,
                                             uint32_t type, uint8_t *STUNP_RESTRICT out,
                                             size_t out_length, uint16_t *port) {
    size_t value_length;
    int64_t place = stunp_find(message, length, type, &value_length);
    if (place < 0) return place;
    return stunp_read_xor_address(message, length, (size_t)place, out, out_length, port);
}

STUNP_INLINED int64_t stunp_find_types(const uint8_t *message, size_t length, uint32_t type,
                                       uint16_t *types, size_t types_length) {
    size_t value_length;
    int64_t place = stunp_find(message, length, type, &value_length);
    if (place < 0) return place;
    return stunp_read_types(message, length, (size_t)place, types, types_length);
}

STUNP_INLINED bool stunp_is_signed(const uint8_t *message, size_t length, const uint8_t *key,
                                   size_t key_length) {
    return stunp_verify(message, length, key, key_length) > 0;
}

STUNP_INLINED bool stunp_has_right_fingerprint(const uint8_t *message, size_t length) {
    return stunp_check_fingerprint(message, length) == STUNP_RIGHT_FINGERPRINT;
}

STUNP_INLINED void stunp_writer_took(stunp_writer *writer, int64_t answer) {
    if (answer < 0) writer->refusal = answer;
    else writer->length = (size_t)answer;
}

STUNP_INLINED stunp_writer stunp_write_on(int64_t answer, uint8_t *bytes, size_t room) {
    stunp_writer writer = {bytes, room, 0, 0, {0, 0}};
    stunp_writer_took(&writer, answer);
    return writer;
}

STUNP_INLINED stunp_writer stunp_write(stunp_message_class message_class, uint32_t method,
                                       const uint8_t id[12], uint8_t *bytes, size_t room) {
    int64_t begun = stunp_begin(message_class, method, id, STUNP_ID_LENGTH, bytes, room);
    return stunp_write_on(begun, bytes, room);
}

STUNP_INLINED void stunp_write_bytes(stunp_writer *writer, uint32_t type, const void *value,
                                     size_t value_length) {
    if (writer->refusal < 0) return;
    stunp_writer_took(writer, stunp_add(writer->bytes, writer->room, writer->length, type, value,
                                        value_length));
}

STUNP_INLINED void stunp_write_text(stunp_writer *writer, uint32_t type, const char *text) {
    stunp_write_bytes(writer, type, text, strlen(text));
}

STUNP_INLINED void stunp_write_number(stunp_writer *writer, uint32_t type, uint64_t number,
                                      size_t size) {
    if (writer->refusal < 0) return;
    stunp_writer_took(writer, stunp_add_number(writer->bytes, writer->room, writer->length, type,
                                               number, size));
}

STUNP_INLINED void stunp_write_address(stunp_writer *writer, uint32_t type, const uint8_t *address,
                                       size_t address_length, uint32_t port) {
    if (writer->refusal < 0) return;
    stunp_writer_took(writer, stunp_add_address(writer->bytes, writer->room, writer->length, type,
                                                address, address_length, port));
}

STUNP_INLINED void stunp_write_xor_address(stunp_writer *writer, uint32_t type,
                                           const uint8_t *address, size_t address_length,
                                           uint32_t port) {
    if (writer->refusal < 0) return;
    stunp_writer_took(writer, stunp_add_xor_address(writer->bytes, writer->room, writer->length,
                                                    type, address, address_length, port));
}

STUNP_INLINED void stunp_write_error(stunp_writer *writer, uint32_t code, const char *reason) {
    if (writer->refusal < 0) return;
    stunp_writer_took(writer, stunp_add_error(writer->bytes, writer->room, writer->length, code,
                                              reason, strlen(reason)));
}

STUNP_INLINED void stunp_write_integrity(stunp_writer *writer, stunp_algorithm algorithm,
                                         const uint8_t *key, size_t key_length) {
    if (writer->refusal < 0) return;
    stunp_writer_took(writer, stunp_sign(writer->bytes, writer->room, writer->length, algorithm,
                                         key, key_length));
}

STUNP_INLINED void stunp_write_fingerprint(stunp_writer *writer) {
    if (writer->refusal < 0) return;
    stunp_writer_took(writer, stunp_add_fingerprint(writer->bytes, writer->room, writer->length));
}

STUNP_INLINED int64_t stunp_written(const stunp_writer *writer) { return writer->refusal; }

STUNP_INLINED const uint8_t *stunp_short_term_key(const char *password) {
    return (const uint8_t *)password;
}

STUNP_INLINED int64_t stunp_build_keepalive(const uint8_t id[12], uint8_t *out, size_t out_length) {
    if (out_length < STUNP_HEADER_LENGTH + STUNP_FINGERPRINT_LENGTH) return STUNP_BUFFER_TOO_SMALL;
    stunp_writer writer = stunp_write(STUNP_INDICATION, STUNP_BINDING, id, out, out_length);
    stunp_write_fingerprint(&writer);
    return writer.refusal < 0 ? writer.refusal : (int64_t)writer.length;
}

STUNP_INLINED void stunp_write_channel_number(stunp_writer *writer, uint16_t channel) {
    stunp_write_number(writer, STUNP_CHANNEL_NUMBER, (uint64_t)channel << 16, 4);
}

STUNP_INLINED void stunp_write_requested_transport(stunp_writer *writer, uint8_t protocol) {
    stunp_write_number(writer, STUNP_REQUESTED_TRANSPORT, (uint64_t)protocol << 24, 4);
}

STUNP_INLINED const char *stunp_strerror(int64_t answer) {
    static const char *const texts[] = {
        "no error",
        "bytes are missing at the end",
        "the bytes are not a STUN message",
        "bytes come after the message",
        "the message has no integrity attribute",
        "the integrity attribute is malformed",
        "the digest is not that of the message",
        "an argument is out of range",
        "a text is not UTF-8",
        "a text is too long for its attribute",
        "the buffer is too small",
        "the attribute is not written by this call",
        "the message is closed by an integrity attribute or FINGERPRINT",
        "the message has an attribute of this type",
        "the message would be too long",
        "the attribute is missing",
        "the attribute is malformed",
        "an allocation failed",
        "the handle is empty",
        "the handle is full already",
        "a request of this id is outstanding",
        "this call does not take the message or its address",
        "the message is not sufficiently authenticated",
        "the request is not well-formed",
        "the nonce is not the current one",
        "a required feature is not supported",
        "a request would be sent again without a wait",
        "as many addresses are kept as may be",
        "there is no key to sign with",
        "the handle has a value of another kind, realm or algorithm",
    };
    if (answer >= 0) return texts[0];
    return answer >= STUNP_WRONG_HANDLE ? texts[-answer] : "unknown refusal";
}

#endif
