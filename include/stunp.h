/* stunp.h: STUN messages (RFC 8489), for C, C++ and Rust
 *
 * The calls of this header read, check, write and sign single messages, derive the keys of users,
 * and find the messages in a stream. They store nothing between two calls. stunp_endpoint.h has
 * whole clients, servers and ICE agents, which store what must be stored: retransmissions and
 * challenges.
 *
 * To begin, see the examples below: `answer` is a server that needs no credentials, and
 * `write_check` and `is_check` are for an ICE agent. A section number without an RFC means RFC
 * 8489.
 *
 *
 * Linking
 *
 * Link with -lstunp, or with the flags of the pkg-config module stunp. There are two libraries of
 * this name, and stunp_is_proved returns whether a program uses the proved one. `make install`
 * installs the proved library if it was built, and otherwise the exported one:
 *
 * - The proved library is the archive crates/stun_c/out/libstun_c.a, which `rt lib` in
 *   crates/stun_c proves and builds. It holds ELF objects for Linux on x86-64-v2 processors, as
 *   does the proved archive for stunp_endpoint.h.
 * - The exported library is libstunp.so and libstunp.a in target/c. `make lib` builds both from the
 *   same sources with cargo and a C compiler, and can build them for other processors too. It has
 *   the calls of both headers, and is tested, not proved. It also contains the calls that are
 *   written in C, such as stunp_strerror, so no code of these headers is compiled into your program
 *   (STUNP_INLINE_CALLS). It needs malloc, abort and the functions of <string.h>. If you link the
 *   archive with -Wl,--gc-sections, your program contains only what it calls.
 *
 * The archives are position independent, so you may link them into a shared library. The shared
 * library then exports the calls of the archives too, unless you link it with
 * -Wl,--exclude-libs,ALL.
 *
 *
 * Releases
 *
 * Before 1.0, releases are compatible if their first two numbers are equal; from 1.0 on, if their
 * first numbers are equal. The soname of the shared library contains these numbers
 * (libstunp.so.0.3), so the loader never combines incompatible releases. Symbols have no versions,
 * so a package must depend on the release that it was built with, or on a later one. To have the
 * linker check the release of an archive, see stunp_release_0_3.
 *
 * In compatible releases, the sizes of the structs that you own follow these rules:
 *
 * - The structs of stunp_endpoint.h that STUNP_INIT initializes may grow at their end: settings,
 *   found users and the outcomes of datagrams and events. The library accepts the smaller size of
 *   an earlier compatible release: settings that the program does not know count as 0, and results
 *   that it does not know are not written. The library refuses a size that is larger than its own,
 *   because it would ignore the fields that it does not know. So a program that was compiled with a
 *   larger struct does not run with an earlier library.
 * - All other structs keep their size. If a later release needs more fields, it adds a new struct,
 *   and calls that take the new struct.
 * - stunp_writer has a reserved field for later releases.
 * - stunp_header, stunp_cursor and stunp_address are final, and have everything that the calls
 *   need: the header of a message has no other fields, and only stunp_walk reads a cursor.
 *   stunp_address has no field for the scope of an IPv6 address, and will never have one. The scope
 *   says through which interface an address is reached, and not whose address it is, so it stays in
 *   the socket address to which you send.
 * - stunp_reply, stunp_ice_check and the other ICE structs of stunp_endpoint.h that do not begin
 *   with their size are final too. Another kind of reply would get a struct of its own.
 * - The handles are final. The values that they refer to belong to the library.
 *
 *
 * The calls, in the order of this file
 *
 *   messages: stunp_parse, stunp_read_header, stunp_class, stunp_method, stunp_id
 *   finding attributes: stunp_find, stunp_walk, stunp_next
 *   reading attributes by place: stunp_read_text, stunp_read_number, stunp_read_address,
 *    stunp_read_xor_address, stunp_read_types
 *   reading attributes by type: stunp_find_text, stunp_find_value, stunp_find_number,
 *    stunp_find_address, stunp_find_xor_address, stunp_find_types, stunp_error_code,
 *    stunp_xor_mapped_address
 *   checks: stunp_verify, stunp_is_signed, stunp_check_fingerprint, stunp_has_right_fingerprint,
 *    stunp_unknown_types
 *   writing: stunp_begin, stunp_add, stunp_add_number, stunp_add_address, stunp_add_xor_address,
 *    stunp_add_xor_mapped_address, stunp_add_error, stunp_sign, stunp_add_fingerprint
 *   writing with a writer: stunp_writer_took, stunp_write_on, stunp_write, stunp_write_bytes,
 *    stunp_write_text, stunp_write_number, stunp_write_address, stunp_write_xor_address,
 *    stunp_write_error, stunp_write_integrity, stunp_write_fingerprint, stunp_written
 *   whole messages: stunp_build_signed, stunp_build_keepalive, stunp_refuse_unknown
 *   keys: stunp_short_term_key, stunp_long_term_key, stunp_userhash
 *   packets and streams: stunp_is_stun, stunp_next_frame, stunp_next_packet_frame,
 *    stunp_next_turn_frame
 *   TURN: stunp_build_channel_data, stunp_read_channel_data, stunp_channel_number,
 *    stunp_requested_transport, stunp_write_channel_number, stunp_write_requested_transport
 *   memory of the exported library: stunp_set_memory
 *   errors and versions: stunp_error_text, stunp_strerror, stunp_version, stunp_is_proved,
 *    stunp_release_0_3
 *
 *
 * Memory
 *
 * No call allocates, and none stores a pointer that you pass; only a stunp_writer points to your
 * buffer. A call reads its inputs from the first byte up to their length, writes its outputs, and
 * touches no other memory.
 *
 * A pointer may be null only if its length is 0. Lengths are in bytes unless the description of a
 * call says otherwise. An output must not overlap any other argument.
 * Numbers are in the processor's byte order. Texts are UTF-8 and are used as they are. RFC 8489
 * asks you to prepare them with OpaqueString first (RFC 8265); the library leaves this to you.
 *
 *
 * Threads
 *
 * Each call may run in many threads at the same time, if each thread has an output of its own. You
 * may pass a buffer, a cursor or a writer from one thread to another if you synchronize the two,
 * for example with a mutex or a join. The libraries contain no thread-local data. The proved
 * libraries contain no writable data. The exported libraries contain a few writable machine words,
 * which are read and written atomically. These words store whether the processor has SHA
 * instructions, and with which functions the library allocates.
 *
 * A comparison of signatures or of nonces reads all their bytes, even after the first difference.
 * But the library does not promise that this comparison takes constant time, and no other code of
 * the library is written to take constant time.
 *
 *
 * Errors
 *
 * A call that fails returns a negative stunp_refusal and leaves its outputs unchanged. Its
 * description lists the errors in the order of testing: if several apply, the call returns the
 * first one. stunp_strerror returns a text for each error. A call that succeeds leaves the rest of
 * the buffer, after the bytes that it writes, unchanged.
 *
 * If you pass a length above PTRDIFF_MAX, such as the -1 of a recv that failed, a call of the
 * exported library fails with STUNP_BAD_ARGUMENT before it tests for any other error, and reads and
 * writes nothing there. In this case, stunp_is_stun returns 0. The proved archives do so for the
 * length of a message or a packet that a call reads, and leave all other lengths to you.
 *
 * Test a result with `< 0` or `> 0`, or compare it with the value that you expect. An error is not
 * 0, so `if (stunp_verify(..))` would accept every forgery. If you need only yes or no, call
 * stunp_is_signed or stunp_has_right_fingerprint.
 *
 *
 * A server
 *
 * `answer` writes the response to a request: the address that the request came from, or error 420
 * if the request has an unknown attribute that must be understood. `answer` returns the length of
 * the response in `out`, or 0 if there is nothing to send. `from` has 4 bytes (IPv4) or 16 (IPv6),
 * and the port is in the processor's byte order.
 *
 *     #include "stunp.h"
 *     #include <stdio.h>
 *
 *     size_t answer(const uint8_t *request, size_t length, const uint8_t *from, size_t from_length,
 *                   uint16_t port, uint8_t *out, size_t room) {
 *         static const uint16_t known[] = {
 *             STUNP_USERNAME, STUNP_USERHASH, STUNP_REALM, STUNP_NONCE, STUNP_PASSWORD_ALGORITHM,
 *             STUNP_MESSAGE_INTEGRITY, STUNP_MESSAGE_INTEGRITY_SHA256};
 *         stunp_header header;
 *         if (stunp_read_header(request, length, &header) < 0) return 0;
 *         if (header.message_class != STUNP_REQUEST || header.method != STUNP_BINDING) return 0;
 *         int64_t fingerprint = stunp_check_fingerprint(request, length);
 *         if (fingerprint < 0 || fingerprint > STUNP_RIGHT_FINGERPRINT) return 0; // damaged
 *         int64_t refused = stunp_refuse_unknown(request, length, known,
 *                                                sizeof known / sizeof *known, out, room);
 *         stunp_writer writer = stunp_write_on(refused, out, room);
 *         if (refused == 0) { // every attribute that must be understood is known
 *             writer = stunp_write(STUNP_SUCCESS, STUNP_BINDING, header.id, out, room);
 *             stunp_write_xor_address(&writer, STUNP_XOR_MAPPED_ADDRESS, from, from_length, port);
 *         }
 *         if (fingerprint == STUNP_RIGHT_FINGERPRINT) stunp_write_fingerprint(&writer);
 *         int64_t written = stunp_written(&writer);
 *         if (written < 0) fprintf(stderr, "%s\n", stunp_strerror(written));
 *         return written < 0 ? 0 : writer.length;
 *     }
 *
 *
 * An ICE agent
 *
 * `write_check` writes a connectivity check (RFC 8445, section 7.2.2). `name` is the value of
 * USERNAME: the peer's username fragment, a colon and your own fragment. `password` is the peer's
 * password. 0x6e0001ff is the priority of a peer-reflexive candidate (RFC 8445, section 5.1.2).
 *
 * `is_check` verifies that a request that arrived was signed with `password`, here your own
 * password, and reads the priority in the request (RFC 8445, section 7.3). It does not look at
 * USERNAME, so compare USERNAME with the value that you expect. stunp_ice_checker
 * (stunp_endpoint.h) also handles responses and roles.
 *
 *     size_t write_check(const char *name, const char *password, uint64_t controlling,
 *                        const uint8_t id[12], uint8_t *out, size_t room) {
 *         stunp_writer check = stunp_write(STUNP_REQUEST, STUNP_BINDING, id, out, room);
 *         stunp_write_text(&check, STUNP_USERNAME, name);
 *         stunp_write_number(&check, STUNP_PRIORITY, 0x6e0001ff, 4);
 *         stunp_write_number(&check, STUNP_ICE_CONTROLLING, controlling, 8);
 *         stunp_write_integrity(&check, STUNP_SHA1, stunp_short_term_key(password),
 *                               strlen(password));
 *         stunp_write_fingerprint(&check);
 *         return stunp_written(&check) < 0 ? 0 : check.length;
 *     }
 *     int is_check(const uint8_t *bytes, size_t length, const char *password, uint64_t *priority) {
 *         return stunp_has_right_fingerprint(bytes, length)
 *             && stunp_is_signed(bytes, length, stunp_short_term_key(password), strlen(password))
 *             && stunp_find_number(bytes, length, STUNP_PRIORITY, priority) == 4;
 *     }
 */
#ifndef STUNP_H
#define STUNP_H

#include <stdbool.h>
#include <stddef.h>
#include <stdint.h>
#include <string.h>

#ifdef __cplusplus
extern "C" {
#endif

/* Attributes of declarations, for compilers that support them, such as GCC and clang. For other
 * compilers these macros are empty. The arguments of the macros are positions of parameters: 1 is
 * the first parameter.
 *
 *   STUNP_USE_RESULT     a caller must not ignore the result
 *   STUNP_NOT_NULL(..)   these pointers must not be null
 *   STUNP_READS(p, n)    the call reads at most n elements at p, which may be null if n is 0
 *   STUNP_WRITES(p, n)   the call writes at most n elements at p
 *   STUNP_CHANGES(p, n)  the call reads and writes at most n elements at p */
#if defined __has_attribute
#if __has_attribute(warn_unused_result)
#define STUNP_USE_RESULT __attribute__((warn_unused_result))
#endif
#if __has_attribute(nonnull)
#define STUNP_NOT_NULL(...) __attribute__((nonnull(__VA_ARGS__)))
#endif
#if __has_attribute(access)
#define STUNP_READS(p, n) __attribute__((access(read_only, p, n)))
#define STUNP_WRITES(p, n) __attribute__((access(write_only, p, n)))
#define STUNP_CHANGES(p, n) __attribute__((access(read_write, p, n)))
#endif
#endif
#ifndef STUNP_USE_RESULT
#define STUNP_USE_RESULT
#endif
#ifndef STUNP_NOT_NULL
#define STUNP_NOT_NULL(...)
#endif
#ifndef STUNP_READS
#define STUNP_READS(p, n)
#define STUNP_WRITES(p, n)
#define STUNP_CHANGES(p, n)
#endif

/* Marks the pointers to a datagram and to the output buffer of a call. The two must not overlap,
 * because the call may write to the buffer while it reads the datagram. If you pass the same buffer
 * for both, GCC warns (-Wrestrict, which is in -Wall). */
#if defined __GNUC__ || defined _MSC_VER
#define STUNP_RESTRICT __restrict
#else
#define STUNP_RESTRICT
#endif

/* 1 if the calls that are written in C are compiled into your program, and 0 if they are in the
 * library. These are the calls that are declared with STUNP_INLINED, such as stunp_is_signed. Use 0
 * with the exported library, shared or static: a later compatible libstunp.so then also corrects
 * these calls for programs that were built with an earlier one. The proved archives do not contain
 * these calls, so define STUNP_INLINE_CALLS as 1 before you include a header of this library; `make
 * install` of the proved archives does this in the installed header. */
#ifndef STUNP_INLINE_CALLS
#define STUNP_INLINE_CALLS 0
#endif
#ifndef STUNP_INLINED
#if STUNP_INLINE_CALLS
#define STUNP_INLINED static inline
#else
#define STUNP_INLINED
#endif
#endif

/* If a field or an argument has one of a few values, its type is an enumeration, so that compilers
 * can warn if you pass a value of another enumeration, or leave a value out of a `switch`. The
 * results of calls are numbers, because a result may be an error. Methods, types of attributes and
 * sets of algorithms are numbers too. */

/* The version of this header: 10000 times the first number of the release, plus 100 times the
 * second, plus the third. stunp_version returns the version of the archive. */
#define STUNP_VERSION 300

/* The classes of messages (section 5). */
typedef enum stunp_message_class {
    STUNP_REQUEST = 0,    /* is answered with a response */
    STUNP_INDICATION = 1, /* is not answered */
    STUNP_SUCCESS = 2,    /* a response */
    STUNP_ERROR = 3       /* a response */
} stunp_message_class;

/* Methods: the method of STUN (section 18.2), and the methods of TURN (RFC 8656, section 17). A
 * method may be any number below 4096, so calls take it as a uint32_t. */
typedef enum stunp_message_method {
    STUNP_BINDING = 1,
    STUNP_ALLOCATE = 3,
    STUNP_REFRESH = 4,
    STUNP_SEND = 6,        /* an indication */
    STUNP_DATA_METHOD = 7, /* an indication */
    STUNP_CREATE_PERMISSION = 8,
    STUNP_CHANNEL_BIND = 9
} stunp_message_method;

/* Types of attributes. A type may be any number below 65536, so calls take it as a uint32_t. The
 * receiver of a message must understand every attribute whose type is below 32768
 * (stunp_unknown_types). */
typedef enum stunp_attribute_type {
    /* STUN (sections 14 and 18.3) */
    STUNP_MAPPED_ADDRESS = 0x0001,
    STUNP_USERNAME = 0x0006,
    STUNP_MESSAGE_INTEGRITY = 0x0008,
    STUNP_ERROR_CODE = 0x0009,
    STUNP_UNKNOWN_ATTRIBUTES = 0x000a,
    STUNP_REALM = 0x0014,
    STUNP_NONCE = 0x0015,
    STUNP_MESSAGE_INTEGRITY_SHA256 = 0x001c,
    STUNP_PASSWORD_ALGORITHM = 0x001d,
    STUNP_USERHASH = 0x001e,
    STUNP_XOR_MAPPED_ADDRESS = 0x0020,
    STUNP_PASSWORD_ALGORITHMS = 0x8002,
    STUNP_ALTERNATE_DOMAIN = 0x8003,
    STUNP_SOFTWARE = 0x8022,
    STUNP_ALTERNATE_SERVER = 0x8023,
    STUNP_FINGERPRINT = 0x8028,
    /* TURN (RFC 8656, section 18) */
    STUNP_CHANNEL_NUMBER = 0x000c,
    STUNP_LIFETIME = 0x000d,
    STUNP_XOR_PEER_ADDRESS = 0x0012,
    STUNP_DATA = 0x0013,
    STUNP_XOR_RELAYED_ADDRESS = 0x0016,
    STUNP_REQUESTED_ADDRESS_FAMILY = 0x0017,
    STUNP_EVEN_PORT = 0x0018,
    STUNP_REQUESTED_TRANSPORT = 0x0019,
    STUNP_DONT_FRAGMENT = 0x001a,
    STUNP_RESERVATION_TOKEN = 0x0022,
    STUNP_ADDITIONAL_ADDRESS_FAMILY = 0x8000,
    STUNP_ADDRESS_ERROR_CODE = 0x8001,
    STUNP_ICMP = 0x8004,
    /* ICE (RFC 8445, section 16.1) */
    STUNP_PRIORITY = 0x0024,
    STUNP_USE_CANDIDATE = 0x0025,
    STUNP_ICE_CONTROLLED = 0x8029,
    STUNP_ICE_CONTROLLING = 0x802a,
    /* TURN: TCP allocations (RFC 6062, section 6.2.1) and mobility (RFC 8016, section 3.3) */
    STUNP_CONNECTION_ID = 0x002a,
    STUNP_MOBILITY_TICKET = 0x8030,
    /* third-party authorization (RFC 7635, section 6) */
    STUNP_ACCESS_TOKEN = 0x001b,
    STUNP_THIRD_PARTY_AUTHORIZATION = 0x802e,
    /* ECN (RFC 6679, section 7.2.2) */
    STUNP_ECN_CHECK = 0x802d,
    /* round-trip times and packet loss (RFC 7982, section 3.2) */
    STUNP_TRANSACTION_TRANSMIT_COUNTER = 0x8025,
    /* NAT behavior discovery (RFC 5780, section 7) */
    STUNP_CHANGE_REQUEST = 0x0003,
    STUNP_PADDING = 0x0026,
    STUNP_RESPONSE_PORT = 0x0027,
    STUNP_RESPONSE_ORIGIN = 0x802b,
    STUNP_OTHER_ADDRESS = 0x802c
} stunp_attribute_type;

/* The algorithms of message integrity. A set of algorithms is a uint32_t: STUNP_SHA1 | STUNP_SHA256
 * is the set of both. */
typedef enum stunp_algorithm {
    STUNP_SHA1 = 1,  /* HMAC-SHA1, in MESSAGE-INTEGRITY (section 14.5) */
    STUNP_SHA256 = 2 /* HMAC-SHA256, in MESSAGE-INTEGRITY-SHA256 (section 14.6) */
} stunp_algorithm;

/* How a client or a server of stunp_endpoint.h treats user names that are sent as
 * a hash (USERHASH, section 9.2). */
typedef enum stunp_feature {
    STUNP_AUTO = 0,     /* client: sends the hash if the server accepts hashes, and otherwise the
                         * name. Server: accepts both */
    STUNP_REQUIRED = 1, /* client: refuses a server that does not accept the hash. Server: like
                         * STUNP_AUTO */
    STUNP_DISABLED = 2  /* client: always sends the name. Server: accepts only the name */
} stunp_feature;

/* The result of stunp_check_fingerprint (section 14.7). */
typedef enum stunp_fingerprint {
    STUNP_NO_FINGERPRINT = 0,       /* the message has no FINGERPRINT */
    STUNP_RIGHT_FINGERPRINT = 1,    /* FINGERPRINT matches the message before it */
    STUNP_WRONG_FINGERPRINT = 2,    /* FINGERPRINT does not match: the message was damaged, or the
                                     * bytes are not a STUN message */
    STUNP_MISPLACED_FINGERPRINT = 3 /* FINGERPRINT is not the last attribute, or does not have 4
                                     * bytes */
} stunp_fingerprint;

/* The errors that calls return. The description of each call lists the errors that it can return,
 * with their causes. */
typedef enum stunp_refusal {
    STUNP_TRUNCATED = -1,     /* bytes are missing at the end of a header, message or attribute */
    STUNP_NOT_STUN = -2,      /* the bytes are not a STUN header: the two top bits are not 0, the
                               * magic cookie is wrong, or the length is not a multiple of 4 */
    STUNP_TOO_LARGE = -3,     /* there are bytes after the end of the message */
    STUNP_NO_INTEGRITY = -4,  /* no integrity attribute is visible */
    STUNP_MALFORMED_INTEGRITY = -5, /* the integrity attribute that is checked has a length that its
                                     * type does not allow */
    STUNP_INTEGRITY_FAILED = -6,    /* the signature is not valid: the integrity attribute does not
                                     * hold the whole HMAC of the message under this key */
    STUNP_BAD_ARGUMENT = -7,  /* an argument is out of range */
    STUNP_NOT_TEXT = -8,      /* a text is not UTF-8 */
    STUNP_TEXT_TOO_LONG = -9, /* a text is too long: a user name of more than 513 bytes, or a
                               * reason, realm, nonce or SOFTWARE of more than 763 bytes */
    STUNP_BUFFER_TOO_SMALL = -10,    /* the output is too small for the bytes to write */
    STUNP_NOT_ALLOWED = -11,         /* this call does not write attributes of this type, for
                                      * example because another call writes them */
    STUNP_CLOSED = -12,              /* the message has an integrity attribute, which only
                                      * FINGERPRINT may follow, or FINGERPRINT, which must be the
                                      * last attribute */
    STUNP_ATTRIBUTE_EXISTS = -13,    /* the message has an attribute of this type already, which
                                      * may not be repeated */
    STUNP_MESSAGE_TOO_LONG = -14,    /* the message would have more than 65532 bytes after its
                                      * header */
    STUNP_MISSING_ATTRIBUTE = -15,   /* no attribute of this type is visible */
    STUNP_MALFORMED_ATTRIBUTE = -16, /* the value of the attribute is malformed */

    /* Of the following errors, the calls of stunp_endpoint.h return STUNP_OUT_OF_MEMORY,
     * STUNP_EMPTY_HANDLE, STUNP_FULL_HANDLE, STUNP_ALREADY_IN_PROGRESS, STUNP_CANNOT_SIGN and
     * STUNP_WRONG_HANDLE. No call returns the others, whose numbers stay taken. */
    STUNP_OUT_OF_MEMORY = -17,       /* an allocation failed */
    STUNP_EMPTY_HANDLE = -18,        /* the handle is empty */
    STUNP_FULL_HANDLE = -19,         /* the handle is not empty */
    STUNP_ALREADY_IN_PROGRESS = -20, /* a request with this transaction ID is outstanding */
    STUNP_PROTOCOL_VIOLATION = -21,  /* the call does not accept this message or this address */
    STUNP_UNAUTHORIZED = -22,        /* server: the message is not sufficiently authenticated;
                                      * answer 401. Client: it cannot answer the server's 401; give
                                      * up */
    STUNP_BAD_REQUEST = -23,         /* server: the request is not well-formed; answer 400 */
    STUNP_STALE_NONCE = -24,         /* server: the nonce is not the current one; answer 438 */
    STUNP_UNSUPPORTED_FEATURE = -25, /* client: the server lacks an algorithm or a feature that is
                                      * required; give up */
    STUNP_NO_WAIT = -26,             /* the timeouts would make several transmissions of a request
                                      * due at the same time */
    STUNP_TOO_MANY_ADDRESSES = -27,  /* server: the limit on the number of addresses is reached */
    STUNP_CANNOT_SIGN = -28,         /* server: there is no key to sign with, because the user was
                                      * removed or has no key for the client's algorithm. ICE: the
                                      * credentials of the peer are not known yet */
    STUNP_WRONG_HANDLE = -29         /* the handle has a value of another kind */
} stunp_refusal;

/* Fails to compile if an enumeration does not have the size of an int. The library is compiled with
 * enumerations of this size, so a program that is compiled with -fshort-enums would use structs of
 * another size than the library. */
#if defined __cplusplus && __cplusplus >= 201103L
#define STUNP_ENUM_IS_INT(name)                                              \
    static_assert(sizeof(name) == sizeof(int),                               \
                  #name " must be an int: compile without -fshort-enums")
#elif defined __STDC_VERSION__ && __STDC_VERSION__ >= 201112L
#define STUNP_ENUM_IS_INT(name)                                              \
    _Static_assert(sizeof(name) == sizeof(int),                              \
                   #name " must be an int: compile without -fshort-enums")
#else
#define STUNP_ENUM_IS_INT(name)                                              \
    typedef char name##_must_be_an_int__compile_without_fshort_enums         \
        [sizeof(name) == sizeof(int) ? 1 : -1]
#endif
STUNP_ENUM_IS_INT(stunp_message_class);
STUNP_ENUM_IS_INT(stunp_message_method);
STUNP_ENUM_IS_INT(stunp_attribute_type);
STUNP_ENUM_IS_INT(stunp_algorithm);
STUNP_ENUM_IS_INT(stunp_feature);
STUNP_ENUM_IS_INT(stunp_fingerprint);
STUNP_ENUM_IS_INT(stunp_refusal);

/* Lengths in bytes. */
enum {
    STUNP_ID_LENGTH = 12,              /* a transaction ID */
    STUNP_HEADER_LENGTH = 20,          /* a header, or a message without attributes */
    STUNP_ATTRIBUTE_HEADER_LENGTH = 4, /* the type and length of an attribute, before its value */
    STUNP_LONGEST_MESSAGE = 65552,     /* the longest message */
    STUNP_LONGEST_SIGNED = 576,        /* the longest request that stunp_build_signed writes */
    STUNP_SHA1_KEY_LENGTH = 16,        /* a long-term key for STUNP_SHA1 */
    STUNP_SHA256_KEY_LENGTH = 32,      /* a long-term key for STUNP_SHA256 */
    STUNP_USERHASH_LENGTH = 32,        /* the value of a USERHASH */
    STUNP_FINGERPRINT_LENGTH = 8,      /* a FINGERPRINT, with its type and its length */
    STUNP_LONGEST_ERROR_TEXT = 64      /* the most bytes that stunp_error_text writes */
};

/* The largest number of types that the argument `known` of stunp_unknown_types and
 * stunp_refuse_unknown may have. */
enum { STUNP_MOST_KNOWN = 256 };

/* The fields of a message header (section 5), which stunp_read_header writes. */
typedef struct {
    stunp_message_class message_class;
    uint32_t method; /* below 4096 */
    size_t length;   /* of the whole message, including the header */
    uint8_t id[12];  /* the transaction ID */
} stunp_header;

/* A position in the list of attributes of a message, for stunp_walk. Initialize it with zeros;
 * after that only stunp_walk may change it. */
typedef struct {
    size_t place;    /* the offset of the next attribute, or 0 before the first call */
    uint32_t hidden; /* which attributes are no longer visible from here */
} stunp_cursor;

/* A writer of a message, for the calls stunp_write_*. Get a writer from stunp_write or
 * stunp_write_on. You may read the fields, but only the calls that take a writer may change them. A
 * writer points to your buffer: if the buffer is a local variable, do not return the writer from
 * that function. */
typedef struct {
    uint8_t *bytes;       /* your buffer, which starts with the message */
    size_t room;          /* the length of the buffer */
    size_t length;        /* the length of the message */
    int64_t refusal;      /* the first error of a call with this writer, or 0 */
    uint64_t reserved[2]; /* zeros, for later releases */
} stunp_writer;

/* A transport address. `octets` starts with the 4 octets of an IPv4 address or the 16 of an IPv6
 * address, in network order, and `length` is 4 or 16. `port` is in the processor's order.
 *
 * If the address is an IPv4 address, the last 12 octets are ignored in an argument, and are 0 in a
 * result. The calls of stunp_endpoint.h treat an IPv4 address and the same address mapped into IPv6
 * as one address. The scope of an IPv6 address
 * is not stored: a link-local address counts as the same address on every interface, and you have
 * to add the scope again before you send. If the same link-local address is in use on two
 * interfaces, you need an agent or a server for each interface.
 *
 * A call of stunp_endpoint.h that takes an address fails with STUNP_BAD_ARGUMENT if `length` is
 * neither 4 nor 16, unless its description gives a meaning to length 0. */
typedef struct {
    uint8_t octets[16];
    uint16_t port;
    uint16_t length;
} stunp_address;

/* ---- Messages */

/* Checks that the bytes are one whole message (section 5): a header, and attributes that fill
 * exactly the length that the header states.
 *
 * The values of the attributes, the signature and FINGERPRINT are not checked.
 *
 * Returns 0. Errors:
 *   STUNP_TRUNCATED  there are fewer than 20 bytes
 *   STUNP_NOT_STUN   the first 20 bytes are not a STUN header
 *   STUNP_TRUNCATED  there are fewer bytes than the header states
 *   STUNP_TOO_LARGE  there are more bytes than the header states
 *   STUNP_TRUNCATED  an attribute extends past the end of the message */
STUNP_USE_RESULT STUNP_READS(1, 2)
int64_t stunp_parse(const uint8_t *message, size_t length);

/* Reads the header at the front of `bytes`: the class, the method, the length and the transaction
 * ID.
 *
 * The call reads only the first 20 bytes, so in a stream you can wait for the rest of the message
 * once you know `header->length`. Call stunp_parse or stunp_walk to check that the whole message is
 * well-formed.
 *
 * Returns 0 and writes `*header`. Errors:
 *   STUNP_TRUNCATED  there are fewer than 20 bytes
 *   STUNP_NOT_STUN   the first 20 bytes are not a STUN header */
STUNP_READS(1, 2) STUNP_NOT_NULL(3)
int64_t stunp_read_header(const uint8_t *bytes, size_t length, stunp_header *header);

/* Returns the class of a message, which is a stunp_message_class. To read several fields of the
 * header, call stunp_read_header.
 *
 * Errors:
 *   STUNP_TRUNCATED, STUNP_NOT_STUN, STUNP_TOO_LARGE
 *                    the bytes are not one whole message (stunp_parse) */
STUNP_USE_RESULT STUNP_READS(1, 2)
int64_t stunp_class(const uint8_t *message, size_t length);

/* Returns the method of a message, which is a number below 4096. Errors:
 *   STUNP_TRUNCATED, STUNP_NOT_STUN, STUNP_TOO_LARGE
 *                    the bytes are not one whole message (stunp_parse) */
STUNP_USE_RESULT STUNP_READS(1, 2)
int64_t stunp_method(const uint8_t *message, size_t length);

/* Copies the transaction ID of a message, 12 bytes, to the front of `out`.
 *
 * Returns 12. Errors:
 *   STUNP_TRUNCATED, STUNP_NOT_STUN, STUNP_TOO_LARGE
 *                           the bytes are not one whole message (stunp_parse)
 *   STUNP_BUFFER_TOO_SMALL  `out_length` is less than 12 */
STUNP_READS(1, 2) STUNP_WRITES(3, 4)
int64_t stunp_id(const uint8_t *STUNP_RESTRICT message, size_t length, uint8_t *STUNP_RESTRICT out,
                 size_t out_length);

/* ---- Finding attributes
 *
 * These calls return a place: the offset of an attribute's value in the message, which is at least
 * 24. The value starts at `message + place`. Pass the place to the calls that read a value.
 *
 * These calls find only visible attributes. After MESSAGE-INTEGRITY, only MESSAGE-INTEGRITY-SHA256
 * and FINGERPRINT are visible. After MESSAGE-INTEGRITY-SHA256, only FINGERPRINT is visible, and
 * after FINGERPRINT no attribute is (sections 14.5 to 14.7). */

/* Finds the first visible attribute of a type.
 *
 * Returns the place of its value, and writes the length of the value to `*value_length`. Errors:
 *   STUNP_BAD_ARGUMENT       `type` is 65536 or more
 *   STUNP_TRUNCATED, STUNP_NOT_STUN, STUNP_TOO_LARGE
 *                            the bytes are not one whole message (stunp_parse)
 *   STUNP_MISSING_ATTRIBUTE  no attribute of this type is visible */
STUNP_USE_RESULT STUNP_READS(1, 2) STUNP_NOT_NULL(4)
int64_t stunp_find(const uint8_t *message, size_t length, uint32_t type, size_t *value_length);

/* Moves a cursor to the next visible attribute of a message. Call it in a loop to get each visible
 * attribute once, in order:
 *
 *     stunp_cursor cursor = {0};
 *     uint16_t type;
 *     size_t value_length;
 *     int64_t place;
 *     while ((place = stunp_walk(message, length, &cursor, &type, &value_length)) > 0)
 *         use(type, message + place, value_length);
 *     if (place < 0) ..       // the bytes are not a message
 *
 * Initialize the cursor with zeros, and pass the same cursor to each call. The whole loop takes
 * time proportional to the number of attributes, because only the first call checks the whole
 * message.
 *
 * Returns the place of the value, writes the attribute's type to `*type` and the length of the
 * value to `*value_length`, and moves the cursor past the attribute. If there are no more
 * attributes, returns 0 and writes neither, and each further call with this cursor returns 0 too.
 * Errors, which leave the cursor unchanged too:
 *   STUNP_TRUNCATED, STUNP_NOT_STUN, STUNP_TOO_LARGE
 *                       `cursor->place` is 0, and the bytes are not one whole message (stunp_parse)
 *   STUNP_BAD_ARGUMENT  `cursor->place` is not 0, but below 20 or above `length`
 *
 * The call reads no byte outside the message, whatever cursor you pass. If the cursor does not come
 * from earlier calls for this message, the call reads the bytes at the offset `cursor->place` as
 * attributes. */
STUNP_USE_RESULT STUNP_READS(1, 2) STUNP_NOT_NULL(3, 4, 5)
int64_t stunp_walk(const uint8_t *message, size_t length, stunp_cursor *cursor, uint16_t *type,
                   size_t *value_length);

/* Finds the first visible attribute after the attribute whose value is at `place`. Pass 0 to get
 * the first attribute of the message, and after that the place that the previous call returned.
 *
 * stunp_walk returns the same attributes in linear time. This call reads the message from its start
 * each time, so a loop takes time proportional to the square of the number of attributes, and a
 * message can have 16383 attributes.
 *
 * Returns the place of the value, and writes the attribute's type to `*type` and the length of the
 * value to `*value_length`. If there are no more attributes, returns 0 and writes neither. Errors:
 *   STUNP_TRUNCATED, STUNP_NOT_STUN, STUNP_TOO_LARGE
 *                    the bytes are not one whole message (stunp_parse) */
STUNP_USE_RESULT STUNP_READS(1, 2) STUNP_NOT_NULL(4, 5)
int64_t stunp_next(const uint8_t *message, size_t length, size_t place, uint16_t *type,
                   size_t *value_length);

/* ---- Reading the value at a place
 *
 * Pass a `place` that stunp_find, stunp_walk or stunp_next returned for this message. The type of
 * the attribute does not matter. These calls read no byte outside the message, whatever `place` you
 * pass. If no value starts at that place, they read the 4 bytes before it as the header of an
 * attribute. */

/* Checks that the value of an attribute such as USERNAME, REALM, NONCE or SOFTWARE is a text
 * (sections 14.3, 14.9, 14.10 and 14.14). The text is not copied, and does not end with a zero
 * byte.
 *
 * Returns `place`, which is also the offset of the text, and writes the length of the text in bytes
 * to `*text_length`. Errors:
 *   STUNP_BAD_ARGUMENT  `place` is below 24, or is not the place of a whole attribute
 *   STUNP_NOT_TEXT      the value is not UTF-8 */
STUNP_USE_RESULT STUNP_READS(1, 2) STUNP_NOT_NULL(4)
int64_t stunp_read_text(const uint8_t *message, size_t length, size_t place, size_t *text_length);

/* Reads a number of 1, 2, 4 or 8 bytes in network order. PRIORITY and LIFETIME have 4 bytes, and
 * ICE-CONTROLLING has 8 bytes.
 *
 * Returns the length of the value (1, 2, 4 or 8), and writes the number to `*number`. Errors:
 *   STUNP_BAD_ARGUMENT         `place` is below 24, or is not the place of a whole attribute
 *   STUNP_MALFORMED_ATTRIBUTE  the value does not have 1, 2, 4 or 8 bytes */
STUNP_USE_RESULT STUNP_READS(1, 2) STUNP_NOT_NULL(4)
int64_t stunp_read_number(const uint8_t *message, size_t length, size_t place, uint64_t *number);

/* Reads an address and a port that are not XORed, as in MAPPED-ADDRESS and ALTERNATE-SERVER
 * (sections 14.1 and 14.15).
 *
 * Writes the address to the front of `out`, as 4 bytes (IPv4) or 16 (IPv6) in network order, and
 * the port to `*port`, in the processor's order. A buffer of 16 bytes has room for either address.
 *
 * Returns the length of the address, 4 or 16. Errors:
 *   STUNP_BAD_ARGUMENT         `place` is below 24, or is not the place of a whole attribute
 *   STUNP_MALFORMED_ATTRIBUTE  the value is not an address
 *   STUNP_BUFFER_TOO_SMALL     `out` has no room for the address */
STUNP_USE_RESULT STUNP_READS(1, 2) STUNP_WRITES(4, 5) STUNP_NOT_NULL(6)
int64_t stunp_read_address(const uint8_t *STUNP_RESTRICT message, size_t length, size_t place,
                           uint8_t *STUNP_RESTRICT out, size_t out_length, uint16_t *port);

/* Reads an address and a port that are XORed with the magic cookie and the transaction ID, as in
 * XOR-MAPPED-ADDRESS (section 14.2), XOR-PEER-ADDRESS and XOR-RELAYED-ADDRESS (RFC 8656, sections
 * 18.3 and 18.5).
 *
 * Writes the address to the front of `out`, as 4 bytes (IPv4) or 16 (IPv6) in network order, and
 * the port to `*port`, in the processor's order. A buffer of 16 bytes has room for either address.
 *
 * Returns the length of the address, 4 or 16. Errors:
 *   STUNP_BAD_ARGUMENT         `place` is below 24, or is not the place of a whole attribute
 *   STUNP_MALFORMED_ATTRIBUTE  the value is not an address
 *   STUNP_BUFFER_TOO_SMALL     `out` has no room for the address */
STUNP_USE_RESULT STUNP_READS(1, 2) STUNP_WRITES(4, 5) STUNP_NOT_NULL(6)
int64_t stunp_read_xor_address(const uint8_t *STUNP_RESTRICT message, size_t length, size_t place,
                               uint8_t *STUNP_RESTRICT out, size_t out_length, uint16_t *port);

/* Reads the list of attribute types in UNKNOWN-ATTRIBUTES (section 14.13).
 *
 * Writes the types to the front of the array `types`, as many as it has room for. `types_length` is
 * the number of elements of the array.
 *
 * Returns the number of types in the attribute, which may be larger than `types_length`. Errors:
 *   STUNP_BAD_ARGUMENT         `place` is below 24, or is not the place of a whole attribute
 *   STUNP_MALFORMED_ATTRIBUTE  the value has an odd number of bytes */
STUNP_USE_RESULT STUNP_READS(1, 2) STUNP_WRITES(4, 5)
int64_t stunp_read_types(const uint8_t *message, size_t length, size_t place, uint16_t *types,
                         size_t types_length);

/* ---- Reading an attribute by its type
 *
 * Each call reads the first visible attribute of a type: it calls stunp_find, and then one of the
 * calls above. */

/* Finds the first visible attribute of a type, and checks that its value is a text
 * (stunp_read_text).
 *
 *     size_t text_length;
 *     int64_t place = stunp_find_text(message, length, STUNP_SOFTWARE, &text_length);
 *     if (place > 0) printf("%.*s\n", (int)text_length, (const char *)message + place);
 *
 * Returns the place of the text, as stunp_find does, and writes its length in bytes to
 * `*text_length`. Errors:
 *   STUNP_BAD_ARGUMENT       `type` is 65536 or more
 *   STUNP_TRUNCATED, STUNP_NOT_STUN, STUNP_TOO_LARGE
 *                            the bytes are not one whole message (stunp_parse)
 *   STUNP_MISSING_ATTRIBUTE  no attribute of this type is visible
 *   STUNP_NOT_TEXT           the value is not UTF-8 */
STUNP_INLINED int64_t stunp_find_text(const uint8_t *message, size_t length, uint32_t type,
                                      size_t *text_length);

/* Finds the value of the first visible attribute of a type. The value may have any bytes.
 *
 *     size_t data_length;
 *     const uint8_t *data = stunp_find_value(message, length, STUNP_DATA, &data_length);
 *     if (data != NULL) use(data, data_length);
 *
 * Returns a pointer to the value in the message, and writes the length of the value to
 * `*value_length`. If stunp_find fails, because no such attribute is visible or the bytes are not a
 * message, returns null and leaves `*value_length` unchanged. */
STUNP_USE_RESULT STUNP_READS(1, 2) STUNP_NOT_NULL(4)
STUNP_INLINED const uint8_t *stunp_find_value(const uint8_t *message, size_t length, uint32_t type,
                                              size_t *value_length);

/* Reads the number in the first visible attribute of a type (stunp_read_number).
 *
 * Returns the length of the value (1, 2, 4 or 8), and writes the number to `*number`. Compare the
 * result with the length that the attribute must have, such as 4 for PRIORITY. Errors:
 *   STUNP_BAD_ARGUMENT         `type` is 65536 or more
 *   STUNP_TRUNCATED, STUNP_NOT_STUN, STUNP_TOO_LARGE
 *                              the bytes are not one whole message (stunp_parse)
 *   STUNP_MISSING_ATTRIBUTE    no attribute of this type is visible
 *   STUNP_MALFORMED_ATTRIBUTE  the value does not have 1, 2, 4 or 8 bytes */
STUNP_INLINED int64_t stunp_find_number(const uint8_t *message, size_t length, uint32_t type,
                                        uint64_t *number);

/* Reads an address that is not XORed, from the first visible attribute of a type
 * (stunp_read_address).
 *
 * Returns the length of the address, 4 or 16, and writes the address to the front of `out` and the
 * port to `*port`. Errors:
 *   STUNP_BAD_ARGUMENT         `type` is 65536 or more
 *   STUNP_TRUNCATED, STUNP_NOT_STUN, STUNP_TOO_LARGE
 *                              the bytes are not one whole message (stunp_parse)
 *   STUNP_MISSING_ATTRIBUTE    no attribute of this type is visible
 *   STUNP_MALFORMED_ATTRIBUTE  the value is not an address
 *   STUNP_BUFFER_TOO_SMALL     `out` has no room for the address */
STUNP_INLINED int64_t stunp_find_address(const uint8_t *STUNP_RESTRICT message, size_t length,
                                         uint32_t type, uint8_t *STUNP_RESTRICT out,
                                         size_t out_length, uint16_t *port);

/* Reads an XORed address from the first visible attribute of a type (stunp_read_xor_address).
 *
 * For XOR-MAPPED-ADDRESS you can also call stunp_xor_mapped_address.
 *
 * Returns the length of the address, 4 or 16, and writes the address to the front of `out` and the
 * port to `*port`. Errors:
 *   STUNP_BAD_ARGUMENT         `type` is 65536 or more
 *   STUNP_TRUNCATED, STUNP_NOT_STUN, STUNP_TOO_LARGE
 *                              the bytes are not one whole message (stunp_parse)
 *   STUNP_MISSING_ATTRIBUTE    no attribute of this type is visible
 *   STUNP_MALFORMED_ATTRIBUTE  the value is not an address
 *   STUNP_BUFFER_TOO_SMALL     `out` has no room for the address */
STUNP_INLINED int64_t stunp_find_xor_address(const uint8_t *STUNP_RESTRICT message, size_t length,
                                             uint32_t type, uint8_t *STUNP_RESTRICT out,
                                             size_t out_length, uint16_t *port);

/* Reads the list of attribute types in the first visible attribute of a type (stunp_read_types).
 *
 * Returns the number of types in the attribute, and writes as many of them to `types` as it has
 * room for. Errors:
 *   STUNP_BAD_ARGUMENT         `type` is 65536 or more
 *   STUNP_TRUNCATED, STUNP_NOT_STUN, STUNP_TOO_LARGE
 *                              the bytes are not one whole message (stunp_parse)
 *   STUNP_MISSING_ATTRIBUTE    no attribute of this type is visible
 *   STUNP_MALFORMED_ATTRIBUTE  the value has an odd number of bytes */
STUNP_INLINED int64_t stunp_find_types(const uint8_t *message, size_t length, uint32_t type,
                                       uint16_t *types, size_t types_length);

/* ---- What a response reports */

/* Returns the error code of a message, a number from 300 to 699, from the first visible ERROR-CODE
 * (section 14.8). The reason phrase is the value of that attribute from its fifth byte on.
 *
 * Errors:
 *   STUNP_TRUNCATED, STUNP_NOT_STUN, STUNP_TOO_LARGE
 *                              the bytes are not one whole message (stunp_parse)
 *   STUNP_MISSING_ATTRIBUTE    no ERROR-CODE is visible
 *   STUNP_MALFORMED_ATTRIBUTE  the first visible ERROR-CODE is malformed */
STUNP_USE_RESULT STUNP_READS(1, 2)
int64_t stunp_error_code(const uint8_t *message, size_t length);

/* Reads the first visible XOR-MAPPED-ADDRESS (section 14.2): the address from which the server saw
 * the request arrive.
 *
 * Writes the address to the front of `out`, as 4 bytes (IPv4) or 16 (IPv6) in network order, and
 * the port to `*port`, in the processor's order. A buffer of 16 bytes has room for either address.
 *
 * Returns the length of the address, 4 or 16. Errors:
 *   STUNP_TRUNCATED, STUNP_NOT_STUN, STUNP_TOO_LARGE
 *                              the bytes are not one whole message (stunp_parse)
 *   STUNP_MISSING_ATTRIBUTE    no XOR-MAPPED-ADDRESS is visible
 *   STUNP_MALFORMED_ATTRIBUTE  the first visible XOR-MAPPED-ADDRESS is malformed
 *   STUNP_BUFFER_TOO_SMALL     `out` has no room for the address */
STUNP_USE_RESULT STUNP_READS(1, 2) STUNP_WRITES(3, 4) STUNP_NOT_NULL(5)
int64_t stunp_xor_mapped_address(const uint8_t *STUNP_RESTRICT message, size_t length,
                                 uint8_t *STUNP_RESTRICT out, size_t out_length, uint16_t *port);

/* ---- Checks */

/* Verifies the signature of a message with a key: a short-term password (stunp_short_term_key) or a
 * long-term key (stunp_long_term_key). The key may have any length.
 *
 * If MESSAGE-INTEGRITY-SHA256 is visible, only that attribute is checked; otherwise
 * MESSAGE-INTEGRITY is checked. A truncated HMAC-SHA256 is not accepted. FINGERPRINT is not
 * checked.
 *
 * Returns the algorithm of a valid signature, STUNP_SHA1 or STUNP_SHA256. In a condition, an error
 * would count as true: call stunp_is_signed there, or test the result with `> 0`. Errors:
 *   STUNP_TRUNCATED, STUNP_NOT_STUN, STUNP_TOO_LARGE
 *                              the bytes are not one whole message (stunp_parse)
 *   STUNP_NO_INTEGRITY         the message has no visible integrity attribute: it is unsigned
 *   STUNP_MALFORMED_INTEGRITY  the integrity attribute has a length that its type cannot have
 *   STUNP_INTEGRITY_FAILED     the signature is not valid for this message and key */
STUNP_USE_RESULT STUNP_READS(1, 2) STUNP_READS(3, 4)
int64_t stunp_verify(const uint8_t *message, size_t length, const uint8_t *key, size_t key_length);

/* Returns whether a message is signed with this key: true if stunp_verify returns an algorithm, and
 * false if it fails. */
STUNP_USE_RESULT STUNP_READS(1, 2) STUNP_READS(3, 4)
STUNP_INLINED bool stunp_is_signed(const uint8_t *message, size_t length, const uint8_t *key,
                                   size_t key_length);

/* Checks the FINGERPRINT of a message (section 14.7).
 *
 * Returns a stunp_fingerprint. Compare it with STUNP_RIGHT_FINGERPRINT, or call
 * stunp_has_right_fingerprint, because the result for a wrong FINGERPRINT is above 0 too. Errors:
 *   STUNP_TRUNCATED, STUNP_NOT_STUN, STUNP_TOO_LARGE
 *                    the bytes are not one whole message (stunp_parse) */
STUNP_USE_RESULT STUNP_READS(1, 2)
int64_t stunp_check_fingerprint(const uint8_t *message, size_t length);

/* Returns whether the last attribute of a message is a FINGERPRINT that matches the message: true
 * if stunp_check_fingerprint returns STUNP_RIGHT_FINGERPRINT, and false otherwise. */
STUNP_USE_RESULT STUNP_READS(1, 2)
STUNP_INLINED bool stunp_has_right_fingerprint(const uint8_t *message, size_t length);

/* Lists the types of the visible attributes that the receiver of a message must understand but does
 * not know: the types that are below 32768 and not in `known`. Each type is listed once, in the
 * order of the message.
 *
 * If a message has such attributes, sections 6.3.1 to 6.3.4 require the following: a server answers
 * a request with error 420 (stunp_refuse_unknown), an agent drops an indication, and a client
 * treats the request of such a response as failed.
 *
 * `known_length` and `types_length` count elements. `known` may have up to 256 elements, and
 * `types` any number. The call writes the types to the front of `types`, as many as it has room
 * for.
 *
 * Returns the number of these types, which may be larger than `types_length`. Errors:
 *   STUNP_BAD_ARGUMENT  `known_length` is more than 256
 *   STUNP_TRUNCATED, STUNP_NOT_STUN, STUNP_TOO_LARGE
 *                       the bytes are not one whole message (stunp_parse) */
STUNP_USE_RESULT STUNP_READS(1, 2) STUNP_READS(3, 4) STUNP_WRITES(5, 6)
int64_t stunp_unknown_types(const uint8_t *message, size_t length, const uint16_t *known,
                            size_t known_length, uint16_t *types, size_t types_length);

/* ---- Writing messages
 *
 * To write a message, call stunp_begin, and then add its attributes one by one. Each call returns
 * the new length of the message, which you pass to the next call as `length`. A stunp_writer
 * (below) does this for you, and is easier to use. */

/* Writes a message without attributes, 20 bytes, to the front of `out` (section 5).
 *
 * The transaction ID of a request must be random. A response has the transaction ID of its request.
 *
 * Returns 20. Errors:
 *   STUNP_BAD_ARGUMENT      `message_class` is not a stunp_message_class, `method` is 4096 or more,
 *                           or `id_length` is not 12
 *   STUNP_BUFFER_TOO_SMALL  `out_length` is less than 20 */
STUNP_USE_RESULT STUNP_READS(3, 4) STUNP_WRITES(5, 6)
int64_t stunp_begin(stunp_message_class message_class, uint32_t method, const uint8_t *id,
                    size_t id_length, uint8_t *out, size_t out_length);

/* The calls that follow append an attribute to the message in the first `length` bytes of `buffer`,
 * which has `room` bytes. You may append to any message that has neither an integrity attribute nor
 * FINGERPRINT, even if stunp_begin did not write it.
 *
 * These calls update the length field of the message, write the attribute at the end of the message
 * with zero bytes as padding, and leave the rest of the buffer unchanged. Each call reads the
 * message from its start, so the time to write a message is proportional to the square of the
 * number of attributes: 0.1 ms for 100 attributes.
 *
 * A message has at most one attribute of each type, except for the two types that TURN repeats. A
 * CreatePermission request has an XOR-PEER-ADDRESS for each peer, and the response to an Allocate
 * request for both families has two XOR-RELAYED-ADDRESS (RFC 8656, sections 10.1 and 7.2). Read
 * them with stunp_walk, because the calls by type find only the first one. */

/* Appends an attribute with this value, which is written unchanged. The integrity attributes and
 * FINGERPRINT have calls of their own: stunp_sign and stunp_add_fingerprint.
 *
 * Returns the new length of the message. Errors:
 *   STUNP_BAD_ARGUMENT      `type` is 65536 or more, or `length` exceeds `room`
 *   STUNP_TRUNCATED, STUNP_NOT_STUN, STUNP_TOO_LARGE
 *                           the buffer does not hold one whole message (stunp_parse)
 *   STUNP_CLOSED            the message has an integrity attribute or FINGERPRINT already
 *   STUNP_NOT_ALLOWED       `type` is an integrity attribute or FINGERPRINT
 *   STUNP_ATTRIBUTE_EXISTS  the message has an attribute of this type already, and the type is
 *                           neither STUNP_XOR_PEER_ADDRESS nor STUNP_XOR_RELAYED_ADDRESS
 *   STUNP_MESSAGE_TOO_LONG  the message would have more than 65532 bytes after its header
 *   STUNP_BUFFER_TOO_SMALL  the attribute does not fit into `room` bytes */
STUNP_USE_RESULT STUNP_CHANGES(1, 2) STUNP_READS(5, 6)
int64_t stunp_add(uint8_t *buffer, size_t room, size_t length, uint32_t type, const void *value,
                  size_t value_length);

/* Appends an attribute whose value is a number of `size` bytes (1, 2, 4 or 8) in network order.
 * PRIORITY and LIFETIME have 4 bytes, and ICE-CONTROLLING has 8 bytes.
 *
 * Returns the new length of the message. Errors:
 *   STUNP_BAD_ARGUMENT      `type` is 65536 or more, `size` is not 1, 2, 4 or 8, the number does
 *                           not fit in `size` bytes, or `length` exceeds `room`
 *   STUNP_TRUNCATED, STUNP_NOT_STUN, STUNP_TOO_LARGE
 *                           the buffer does not hold one whole message (stunp_parse)
 *   STUNP_CLOSED            the message has an integrity attribute or FINGERPRINT already
 *   STUNP_NOT_ALLOWED       `type` is an integrity attribute or FINGERPRINT
 *   STUNP_ATTRIBUTE_EXISTS  the message has an attribute of this type already, and the type is
 *                           neither STUNP_XOR_PEER_ADDRESS nor STUNP_XOR_RELAYED_ADDRESS
 *   STUNP_MESSAGE_TOO_LONG  the message would have more than 65532 bytes after its header
 *   STUNP_BUFFER_TOO_SMALL  the attribute does not fit into `room` bytes */
STUNP_USE_RESULT STUNP_CHANGES(1, 2)
int64_t stunp_add_number(uint8_t *buffer, size_t room, size_t length, uint32_t type,
                         uint64_t number, size_t size);

/* Appends an attribute whose value is an address and a port that are not XORed, such as
 * MAPPED-ADDRESS or ALTERNATE-SERVER (sections 14.1 and 14.15). The address has 4 bytes (IPv4) or
 * 16 (IPv6), in network order; the port is in the processor's order.
 *
 * Returns the new length of the message. Errors:
 *   STUNP_BAD_ARGUMENT      `type` or `port` is 65536 or more, `address_length` is not 4 or 16, or
 *                           `length` exceeds `room`
 *   STUNP_TRUNCATED, STUNP_NOT_STUN, STUNP_TOO_LARGE
 *                           the buffer does not hold one whole message (stunp_parse)
 *   STUNP_CLOSED            the message has an integrity attribute or FINGERPRINT already
 *   STUNP_NOT_ALLOWED       `type` is an integrity attribute or FINGERPRINT
 *   STUNP_ATTRIBUTE_EXISTS  the message has an attribute of this type already, and the type is
 *                           neither STUNP_XOR_PEER_ADDRESS nor STUNP_XOR_RELAYED_ADDRESS
 *   STUNP_MESSAGE_TOO_LONG  the message would have more than 65532 bytes after its header
 *   STUNP_BUFFER_TOO_SMALL  the attribute does not fit into `room` bytes */
STUNP_USE_RESULT STUNP_CHANGES(1, 2) STUNP_READS(5, 6)
int64_t stunp_add_address(uint8_t *buffer, size_t room, size_t length, uint32_t type,
                          const uint8_t *address, size_t address_length, uint32_t port);

/* Appends an attribute whose value is an address and a port, XORed with the magic cookie and the
 * transaction ID of the message, such as XOR-MAPPED-ADDRESS (section 14.2), XOR-PEER-ADDRESS or
 * XOR-RELAYED-ADDRESS (RFC 8656, sections 18.3 and 18.5). The address has 4 bytes (IPv4) or 16
 * (IPv6), in network order; the port is in the processor's order.
 *
 * Returns the new length of the message. Errors:
 *   STUNP_BAD_ARGUMENT      `type` or `port` is 65536 or more, `address_length` is not 4 or 16, or
 *                           `length` exceeds `room`
 *   STUNP_TRUNCATED, STUNP_NOT_STUN, STUNP_TOO_LARGE
 *                           the buffer does not hold one whole message (stunp_parse)
 *   STUNP_CLOSED            the message has an integrity attribute or FINGERPRINT already
 *   STUNP_NOT_ALLOWED       `type` is an integrity attribute or FINGERPRINT
 *   STUNP_ATTRIBUTE_EXISTS  the message has an attribute of this type already, and the type is
 *                           neither STUNP_XOR_PEER_ADDRESS nor STUNP_XOR_RELAYED_ADDRESS
 *   STUNP_MESSAGE_TOO_LONG  the message would have more than 65532 bytes after its header
 *   STUNP_BUFFER_TOO_SMALL  the attribute does not fit into `room` bytes */
STUNP_USE_RESULT STUNP_CHANGES(1, 2) STUNP_READS(5, 6)
int64_t stunp_add_xor_address(uint8_t *buffer, size_t room, size_t length, uint32_t type,
                              const uint8_t *address, size_t address_length, uint32_t port);

/* Appends XOR-MAPPED-ADDRESS, with which a server reports the address that a request came from
 * (section 14.2). The address has 4 bytes (IPv4) or 16 (IPv6), in network order; the port is in the
 * processor's order.
 *
 * Returns the new length of the message. Errors:
 *   STUNP_BAD_ARGUMENT      `port` is 65536 or more, `address_length` is not 4 or 16, or `length`
 *                           exceeds `room`
 *   STUNP_TRUNCATED, STUNP_NOT_STUN, STUNP_TOO_LARGE
 *                           the buffer does not hold one whole message (stunp_parse)
 *   STUNP_CLOSED            the message has an integrity attribute or FINGERPRINT already
 *   STUNP_ATTRIBUTE_EXISTS  the message has XOR-MAPPED-ADDRESS already
 *   STUNP_MESSAGE_TOO_LONG  the message would have more than 65532 bytes after its header
 *   STUNP_BUFFER_TOO_SMALL  the attribute does not fit into `room` bytes */
STUNP_USE_RESULT STUNP_CHANGES(1, 2) STUNP_READS(4, 5)
int64_t stunp_add_xor_mapped_address(uint8_t *buffer, size_t room, size_t length,
                                     const uint8_t *address, size_t address_length, uint32_t port);

/* Appends ERROR-CODE (section 14.8), with a code from 300 to 699 and a reason phrase of at most 763
 * bytes.
 *
 * Returns the new length of the message. Errors:
 *   STUNP_BAD_ARGUMENT      `code` is not from 300 to 699
 *   STUNP_NOT_TEXT          the reason is not UTF-8
 *   STUNP_TEXT_TOO_LONG     the reason has more than 763 bytes
 *   STUNP_BAD_ARGUMENT      `length` exceeds `room`
 *   STUNP_TRUNCATED, STUNP_NOT_STUN, STUNP_TOO_LARGE
 *                           the buffer does not hold one whole message (stunp_parse)
 *   STUNP_CLOSED            the message has an integrity attribute or FINGERPRINT already
 *   STUNP_ATTRIBUTE_EXISTS  the message has ERROR-CODE already
 *   STUNP_MESSAGE_TOO_LONG  the message would have more than 65532 bytes after its header
 *   STUNP_BUFFER_TOO_SMALL  the attribute does not fit into `room` bytes */
STUNP_USE_RESULT STUNP_CHANGES(1, 2) STUNP_READS(5, 6)
int64_t stunp_add_error(uint8_t *buffer, size_t room, size_t length, uint32_t code,
                        const char *reason, size_t reason_length);

/* Signs a message: appends MESSAGE-INTEGRITY (24 bytes) for STUNP_SHA1, or MESSAGE-INTEGRITY-SHA256
 * (36 bytes) for STUNP_SHA256 (sections 14.5 and 14.6).
 *
 * The key is a short-term password (stunp_short_term_key) or a long-term key (stunp_long_term_key),
 * and may have any length. Add all other attributes first, because only FINGERPRINT may follow the
 * signature.
 *
 * Returns the new length of the message. Errors:
 *   STUNP_BAD_ARGUMENT      `algorithm` is neither STUNP_SHA1 nor STUNP_SHA256, or `length` exceeds
 *                           `room`
 *   STUNP_TRUNCATED, STUNP_NOT_STUN, STUNP_TOO_LARGE
 *                           the buffer does not hold one whole message (stunp_parse)
 *   STUNP_CLOSED            the message has an integrity attribute or FINGERPRINT already
 *   STUNP_MESSAGE_TOO_LONG  the message would have more than 65532 bytes after its header
 *   STUNP_BUFFER_TOO_SMALL  the attribute does not fit into `room` bytes */
STUNP_USE_RESULT STUNP_CHANGES(1, 2) STUNP_READS(5, 6)
int64_t stunp_sign(uint8_t *buffer, size_t room, size_t length, stunp_algorithm algorithm,
                   const uint8_t *key, size_t key_length);

/* Appends FINGERPRINT (8 bytes) to a signed or unsigned message (section 14.7). FINGERPRINT must be
 * the last attribute. It does not invalidate the signature.
 *
 * Returns the new length of the message. Errors:
 *   STUNP_BAD_ARGUMENT      `length` exceeds `room`
 *   STUNP_TRUNCATED, STUNP_NOT_STUN, STUNP_TOO_LARGE
 *                           the buffer does not hold one whole message (stunp_parse)
 *   STUNP_ATTRIBUTE_EXISTS  the message has FINGERPRINT already
 *   STUNP_MESSAGE_TOO_LONG  the message would have more than 65532 bytes after its header
 *   STUNP_BUFFER_TOO_SMALL  FINGERPRINT does not fit into `room` bytes */
STUNP_USE_RESULT STUNP_CHANGES(1, 2)
int64_t stunp_add_fingerprint(uint8_t *buffer, size_t room, size_t length);

/* ---- Writing messages with a writer
 *
 * A stunp_writer stores the length of its message and the first error, so that you need not check
 * each call. Each call with a writer makes one of the calls above, but does nothing if an earlier
 * call with this writer has failed. Check once at the end, with stunp_written:
 *
 *     stunp_writer writer = stunp_write(STUNP_REQUEST, STUNP_BINDING, id, buffer, sizeof buffer);
 *     stunp_write_text(&writer, STUNP_SOFTWARE, "example 1.0");
 *     stunp_write_fingerprint(&writer);
 *     if (stunp_written(&writer) < 0) ..       // an error
 *                                              // or else send the first writer.length bytes */

/* Stores in a writer the result of a call that appends to its message: the new length, or an error.
 * Use this call to write functions of your own that take a writer, like stunp_write_bytes below. */
STUNP_INLINED void stunp_writer_took(stunp_writer *writer, int64_t answer);

/* Returns a writer that continues the message at the front of a buffer of `room` bytes. `answer` is
 * the result of the call that wrote the message, such as stunp_refuse_unknown: the length of the
 * message, or an error, which the writer then stores. */
STUNP_INLINED stunp_writer stunp_write_on(int64_t answer, uint8_t *bytes, size_t room);

/* Starts a message without attributes (stunp_begin) in a buffer of `room` bytes, and returns a
 * writer for the message. */
STUNP_INLINED stunp_writer stunp_write(stunp_message_class message_class, uint32_t method,
                                       const uint8_t id[12], uint8_t *bytes, size_t room);

/* Appends an attribute with this value (stunp_add). */
STUNP_INLINED void stunp_write_bytes(stunp_writer *writer, uint32_t type, const void *value,
                                     size_t value_length);

/* Appends an attribute with this text (stunp_add). The zero byte at the end of the text is not
 * written. */
STUNP_INLINED void stunp_write_text(stunp_writer *writer, uint32_t type, const char *text);

/* Appends an attribute with a number of `size` bytes (stunp_add_number). */
STUNP_INLINED void stunp_write_number(stunp_writer *writer, uint32_t type, uint64_t number,
                                      size_t size);

/* Appends an attribute with an address that is not XORed (stunp_add_address). */
STUNP_INLINED void stunp_write_address(stunp_writer *writer, uint32_t type, const uint8_t *address,
                                       size_t address_length, uint32_t port);

/* Appends an attribute with an XORed address (stunp_add_xor_address), such as
 * STUNP_XOR_MAPPED_ADDRESS. You may append several STUNP_XOR_PEER_ADDRESS and several
 * STUNP_XOR_RELAYED_ADDRESS to a message. */
STUNP_INLINED void stunp_write_xor_address(stunp_writer *writer, uint32_t type,
                                           const uint8_t *address, size_t address_length,
                                           uint32_t port);

/* Appends ERROR-CODE (stunp_add_error). The zero byte at the end of the reason is not written. */
STUNP_INLINED void stunp_write_error(stunp_writer *writer, uint32_t code, const char *reason);

/* Signs the message (stunp_sign). */
STUNP_INLINED void stunp_write_integrity(stunp_writer *writer, stunp_algorithm algorithm,
                                         const uint8_t *key, size_t key_length);

/* Appends FINGERPRINT (stunp_add_fingerprint). */
STUNP_INLINED void stunp_write_fingerprint(stunp_writer *writer);

/* Returns 0 if every call with this writer succeeded. The message is then in the first
 * `writer->length` bytes of the buffer.
 *
 * Otherwise returns the error of the first call that failed. The buffer then holds the message
 * without the attributes that this call and the later calls would have added. */
STUNP_USE_RESULT STUNP_NOT_NULL(1)
STUNP_INLINED int64_t stunp_written(const stunp_writer *writer);

/* ---- Whole messages */

/* Writes a signed Binding request to the front of `out`: a header with this transaction ID,
 * USERNAME, and the integrity attribute of the algorithm. The key may have any length.
 *
 * The transaction ID must be random (section 5). The request has 28 bytes, plus the length of the
 * user name rounded up to a multiple of 4, plus 20 for STUNP_SHA1 or 32 for STUNP_SHA256. This is
 * at most STUNP_LONGEST_SIGNED.
 *
 * Returns the length of the request. Errors:
 *   STUNP_BAD_ARGUMENT      `algorithm` is neither STUNP_SHA1 nor STUNP_SHA256, or `id_length` is
 *                           not 12
 *   STUNP_NOT_TEXT          the user name is not UTF-8
 *   STUNP_TEXT_TOO_LONG     the user name has more than 513 bytes
 *   STUNP_BUFFER_TOO_SMALL  the request does not fit into `out` */
STUNP_USE_RESULT STUNP_READS(2, 3) STUNP_READS(4, 5) STUNP_READS(6, 7) STUNP_WRITES(8, 9)
int64_t stunp_build_signed(stunp_algorithm algorithm, const uint8_t *id, size_t id_length,
                           const char *username, size_t username_length, const uint8_t *key,
                           size_t key_length, uint8_t *out, size_t out_length);

/* Writes a keepalive of ICE, a Binding indication with only FINGERPRINT (RFC 8445, section 11), to
 * the front of `out`. Send a keepalive on each pair in use if nothing else was sent on that pair
 * for 15 seconds, so that the NATs on the path keep their bindings. stunp_keepalive of
 * stunp_endpoint.h is the timer for this. A keepalive is not answered. The transaction ID must be
 * random.
 *
 * Returns the length of the message, 28. Errors:
 *   STUNP_BUFFER_TOO_SMALL  `out_length` is less than 28 */
STUNP_USE_RESULT STUNP_NOT_NULL(1)
STUNP_INLINED int64_t stunp_build_keepalive(const uint8_t id[12], uint8_t *out, size_t out_length);

/* Writes the error response to a request with unknown attributes to the front of `out` (sections
 * 6.3.1 and 14.13).
 *
 * If `known` contains every type in the request that must be understood, the call writes nothing
 * and returns 0. Otherwise it writes a response with the method and the transaction ID of the
 * request, ERROR-CODE 420 `Unknown Attribute`, and UNKNOWN-ATTRIBUTES with the types that
 * stunp_unknown_types lists. You may sign the response, and add FINGERPRINT.
 *
 * `known_length` is the number of elements of `known`.
 *
 * Returns the length of the response, which is at least 56, or 0 if no response is needed. Errors:
 *   STUNP_BAD_ARGUMENT      `known_length` is more than 256
 *   STUNP_TRUNCATED, STUNP_NOT_STUN, STUNP_TOO_LARGE
 *                           the bytes are not one whole message (stunp_parse)
 *   STUNP_BAD_ARGUMENT      the message is not a request
 *   STUNP_BUFFER_TOO_SMALL  the response does not fit into `out` */
STUNP_USE_RESULT STUNP_READS(1, 2) STUNP_READS(3, 4) STUNP_WRITES(5, 6)
int64_t stunp_refuse_unknown(const uint8_t *STUNP_RESTRICT request, size_t length,
                             const uint16_t *known, size_t known_length,
                             uint8_t *STUNP_RESTRICT out, size_t out_length);

/* ---- Keys */

/* Returns the key of a user with short-term credentials (section 9.1.1), which is the password
 * itself without the zero byte at its end. The length of the key is therefore strlen(password). */
STUNP_INLINED const uint8_t *stunp_short_term_key(const char *password);

/* Derives the long-term key of a user in a realm (section 9.2.2), and writes it to the front of
 * `out`. The key is a hash of `username:realm:password`: the MD5 hash for STUNP_SHA1, and the
 * SHA-256 hash for STUNP_SHA256.
 *
 *     uint8_t key[STUNP_SHA256_KEY_LENGTH];
 *     int64_t key_length = stunp_long_term_key(STUNP_SHA1, "alice", 5, "example.org", 11,
 *                                              "wonderland", 10, key, sizeof key);
 *     if (key_length > 0 && stunp_is_signed(message, length, key, (size_t)key_length))
 *         ..                  // somebody who knows this password signed the message
 *
 * Returns the length of the key, 16 or 32. Errors:
 *   STUNP_BAD_ARGUMENT      `algorithm` is neither STUNP_SHA1 nor STUNP_SHA256
 *   STUNP_NOT_TEXT          one of the three texts is not UTF-8
 *   STUNP_BUFFER_TOO_SMALL  the key does not fit into `out` */
STUNP_USE_RESULT STUNP_READS(2, 3) STUNP_READS(4, 5) STUNP_READS(6, 7) STUNP_WRITES(8, 9)
int64_t stunp_long_term_key(stunp_algorithm algorithm, const char *username, size_t username_length,
                            const char *realm, size_t realm_length, const char *password,
                            size_t password_length, uint8_t *out, size_t out_length);

/* Makes the value of USERHASH for a user in a realm (section 14.4): the SHA-256 hash of
 * `username:realm`. Writes it to the front of `out`.
 *
 * Returns the length of the hash, 32. Errors:
 *   STUNP_NOT_TEXT          one of the two texts is not UTF-8
 *   STUNP_BUFFER_TOO_SMALL  `out_length` is less than 32 */
STUNP_USE_RESULT STUNP_READS(1, 2) STUNP_READS(3, 4) STUNP_WRITES(5, 6)
int64_t stunp_userhash(const char *username, size_t username_length, const char *realm,
                       size_t realm_length, uint8_t *out, size_t out_length);

/* ---- Packets and streams */

/* Checks whether a packet is STUN, on a port that other protocols use too. A packet is STUN if it
 * starts with a STUN header, whose first byte is 0 to 3 (section 7; RFC 7983, section 7).
 *
 * Returns 1 if the packet is STUN, and 0 if it is not. Never fails. */
STUNP_USE_RESULT STUNP_READS(1, 2)
int64_t stunp_is_stun(const uint8_t *packet, size_t length);

/* Messages in a stream, such as TCP (section 6.2.2)
 *
 * The three calls below find the end of the first message in a stream. Pass all the bytes that you
 * have, beginning with the first byte of a message. The result is a number of bytes:
 *
 * - If you have at least that many bytes, it is the length of the first message.
 * - If you have fewer bytes, it is a lower bound on the length of the first message. Read more
 *   bytes, and call again after each read: the call fails as soon as one byte shows that no message
 *   starts here. This can be the first byte, the fourth, or a byte of the magic cookie (RFC 8489,
 *   section 5).
 *
 * So a reader works like this:
 *
 *     while ((wanted = stunp_next_frame(bytes, length)) > 0 && (size_t)wanted <= length)
 *         ..                  // remove the first `wanted` bytes
 *     if (wanted < 0) ..      // close the connection: it is not STUN
 *                             // or else read on, up to `wanted` bytes
 *
 * These calls read the length of a message from its header. Call stunp_parse or stunp_walk to check
 * that the attributes of the message are complete. */

/* Finds the end of the first STUN message.
 *
 * Returns 20 or more: the length of the message if `length` is at least that, and otherwise a lower
 * bound on the length of the message. Errors:
 *   STUNP_NOT_STUN  no message starts with these bytes, whatever bytes follow */
STUNP_USE_RESULT STUNP_READS(1, 2)
int64_t stunp_next_frame(const uint8_t *bytes, size_t length);

/* Finds the end of the first packet in a stream in which each packet follows 2 bytes that state its
 * length, as in ICE over TCP (RFC 4571, section 2). The packet need not be STUN.
 *
 * Returns 2 or more: the length of the packet, including these 2 bytes, if `length` is at least
 * that, and otherwise a lower bound on the length of the packet. For an empty packet the result is
 * 2. Never fails. */
STUNP_USE_RESULT STUNP_READS(1, 2)
int64_t stunp_next_packet_frame(const uint8_t *bytes, size_t length);

/* Finds the end of the first STUN message or ChannelData message, as TURN sends them over TCP (RFC
 * 8656, sections 12.4 and 12.5). The message is ChannelData if the first byte is 0x40 to 0x7F. RFC
 * 5766 allows all channels with such a first byte, and RFC 8656 only those from 0x4000 to 0x4FFF.
 *
 * Returns 4 or more: the length of the message if `length` is at least that, and otherwise a lower
 * bound on the length of the message. The length of ChannelData includes its header of 4 bytes and
 * its padding to a multiple of 4. Errors:
 *   STUNP_NOT_STUN  no message starts with these bytes, whatever bytes follow */
STUNP_USE_RESULT STUNP_READS(1, 2)
int64_t stunp_next_turn_frame(const uint8_t *bytes, size_t length);

/* ---- TURN (RFC 8656) */

/* Writes a ChannelData message (RFC 8656, section 12.4) to the front of `out`: the number of the
 * channel, the length of the data, and the data.
 *
 * Over TCP, pass true for `is_padded`: the call then pads the message with zero bytes to a multiple
 * of 4 bytes (section 12.5). Over UDP no padding is needed. The channels of RFC 8656 are 0x4000 to
 * 0x4FFF. The call also writes channels up to 0x7FFF, because a client of RFC 5766 may have bound
 * one of these.
 *
 * Returns the number of bytes written: 4, plus the length of the data, plus up to 3 bytes of
 * padding. Errors:
 *   STUNP_BAD_ARGUMENT      `channel` is not from 0x4000 to 0x7FFF
 *   STUNP_MESSAGE_TOO_LONG  there are more than 65535 bytes of data
 *   STUNP_BUFFER_TOO_SMALL  the bytes do not fit into `out` */
STUNP_USE_RESULT STUNP_READS(2, 3) STUNP_WRITES(5, 6)
int64_t stunp_build_channel_data(uint32_t channel, const void *STUNP_RESTRICT data,
                                 size_t data_length, bool is_padded, uint8_t *STUNP_RESTRICT out,
                                 size_t out_length);

/* Reads a ChannelData message (RFC 8656, section 12.4) from a datagram, or from a frame that
 * stunp_next_turn_frame has found in a stream.
 *
 *     uint16_t channel;
 *     size_t data_length;
 *     int64_t place = stunp_read_channel_data(bytes, length, &channel, &data_length);
 *     if (place > 0) use(channel, bytes + place, data_length);
 *
 * Bytes after the data are ignored, because a sender may pad a datagram too.
 *
 * Returns the offset of the data, which is 4. Writes the number of the channel, 0x4000 to 0x7FFF,
 * to `*channel`, and the length of the data to `*data_length`. Errors:
 *   STUNP_TRUNCATED  there are fewer than 4 bytes
 *   STUNP_NOT_STUN   the first byte is not from 0x40 to 0x7F, so this is not ChannelData
 *   STUNP_TRUNCATED  there are fewer bytes of data than the header states */
STUNP_USE_RESULT STUNP_READS(1, 2) STUNP_NOT_NULL(3, 4)
int64_t stunp_read_channel_data(const uint8_t *bytes, size_t length, uint16_t *channel,
                                size_t *data_length);

/* Returns the channel in the first visible CHANNEL-NUMBER of a message (RFC 8656, section 18.1), a
 * number from 0x4000 to 0x7FFF. RFC 8656 has only channels up to 0x4FFF.
 *
 * Errors:
 *   STUNP_TRUNCATED, STUNP_NOT_STUN, STUNP_TOO_LARGE
 *                              the bytes are not one whole message (stunp_parse)
 *   STUNP_MISSING_ATTRIBUTE    no CHANNEL-NUMBER is visible
 *   STUNP_MALFORMED_ATTRIBUTE  its value does not have 4 bytes, or its channel is not from 0x4000
 *                              to 0x7FFF */
STUNP_USE_RESULT STUNP_READS(1, 2)
int64_t stunp_channel_number(const uint8_t *message, size_t length);

/* Returns the number of the protocol in the first visible REQUESTED-TRANSPORT of a message (RFC
 * 8656, section 18.8): 17 for UDP, and 6 for TCP (RFC 6062).
 *
 * Errors:
 *   STUNP_TRUNCATED, STUNP_NOT_STUN, STUNP_TOO_LARGE
 *                              the bytes are not one whole message (stunp_parse)
 *   STUNP_MISSING_ATTRIBUTE    no REQUESTED-TRANSPORT is visible
 *   STUNP_MALFORMED_ATTRIBUTE  its value does not have 4 bytes */
STUNP_USE_RESULT STUNP_READS(1, 2)
int64_t stunp_requested_transport(const uint8_t *message, size_t length);

/* Appends CHANNEL-NUMBER, with the number of a channel in its first 2 bytes. The channels of RFC
 * 8656 are 0x4000 to 0x4FFF (section 12). For a request of a stunp_endpoint_client, call
 * stunp_body_add_channel_number instead. */
STUNP_INLINED void stunp_write_channel_number(stunp_writer *writer, uint16_t channel);

/* Appends REQUESTED-TRANSPORT, with the number of a protocol in its first byte, such as 17 for UDP.
 * For a request of a stunp_endpoint_client, call stunp_body_add_requested_transport instead. */
STUNP_INLINED void stunp_write_requested_transport(stunp_writer *writer, uint8_t protocol);

/* ---- Memory of the exported library */

/* A function that allocates `length` bytes, like malloc: returns their address, a multiple of 16,
 * or null. */
typedef void *(*stunp_allocate)(size_t length);
/* A function that resizes a block, like realloc: returns its address, a multiple of 16, or returns
 * null and leaves the block unchanged. */
typedef void *(*stunp_resize)(void *at, size_t length);
/* A function that frees a block, like free. */
typedef void (*stunp_release)(void *at);

/* Sets the functions with which the exported library allocates, in place of malloc, realloc and
 * free. Call it once, before any other call and before your program has several threads:
 *
 *     if (stunp_set_memory(je_malloc, je_realloc, je_free) < 0) abort();
 *
 * The functions must return, so they must not leave through longjmp or an exception, and they must
 * not call this library. Any thread that calls the library may call them, also at the same time as
 * other threads. The library never passes a length of 0 or above PTRDIFF_MAX. If `allocate` returns
 * an address that is not a multiple of 16, the block is freed, and the call fails with
 * STUNP_OUT_OF_MEMORY. Blocks contain passwords and keys, and the library does not overwrite them
 * before it frees or resizes them.
 *
 * The proved archives do not have this call: they allocate with three functions of your program
 * (stunp_endpoint.h). If the program has these functions, the exported library uses them too, unless
 * the program has called stunp_set_memory.
 *
 * Returns 0. Errors:
 *   STUNP_BAD_ARGUMENT         one of the three is null
 *   STUNP_ALREADY_IN_PROGRESS  the library has allocated already, or stunp_set_memory was called
 *                              before */
STUNP_USE_RESULT
int64_t stunp_set_memory(stunp_allocate allocate, stunp_resize resize, stunp_release release);

/* ---- Errors and versions */

/* Writes an English text for the result of a call to the front of `out`, with a zero byte at its
 * end. The text is "no error" for 0 or more, the cause for a stunp_refusal, and "unknown refusal"
 * for any other negative number.
 *
 * Returns the number of bytes written, including the zero byte, at most STUNP_LONGEST_ERROR_TEXT.
 * Errors:
 *   STUNP_BUFFER_TOO_SMALL  the text does not fit into `out` */
STUNP_WRITES(2, 3)
int64_t stunp_error_text(int64_t answer, uint8_t *out, size_t out_length);

/* Returns the text that stunp_error_text writes for the result of a call. The text is static: do
 * not free it. */
STUNP_INLINED const char *stunp_strerror(int64_t answer);

/* Returns the version of the archive, which equals STUNP_VERSION if the header and the archive come
 * from the same release. Never fails. */
int64_t stunp_version(void);

/* Returns whether the library is proved: true for the archives that `rt lib` builds, and false for
 * the libraries that `make lib` builds, which are exported from the same sources and tested. Never
 * fails. */
bool stunp_is_proved(void);

/* Returns the version of the archive like stunp_version, but under a name that changes with each
 * release that breaks compatibility.
 *
 * If you define STUNP_CHECK_RELEASE before you include this header, the compiled file refers to
 * that name, so a program that was compiled for another release does not link to the archive.
 * Compilers other than GCC and clang do not make this check. With the shared library you do not
 * need it, because the loader makes the check. */
int64_t stunp_release_0_3(void);
#if defined __GNUC__ && defined STUNP_CHECK_RELEASE
static int64_t (*const stunp_release_wanted)(void) __attribute__((used)) = stunp_release_0_3;
#endif

#if STUNP_INLINE_CALLS
#include "stunp_inline.h"
#endif

#ifdef __cplusplus
}
#endif

#endif
