/* stunp_endpoint.h: STUN endpoints (RFC 8489), for C, C++ and Rust
 *
 * stunp.h reads and writes single messages. This header has whole endpoints. For a server, and for
 * the connectivity checks of ICE (RFC 8445), one call judges a datagram and writes the answer. A
 * client reports what to send and when, and how each request ended. Most programs need only this
 * header.
 *
 *   stunp_endpoint_server  the settings of a server: with long-term, short-term or no credentials
 *   stunp_endpoint_users   the users of a server, each with a password or with stored keys
 *   stunp_reply            the data with which you answer a request, now or later, on any thread
 *   stunp_ice_checker      an ICE agent, with its role and the credentials of both sides
 *   stunp_ice_check        the data of a check that was sent, which you store with its pair
 *   stunp_ice_checks       the outstanding checks of an agent, with their timers
 *   stunp_ice_candidate    a candidate, which can be read from a line of SDP and written as one
 *   stunp_endpoint_client  a client of one server, with any number of requests
 *   stunp_body             the attributes of a request of a client
 *   stunp_request_options  how a single request of a client is sent, and which address answers it
 *
 * stunp_endpoint_server_receive judges a datagram at a server: it writes the answer, or returns an
 * accepted request to you. stunp_ice_checker_receive judges a datagram at an ICE agent: it writes
 * the answer to a check of the peer, or returns how one of your checks ended.
 *
 * No call performs I/O. You own the sockets, the clock, the threads and the random numbers.
 * stunp_sockaddr.h converts the addresses of sockets from and to stunp_address, and stunp_log.h
 * describes a datagram in one line of text. A section number without an RFC means RFC 8489, or RFC
 * 8445 in the parts about ICE.
 *
 *
 * A server
 *
 * `serve` answers a datagram, and returns the length of the answer in `out`, or 0 if there is
 * nothing to send. It is a whole server: it challenges clients (401), sends them new nonces (438),
 * and refuses requests that are malformed (400) or have unknown attributes (420). Each answer to an
 * accepted request is signed, and so is a 420. An answer ends with FINGERPRINT if its request does.
 *
 *     #include "stunp_endpoint.h"
 *
 *     // Sets up a server of one user. `secret` is 32 random bytes. Both handles begin as {0}; free
 *     // both after an error too.
 *     int64_t set_up(stunp_endpoint_server *server, stunp_endpoint_users *users,
 *                    const uint8_t *secret) {
 *         stunp_endpoint_server_settings settings = STUNP_INIT(stunp_endpoint_server_settings);
 *         settings.realm = "example.org";
 *         settings.secret = secret;
 *         settings.answers_binding = true; // the server answers Binding requests itself
 *         int64_t answer = stunp_endpoint_server_new(server, &settings);
 *         if (answer >= 0) answer = stunp_endpoint_users_new(users, server);
 *         if (answer >= 0) answer = stunp_endpoint_users_add(users, "alice", 5, "wonderland", 10);
 *         return answer;
 *     }
 *
 *     size_t serve(const stunp_endpoint_server *server, const stunp_endpoint_users *users,
 *                  const uint8_t *bytes, size_t length, const stunp_address *from,
 *                  uint64_t unix_seconds, uint8_t *out, size_t room) {
 *         stunp_received received = STUNP_INIT(stunp_received);
 *         int64_t kind = stunp_endpoint_server_receive(server, users, bytes, length, from,
 *                                                      unix_seconds, out, room, &received);
 *         if (kind == STUNP_ANSWER) return received.length;
 *         // Dropped: see received.why. If kind is negative, an error: see stunp_strerror(kind).
 *         if (kind != STUNP_IS_REQUEST) return 0;
 *         // A request of the user in received.name, for which this server has no answer. A TURN
 *         // server would look at received.method.
 *         stunp_writer answer = stunp_reply_error(&received.reply, 400, "Bad Request", out, room);
 *         int64_t written = stunp_reply_finish(&received.reply, &answer);
 *         stunp_reply_wipe(&received.reply);
 *         return written < 0 ? 0 : (size_t)written;
 *     }
 *
 * examples/c/endpoint_server.c is this server with a socket. To count or to log why requests are
 * refused, call stunp_endpoint_server_receive_with_cause in place of stunp_endpoint_server_receive.
 *
 *
 * Servers with short-term credentials, or with none
 *
 * These servers use the same handle and the same calls, but a different value of `credentials` in
 * the settings. They have no realm and no nonces, so leave the fields that are marked with (realm)
 * at 0 or null.
 *
 * A server with STUNP_NO_CREDENTIALS answers everybody, and signs nothing. It has no users, so pass
 * null in place of the users.
 *
 *     // Sets up a public server. The handle begins as {0}. After that, `serve` is called as above,
 *     // with null in place of the users.
 *     int64_t set_up_openly(stunp_endpoint_server *server) {
 *         stunp_endpoint_server_settings settings = STUNP_INIT(stunp_endpoint_server_settings);
 *         settings.credentials = STUNP_NO_CREDENTIALS;
 *         settings.answers_binding = true;
 *         return stunp_endpoint_server_new(server, &settings);
 *     }
 *
 * A server with STUNP_SHORT_TERM accepts each message that is signed with the password of the user
 * whom the message names. Short-term credentials are made for one session: add the user when the
 * session begins, and remove the user when it ends (stunp_endpoint_users_add and _remove).
 * Indications must be signed too.
 *
 *
 * What a server stores
 *
 * A server stores nothing about its clients. The nonce of a client is a function of the secret, the
 * client's address and the time, so a flood of datagrams uses no memory, and does not shut out
 * other clients. Whether a datagram is accepted depends on the datagram, its source, the time, the
 * settings and the users, and on no earlier datagram. A server that starts again with the same
 * secret serves its old clients at once, and several machines with the same settings and users can
 * answer each other's clients. If the clocks of the machines differ by less than a nonce lifetime,
 * a client that moves away from a machine whose clock is ahead may get an additional 438.
 *
 * If a nonce was not made for the client's current address, the server answers 438 with a new
 * nonce, and the client continues with the new one.
 *
 *
 * Users in a database
 *
 * If your server looks users up one by one, a datagram is judged in two steps. The first call,
 * stunp_endpoint_server_identify, judges the datagram as far as is possible without its user, and
 * returns STUNP_LOOKUP for a request whose user you have to look up. The second call,
 * stunp_endpoint_server_resume, judges the request with the user that you found, or with no user.
 * It judges the whole request again, so pass it the same bytes, address and time. Only a request
 * with a nonce that this server made for the source address of the request causes a look-up. So an
 * attacker who invents a nonce causes no look-up, and an attacker who forges a source address
 * causes one only if he has seen a nonce that was sent to that address. A slow look-up does not
 * make a nonce stale, because the request is judged by the time at which it arrived.
 *
 *     // `find` looks a user up by name, or by the hash of the name (stunp_userhash), and sets the
 *     // name and the password or the keys. It returns false if there is no such user.
 *     size_t serve_looked_up(const stunp_endpoint_server *server,
 *                            bool (*find)(const stunp_received *named, stunp_found_user *found),
 *                            const uint8_t *bytes, size_t length, const stunp_address *from,
 *                            uint64_t unix_seconds, uint8_t *out, size_t room) {
 *         stunp_received received = STUNP_INIT(stunp_received);
 *         int64_t kind = stunp_endpoint_server_identify(server, bytes, length, from, unix_seconds,
 *                                                       out, room, &received);
 *         if (kind == STUNP_LOOKUP) {
 *             stunp_found_user found = STUNP_INIT(stunp_found_user);
 *             bool is_there = find(&received, &found);
 *             kind = stunp_endpoint_server_resume(server, is_there ? &found : NULL, bytes, length,
 *                                                 from, unix_seconds, out, room, &received);
 *         }
 *         return kind == STUNP_ANSWER ? received.length : 0; // else as in `serve`
 *     }
 *
 *
 * A connectivity check of ICE, both ways
 *
 * An agent sends a check on a pair of candidates, and answers the checks of its peer (RFC 8445,
 * sections 7.2 and 7.3). You manage the candidates, the pairs, and the order and pacing of checks.
 * You also manage the retransmissions, unless you leave them to stunp_ice_checks, as most agents
 * do. The functions below show a check without stunp_ice_checks.
 *
 *     // The remote candidate of a pair, and the check that is in progress for the pair.
 *     struct ice_pair {
 *         stunp_address remote;
 *         stunp_ice_check check;
 *         bool is_checking, is_valid, is_nominated, is_to_be_checked;
 *     };
 *
 *     // Writes a check, and returns its length. Send the check, and retransmit it until its answer
 *     // arrives. `id` is 12 random bytes that no other check has.
 *     int64_t check_pair(stunp_ice_checker *agent, struct ice_pair *pair, const uint8_t *id,
 *                        bool nominate, uint8_t *out, size_t room) {
 *         const uint32_t priority = stunp_ice_priority(STUNP_ICE_PEER_REFLEXIVE, 65535, 1);
 *         int64_t length = stunp_ice_checker_check(agent, id, &pair->remote, priority, nominate, out,
 *                                                  room, &pair->check);
 *         if (length >= 0) pair->is_checking = true, pair->is_to_be_checked = false;
 *         return length;
 *     }
 *
 *     // Reads a datagram that came on a pair. Returns the length of the answer in `out`, or 0.
 *     size_t read_on_pair(stunp_ice_checker *agent, struct ice_pair *pair, const uint8_t *bytes,
 *                         size_t length, const stunp_address *from, uint8_t *out, size_t room) {
 *         stunp_ice_received got = STUNP_INIT(stunp_ice_received);
 *         int64_t kind = stunp_ice_checker_receive(agent, bytes, length, from,
 *                                                  pair->is_checking ? &pair->check : NULL, out,
 *                                                  room, &got);
 *         if (kind == STUNP_ANSWER && got.outcome == STUNP_ICE_ACCEPTED) {
 *             pair->is_nominated |= got.nominated;
 *             pair->is_to_be_checked = !pair->is_valid;
 *         } else if (kind == STUNP_IS_RESPONSE) {
 *             pair->is_checking = false, pair->is_valid = got.outcome == STUNP_ICE_VALID;
 *             pair->is_nominated |= pair->is_valid && pair->check.nominates;
 *             // Before the next check: stunp_ice_checker_set_tie_breaker with a new random number.
 *             pair->is_to_be_checked = got.outcome == STUNP_ICE_CONFLICT;
 *         } // else dropped: see got.why; or kind < 0, an error: see stunp_strerror(kind)
 *         return kind == STUNP_ANSWER ? got.length : 0;
 *     }
 *
 * examples/c/ice_check.c adds candidates, pairs and pacing, and examples/c/ice_pair.c has two
 * agents that check one pair with stunp_ice_checks. docs/ICE.md in the repository describes the
 * steps of an agent, from the offer to consent.
 *
 * The side that makes an offer often receives checks before it receives the answer to the offer,
 * and has to answer these checks at once (section 7.3). Leave `peer_name` and `peer_password` in
 * its settings null, and call stunp_ice_checker_set_peer when the answer has arrived. The agent
 * writes checks only from then on, but it answers checks of the peer from the start.
 *
 *
 * A client
 *
 * A client of one server sends requests and retransmits them, answers the challenges of the server,
 * and verifies its responses. Each request ends exactly once. `my_address` asks a server for the
 * address of a socket, as the server sees it. `seed` is 32 random bytes, from which the client
 * derives the transaction IDs. Call `my_address` from one thread at a time, because `bytes` is
 * static.
 *
 *     #include <poll.h>
 *     #include <sys/socket.h>
 *     #include <time.h>
 *
 *     uint64_t now_of_client(void) { // a clock that never goes back, in nanoseconds
 *         struct timespec now;
 *         clock_gettime(CLOCK_MONOTONIC, &now);
 *         return (uint64_t)now.tv_sec * 1000000000 + (uint64_t)now.tv_nsec;
 *     }
 *
 *     // The socket is connected to the server. Returns 4 or 16, the length of the address; 0 if
 *     // the server did not answer or refused; or an error.
 *     int64_t my_address(int fd, const stunp_address *server, const uint8_t *seed,
 *                        stunp_address *seen) {
 *         static uint8_t bytes[STUNP_LONGEST_MESSAGE];
 *         stunp_endpoint_client client = {false, NULL};
 *         stunp_event event = STUNP_INIT(stunp_event);
 *         stunp_endpoint_client_settings settings = STUNP_INIT(stunp_endpoint_client_settings);
 *         settings.server = *server, settings.seed = seed;
 *         int64_t kind = stunp_endpoint_client_new(&client, &settings);
 *         if (kind >= 0)
 *             kind = stunp_endpoint_client_request(&client, STUNP_BINDING, NULL, now_of_client(),
 *                                                  NULL);
 *         while (kind >= 0 && kind != STUNP_ENDED) {
 *             kind = stunp_endpoint_client_poll(&client, now_of_client(), bytes, sizeof bytes,
 *                                               &event);
 *             if (kind == STUNP_TRANSMIT) send(fd, bytes, event.length, 0); // if lost, sent again
 *             if (kind != STUNP_WAIT) continue;
 *             struct pollfd one = {fd, POLLIN, 0};
 *             poll(&one, 1, stunp_poll_timeout(&event, now_of_client()));
 *             // If recv fails with ECONNREFUSED, nobody serves that port, and you may stop here.
 *             ssize_t length = recv(fd, bytes, sizeof bytes, MSG_DONTWAIT);
 *             if (length > 0)
 *                 (void)stunp_endpoint_client_receive(&client, bytes, (size_t)length, server,
 *                                                     now_of_client(), NULL);
 *         }
 *         if (kind == STUNP_ENDED) // else an error: see stunp_strerror(kind)
 *             kind = event.result != STUNP_RESULT_SUCCESS ? 0 : stunp_xor_mapped_address(
 *                 bytes, event.length, seen->octets, sizeof seen->octets, &seen->port);
 *         if (kind > 0) seen->length = (uint16_t)kind;
 *         stunp_endpoint_client_free(&client);
 *         return kind;
 *     }
 *
 * examples/c/my_address.c is this client with its socket. To send requests as a user, set `name`
 * and `password` in the settings too, as examples/c/udp_client.c does. With long-term credentials,
 * a client learns the realm and the nonce from the server's first challenge. Later requests are
 * signed from the first transmission on, as a rule for the challenge that the client answered last
 * (row 12 of "The client's rule" in docs/DIFFERENCES.md).
 *
 * examples/c/turn_client.c is a session at a TURN server. Use one client and one socket for all
 * requests of an allocation. Many TURN servers, such as coturn, do not sign Binding responses, so
 * ask for your address with a request that is not signed (stunp_endpoint_client_request_as). Read
 * the response in `bytes` with the calls of stunp.h before you poll again: stunp_find_xor_address
 * with STUNP_XOR_RELAYED_ADDRESS, and stunp_find_number with STUNP_LIFETIME, which is in seconds.
 * The client does not refresh an allocation: start a STUNP_REFRESH request before the lifetime of
 * the allocation ends (stunp_keepalive_before).
 *
 * A buffer of STUNP_LONGEST_MESSAGE bytes has room for any message. A smaller buffer is enough if
 * your requests and the datagrams that you pass to the client all fit into it.
 *
 *
 * The calls, in the order of this file
 *
 *   server: stunp_endpoint_server_new_with, stunp_endpoint_server_new_short_term,
 *    stunp_endpoint_server_new_open, stunp_endpoint_server_new, stunp_endpoint_server_clear,
 *    stunp_endpoint_server_free
 *   users: stunp_endpoint_users_new_own, stunp_endpoint_users_new, stunp_endpoint_users_add,
 *    stunp_endpoint_users_add_keys, stunp_endpoint_users_remove, stunp_endpoint_users_clear,
 *    stunp_endpoint_users_free, stunp_endpoint_users_new_found
 *   datagrams: stunp_endpoint_server_receive_own, stunp_endpoint_server_receive, stunp_drop_text,
 *    stunp_endpoint_server_receive_with_cause_own, stunp_endpoint_server_receive_with_cause,
 *    stunp_endpoint_server_receive_many,
 *    stunp_endpoint_server_cause_own, stunp_endpoint_server_cause, stunp_cause_text
 *   look-ups: stunp_endpoint_server_identify_own, stunp_endpoint_server_identify,
 *    stunp_endpoint_server_resume_own, stunp_endpoint_server_resume,
 *    stunp_endpoint_server_cause_for
 *   replies: stunp_reply_success, stunp_reply_error, stunp_reply_finish, stunp_reply_wipe
 *   ICE: stunp_ice_checker_new_with, stunp_ice_checker_offer_with, stunp_ice_checker_new,
 *    stunp_ice_checker_set_peer_with, stunp_ice_checker_set_peer, stunp_ice_checker_clear,
 *    stunp_ice_checker_free, stunp_ice_checker_is_controlling, stunp_ice_checker_controls,
 *    stunp_ice_checker_set_role, stunp_ice_checker_set_tie_breaker, stunp_ice_checker_check_with,
 *    stunp_ice_checker_check, stunp_ice_checker_receive_with, stunp_ice_checker_receive
 *   ICE, around checks: stunp_ice_find_sender, stunp_ice_priority, stunp_ice_pair_priority,
 *    stunp_ice_consent_from, stunp_ice_consent_poll, stunp_ice_consent_answered,
 *    stunp_ice_consent_until
 *   clients: stunp_endpoint_client_new_with, stunp_endpoint_client_new,
 *    stunp_endpoint_client_clear, stunp_endpoint_client_free
 *   clients, requests: stunp_body_on, stunp_body_put, stunp_body_add, stunp_body_add_number,
 *    stunp_body_add_peer, stunp_body_add_requested_transport, stunp_body_add_channel_number,
 *    stunp_body_add_requested_family, stunp_endpoint_client_request_with,
 *    stunp_endpoint_client_request, stunp_endpoint_client_request_as_with,
 *    stunp_endpoint_client_request_as,
 *    stunp_endpoint_client_receive_with, stunp_endpoint_client_receive,
 *    stunp_endpoint_client_poll_with, stunp_endpoint_client_poll, stunp_poll_timeout,
 *    stunp_endpoint_client_cancel, stunp_endpoint_client_try_cancel, stunp_endpoint_client_dropped,
 *    stunp_result_text
 *   ICE, checks with further attributes: stunp_ice_checker_check_body_with,
 *    stunp_ice_checker_check_body
 *   ICE, checks with their timers: stunp_ice_checks_on, stunp_ice_checks_start,
 *    stunp_ice_checks_receive, stunp_ice_checks_poll, stunp_ice_checks_until,
 *    stunp_ice_checks_find, stunp_ice_checks_outstanding, stunp_ice_checks_stop_sending,
 *    stunp_ice_checks_cancel
 *   ICE, lines of candidates: stunp_ice_candidate_read, stunp_ice_candidate_extension,
 *    stunp_ice_candidate_write
 *   keepalives: stunp_keepalive_every, stunp_keepalive_before, stunp_keepalive_is_due,
 *    stunp_keepalive_until
 *   versions: stunp_endpoint_version, stunp_endpoint_release_0_3
 *
 *
 * Linking
 *
 * - Proved (needs `rt`): libstunp_endpoint.a, libstunp.a for the messages themselves (stunp.h), and
 *   libstunp_heap.a (heap.c) or an allocator of your own (rattle_alloc below). `rt lib` in
 *   crates/stun_c_endpoint proves and builds out/libstun_c_endpoint.a, which `make install`
 *   installs as libstunp_endpoint.a. In addition to these three libraries, a program needs only
 *   what every C compiler has: memcpy, memmove, memset, and __udivti3 and __umodti3 of its
 *   runtime.
 * - Exported (`make lib`): libstunp.so or libstunp.a, each of which has the calls of both
 *   headers, stunp.h and this one.
 *
 * The pkg-config file stunp_endpoint and the CMake target stunp::stunp_endpoint name the libraries
 * that are installed.
 *
 *
 * Memory and errors
 *
 * Calls read their arguments only during the call, and copy what is needed later. Only a
 * stunp_body, a stunp_writer, a stunp_ice_checks and a stunp_ice_candidate point to memory of
 * yours. An output must not overlap any other argument. A pointer that is passed with a length may
 * be null only if the length is 0. A pointer to a result may be
 * null, unless the description of the call or STUNP_NOT_NULL says otherwise.
 *
 * Texts are UTF-8 and are used as they are. RFC 8489 asks you to prepare them with OpaqueString
 * first (RFC 8265). A text that is passed without a length must end with a zero byte.
 *
 * A call that fails returns a negative stunp_refusal, for which stunp_strerror has a text, and
 * changes nothing, unless its description says otherwise. A call tests for its errors in the order
 * in which its description lists them: if several apply, it returns the first one.
 *
 * If you pass a length above PTRDIFF_MAX, such as the -1 of a recv that failed, a call of the
 * exported library fails with STUNP_BAD_ARGUMENT before it tests for any other error, and reads and
 * writes nothing there. The proved archives do so for the length of a datagram, and leave all other
 * lengths to you.
 *
 * The library does not overwrite passwords and keys before it frees them. If an attacker may read
 * memory that was freed, use an allocator that overwrites each block (stunp_set_memory of stunp.h,
 * or rattle_alloc below), as libstunp_heap.a does.
 *
 *
 * Handles
 *
 * Initialize each handle with {0}, which makes it empty: a _new call fills it, and a _free call
 * empties it. A call with a handle that was never initialized has undefined behavior. If a handle
 * of this header has a value of another kind, a _new call fails with STUNP_FULL_HANDLE, a
 * _free call frees the value, and any other call fails with STUNP_WRONG_HANDLE. If a call takes a
 * server or a table of users as const, a null pointer counts as an empty handle. All other pointers
 * to handles must not be null, except in a _free call. The _own calls take a copy of a handle (see
 * Threads). No call detects that the value of a handle was freed through a copy of the handle.
 *
 *
 * Threads
 *
 * The settings of a server never change, so any number of threads may pass one handle as const at
 * the same time. Call stunp_endpoint_server_free only after every thread has stopped using the
 * handle. Many threads may pass a table of users as const at the same time; while one thread
 * changes the table, no other thread may use it. To reload the users, fill another table, let the
 * threads use it from their next datagram on, and free the old table once every thread has begun a
 * datagram with the new one. Use an ICE agent or a client in one thread at a time.
 *
 * Make no call in a signal handler, nor in the child of a process that had several threads when it
 * forked. After any other fork, both processes may go on using a server and its users. But only one
 * of them may go on using a client, because both copies would make the same transaction IDs.
 *
 * It is not proved that threads may share a handle, but it is tested with a race detector. It is
 * proved that a call does not change its handles if nothing else uses them during the call. The
 * calls whose names end in _own need handles that nothing else uses; a copy of the two fields is
 * enough. The calls without _own make this copy themselves and write nothing through a const
 * pointer, so prefer these.
 *
 *
 * Time and random numbers
 *
 * No call reads a clock or a source of random numbers. A server takes the time of the wall clock,
 * in seconds since 1970. A client, a stunp_ice_checks, a stunp_ice_consent and a stunp_keepalive
 * take nanoseconds of a clock that never goes back, such as CLOCK_MONOTONIC.
 *
 * Random numbers must be unpredictable, for example from getrandom. You need 32 bytes for the
 * secret of a server, 32 for the seed of each client, 12 for the ID of each check of ICE, and 8 for
 * a tie-breaker.
 */
#ifndef STUNP_ENDPOINT_H
#define STUNP_ENDPOINT_H

#include "stunp.h"

#ifdef __cplusplus
extern "C" {
#endif

/* ---- The allocator
 *
 * The archive allocates with the three functions below, which your program defines once.
 * libstunp_heap.a (heap.c) defines them by malloc, with a limit that you can set. The proofs assume
 * that the functions behave as described here.
 *
 * A program without these functions does not link with the proved archive. The exported libstunp.a
 * and libstunp.so then use malloc, or the functions that the program passes to stunp_set_memory
 * (stunp.h), which is the simpler way to replace malloc. If the program has only one or two of the
 * three, each call that allocates fails with STUNP_OUT_OF_MEMORY.
 *
 * The exported libraries find the three functions in any object file of the program, in whatever
 * order it is linked. But they refer to the functions weakly, and a linker takes no object file
 * from a static library for a weak reference. So if your three functions are in a static library,
 * link with -Wl,-u,rattle_alloc, as the pkg-config file of stunp_heap does. If they are in a shared
 * library of your own, put -Wl,--no-as-needed before this library. libstunp.so finds only functions
 * that the program exports: if you compile with -fvisibility=hidden, give the three functions the
 * attribute `visibility("default")`. Otherwise the library calls malloc in their place.
 *
 * If an allocation fails, the call fails with STUNP_OUT_OF_MEMORY. The functions must return, so
 * they must not leave through longjmp or an exception, and they must not make a call on a handle.
 * Every thread that uses a handle calls them, possibly at the same time as other threads.
 *
 * Blocks contain passwords and keys, and the archive does not overwrite them before it frees or
 * moves them. An allocator that stores the length of each block can overwrite them, as heap.c does.
 *
 * The toolchain that builds the archive fixes the three names, so two archives of this toolchain in
 * one program share these functions. To give an archive functions of its own, rename them in a copy
 * of the archive, and in your definitions:
 *
 *   objcopy --redefine-sym rattle_alloc=mine_alloc --redefine-sym rattle_realloc=mine_realloc \
 *    --redefine-sym rattle_dealloc=mine_dealloc libstunp_endpoint.a mine.a */

/* The result of an allocation. If `is_ok` is false the allocation failed, and `at` is not read. */
typedef struct { bool is_ok; void *at; } rattle_allocation;

/* Allocates `length` bytes at an address that is a multiple of `alignment`, which is a power of two
 * up to 16. `length` is neither 0 nor above PTRDIFF_MAX. */
rattle_allocation rattle_alloc(size_t length, size_t alignment);

/* Resizes the block `at`, which came from rattle_alloc or rattle_realloc with this alignment, to
 * `length` bytes, which may be more or fewer than before. The block may move.
 *
 * The first `kept` bytes of the new block must equal the first `kept` bytes of the old block;
 * `kept` is at most `length`. On success the old block is freed. On failure it must stay as it is.
 * `at` is not null, and `length` is neither 0 nor above PTRDIFF_MAX. */
rattle_allocation rattle_realloc(void *at, size_t kept, size_t length, size_t alignment);

/* Frees the block `at`, which is not null. */
void rattle_dealloc(void *at);

/* ---- Types */

/* A handle to a server, whose settings never change. Initialize it with {0};
 * stunp_endpoint_server_new fills it, and stunp_endpoint_server_free empties it. Any number of
 * threads may pass it as const at the same time. Do not write to the fields. A copy of a handle
 * refers to the same object: once you have freed the object through one copy, do not use or free
 * the other copies, because no call detects this mistake. */
typedef struct stunp_endpoint_server { bool is_full; void *state; } stunp_endpoint_server;

/* A handle to a table of users, which was made for a server. Initialize it with {0};
 * stunp_endpoint_users_new fills it, and stunp_endpoint_users_free empties it. Many threads may
 * pass it as const at the same time, or one thread may change it. Do not write to the fields. A
 * copy of a handle refers to the same object: once you have freed the object through one copy, do
 * not use or free the other copies, because no call detects this mistake. */
typedef struct stunp_endpoint_users { bool is_full; void *state; } stunp_endpoint_users;

/* A handle to an ICE agent, which writes connectivity checks and judges the checks of one peer.
 * Initialize it with {0}; stunp_ice_checker_new fills it, and stunp_ice_checker_free empties it.
 * Use it in only one thread at a time. Do not write to the fields. A copy of a handle refers to the
 * same object: once you have freed the object through one copy, do not use or free the other
 * copies, because no call detects this mistake. */
typedef struct stunp_ice_checker { bool is_full; void *state; } stunp_ice_checker;

/* A handle to a client of one server, with the outstanding requests of the client. Initialize it
 * with {0}; stunp_endpoint_client_new fills it, and stunp_endpoint_client_free empties it. Use it
 * in only one thread at a time. Do not write to the fields. A copy of a handle refers to the same
 * object: once you have freed the object through one copy, do not use or free the other copies,
 * because no call detects this mistake. */
typedef struct stunp_endpoint_client { bool is_full; void *state; } stunp_endpoint_client;

/* Sets the size with which a struct of this header begins, and all other fields to 0. Use it as an
 * initializer: `stunp_received received = STUNP_INIT(stunp_received);`. To reset a struct later,
 * assign STUNP_ANEW, which has the same values: `received = STUNP_ANEW(stunp_received);` */
#ifdef __cplusplus
extern "C++" {
template <typename Sized> Sized stunp_of_size() {
    Sized made{};
    made.size = sizeof(Sized);
    return made;
}
}
#define STUNP_INIT(type) stunp_of_size<type>()
#define STUNP_ANEW(type) stunp_of_size<type>()
#else
#define STUNP_INIT(type) {.size = sizeof(type)}
#define STUNP_ANEW(type) ((type)STUNP_INIT(type))
#endif

/* The credentials that a server asks its clients for. */
typedef enum stunp_credentials {
    STUNP_LONG_TERM = 0,     /* the name and the password of a user of a realm, with nonces (section
                              * 9.2) */
    STUNP_SHORT_TERM = 1,    /* the name and the password of one session, without nonces (section
                              * 9.1) */
    STUNP_NO_CREDENTIALS = 2 /* no credentials: the server answers everybody */
} stunp_credentials;

/* The settings of a server. A field that is 0 or null takes its default. The fields that are marked
 * with (realm) must be 0 or null unless `credentials` is STUNP_LONG_TERM.
 *
 *   size                sizeof (stunp_endpoint_server_settings), set by STUNP_INIT
 *   credentials         the credentials that clients need. By default STUNP_LONG_TERM
 *   realm               (realm) the realm, of 1 to 763 bytes. It has no default
 *   secret              (realm) 32 random bytes. Anybody who has them can make nonces that the
 *                       server accepts. It has no default. A secret that is one repeated byte is
 *                       refused, because it was probably never filled
 *   previous_secret     (realm) another secret: the server also accepts nonces that were made from
 *                       it, but never sends such a nonce. When you change the secret, set this to
 *                       the former secret for two nonce lifetimes. It must differ from `secret`,
 *                       and must not be one repeated byte
 *   software            the text of SOFTWARE, of at most 763 bytes, in each answer that the server
 *                       writes. By default answers have no SOFTWARE. Error responses to unsigned
 *                       requests have it too (see below)
 *   understood          the types of attributes that you understand in addition to those of STUN,
 *                       as `understood_count` numbers: for a TURN server STUNP_LIFETIME and so on.
 *                       It may be null only if `understood_count` is 0.
 *                       The server answers a request with a 420 if the request has an attribute of
 *                       any other type that must be understood
 *   nonce_seconds       (realm) for how many seconds the server sends the same nonce to a client,
 *                       from 30 to 2592000 (30 days). After it is sent, a nonce is accepted for one
 *                       to two times as long. By default 3600 (an hour)
 *   algorithms          (realm) the algorithms that the server offers: STUNP_SHA1, STUNP_SHA256, or
 *                       by default both
 *   anonymous_username  (realm) STUNP_DISABLED if clients may not send a hash in place of the user
 *                       name. By default, and with STUNP_REQUIRED, they may
 *   answers_binding     whether the server itself answers an accepted Binding request, with the
 *                       address of the client. By default it returns the request to you
 *   requires_fingerprint  whether the server drops messages without FINGERPRINT (section 7.3). By
 *                       default it accepts them
 *
 * The texts end with a zero byte.
 *
 * To change settings, create another server with the same secret. The tables of users stay, unless
 * `realm` differs: then create a new table (stunp_endpoint_users_new). Nonces depend on
 * `algorithms` and `anonymous_username`, so if one of these differs, each client gets one 401 or
 * 438, and signs its request again. But if you remove STUNP_SHA256 or forbid hashes, a client of
 * this library that has succeeded with HMAC-SHA256 or with a hash drops these challenges
 * (STUNP_DROP_WEAKER_CHALLENGE): its next request times out, and the request after that succeeds. A
 * server that supports only HMAC-SHA1 offers no list of algorithms, and refuses a signed request
 * that has one.
 *
 * An attacker can send requests with the source address of somebody else, who then gets the
 * answers. If the realm has 11 bytes, a request of 20 bytes causes a challenge of 96 bytes, or of
 * 108 with both algorithms. With the headers of IPv4 and UDP, this is up to 2.8 times as many bytes
 * as the request. The challenge grows with the realm and with `software`, each padded to a multiple
 * of four bytes. If the realm and `software` are as long as they may be, the challenge has 1628
 * bytes (34 times as many as the request, with the headers). So keep the realm short. To send the
 * name of your software only to users, leave `software` null and add STUNP_SOFTWARE to the replies
 * that you write. */
typedef struct {
    size_t size;
    stunp_credentials credentials;
    const char *realm;
    const uint8_t *secret;
    const uint8_t *previous_secret;
    const char *software;
    const uint16_t *understood;
    size_t understood_count;
    uint64_t nonce_seconds;
    uint32_t algorithms;
    stunp_feature anonymous_username;
    bool answers_binding;
    bool requires_fingerprint;
} stunp_endpoint_server_settings;

/* The outcome of a datagram, which is the result of stunp_endpoint_server_receive,
 * stunp_ice_checker_receive and stunp_endpoint_client_receive. */
typedef enum stunp_kind {
    STUNP_DROPPED = 0,       /* ignore the datagram: it is dropped, for the reason in `why` */
    STUNP_ANSWER = 1,        /* send the first `length` bytes of the buffer to the address that the
                              * datagram came from */
    STUNP_IS_REQUEST = 2,    /* an accepted request: answer it with `reply`. At a server without
                              * credentials, anybody may have sent it */
    STUNP_IS_INDICATION = 3, /* an indication. With short-term credentials the user in `name` has
                              * signed it. Otherwise it is not signed (section 9.2), so use its
                              * source address to decide whether to act on it. In ICE it only keeps
                              * a path open. Its attributes are understood, except at a client,
                              * which does not check them */
    STUNP_IS_RESPONSE = 4,   /* a response. At a server, it is for a client on the same socket. In
                              * ICE, it is the answer that ends your check: see `outcome`. At a
                              * client, it ends its request, or the client sends another message of
                              * the request because of it */
    STUNP_LOOKUP = 5,        /* a request that waits for its user: look up `name`, and call
                              * stunp_endpoint_server_resume. Its signature is not checked yet */
    STUNP_NOT_OURS = 6,      /* at a client: the datagram is not for this client, but may be for
                              * another client on the same socket */
    STUNP_FAILED = 7         /* only in `kind` of a stunp_received or a stunp_ice_received: the call
                              * has failed. The call itself returns the error */
} stunp_kind;

/* Why a datagram is dropped. The reasons of clients name their rows in "The client's rule", the
 * table in docs/DIFFERENCES.md that says what a client does with each response. */
typedef enum stunp_drop {
    STUNP_DROP_NOT_STUN = 1,          /* the datagram does not begin with the header of a STUN
                                       * message */
    STUNP_DROP_MALFORMED = 2,         /* the datagram does not have the length that its header
                                       * states, or its attributes do not fill this length
                                       * exactly */
    STUNP_DROP_WRONG_FINGERPRINT = 3, /* FINGERPRINT is wrong, is not the last attribute, or does
                                       * not have 4 bytes: the datagram is damaged, or belongs to
                                       * another protocol. In ICE, this is also the reason if there
                                       * is no FINGERPRINT (row 2) */
    STUNP_DROP_MISSING_FINGERPRINT = 13, /* the datagram has no FINGERPRINT, although the settings
                                          * of the server or the client require it (section 7.3;
                                          * row 2) */
    STUNP_DROP_UNKNOWN_ATTRIBUTE = 4, /* the datagram is an indication with an attribute that must
                                       * be understood but is not */
    /* Only with long-term credentials. */
    STUNP_DROP_OTHER_REALM = 16,      /* the table of users is for another `realm` than the server,
                                       * and its keys depend on the realm. The server drops every
                                       * datagram that it is passed with this table */
    /* Only with short-term credentials. */
    STUNP_DROP_NOT_SIGNED = 8,        /* the datagram is an indication that no user has signed.
                                       * `code` is the error with which a request with the same
                                       * attributes would be refused */
    /* Only in ICE. */
    STUNP_DROP_OTHER_METHOD = 5,      /* the method of the message is not Binding */
    STUNP_DROP_NOT_ASKED = 6,         /* the datagram is a response that does not answer the check
                                       * that you passed */
    STUNP_DROP_WRONG_SIGNATURE = 7,   /* the datagram is a response that is not signed by the peer.
                                       * A 400 or 401 is not signed, so it is dropped too, and the
                                       * check then times out */
    /* Only at clients, for responses to their requests. */
    STUNP_DROP_NOT_VERIFIED = 9,      /* the response is not signed with the key of the message that
                                       * it answers, or it is a challenge that answers an earlier
                                       * message of its request, and not the current one (rows 5 and
                                       * 11) */
    STUNP_DROP_UNANSWERABLE_CHALLENGE = 10, /* the response is an unsigned 401 or 438 that the
                                             * client cannot answer, or a challenge whose list of
                                             * algorithms is so long that the request would not fit
                                             * into a message (row 6) */
    STUNP_DROP_WEAKER_CHALLENGE = 11, /* the response is a challenge that offers less protection
                                       * than an earlier challenge for which a signed request has
                                       * succeeded (row 8) */
    STUNP_DROP_OUT_OF_MEMORY = 12,    /* an allocation failed, or no transaction ID is left for
                                       * another message (row 15). The request continues, and the
                                       * server answers its next transmission. Over a stream there
                                       * is no further transmission, so the request times out */
    STUNP_DROP_LATE_CHALLENGE = 14,   /* the response is a challenge that arrived after the end of
                                       * the first plan of its request, which is by default 39.5 s
                                       * after the start of the request (`transmissions` of
                                       * stunp_endpoint_client_settings). The client no longer
                                       * answers challenges to this request (row 13) */
    STUNP_DROP_REFUSED = 15           /* the response repeats the challenge for which the current
                                       * message of the request is signed, so the server may have
                                       * refused this message. The message is retransmitted when its
                                       * timer is due, and the request may end if the challenge
                                       * arrives again after that (row 9) */
} stunp_drop;

/* Why a server with long-term credentials refuses a request: the first check that fails. The checks
 * are in the order of section 9.2.4, except that the nonce is checked before the user. Later
 * releases may add causes. */
typedef enum stunp_cause {
    STUNP_CAUSE_NO_SIGNATURE = 1,      /* 401: the request has no well-formed MESSAGE-INTEGRITY or
                                        * MESSAGE-INTEGRITY-SHA256, like the first request of each
                                        * client */
    STUNP_CAUSE_INCOMPLETE = 2,        /* 400: the request is signed, but has no well-formed REALM,
                                        * NONCE or user name */
    STUNP_CAUSE_OTHER_ALGORITHMS = 3,  /* 400: the request has the current nonce, but not the
                                        * password algorithms that were offered with this nonce. An
                                        * attacker on the path may have changed the list */
    STUNP_CAUSE_OTHER_FEATURES = 4,    /* 401: the nonce of the request has other security bits than
                                        * the server's nonces, and the algorithms of the request
                                        * agree with these other bits. An attacker may have changed
                                        * the bits, or the nonce was sent before a change of
                                        * settings. A nonce that does not begin with the nonce
                                        * cookie has no such bits, and counts as stale */
    STUNP_CAUSE_STALE_NONCE = 5,       /* 438: the nonce has expired, was sent to another address,
                                        * was made from another secret or with other settings, or
                                        * was never made by this server. A request with wrong
                                        * algorithms or wrong credentials has this cause too if its
                                        * nonce is from the previous period or was made from the
                                        * previous secret */
    STUNP_CAUSE_WRONG_CREDENTIALS = 6, /* 401: the request has the current nonce, but it names no
                                        * user of the table, the user has no key for the algorithm,
                                        * or the signature is not valid under the user's key */
    STUNP_CAUSE_UNKNOWN_ATTRIBUTE = 7  /* 420: a user has signed the request, but it has an
                                        * attribute of a type that must be understood and that the
                                        * server does not understand */
} stunp_cause;

/* The outcome of a check of the peer, or of the answer to one of your checks. */
typedef enum stunp_ice_outcome {
    /* If `kind` is STUNP_ANSWER (a check of the peer arrived, and you send the answer): */
    STUNP_ICE_ACCEPTED = 1,      /* the check is accepted. Send a check on the same pair, if none of
                                  * your checks has succeeded on this pair (RFC 8445, section
                                  * 7.3.1.4) */
    STUNP_ICE_PEER_SWITCHES = 2, /* both agents have the same role, and the answer, a 487, asks the
                                  * peer to switch its role. Once the peer has switched, its next
                                  * check is accepted */
    STUNP_ICE_REFUSED = 3,       /* the check is refused with the error `code` */
    /* If `kind` is STUNP_IS_RESPONSE (the peer has answered one of your checks): */
    STUNP_ICE_VALID = 4,          /* the check succeeded, and the pair is valid. The peer saw the
                                   * check arrive from `mapped` */
    STUNP_ICE_CONFLICT = 5,       /* the peer has the role that the check states, and keeps it. Set
                                   * a new random tie-breaker (section 16.1). If `switched` is true,
                                   * this agent has switched to the other role: check the pair again
                                   * (section 7.2.5.1). Otherwise it had already switched: check the
                                   * pair again only if no check of the pair was started after the
                                   * switch */
    STUNP_ICE_ERROR = 6,          /* the check failed with the error `code` */
    STUNP_ICE_OTHER_PATH = 7,     /* the check failed, because its answer did not come from the
                                   * address to which the check was sent, or, with stunp_ice_checks,
                                   * did not arrive at the address from which the check was sent */
    STUNP_ICE_NOT_UNDERSTOOD = 8, /* the check failed, because its answer has an attribute that
                                   * the agent must understand, but does not. The type of the
                                   * attribute is in `not_understood` of stunp_ice_received */
    STUNP_ICE_MALFORMED = 9       /* the check failed, because its answer has no well-formed
                                   * address, or no well-formed error code */
} stunp_ice_outcome;

/* Lengths, in bytes. */
enum {
    /* The longest answer that a server writes by itself: a 420 that lists a type for every four
     * bytes of the longest message, with SOFTWARE, a signature and FINGERPRINT. For datagrams of up
     * to 1500 bytes, 2048 bytes are enough. */
    STUNP_ANSWER_MAX = 33632,
    /* The longest user name that this library accepts in a table of users and in USERNAME. (Section
     * 14.3 allows only names of fewer than 509 bytes.) */
    STUNP_NAME_MAX = 513,
    /* The longest check of ICE. An answer to a check has at most STUNP_ANSWER_MAX bytes. */
    STUNP_ICE_CHECK_MAX = 596,
    /* The longest username fragment of ICE, and the longest password. The shortest have 4 and 22
     * bytes (RFC 8445, section 5.3). */
    STUNP_ICE_NAME_MAX = 256,
    STUNP_ICE_PASSWORD_MAX = 256
};

/* The data with which you answer one accepted request. It is plain data: you may copy and store it,
 * and use it on any thread, without the server. It contains a key of the user, so wipe each copy
 * (stunp_reply_wipe). Pass it to the calls whose names begin with stunp_reply, and do not use its
 * fields yourself. These calls refuse a reply that was wiped, a reply of zeros, and a reply whose
 * fields cannot be those that the library wrote. */
typedef struct {
    uint8_t id[12];
    uint8_t key[64];
    uint16_t method;
    uint8_t key_length;
    uint8_t integrity;
    bool has_fingerprint;
} stunp_reply;

/* The outcome of a datagram at a server. The line of a field names the kinds for which the field is
 * set. For other kinds the field is 0, except that `reply` and `name` keep their old contents.
 * After an error `kind` is STUNP_FAILED and `length` is 0. If `size` is wrong, nothing else is
 * written.
 *
 *   size         sizeof (stunp_received), set by STUNP_INIT once, before the loop
 *   kind         the outcome
 *   why          STUNP_DROPPED: why the datagram was dropped
 *   code         STUNP_ANSWER: the code of an error response (400, 401, 420 or 438), or 0 for a
 *                success response. STUNP_DROP_NOT_SIGNED: 400 or 401
 *   method       STUNP_IS_REQUEST, _IS_INDICATION, _IS_RESPONSE, STUNP_LOOKUP: the method of the
 *                message
 *   algorithm    STUNP_IS_REQUEST: the password algorithm on which both sides agreed. With
 *                short-term credentials it is the algorithm of the signature, also for
 *                STUNP_IS_INDICATION. Without credentials it is 0
 *   length       STUNP_ANSWER: the number of bytes to send
 *   needed       STUNP_FAILED: after STUNP_BUFFER_TOO_SMALL, the length of the answer
 *   name_length  STUNP_IS_REQUEST, _IS_INDICATION, STUNP_LOOKUP: the length of `name`, in bytes
 *   name         STUNP_IS_REQUEST, _IS_INDICATION: the name of the user who signed the message,
 *                even if the message has only a hash of the name; zeros if nobody signed the
 *                message. STUNP_LOOKUP: the user whom the request names. A zero byte follows the
 *                name
 *   is_hash      STUNP_LOOKUP: `name` is the hash of a name (stunp_userhash, section 14.4), of
 *                STUNP_USERHASH_LENGTH bytes
 *   reply        STUNP_IS_REQUEST: the data with which you answer the request
 *
 * Serve the user in `name`. Never use the USERNAME of the message, which may name another user. */
typedef struct {
    size_t size;
    stunp_kind kind;
    stunp_drop why;
    uint32_t code;
    uint16_t method;
    uint16_t algorithm;
    size_t length;
    size_t needed;
    size_t name_length;
    stunp_reply reply;
    uint8_t name[516];
    bool is_hash;
} stunp_received;

/* A datagram for stunp_endpoint_server_receive_many.
 *
 *   bytes, length  the bytes of the datagram, and their number
 *   from           the address that the datagram came from
 *   received       the struct to which the outcome of this datagram is written, with the
 *                  stunp_reply for an accepted request. Set its `size` with STUNP_INIT. Each
 *                  datagram of a call needs a struct of its own. If the pointer is null, you cannot
 *                  answer requests that are returned to you
 */
typedef struct {
    const uint8_t *bytes;
    size_t length;
    stunp_address from;
    stunp_received *received;
} stunp_datagram;

/* The outcome of a datagram that stunp_endpoint_server_receive_many has judged. The lines of
 * `cause`, `offset` and `length` name the kinds for which these fields are set. For other kinds
 * they are 0.
 *
 *   kind    the result of stunp_endpoint_server_receive for the datagram: a stunp_kind, or an error
 *   cause   STUNP_ANSWER, STUNP_BUFFER_TOO_SMALL: why the answer refuses the request, or 0 if the
 *           answer does not refuse it (stunp_endpoint_server_receive_with_cause)
 *   offset  STUNP_ANSWER: the offset of the answer in the bytes of all answers
 *   length  STUNP_ANSWER: the number of bytes to send. STUNP_BUFFER_TOO_SMALL: the length of the
 *           answer */
typedef struct {
    int64_t kind;
    stunp_cause cause;
    size_t offset;
    size_t length;
} stunp_judged;

/* A user that you found, for stunp_endpoint_server_resume. Set the password, one of the keys, or
 * both keys, and leave the fields that you do not have null.
 *
 *   size         sizeof (stunp_found_user), set by STUNP_INIT
 *   name         the name, of at least one byte. If it is not the name in the request, the request
 *                is refused
 *   name_length  the length of the name, in bytes
 *   password     the password, which ends with a zero byte. If it is set, the keys are ignored
 *   sha1_key     16 bytes: the key for HMAC-SHA1 (stunp_long_term_key)
 *   sha256_key   32 bytes: the key for HMAC-SHA256 */
typedef struct {
    size_t size;
    const char *name;
    size_t name_length;
    const char *password;
    const uint8_t *sha1_key;
    const uint8_t *sha256_key;
} stunp_found_user;

/* The settings of an ICE agent. They have no defaults, but `tie_breaker` may be 0, and `peer_name`
 * and `peer_password` may both be null.
 *
 *   size            sizeof (stunp_ice_settings), set by STUNP_INIT
 *   name            your username fragment, of 4 to 256 bytes without a colon (RFC 8445, section
 *                   5.3)
 *   password        your password, of 22 to 256 bytes
 *   peer_name       the username fragment of the peer, which arrives over signalling. Null if it
 *                   has not arrived yet: call stunp_ice_checker_set_peer when it arrives
 *   peer_password   the password of the peer, or null if `peer_name` is null
 *   tie_breaker     a random number (section 7.1.3). If both sides begin in the same role, the side
 *                   with the larger number controls
 *   is_controlling  whether the agent begins in the controlling role, in which it nominates pairs
 *
 * The texts end with a zero byte. */
typedef struct {
    size_t size;
    const char *name;
    const char *password;
    const char *peer_name;
    const char *peer_password;
    uint64_t tie_breaker;
    bool is_controlling;
} stunp_ice_settings;

/* The data of a check that was written, which the agent needs to judge the answer. It is plain
 * data, without the bytes of the check. Store it with its pair until the answer arrives or the
 * check times out. You may read the fields, but do not change them.
 *
 *   id              the transaction ID, which the answer has too
 *   to              the address to which the check is sent
 *   is_controlling  whether the check states that its sender controls
 *   nominates       whether the check nominates its pair: if its answer is STUNP_ICE_VALID, the
 *                   pair is nominated (RFC 8445, section 7.2.5.3.4) */
typedef struct {
    uint8_t id[12];
    stunp_address to;
    bool is_controlling;
    bool nominates;
} stunp_ice_check;

/* The outcome of a datagram at an ICE agent. The line of a field names the kinds or the outcomes
 * for which the field is set. For all other kinds and outcomes the field is 0. After an error
 * `kind` is STUNP_FAILED and `length` is 0. If `size` is wrong, nothing else is written.
 *
 *   size            sizeof (stunp_ice_received), set by STUNP_INIT once, before the loop
 *   kind            the outcome
 *   why             STUNP_DROPPED: why the datagram was dropped
 *   outcome         STUNP_ANSWER, STUNP_IS_RESPONSE: the outcome of the check or of its answer
 *   code            the code of an error response: 487 for STUNP_ICE_PEER_SWITCHES and _CONFLICT;
 *                   400, 401 or 420 for STUNP_ICE_REFUSED; any code except 487 for STUNP_ICE_ERROR
 *   priority        STUNP_ICE_ACCEPTED: the priority in the check. If the check came from a new
 *                   address, this is the priority of the new peer-reflexive candidate (RFC 8445,
 *                   section 7.3.1.3)
 *   not_understood  STUNP_ICE_NOT_UNDERSTOOD: the type of the attribute
 *   nominated       STUNP_ICE_ACCEPTED: whether the peer, which controls, nominates the pair. The
 *                   pair is selected once one of your checks has succeeded on it too (section
 *                   7.3.1.5)
 *   switched        STUNP_ICE_ACCEPTED, STUNP_ICE_CONFLICT: whether this agent has switched its
 *                   role because of the datagram. If so, compute the priorities of all pairs again,
 *                   because they depend on the role
 *   length          STUNP_ANSWER: the number of bytes to send
 *   needed          STUNP_FAILED: after STUNP_BUFFER_TOO_SMALL, the length of the answer
 *   mapped          STUNP_ICE_VALID: the address from which the peer saw the check arrive. If it is
 *                   not one of your candidates, it is a new peer-reflexive candidate (section
 *                   7.2.5.3.1) */
typedef struct {
    size_t size;
    stunp_kind kind;
    stunp_drop why;
    stunp_ice_outcome outcome;
    uint32_t code;
    uint32_t priority;
    uint16_t not_understood;
    bool nominated;
    bool switched;
    size_t length;
    size_t needed;
    stunp_address mapped;
} stunp_ice_received;

/* ---- Servers */

/* Creates a server, like stunp_endpoint_server_new, from settings that are passed one by one.
 * `previous_secret` is used only if `has_previous_secret` is true, but must never be null: if you
 * have no previous secret, pass `secret` again. `understood_length` counts numbers, not bytes. A
 * `software_length` of 0 means no SOFTWARE.
 *
 * Returns 0. Errors:
 *   STUNP_FULL_HANDLE    the handle is not empty
 *   STUNP_BAD_ARGUMENT   `algorithms` is above 3, `anonymous_username` is above 2, or
 *                        `nonce_seconds` is below 30 and not 0, or above 2592000 (30 days); all
 *                        bytes of the secret are equal; there is a previous secret, and all its
 *                        bytes are equal or it equals the secret; or the realm has no bytes
 *   STUNP_NOT_TEXT       the realm or SOFTWARE is not UTF-8
 *   STUNP_TEXT_TOO_LONG  the realm or SOFTWARE has more than 763 bytes
 *   STUNP_OUT_OF_MEMORY  an allocation failed */
STUNP_READS(2, 3) STUNP_READS(4, 5) STUNP_READS(9, 10) STUNP_NOT_NULL(1, 6, 7)
int64_t stunp_endpoint_server_new_with(stunp_endpoint_server *server, const char *realm,
                                       size_t realm_length, const char *software,
                                       size_t software_length, const uint8_t secret[32],
                                       const uint8_t previous_secret[32], bool has_previous_secret,
                                       const uint16_t *understood, size_t understood_length,
                                       uint64_t nonce_seconds, uint32_t algorithms,
                                       uint32_t anonymous_username, bool answers_binding,
                                       bool requires_fingerprint);

/* Creates a server with short-term credentials, like stunp_endpoint_server_new, from settings that
 * are passed one by one. `understood_length` counts numbers, not bytes. A `software_length` of 0
 * means no SOFTWARE.
 *
 * Returns 0. Errors:
 *   STUNP_FULL_HANDLE    the handle is not empty
 *   STUNP_NOT_TEXT       SOFTWARE is not UTF-8
 *   STUNP_TEXT_TOO_LONG  SOFTWARE has more than 763 bytes
 *   STUNP_OUT_OF_MEMORY  an allocation failed */
STUNP_READS(2, 3) STUNP_READS(4, 5) STUNP_NOT_NULL(1)
int64_t stunp_endpoint_server_new_short_term(stunp_endpoint_server *server, const char *software,
                                             size_t software_length, const uint16_t *understood,
                                             size_t understood_length, bool answers_binding,
                                             bool requires_fingerprint);

/* Creates a server without credentials, from settings that are passed one by one, like
 * stunp_endpoint_server_new_short_term.
 *
 * Returns and fails as stunp_endpoint_server_new_short_term does. */
STUNP_READS(2, 3) STUNP_READS(4, 5) STUNP_NOT_NULL(1)
int64_t stunp_endpoint_server_new_open(stunp_endpoint_server *server, const char *software,
                                       size_t software_length, const uint16_t *understood,
                                       size_t understood_length, bool answers_binding,
                                       bool requires_fingerprint);

/* Creates a server with these settings, which are copied. `settings` must not be null.
 *
 * Returns 0. Errors:
 *   STUNP_BAD_ARGUMENT  `size` is wrong; `understood` is null, and `understood_count` is not 0;
 *                       `credentials` is STUNP_LONG_TERM, and `secret` or `realm` is null;
 *                       `credentials` is not STUNP_LONG_TERM, and a field that is marked with
 *                       (realm) is neither 0 nor null; or `credentials` is above 2
 * and then the errors of stunp_endpoint_server_new_with, or of
 * stunp_endpoint_server_new_short_term. */
STUNP_NOT_NULL(1, 2)
STUNP_INLINED int64_t
stunp_endpoint_server_new(stunp_endpoint_server *server,
                          const stunp_endpoint_server_settings *settings);

/* Frees a server and makes its handle empty. The pointer must not be null. This call is for
 * programs that use the archive without this header; in C and C++, call
 * stunp_endpoint_server_free. */
STUNP_NOT_NULL(1)
void stunp_endpoint_server_clear(stunp_endpoint_server *server);

/* Frees a server and makes its handle empty. Does nothing if the handle is empty or the pointer is
 * null. You can still use the tables of users that were made for this server. */
STUNP_INLINED void stunp_endpoint_server_free(stunp_endpoint_server *server);

/* ---- Users
 *
 * A table of users is made for the `realm` of a server, and works with every server of this realm:
 * it has each user's keys for both algorithms, and each server judges by its own settings. A server
 * of another realm drops every datagram that it is passed with the table (STUNP_DROP_OTHER_REALM).
 * A table of users with short-term credentials works with every server that has short-term
 * credentials. */

/* Creates an empty table of users like stunp_endpoint_users_new, but nothing else may use the
 * handle of the server during the call. The call does not change this handle.
 *
 * Returns and fails as stunp_endpoint_users_new does. */
STUNP_NOT_NULL(1, 2)
int64_t stunp_endpoint_users_new_own(stunp_endpoint_users *users, stunp_endpoint_server *server);

/* Creates an empty table of users for a server with long-term or short-term credentials. With
 * long-term credentials, the table is for every server of the same `realm`.
 *
 * Returns 0. Errors:
 *   STUNP_FULL_HANDLE    the table's handle is not empty
 *   STUNP_EMPTY_HANDLE   the server's handle is empty, or null
 *   STUNP_WRONG_HANDLE   the server's handle has no server, or a server without credentials
 *   STUNP_OUT_OF_MEMORY  an allocation failed */
STUNP_INLINED int64_t stunp_endpoint_users_new(stunp_endpoint_users *users,
                                               const stunp_endpoint_server *server);

/* Adds a user with a password, and derives the keys of the user (sections 9.1.1 and 9.2.2). If the
 * table already has a user with this name, the password replaces the user's password or keys: from
 * now on, only requests that are signed with the new password are accepted. The name comes first:
 * if you exchange the name and the password, the call adds a user whose name is the password.
 *
 * Returns 0. Errors:
 *   STUNP_EMPTY_HANDLE   the handle is empty
 *   STUNP_WRONG_HANDLE   the handle has no table
 *   STUNP_NOT_TEXT       the name or the password is not UTF-8
 *   STUNP_TEXT_TOO_LONG  the name has more than STUNP_NAME_MAX bytes
 *   STUNP_BAD_ARGUMENT   the name or the password has no bytes
 *   STUNP_OUT_OF_MEMORY  an allocation failed */
STUNP_READS(2, 3) STUNP_READS(4, 5) STUNP_NOT_NULL(1)
int64_t stunp_endpoint_users_add(stunp_endpoint_users *users, const char *name, size_t name_length,
                                 const char *password, size_t password_length);

/* Adds a user with keys that you stored in place of a password (stunp_long_term_key). The keys must
 * have been made for the realm of the table. Pass the length 0 for the one key that you do not
 * have. If the table already has a user with this name, the keys replace the user's password or
 * keys.
 *
 * Returns 0. Errors:
 *   STUNP_EMPTY_HANDLE   the handle is empty
 *   STUNP_WRONG_HANDLE   the handle has no table, or a table of users with short-term credentials
 *   STUNP_NOT_TEXT       the name is not UTF-8
 *   STUNP_TEXT_TOO_LONG  the name has more than STUNP_NAME_MAX bytes
 *   STUNP_BAD_ARGUMENT   the name has no bytes; both keys have none, so that the user could never
 *                        be accepted; or `sha1_length` is neither 0 nor 16, or `sha256_length`
 *                        neither 0 nor 32
 *   STUNP_OUT_OF_MEMORY  an allocation failed */
STUNP_READS(2, 3) STUNP_READS(4, 5) STUNP_READS(6, 7) STUNP_NOT_NULL(1)
int64_t stunp_endpoint_users_add_keys(stunp_endpoint_users *users, const char *name,
                                      size_t name_length, const uint8_t *sha1, size_t sha1_length,
                                      const uint8_t *sha256, size_t sha256_length);

/* Removes a user: from now on, requests that name this user are answered with a 401.
 *
 * Returns 0, even if the table has no user with this name. Errors:
 *   STUNP_EMPTY_HANDLE  the handle is empty
 *   STUNP_WRONG_HANDLE  the handle has no table
 *   STUNP_NOT_TEXT      the name is not UTF-8 */
STUNP_READS(2, 3) STUNP_NOT_NULL(1)
int64_t stunp_endpoint_users_remove(stunp_endpoint_users *users, const char *name,
                                    size_t name_length);

/* Frees a table and makes its handle empty. The pointer must not be null. This call is for programs
 * that use the archive without this header; in C and C++, call stunp_endpoint_users_free. */
STUNP_NOT_NULL(1)
void stunp_endpoint_users_clear(stunp_endpoint_users *users);

/* Frees a table and makes its handle empty. Does nothing if the handle is empty or the pointer is
 * null. */
STUNP_INLINED void stunp_endpoint_users_free(stunp_endpoint_users *users);

/* Creates a table with the user that you found, or an empty table if `found` is null.
 * stunp_endpoint_server_cause_for calls this function, and so does stunp_endpoint_server_resume if
 * there is no user, or if the server has short-term credentials.
 *
 * Returns 0. Errors:
 *   STUNP_BAD_ARGUMENT   `found->size` is wrong, `found->name` is null or has no bytes,
 *                        `found->password` is empty, or `found` has neither a password nor a key
 *   STUNP_FULL_HANDLE    the table's handle is not empty
 *   STUNP_EMPTY_HANDLE   the server's handle is empty, or null
 *   STUNP_WRONG_HANDLE   the server's handle has no server, or a server without credentials; or it
 *                        has a server with short-term credentials, and the user has only keys
 *   STUNP_NOT_TEXT       the name or the password is not UTF-8
 *   STUNP_TEXT_TOO_LONG  the name has more than STUNP_NAME_MAX bytes
 *   STUNP_OUT_OF_MEMORY  an allocation failed */
STUNP_INLINED int64_t stunp_endpoint_users_new_found(stunp_endpoint_users *users,
                                                     const stunp_endpoint_server *server,
                                                     const stunp_found_user *found);

/* ---- Datagrams */

/* Judges a datagram like stunp_endpoint_server_receive, but nothing else may use the handles during
 * the call. The call does not change the handles. `received` must not be null.
 *
 * Returns and fails as stunp_endpoint_server_receive does. */
STUNP_USE_RESULT STUNP_READS(3, 4) STUNP_WRITES(7, 8) STUNP_NOT_NULL(1, 2, 5, 9)
int64_t stunp_endpoint_server_receive_own(stunp_endpoint_server *server,
                                          stunp_endpoint_users *users,
                                          const uint8_t *STUNP_RESTRICT message,
                                          size_t message_length, const stunp_address *from,
                                          uint64_t unix_seconds, uint8_t *STUNP_RESTRICT out,
                                          size_t room, stunp_received *received);

/* Judges the datagram of `length` bytes that arrived from the address `from`, and writes the result
 * to `*received`. If the server answers the datagram at once, the answer is written to the front of
 * `out`.
 *
 *   - A datagram is dropped if it is not a STUN message, if its FINGERPRINT is wrong, or if it has
 *     no FINGERPRINT although the settings require it. With long-term credentials, it is dropped if
 *     `users` is for another `realm` than the server.
 *   - With long-term credentials, a request is answered with a 401 if none of these users has
 *     signed it, or if its nonce has other security bits than the server's nonces, and its
 *     algorithms agree with these other bits. It is answered with a 438 if its nonce is not
 *     accepted, or if it has an earlier nonce that is still accepted, but wrong algorithms or a
 *     wrong signature. It is answered with a 400 if it is signed but incomplete, or if its
 *     algorithms are not those that were offered with the current nonce. stunp_cause has the order
 *     of these tests.
 *   - With short-term credentials, a request is answered with a 400 if it is not signed or has no
 *     USERNAME, and with a 401 if USERNAME is not the name of one of these users, or if the
 *     signature was not made with the user's password. An indication with one of these faults is
 *     dropped.
 *   - A request that has passed these tests is answered with a 420 if it has an attribute that must
 *     be understood but is not. Otherwise, a Binding request is answered if `answers_binding` is
 *     set, and all other requests are returned to you.
 *   - An indication is dropped if it has an attribute that must be understood but is not. Other
 *     indications are returned to you, and so are responses.
 *
 * `users` may be null or an empty handle if the server has no credentials, because the call then
 * ignores it.
 *
 * `unix_seconds` is the time of the wall clock, in seconds since 1970: (uint64_t)time(NULL). It is
 * used only with long-term credentials; otherwise pass 0. Do not use a clock that starts at zero:
 * the nonces of an earlier run of the program would become current again, and the server would
 * accept requests that an attacker recorded during that run. If the clock is set back, no call
 * fails, but clients may get an additional 438, and recorded requests stay valid for longer, by the
 * time by which the clock was set back. An IPv4 address and the same address mapped into IPv6
 * (::ffff:a.b.c.d) count as one address.
 *
 * `received` may be null if you need only the returned kind.
 *
 * Returns a stunp_kind. Errors, after which `received->kind` is STUNP_FAILED:
 *   STUNP_EMPTY_HANDLE, STUNP_WRONG_HANDLE
 *                           the server's handle is empty or null, or has no server; or the users'
 *                           handle is empty or null, has no table, or has a table that was made for
 *                           another kind of credentials. The server's handle is tested first
 *   STUNP_BAD_ARGUMENT      `received->size` is wrong, `unix_seconds` is above 2 to the power of 40
 *                           (it is probably in nanoseconds), or `from` is not an IPv4 or IPv6
 *                           address
 *   STUNP_OUT_OF_MEMORY     an allocation failed. Over UDP nothing is lost, because the client
 *                           retransmits its request
 *   STUNP_BUFFER_TOO_SMALL  the answer does not fit into `room` bytes. `received->needed` is then
 *                           the length of the answer */
STUNP_USE_RESULT
STUNP_INLINED int64_t
stunp_endpoint_server_receive(const stunp_endpoint_server *server,
                              const stunp_endpoint_users *users,
                              const uint8_t *STUNP_RESTRICT bytes, size_t length,
                              const stunp_address *from, uint64_t unix_seconds,
                              uint8_t *STUNP_RESTRICT out, size_t room, stunp_received *received);

/* Returns an English text for the reason why a datagram was dropped. */
STUNP_INLINED const char *stunp_drop_text(stunp_drop why);

/* Judges a datagram like stunp_endpoint_server_receive_with_cause, but nothing else may use the
 * handles during the call. The call does not change the handles. `received` and `cause` must not be
 * null.
 *
 * Returns and fails as stunp_endpoint_server_receive does. */
STUNP_USE_RESULT STUNP_READS(3, 4) STUNP_WRITES(7, 8) STUNP_NOT_NULL(1, 2, 5, 9, 10)
int64_t stunp_endpoint_server_receive_with_cause_own(stunp_endpoint_server *server,
                                                     stunp_endpoint_users *users,
                                                     const uint8_t *STUNP_RESTRICT message,
                                                     size_t message_length,
                                                     const stunp_address *from,
                                                     uint64_t unix_seconds,
                                                     uint8_t *STUNP_RESTRICT out, size_t room,
                                                     stunp_received *received, uint32_t *cause);

/* Judges a datagram like stunp_endpoint_server_receive, and also writes to `*cause` the reason why
 * the answer refuses the datagram, which is the result of stunp_endpoint_server_cause. The datagram
 * is judged only once, so a server that counts or logs each refusal needs no second call. The
 * client learns only the error code, and not the cause.
 *
 *     static uint64_t refused[STUNP_CAUSE_UNKNOWN_ATTRIBUTE + 1];
 *     stunp_cause cause;
 *     int64_t kind = stunp_endpoint_server_receive_with_cause(server, users, bytes, length, from,
 *                                                             time, out, room, &received, &cause);
 *     if (kind == STUNP_ANSWER && cause != 0) {
 *         if (cause <= STUNP_CAUSE_UNKNOWN_ATTRIBUTE) refused[cause]++;
 *         printf("%u: %s\n", received.code, stunp_cause_text(cause));
 *     }
 *
 * `*cause` is 0 if the datagram is not refused: it is dropped, is not a request, or is accepted.
 * `*cause` is also 0 at a server without long-term credentials, because there the error code of the
 * answer already says why the request is refused. If the call fails, `*cause` is 0, unless the
 * error is STUNP_BUFFER_TOO_SMALL: then it is the cause for the answer that does not fit.
 * `received` and `cause` may be null.
 *
 * Returns and fails as stunp_endpoint_server_receive does. */
STUNP_USE_RESULT
STUNP_INLINED int64_t
stunp_endpoint_server_receive_with_cause(const stunp_endpoint_server *server,
                                         const stunp_endpoint_users *users,
                                         const uint8_t *STUNP_RESTRICT bytes, size_t length,
                                         const stunp_address *from, uint64_t unix_seconds,
                                         uint8_t *STUNP_RESTRICT out, size_t room,
                                         stunp_received *received, stunp_cause *cause);

/* Judges `count` datagrams in their order, like calls of stunp_endpoint_server_receive_with_cause
 * with the same time, and writes the outcome of each datagram to `judged`, which has room for
 * `count` outcomes. Writes the answers to `out` one after the other, without gaps, so that you can
 * send all of them with one system call (sendmmsg).
 *
 *     enum { BATCH = 32 };
 *     static uint8_t out[BATCH * 2048]; // at least STUNP_ANSWER_MAX, so that every answer fits
 *     stunp_judged judged[BATCH];
 *     for (size_t done = 0, more; done < count; done += more) { // count <= BATCH
 *         more = stunp_endpoint_server_receive_many(server, users, datagrams + done, count - done,
 *                                                   time, out, sizeof out, judged);
 *         for (size_t i = 0; i < more; i++)
 *             if (judged[i].kind == STUNP_ANSWER)
 *                 send_to(socket, out + judged[i].offset, judged[i].length,
 *                         &datagrams[done + i].from);
 *     }
 *
 * If the answer to a datagram does not fit into the rest of the buffer, the call ends, and returns
 * the number of datagrams before this datagram. The outcome of this datagram then has the kind
 * STUNP_BUFFER_TOO_SMALL and the length of the answer, and no outcome after it is written. Nothing
 * is lost: pass the remaining datagrams again, with new room.
 *
 * If no answer is in the buffer yet, the answer does not fit into the whole buffer. The datagram
 * then counts as judged, with this error as the kind of its outcome, and the call continues with
 * the next datagram. So each call judges at least one datagram if `count` is not 0, and a loop over
 * the datagrams ends. To send this answer, judge the datagram again with a larger buffer. With
 * STUNP_ANSWER_MAX bytes, every answer fits.
 *
 * If judging a datagram fails with any other error, this error is the kind of its outcome, and the
 * call continues with the next datagram. A datagram whose `received` is that of an earlier datagram
 * has the kind STUNP_BAD_ARGUMENT: it is not judged, and the outcome of the earlier datagram stays
 * as it is. If the structs are not in the order of an array, this test compares each with those
 * before it.
 *
 * `datagrams`, `judged` and `out` must not overlap.
 *
 * Returns the number of datagrams that were judged, from the first datagram on: at least 1, unless
 * `count` is 0. */
STUNP_USE_RESULT
STUNP_INLINED size_t
stunp_endpoint_server_receive_many(const stunp_endpoint_server *server,
                                   const stunp_endpoint_users *users,
                                   const stunp_datagram *datagrams, size_t count,
                                   uint64_t unix_seconds, uint8_t *STUNP_RESTRICT out, size_t room,
                                   stunp_judged *judged);

/* Returns why a datagram is refused, like stunp_endpoint_server_cause, but nothing else may use the
 * handles during the call. The call does not change the handles.
 *
 * Returns and fails as stunp_endpoint_server_cause does. */
STUNP_USE_RESULT STUNP_READS(3, 4) STUNP_NOT_NULL(1, 2, 5)
int64_t stunp_endpoint_server_cause_own(stunp_endpoint_server *server, stunp_endpoint_users *users,
                                        const uint8_t *message, size_t message_length,
                                        const stunp_address *from, uint64_t unix_seconds);

/* Returns why stunp_endpoint_server_receive refuses a datagram. Pass the arguments that you passed
 * to stunp_endpoint_server_receive, with the same time and the same users. This call judges the
 * request again, so call it only for an answer whose `code` is not 0, or call
 * stunp_endpoint_server_receive_with_cause in place of both calls. The client learns only the error
 * code, and not the cause.
 *
 * If your users are in a database, call stunp_endpoint_server_cause_for instead.
 *
 * Only a server with long-term credentials has causes, because at other servers the error code of
 * the answer already says why the request is refused.
 *
 * Returns a stunp_cause, or 0 if the datagram is not refused: it is dropped, is not a request, or
 * is accepted. Errors:
 *   STUNP_EMPTY_HANDLE, STUNP_WRONG_HANDLE
 *                        the server's handle is empty or null, or has no server with long-term
 *                        credentials; or the users' handle is empty or null, has no table, or has a
 *                        table of users with short-term credentials. The server's handle is tested
 *                        first
 *   STUNP_BAD_ARGUMENT   `unix_seconds` is above 2 to the power of 40, or `from` is not an IPv4 or
 *                        IPv6 address
 *   STUNP_OUT_OF_MEMORY  an allocation failed */
STUNP_USE_RESULT
STUNP_INLINED int64_t
stunp_endpoint_server_cause(const stunp_endpoint_server *server, const stunp_endpoint_users *users,
                            const uint8_t *bytes, size_t length, const stunp_address *from,
                            uint64_t unix_seconds);

/* Returns an English text for a result of stunp_endpoint_server_cause, which is a stunp_cause, 0 or
 * an error. For an error, returns the text of stunp_strerror. */
STUNP_INLINED const char *stunp_cause_text(int64_t cause);

/* ---- Look-ups: users in a database */

/* Judges a datagram like stunp_endpoint_server_identify, but nothing else may use the handle during
 * the call. The call does not change the handle. `received` must not be null.
 *
 * Returns and fails as stunp_endpoint_server_identify does. */
STUNP_USE_RESULT STUNP_READS(2, 3) STUNP_WRITES(6, 7) STUNP_NOT_NULL(1, 4, 8)
int64_t stunp_endpoint_server_identify_own(stunp_endpoint_server *server,
                                           const uint8_t *STUNP_RESTRICT message,
                                           size_t message_length, const stunp_address *from,
                                           uint64_t unix_seconds, uint8_t *STUNP_RESTRICT out,
                                           size_t room, stunp_received *received);

/* Judges the datagram of `length` bytes that arrived from the address `from`, as far as is possible
 * without its user. Returns STUNP_LOOKUP for a signed request that names a user and has a nonce
 * that this server now accepts from the address `from`: look up `received->name`, and call
 * stunp_endpoint_server_resume. For every other datagram, the result does not depend on the users,
 * and is that of stunp_endpoint_server_receive. A client that retransmits its request causes
 * another look-up, so merge look-ups that have the same source address and transaction ID, which is
 * in the 12 bytes from `bytes + 8` on.
 *
 * This call is for servers with long-term credentials. With short-term credentials, look up the
 * user whom USERNAME names (stunp_find_text), and call stunp_endpoint_server_resume.
 *
 * Returns a stunp_kind. Errors:
 *   STUNP_EMPTY_HANDLE  the handle is empty, or null
 *   STUNP_WRONG_HANDLE  the handle has no server with long-term credentials
 * and then the errors of stunp_endpoint_server_receive. */
STUNP_USE_RESULT
STUNP_INLINED int64_t
stunp_endpoint_server_identify(const stunp_endpoint_server *server,
                               const uint8_t *STUNP_RESTRICT bytes, size_t length,
                               const stunp_address *from, uint64_t unix_seconds,
                               uint8_t *STUNP_RESTRICT out, size_t room, stunp_received *received);

/* Judges the request of a STUNP_LOOKUP like stunp_endpoint_server_resume, but nothing else may use
 * the handle during the call. The call does not change the handle. `received` must not be null. The
 * server must have long-term credentials.
 *
 * If `has_password` is true, the signature is checked with the password. Otherwise it is checked
 * with the stored keys: `sha1` (16 bytes) for HMAC-SHA1, and `sha256` (32 bytes) for HMAC-SHA256.
 * If the user has only one of the keys, pass 0 as the length of the other key.
 *
 * Returns a stunp_kind. Errors:
 *   STUNP_EMPTY_HANDLE   the handle is empty
 *   STUNP_WRONG_HANDLE   the handle has no server with long-term credentials
 *   STUNP_NOT_TEXT       the name or the password is not UTF-8
 *   STUNP_TEXT_TOO_LONG  the name has more than STUNP_NAME_MAX bytes
 *   STUNP_BAD_ARGUMENT   the name has no bytes; `has_password` is true and the password is empty;
 *                        or `has_password` is false, and both keys have no bytes, `sha1_length` is
 *                        neither 0 nor 16, or `sha256_length` neither 0 nor 32
 * and then the errors of stunp_endpoint_server_receive. */
STUNP_USE_RESULT STUNP_READS(2, 3) STUNP_READS(4, 5) STUNP_READS(7, 8) STUNP_READS(9, 10)
STUNP_READS(11, 12) STUNP_WRITES(15, 16) STUNP_NOT_NULL(1, 13, 17)
int64_t stunp_endpoint_server_resume_own(stunp_endpoint_server *server, const char *name,
                                         size_t name_length, const char *password,
                                         size_t password_length, bool has_password,
                                         const uint8_t *sha1, size_t sha1_length,
                                         const uint8_t *sha256, size_t sha256_length,
                                         const uint8_t *STUNP_RESTRICT message,
                                         size_t message_length, const stunp_address *from,
                                         uint64_t unix_seconds, uint8_t *STUNP_RESTRICT out,
                                         size_t room, stunp_received *received);

/* Judges the request of a STUNP_LOOKUP with the user that you found, or with no user if `found` is
 * null. For the other arguments, pass those that you passed to stunp_endpoint_server_identify, with
 * the time at which the datagram arrived. The result is the same as that of
 * stunp_endpoint_server_receive with a table of only this user.
 *
 * If you pass a password, each call derives from it the key that the request needs. If a user sends
 * many requests, as a TURN client does, make a table of this user with
 * stunp_endpoint_users_new_found, and pass the table to stunp_endpoint_server_receive instead of
 * making this call, until the password changes or the account ends.
 *
 * Returns a stunp_kind. Errors:
 *   STUNP_BAD_ARGUMENT   `found->size` is wrong, `found->name` is null or has no bytes,
 *                        `found->password` is empty, or `found` has neither a password nor a key
 *   STUNP_EMPTY_HANDLE   the handle is empty, or null
 *   STUNP_WRONG_HANDLE   the server's handle has no server, or a server without credentials; or it
 *                        has a server with short-term credentials, and the user has only keys
 *   STUNP_NOT_TEXT       the name or the password is not UTF-8
 *   STUNP_TEXT_TOO_LONG  the name has more than STUNP_NAME_MAX bytes
 * and then the errors of stunp_endpoint_server_receive. */
STUNP_USE_RESULT
STUNP_INLINED int64_t
stunp_endpoint_server_resume(const stunp_endpoint_server *server, const stunp_found_user *found,
                             const uint8_t *STUNP_RESTRICT bytes, size_t length,
                             const stunp_address *from, uint64_t unix_seconds,
                             uint8_t *STUNP_RESTRICT out, size_t room, stunp_received *received);

/* Returns why stunp_endpoint_server_resume refuses a request, like stunp_endpoint_server_cause with
 * a table of only this user. Pass the arguments that you passed to stunp_endpoint_server_resume. To
 * learn why stunp_endpoint_server_identify refuses a request, pass null as `found`.
 *
 * Returns a stunp_cause, or 0 if the request is not refused. Errors:
 *   STUNP_BAD_ARGUMENT   `found->size` is wrong, `found->name` is null or has no bytes,
 *                        `found->password` is empty, or `found` has neither a password nor a key
 *   STUNP_EMPTY_HANDLE   the handle is empty, or null
 *   STUNP_WRONG_HANDLE   the server's handle has no server, or a server without credentials
 *   STUNP_NOT_TEXT       the name or the password is not UTF-8
 *   STUNP_TEXT_TOO_LONG  the name has more than STUNP_NAME_MAX bytes
 * and then the errors of stunp_endpoint_server_cause. */
STUNP_USE_RESULT
STUNP_INLINED int64_t
stunp_endpoint_server_cause_for(const stunp_endpoint_server *server, const stunp_found_user *found,
                                const uint8_t *bytes, size_t length, const stunp_address *from,
                                uint64_t unix_seconds);

/* ---- Replies
 *
 * A response has the method and the transaction ID of its request. It is signed with the key of the
 * user who sent the request, even if it is an error response, and ends with FINGERPRINT if the
 * request does. Answer each request at least once, because the client retransmits the request until
 * it is answered.
 *
 *     stunp_writer answer = stunp_reply_success(&received.reply, out, sizeof out);
 *     stunp_write_number(&answer, STUNP_LIFETIME, 600, 4);
 *     int64_t length = stunp_reply_finish(&received.reply, &answer);
 *     if (length > 0) send_to(socket, out, (size_t)length, &peer); */

/* Starts the success response to a request, in the buffer `out` of `room` bytes, and returns a
 * writer for the response. If the reply was wiped, is zeros, or has a key of more than 64 bytes,
 * the writer has the error STUNP_BAD_ARGUMENT, and nothing is written. */
STUNP_INLINED stunp_writer stunp_reply_success(const stunp_reply *reply, uint8_t *out,
                                               size_t room);

/* Starts an error response to a request, in the buffer `out` of `room` bytes, and returns a writer
 * for the response. Writes ERROR-CODE with `code`, which must be from 300 to 699, and `reason`. If
 * the reply was wiped, is zeros, or has a key of more than 64 bytes, the writer has the error
 * STUNP_BAD_ARGUMENT, and nothing is written. */
STUNP_INLINED stunp_writer stunp_reply_error(const stunp_reply *reply, uint32_t code,
                                             const char *reason, uint8_t *out, size_t room);

/* Ends the response of a writer: signs the response if the request was signed, and adds FINGERPRINT
 * if the request had it.
 *
 * Returns the length of the response, or the first error of any call with this writer. Errors of
 * this call:
 *   STUNP_BAD_ARGUMENT  the reply was wiped, is zeros, or has a key of more than 64 bytes: wipe a
 *                       reply only after its response is finished, because an unsigned response
 *                       would be sent otherwise
 * and then the errors of stunp_sign and stunp_add_fingerprint. */
STUNP_USE_RESULT
STUNP_INLINED int64_t stunp_reply_finish(const stunp_reply *reply, stunp_writer *answer);

/* Overwrites a reply and the key that it contains with zeros. The calls that answer a request
 * refuse the reply from then on. */
STUNP_INLINED void stunp_reply_wipe(stunp_reply *reply);

/* ---- Connectivity checks of ICE
 *
 * An agent checks pairs of candidates with one peer. Section numbers in this part are from RFC
 * 8445. */

/* Creates an agent, like stunp_ice_checker_new, from settings that are passed one by one.
 *
 * Returns 0. Errors:
 *   STUNP_FULL_HANDLE    the handle is not empty
 *   STUNP_NOT_TEXT       a username fragment or a password is not UTF-8
 *   STUNP_BAD_ARGUMENT   a username fragment does not have 4 to 256 bytes or contains a colon, or a
 *                        password does not have 22 to 256 bytes
 *   STUNP_OUT_OF_MEMORY  an allocation failed */
STUNP_READS(2, 3) STUNP_READS(4, 5) STUNP_READS(6, 7) STUNP_READS(8, 9) STUNP_NOT_NULL(1)
int64_t stunp_ice_checker_new_with(stunp_ice_checker *checker, const char *name,
                                   size_t name_length, const char *password,
                                   size_t password_length, const char *peer_name,
                                   size_t peer_name_length, const char *peer_password,
                                   size_t peer_password_length, uint64_t tie_breaker,
                                   bool is_controlling);

/* Creates an agent that does not know the credentials of its peer yet, like stunp_ice_checker_new
 * without `peer_name` and `peer_password`, from settings that are passed one by one.
 *
 * Returns 0. Errors:
 *   STUNP_FULL_HANDLE    the handle is not empty
 *   STUNP_NOT_TEXT       the username fragment or the password is not UTF-8
 *   STUNP_BAD_ARGUMENT   the username fragment does not have 4 to 256 bytes or contains a colon, or
 *                        the password does not have 22 to 256 bytes
 *   STUNP_OUT_OF_MEMORY  an allocation failed */
STUNP_READS(2, 3) STUNP_READS(4, 5) STUNP_NOT_NULL(1)
int64_t stunp_ice_checker_offer_with(stunp_ice_checker *checker, const char *name,
                                     size_t name_length, const char *password,
                                     size_t password_length, uint64_t tie_breaker,
                                     bool is_controlling);

/* Creates an agent with these settings, which are copied. `settings` must not be null.
 *
 * Returns 0. Errors:
 *   STUNP_BAD_ARGUMENT  `size` is wrong, or a text is null, except that `peer_name` and
 *                       `peer_password` may both be null
 * and then the errors of stunp_ice_checker_new_with. */
STUNP_NOT_NULL(1, 2)
STUNP_INLINED int64_t stunp_ice_checker_new(stunp_ice_checker *checker,
                                            const stunp_ice_settings *settings);

/* Sets the credentials of the peer, like stunp_ice_checker_set_peer, from texts with their lengths.
 *
 * Returns and fails as stunp_ice_checker_set_peer does. */
STUNP_READS(2, 3) STUNP_READS(4, 5) STUNP_NOT_NULL(1)
int64_t stunp_ice_checker_set_peer_with(stunp_ice_checker *checker, const char *peer_name,
                                        size_t peer_name_length, const char *peer_password,
                                        size_t peer_password_length);

/* Sets the credentials of the peer, or replaces them. The texts end with a zero byte, and are
 * copied. If the credentials are replaced, answers to checks that were written with the earlier
 * credentials are dropped. After an error the agent is unchanged.
 *
 * Returns 0. Errors:
 *   STUNP_EMPTY_HANDLE   the handle is empty
 *   STUNP_WRONG_HANDLE   the handle has no agent
 *   STUNP_NOT_TEXT       the username fragment or the password is not UTF-8
 *   STUNP_BAD_ARGUMENT   the username fragment does not have 4 to 256 bytes or contains a colon, or
 *                        the password does not have 22 to 256 bytes
 *   STUNP_OUT_OF_MEMORY  an allocation failed */
STUNP_NOT_NULL(1, 2, 3)
STUNP_INLINED int64_t stunp_ice_checker_set_peer(stunp_ice_checker *checker, const char *peer_name,
                                                 const char *peer_password);

/* Frees an agent and makes its handle empty. The pointer must not be null. This call is for
 * programs that use the archive without this header; in C and C++, call stunp_ice_checker_free. */
STUNP_NOT_NULL(1)
void stunp_ice_checker_clear(stunp_ice_checker *checker);

/* Frees an agent and makes its handle empty. Does nothing if the handle is empty or the pointer is
 * null. */
STUNP_INLINED void stunp_ice_checker_free(stunp_ice_checker *checker);

/* Returns 1 if the agent now has the controlling role, in which it nominates pairs, and 0 if the
 * peer has this role. In a condition an error would count as true: call stunp_ice_checker_controls
 * there. Errors:
 *   STUNP_EMPTY_HANDLE  the handle is empty
 *   STUNP_WRONG_HANDLE  the handle has no agent */
STUNP_USE_RESULT STUNP_NOT_NULL(1)
int64_t stunp_ice_checker_is_controlling(stunp_ice_checker *checker);

/* Returns whether the agent now has the controlling role: true if stunp_ice_checker_is_controlling
 * returns 1, and false if it returns 0 or fails. */
STUNP_USE_RESULT STUNP_NOT_NULL(1)
STUNP_INLINED bool stunp_ice_checker_controls(stunp_ice_checker *checker);

/* Sets the role of the agent from now on: controlling or controlled. Call it if the answer to an
 * offer says that the peer is lite, because this agent then must have the controlling role (section
 * 6.1.1). Also call it to undo a switch of roles, if you cannot send the answer that goes with the
 * switch. Do not call it after a role conflict, because the agent switches its role itself. An
 * outstanding check still states the role in which it was written. The call changes only the role.
 *
 * Returns 0. Errors:
 *   STUNP_EMPTY_HANDLE  the handle is empty
 *   STUNP_WRONG_HANDLE  the handle has no agent */
STUNP_NOT_NULL(1)
int64_t stunp_ice_checker_set_role(stunp_ice_checker *checker, bool is_controlling);

/* Sets a new tie-breaker. After STUNP_ICE_CONFLICT, an agent must have a new random tie-breaker
 * before it writes its next check (section 16.1).
 *
 * Returns 0. Errors:
 *   STUNP_EMPTY_HANDLE  the handle is empty
 *   STUNP_WRONG_HANDLE  the handle has no agent */
STUNP_NOT_NULL(1)
int64_t stunp_ice_checker_set_tie_breaker(stunp_ice_checker *checker, uint64_t tie_breaker);

/* Writes a check like stunp_ice_checker_check, but `check` must not be null.
 *
 * Returns and fails as stunp_ice_checker_check does. */
STUNP_USE_RESULT STUNP_WRITES(6, 7) STUNP_NOT_NULL(1, 2, 3, 8)
int64_t stunp_ice_checker_check_with(stunp_ice_checker *checker, const uint8_t id[12],
                                     const stunp_address *to, uint32_t priority, bool nominate,
                                     uint8_t *out, size_t room, stunp_ice_check *check);

/* Writes a check to the front of `out`, and writes to `*check` the data that is needed to judge the
 * answer. Send the check to the address `to`, and retransmit it until its answer arrives (section
 * 7.2.4). To know when to retransmit it, use a timer of your own, or call
 * stunp_ice_checks_start instead, which includes the timer. A buffer of STUNP_ICE_CHECK_MAX
 * bytes is enough.
 *
 * `id` must be random and new, because the answer to a check could end another check with the same
 * ID. If the peer learns a new peer-reflexive candidate from this check, `priority` is the priority
 * of this candidate (section 7.1.1). The check nominates its pair if `nominate` is true and this
 * agent has the controlling role.
 *
 * Returns the length of the check. Errors:
 *   STUNP_EMPTY_HANDLE      the handle is empty
 *   STUNP_WRONG_HANDLE      the handle has no agent
 *   STUNP_BAD_ARGUMENT      `to` is not an IPv4 or IPv6 address
 *   STUNP_CANNOT_SIGN       the credentials of the peer are not known yet
 *   STUNP_OUT_OF_MEMORY     an allocation failed
 *   STUNP_BUFFER_TOO_SMALL  the check does not fit into `room` bytes */
STUNP_USE_RESULT
STUNP_INLINED int64_t stunp_ice_checker_check(stunp_ice_checker *checker, const uint8_t id[12],
                                              const stunp_address *to, uint32_t priority,
                                              bool nominate, uint8_t *out, size_t room,
                                              stunp_ice_check *check);

/* Judges a datagram like stunp_ice_checker_receive. `check` is used only if `has_check` is true,
 * but must never be null, and `received` must not be null either.
 *
 * Returns and fails as stunp_ice_checker_receive does. */
STUNP_USE_RESULT STUNP_READS(2, 3) STUNP_WRITES(7, 8) STUNP_NOT_NULL(1, 4, 6, 9)
int64_t stunp_ice_checker_receive_with(stunp_ice_checker *checker,
                                       const uint8_t *STUNP_RESTRICT message, size_t message_length,
                                       const stunp_address *from, bool has_check,
                                       const stunp_ice_check *check, uint8_t *STUNP_RESTRICT out,
                                       size_t room, stunp_ice_received *received);

/* Judges the datagram of `length` bytes that arrived from the address `from`, and writes the result
 * to `*received`. If the datagram is a check of the peer, writes the answer to the front of `out`.
 * `check` is your stored check with the transaction ID of the datagram, or null if you have no such
 * check. The transaction ID is in the 12 bytes from `bytes + 8` on, if the datagram has at least 20
 * bytes.
 *
 *   - A datagram is dropped if it is not a STUN message, if its FINGERPRINT is missing or wrong, or
 *     if its method is not Binding.
 *   - A check is accepted if its USERNAME begins with your name and a colon, and it is signed with
 *     your password. The credentials of the peer are not needed for this. It is answered with a 400
 *     if it is not signed, or has no USERNAME or no PRIORITY; with a 401 if the name or the
 *     signature is wrong; and with a 420 if it has an attribute that must be understood but is not.
 *     If the check states that the peer has the same role as this agent, the agent with the larger
 *     tie-breaker gets the controlling role (section 7.3.1.1). If the tie-breakers are equal, this
 *     agent's tie-breaker counts as the larger. If this agent does not have the role that follows
 *     from this, it switches its role. Otherwise it answers the check with a 487, which asks the
 *     peer to switch.
 *   - A response is dropped if it does not answer `check`, or is not signed by the peer. Otherwise
 *     it ends the check. After a 487 this agent has the opposite of the role in which the check was
 *     sent (section 7.2.5.1).
 *   - An indication is dropped if it has an attribute that must be understood but is not.
 *
 * An IPv4 address and the same address mapped into IPv6 (::ffff:a.b.c.d) count as one address.
 * `received` may be null if you need only the returned kind.
 *
 * Returns a stunp_kind: STUNP_DROPPED, _ANSWER, _IS_INDICATION or _IS_RESPONSE. Errors, which leave
 * the agent unchanged, and after which `received->kind` is STUNP_FAILED:
 *   STUNP_EMPTY_HANDLE      the handle is empty
 *   STUNP_WRONG_HANDLE      the handle has no agent
 *   STUNP_BAD_ARGUMENT      `received->size` is wrong, or `from` or the address in `check` is not
 *                           an IPv4 or IPv6 address
 *   STUNP_OUT_OF_MEMORY     an allocation failed. Nothing is lost, because the peer retransmits its
 *                           check
 *   STUNP_BUFFER_TOO_SMALL  the answer does not fit into `room` bytes. `received->needed` is then
 *                           the length of the answer */
STUNP_USE_RESULT
STUNP_INLINED int64_t stunp_ice_checker_receive(stunp_ice_checker *checker,
                                                const uint8_t *STUNP_RESTRICT bytes, size_t length,
                                                const stunp_address *from,
                                                const stunp_ice_check *check,
                                                uint8_t *STUNP_RESTRICT out, size_t room,
                                                stunp_ice_received *received);

/* ---- Around the checks of ICE
 *
 * These calls are for the other tasks of an agent. They are written in C, so they are tested, but
 * not proved. */

/* Finds the username fragment of the peer in a check that was accepted: the text that follows your
 * own fragment and a colon in USERNAME. If an offer has several answers, the fragment identifies
 * the answer to which the check belongs.
 *
 *     size_t sender_length;
 *     int64_t place = stunp_ice_find_sender(bytes, length, &sender_length);
 *     if (place > 0) printf("%.*s\n", (int)sender_length, (const char *)bytes + place);
 *
 * Returns the offset of the fragment in the message, and writes its length in bytes to
 * `*sender_length`. Fails with the errors of stunp_find_text, and with STUNP_MALFORMED_ATTRIBUTE if
 * USERNAME has no colon. After an error `*sender_length` is 0. */
STUNP_USE_RESULT STUNP_NOT_NULL(3)
STUNP_INLINED int64_t stunp_ice_find_sender(const uint8_t *message, size_t length,
                                            size_t *sender_length);

/* How a candidate was found. The numbers are the type preferences that RFC 8445 recommends (section
 * 5.1.2.2). */
typedef enum stunp_ice_candidate_kind {
    STUNP_ICE_RELAYED = 0,            /* an address that a TURN server has allocated */
    STUNP_ICE_SERVER_REFLEXIVE = 100, /* the address that a STUN server saw a request come from */
    STUNP_ICE_PEER_REFLEXIVE = 110,   /* the address that the peer saw a check come from */
    STUNP_ICE_HOST = 126              /* the address of a socket */
} stunp_ice_candidate_kind;

/* Returns the priority of a candidate (section 5.1.2.1), or, if `kind` is STUNP_ICE_PEER_REFLEXIVE,
 * the value of PRIORITY in a check that is sent from the candidate (section 7.1.1). `preference`
 * ranks the addresses of this side: use 65535 for the best address, or for the only address.
 * `component` is the number of the component, from 1 to 256. A larger number counts as 256. */
STUNP_USE_RESULT
STUNP_INLINED uint32_t stunp_ice_priority(stunp_ice_candidate_kind kind, uint16_t preference,
                                          uint16_t component);

/* Returns the priority of a pair (section 6.1.2.3). `controlling` is the priority of the
 * controlling agent's candidate, and `controlled` is the priority of the controlled agent's
 * candidate. Both agents compute the same number. A priority above 2147483647, which no candidate
 * may have, counts as 2147483647. */
STUNP_USE_RESULT
STUNP_INLINED uint64_t stunp_ice_pair_priority(uint32_t controlling, uint32_t controlled);

/* The timers of consent on a selected pair (RFC 7675, section 5.1): you send a check every 4 to 6
 * seconds, and consent ends when no check has been answered for 30 seconds. These checks also keep
 * the path open.
 *
 *     stunp_ice_consent consent = stunp_ice_consent_from(now, random); // the pair is selected
 *     // In the loop:
 *     switch (stunp_ice_consent_poll(&consent, now, random)) {
 *     case STUNP_ICE_CONSENT_ASK: // write a check on the pair, and send it once
 *     case STUNP_ICE_CONSENT_OVER: // send nothing more to the peer
 *     default: until = stunp_ice_consent_until(&consent, until);
 *     }
 *     // When the answer to any of these checks is STUNP_ICE_VALID:
 *     stunp_ice_consent_answered(&consent, now);
 *
 * Times are nanoseconds of a clock that never goes back.
 *
 *   until  when consent ends
 *   next   when the next check is sent */
typedef struct {
    uint64_t until;
    uint64_t next;
} stunp_ice_consent;

/* What to do for consent. */
typedef enum stunp_ice_consent_step {
    STUNP_ICE_CONSENT_WAIT = 0, /* nothing yet */
    STUNP_ICE_CONSENT_ASK = 1,  /* send a check on the pair, once */
    STUNP_ICE_CONSENT_OVER = 2  /* no check was answered for 30 seconds: send nothing more to the
                                 * peer */
} stunp_ice_consent_step;

/* Returns the timers of consent for a pair that is selected at the time `now`. Consent lasts for 30
 * seconds from `now`, because the answer that made the pair valid counts as consent. `random` is a
 * random number, which decides when to send the first check: 4 to 6 seconds after `now`. */
STUNP_USE_RESULT
STUNP_INLINED stunp_ice_consent stunp_ice_consent_from(uint64_t now, uint32_t random);

/* Returns what to do for consent at the time `now`. `random` is a random number, which decides when
 * to send the next check if one is due now: 4 to 6 seconds after `now`. */
STUNP_USE_RESULT STUNP_NOT_NULL(1)
STUNP_INLINED stunp_ice_consent_step stunp_ice_consent_poll(stunp_ice_consent *consent,
                                                            uint64_t now, uint32_t random);

/* Renews consent for 30 seconds from `now` on. Call it when a check on the pair has succeeded
 * (STUNP_ICE_VALID). Does nothing if consent is over. */
STUNP_NOT_NULL(1)
STUNP_INLINED void stunp_ice_consent_answered(stunp_ice_consent *consent, uint64_t now);

/* Returns the earlier of `until` and the time at which there is something to do for consent. */
STUNP_USE_RESULT STUNP_NOT_NULL(1)
STUNP_INLINED uint64_t stunp_ice_consent_until(const stunp_ice_consent *consent, uint64_t until);

/* ---- Clients
 *
 * A client has one server, and any number of requests at the same time. Use a client in one thread
 * at a time.
 *
 * With long-term credentials, a client answers a challenge (a 401 or a 438) with another message of
 * the same request, which has its own transaction ID. Only one message of a request is sent at a
 * time, the current one. But a response that is signed for any of its messages ends the request,
 * unless the response is a challenge. A request that is never polled within its first plan ends
 * without being sent.
 *
 * docs/DIFFERENCES.md in the repository has the whole rule by which a client judges responses, as
 * one table under "The client's rule". The reasons of clients in stunp_drop name their rows.
 * SECURITY.md lists what each kind of forged datagram costs. In short:
 *
 *   - Too many challenges end a request: see `challenges` of stunp_endpoint_client_settings.
 *   - An unsigned error other than a challenge ends no request, unless you accept unsigned
 *     responses, because anybody can forge one. After an unsigned 400, 437 or 441, the client may
 *     send another message of the request, because servers answer a message that is signed for a
 *     forged challenge with these errors.
 *   - After a success, the client drops weaker challenges (STUNP_DROP_WEAKER_CHALLENGE), which ask
 *     for HMAC-SHA1 in place of HMAC-SHA256, or for the name in place of its hash. So after your
 *     server's settings have become weaker, one request times out, and the next one succeeds.
 *   - One forged datagram ends no request over UDP, unless the server's own challenges have brought
 *     the request to a limit of `challenges`, or you accept unsigned responses. Several can end a
 *     request, and an attacker who keeps the server's responses from arriving can make it time out.
 *   - No forged challenge makes a server accept a weaker algorithm than the strongest that both
 *     sides support. This assumes that the server's nonces and lists of algorithms match its
 *     current settings, as those of stunp_endpoint_server do. */

/* The longest body of a request, in bytes. The attributes that the client adds to such a body still
 * fit into a message, unless the server's list of algorithms is very long. In that case
 * stunp_endpoint_client_request fails with STUNP_MESSAGE_TOO_LONG, or the challenge is dropped with
 * STUNP_DROP_UNANSWERABLE_CHALLENGE. */
enum { STUNP_BODY_MAX = 60000 };

/* The settings of a client. A field that is 0 or null takes its default. The texts end with a zero
 * byte.
 *
 *   size                sizeof (stunp_endpoint_client_settings), set by STUNP_INIT
 *   server              the address of the server. It has no default
 *   seed                32 random bytes that no other client has, from which the transaction IDs
 *                       are derived. An attacker who can guess the IDs can forge unsigned
 *                       responses. It has no default. A seed that is one repeated byte is refused,
 *                       because it was probably never filled
 *   name                the user name, of at most STUNP_NAME_MAX bytes. If it is null, the client
 *                       has no user: it does not sign requests, and accepts unsigned responses. The
 *                       name must not be empty
 *   password            the user's password. It must be null if `name` is null, and must be neither
 *                       null nor empty otherwise
 *   software            the text of SOFTWARE in each request, of at most 763 bytes. By default
 *                       requests have no SOFTWARE
 *   understood          the types of attributes that you understand in responses, in addition to
 *                       those in stunp_attribute_type, as `understood_count` numbers. If a response
 *                       has an attribute of any other type that must be understood, the request
 *                       ends with STUNP_RESULT_NOT_UNDERSTOOD
 *   credentials         the kind of the user's credentials: STUNP_LONG_TERM, which is the default,
 *                       or STUNP_SHORT_TERM. Ignored if there is no user
 *   algorithms          the algorithms that the client supports: STUNP_SHA1, STUNP_SHA256, or by
 *                       default both. With STUNP_SHORT_TERM, the one algorithm with which requests
 *                       and responses are signed, by default STUNP_SHA1
 *   anonymous_username  with long-term credentials: STUNP_AUTO, the default, sends a hash in place
 *                       of the user name if the server accepts hashes; STUNP_REQUIRED ignores
 *                       challenges of a server that does not accept hashes; STUNP_DISABLED always
 *                       sends the name
 *   challenges          how often another message of a request may take the place of the current
 *                       one, because of a challenge or an unsigned error. By default 6 times, after
 *                       which the next challenge ends the request. A restart of the server, a new
 *                       address of the client, an expired nonce and a forged challenge each count
 *                       as one. A wrong password ends a request earlier: when the server refuses
 *                       the current message again after its retransmission (over a stream, at the
 *                       first refusal), or sends the third 401 with the same realm but a new nonce.
 *                       A request that a challenge ends has the result STUNP_RESULT_UNAUTHORIZED if
 *                       the challenge is a 401 to a signed message, and otherwise
 *                       STUNP_RESULT_TOO_MANY_CHALLENGES
 *   initial             how long to wait after the first transmission of a request, in nanoseconds.
 *                       Each further wait is twice the wait before (section 6.2.1). By default
 *                       500000000 (500 ms)
 *   longest             the longest of these waits, in nanoseconds. By default the waits have no
 *                       bound
 *   last                how long to wait after the last transmission, in nanoseconds. By default
 *                       8000000000 (8 s), even if `initial` is set
 *   transmissions       how often a message is sent. By default 7 times, so that a request without
 *                       an answer ends after 39.5 s. These transmissions and waits are the plan of
 *                       the message. Each message of a request has a plan of its own, but after the
 *                       end of the first plan the client sends no more messages of the request, and
 *                       answers no more challenges to it. So each request ends within twice the
 *                       duration of a plan, which is 79 s by default, or at the first call of
 *                       stunp_endpoint_client_poll after that
 *   is_stream           whether messages go over a stream, such as TCP. Each message is then sent
 *                       once, and the client waits for the response as long as it would wait over
 *                       UDP. Split the stream with stunp_next_frame, or with stunp_next_turn_frame
 *                       if the stream also has ChannelData, and pass one whole message to each call
 *                       of stunp_endpoint_client_receive
 *   accepts_unsigned    with long-term credentials: whether the client accepts an unsigned response
 *                       to an unsigned message. By default it does not, so the requests of a client
 *                       with a user time out at a server that does not ask for credentials. If you
 *                       set this, an attacker who sees a request can forge the response, even if
 *                       the request is signed, because after an unsigned error 400 the client may
 *                       send the request unsigned. For a single request that needs no proof, set
 *                       `is_unsigned` of stunp_request_options instead
 *   has_fingerprint     whether requests end with FINGERPRINT
 *   requires_fingerprint  whether the client drops responses without FINGERPRINT (section 7.3). By
 *                       default it accepts them */
typedef struct {
    size_t size;
    stunp_address server;
    const uint8_t *seed;
    const char *name;
    const char *password;
    const char *software;
    const uint16_t *understood;
    size_t understood_count;
    stunp_credentials credentials;
    uint32_t algorithms;
    stunp_feature anonymous_username;
    uint32_t challenges;
    uint64_t initial;
    uint64_t longest;
    uint64_t last;
    uint32_t transmissions;
    bool is_stream;
    bool accepts_unsigned;
    bool has_fingerprint;
    bool requires_fingerprint;
} stunp_endpoint_client_settings;

/* The settings of a client that are numbers or flags, for stunp_endpoint_client_new_with. */
typedef struct {
    uint64_t initial;
    uint64_t longest;
    uint64_t last;
    uint32_t transmissions;
    uint32_t challenges;
    uint32_t credentials;
    uint32_t algorithms;
    uint32_t anonymous_username;
    bool is_stream;
    bool accepts_unsigned;
    bool has_fingerprint;
    bool requires_fingerprint;
} stunp_client_options;

/* What you have to do next, which is the result of stunp_endpoint_client_poll. */
typedef enum stunp_event_kind {
    STUNP_WAIT = 0,     /* wait for a datagram, or until the time `until` */
    STUNP_TRANSMIT = 1, /* send the first `length` bytes of the buffer to the server. If the
                         * datagram is lost, a later call of stunp_endpoint_client_poll writes the
                         * bytes again */
    STUNP_ENDED = 2,    /* the request `request` has ended with the result `result` */
    STUNP_NO_EVENT = 7  /* only in `kind` of a stunp_event: the call has failed. The call itself
                         * returns the error */
} stunp_event_kind;

/* How a request ended. */
typedef enum stunp_result {
    STUNP_RESULT_SUCCESS = 1,        /* the server has answered with a success response */
    STUNP_RESULT_REFUSED = 2,        /* the server has answered with the error `code` */
    STUNP_RESULT_REDIRECTED = 3,     /* the server redirects the client to another server (error
                                      * 300, section 10): look for STUNP_ALTERNATE_SERVER in the
                                      * response, and make a client for that server if you trust
                                      * it */
    STUNP_RESULT_TIMED_OUT = 4,      /* no response that could be accepted has arrived in time. If
                                      * the client has a user, it drops unsigned errors, so such an
                                      * error leads to this result too, for example a 401 because of
                                      * a wrong short-term password: see `dropped.code`. With
                                      * long-term credentials a 401 or 438 is a challenge instead */
    STUNP_RESULT_UNAUTHORIZED = 5,   /* a 401 refused a signed message of the request: the user
                                      * name or the password is wrong, or an attacker forges
                                      * challenges */
    STUNP_RESULT_NOT_UNDERSTOOD = 6, /* the response has an attribute that the client must
                                      * understand, but does not (section 6.3.3). The field
                                      * `not_understood` of stunp_event has the attribute's type */
    STUNP_RESULT_MALFORMED = 7,      /* the response is an error response without a well-formed
                                      * code */
    STUNP_RESULT_CANCELLED = 8,      /* you have called stunp_endpoint_client_cancel */
    STUNP_RESULT_TOO_MANY_CHALLENGES = 9 /* the request was challenged too often, and the last
                                      * challenge was not a 401 to a signed message: servers with
                                      * different nonces have one address, or an attacker forges
                                      * challenges */
} stunp_result;

/* The number of dropped responses to a request, and the last of them. Show this information to
 * people, but never act on it, because anybody can send such responses.
 *
 *   count  the number of responses to the request that were dropped
 *   why    why the last of these responses was dropped
 *   code   the error code of the last of these responses, or 0 if it had no error code */
typedef struct {
    uint32_t count;
    stunp_drop why;
    uint32_t code;
} stunp_dropped;

/* What to do next. The line of a field names the kinds or the results for which the field is set.
 * For all other kinds and results the field is 0. After an error `kind` is STUNP_NO_EVENT and
 * `length` is 0. After STUNP_BUFFER_TOO_SMALL the other fields describe the event whose bytes are
 * lost: if a request has ended, `result` and `request` are set, and otherwise `result` is 0. If
 * `size` is wrong, only `kind` and `length` are written.
 *
 *   size            sizeof (stunp_event), set by STUNP_INIT once, before the loop
 *   kind            what to do
 *   result          STUNP_ENDED: how the request has ended
 *   request         STUNP_TRANSMIT, STUNP_ENDED: the number of the request
 *   until           STUNP_WAIT: when to call stunp_endpoint_client_poll again if nothing has
 *                   arrived, in nanoseconds of the clock of `now`; UINT64_MAX if no request is
 *                   outstanding
 *   length          STUNP_TRANSMIT: the number of bytes to send. STUNP_ENDED: the length of the
 *                   response in the buffer, or 0 if the result is STUNP_RESULT_TIMED_OUT,
 *                   _UNAUTHORIZED or _CANCELLED
 *   needed          STUNP_NO_EVENT: after STUNP_BUFFER_TOO_SMALL, the number of bytes that were
 *                   lost
 *   code            STUNP_RESULT_REFUSED: the code of the error. STUNP_RESULT_REDIRECTED: 300
 *   not_understood  STUNP_RESULT_NOT_UNDERSTOOD: the type of the attribute
 *   signed_by       STUNP_ENDED: the stunp_algorithm of the signature that was verified, or 0 if no
 *                   signature was verified, which is always so without a user
 *   dropped         STUNP_RESULT_TIMED_OUT: the dropped responses to the request
 *   round_trip      STUNP_ENDED: the nanoseconds between the call of stunp_endpoint_client_poll
 *                   that returned the answered message, and the arrival of the response. UINT64_MAX
 *                   if there is no response; if the answered message was returned more than once,
 *                   because it is then unknown which transmission the server has answered (RFC
 *                   6298, section 3); if another message of the request was sent after the answered
 *                   message; or if the answered message was sent again in place of another
 *                   message */
typedef struct {
    size_t size;
    stunp_event_kind kind;
    stunp_result result;
    uint64_t request;
    uint64_t until;
    size_t length;
    size_t needed;
    uint32_t code;
    uint16_t not_understood;
    uint16_t signed_by;
    stunp_dropped dropped;
    uint64_t round_trip;
} stunp_event;

/* How a single request is sent, and from which address its response comes, for
 * stunp_endpoint_client_request_as. If a field is 0, the setting of the client is used.
 *
 *   size           sizeof (stunp_request_options), set by STUNP_INIT
 *   from           the address that the response comes from, in place of the server's address, such
 *                  as the OTHER-ADDRESS of RFC 5780 for a request with CHANGE-REQUEST. The request
 *                  is still sent to the server. For a response from any other address, even the
 *                  server's, stunp_endpoint_client_receive returns STUNP_NOT_OURS. A server that
 *                  does not know CHANGE-REQUEST answers from its own address, so the request times
 *                  out: look for OTHER-ADDRESS in an earlier response before you use this
 *   transmissions  how often each message of the request is sent (Rc in section 6.2.1)
 *   initial        the nanoseconds between the first and the second transmission (RTO)
 *   longest        the largest number of nanoseconds between two transmissions
 *   last           the nanoseconds from the last transmission to the end of the request
 *   is_unsigned    whether the request is sent without credentials. The client then accepts the
 *                  response without a signature, and answers no challenge: a 401 ends the request
 *                  with STUNP_RESULT_REFUSED. An attacker who can read the request, or guess its
 *                  transaction ID, can forge the response. So set this only for requests that need
 *                  no proof, at servers such as coturn, which do not sign the response: a Binding
 *                  request that asks for your address, or that keeps a NAT binding alive */
typedef struct {
    size_t size;
    stunp_address from;
    uint32_t transmissions;
    uint64_t initial;
    uint64_t longest;
    uint64_t last;
    bool is_unsigned;
} stunp_request_options;

/* The attributes of a request, in a buffer of yours. stunp_endpoint_client_request copies them, so
 * you may reuse the body and its buffer as soon as that call returns. The client writes its copy of
 * the attributes into each message of the request, also into a message that answers a challenge.
 * You may read the fields, but change them only through the calls that take a body. A body points
 * to your buffer: if the buffer is a local variable, do not return the body from that function.
 *
 *     uint8_t room[64];
 *     stunp_body body = stunp_body_on(room, sizeof room);
 *     stunp_body_add_requested_transport(&body, 17); // UDP
 *     stunp_body_add_number(&body, STUNP_LIFETIME, 600, 4);
 *     int64_t asked = stunp_endpoint_client_request(&client, STUNP_ALLOCATE, &body, now, &request); */
typedef struct {
    uint8_t *bytes;  /* your buffer, which starts with the attributes */
    size_t room;     /* the length of the buffer */
    size_t length;   /* the length of the attributes */
    int64_t refusal; /* the first error of a call with this body, or 0 */
} stunp_body;

/* Creates a client, like stunp_endpoint_client_new, from settings that are passed one by one.
 * `understood_length` counts numbers, not bytes. A `name_length` of 0 means no user, and a
 * `software_length` of 0 means no SOFTWARE.
 *
 * Returns 0. Errors:
 *   STUNP_FULL_HANDLE    the handle is not empty
 *   STUNP_BAD_ARGUMENT   `server` is not an IPv4 or IPv6 address; `algorithms` is above 3;
 *                        `anonymous_username` is above 2; there is a user, and `credentials` is
 *                        neither STUNP_LONG_TERM nor STUNP_SHORT_TERM, or is STUNP_SHORT_TERM and
 *                        `algorithms` is 3; only one of the name and the password has bytes; or all
 *                        bytes of the seed are equal
 *   STUNP_NOT_TEXT       the name, the password or SOFTWARE is not UTF-8
 *   STUNP_TEXT_TOO_LONG  the name has more than STUNP_NAME_MAX bytes, or SOFTWARE more than 763
 *   STUNP_OUT_OF_MEMORY  an allocation failed */
STUNP_READS(4, 5) STUNP_READS(6, 7) STUNP_READS(8, 9) STUNP_READS(10, 11) STUNP_NOT_NULL(1, 2, 3, 12)
int64_t stunp_endpoint_client_new_with(stunp_endpoint_client *client, const stunp_address *server,
                                       const uint8_t seed[32], const char *name,
                                       size_t name_length, const char *password,
                                       size_t password_length, const char *software,
                                       size_t software_length, const uint16_t *understood,
                                       size_t understood_length,
                                       const stunp_client_options *options);

/* Creates a client with these settings, which are copied. `settings` must not be null.
 *
 * Returns 0. Errors:
 *   STUNP_BAD_ARGUMENT  `size` is wrong, `seed` is null, only one of `name` and `password` is null,
 *                       one of them is empty, or `understood` is null and `understood_count` is not
 *                       0
 * and then the errors of stunp_endpoint_client_new_with. */
STUNP_NOT_NULL(1, 2)
STUNP_INLINED int64_t
stunp_endpoint_client_new(stunp_endpoint_client *client,
                          const stunp_endpoint_client_settings *settings);

/* Frees a client and makes its handle empty. The pointer must not be null. This call is for
 * programs that use the archive without this header; in C and C++, call
 * stunp_endpoint_client_free. */
STUNP_NOT_NULL(1)
void stunp_endpoint_client_clear(stunp_endpoint_client *client);

/* Frees a client and makes its handle empty. Does nothing if the handle is empty or the pointer is
 * null. */
STUNP_INLINED void stunp_endpoint_client_free(stunp_endpoint_client *client);

/* ---- Bodies of requests */

/* Returns a body without attributes, in a buffer of `room` bytes. */
STUNP_INLINED stunp_body stunp_body_on(uint8_t *bytes, size_t room);

/* Adds an attribute like stunp_body_add, but also accepts STUNP_XOR_PEER_ADDRESS, whose value must
 * then be an address that is not XORed yet. In your own code, call stunp_body_add and
 * stunp_body_add_peer. */
STUNP_READS(3, 4)
STUNP_INLINED int64_t stunp_body_put(stunp_body *body, uint32_t type, const void *value,
                                     size_t length);

/* Adds an attribute with this value to a body. You may add several attributes of the same type. The
 * request has the attributes in the order in which they were added. Once a call with a body has
 * failed, later calls with it add nothing.
 *
 * Returns 0, or the first error of any call with this body. You need not test the result, because
 * stunp_endpoint_client_request returns the error too. Errors:
 *   STUNP_NOT_ALLOWED       `type` is STUNP_XOR_PEER_ADDRESS: call stunp_body_add_peer
 *   STUNP_BAD_ARGUMENT      the length of the body is above its room or above STUNP_BODY_MAX, or
 *                           its buffer is null: only calls with a body may change its fields
 *   STUNP_BAD_ARGUMENT      `type` is above 65535
 *   STUNP_MESSAGE_TOO_LONG  the attributes would have more than STUNP_BODY_MAX bytes
 *   STUNP_BUFFER_TOO_SMALL  the attribute, with its header of 4 bytes and padding, does not fit
 *                           into the buffer */
STUNP_READS(3, 4)
STUNP_INLINED int64_t stunp_body_add(stunp_body *body, uint32_t type, const void *value,
                                     size_t length);

/* Adds an attribute with a number of `size` bytes in network order, like stunp_body_add.
 *
 * Returns 0, or the first error of any call with this body. Errors:
 *   STUNP_BAD_ARGUMENT  `size` is not 1, 2, 4 or 8, or the number does not fit into `size` bytes
 * and then the errors of stunp_body_add. */
STUNP_INLINED int64_t stunp_body_add_number(stunp_body *body, uint32_t type, uint64_t number,
                                            size_t size);

/* Adds STUNP_XOR_PEER_ADDRESS with this address (RFC 8656, section 18.3), like stunp_body_add. The
 * address is XORed when the request is written.
 *
 * Returns 0, or the first error of any call with this body. Errors:
 *   STUNP_BAD_ARGUMENT  `peer` is not an IPv4 or IPv6 address
 * and then the errors of stunp_body_add. */
STUNP_INLINED int64_t stunp_body_add_peer(stunp_body *body, const stunp_address *peer);

/* Adds STUNP_REQUESTED_TRANSPORT with the number of a protocol, such as 17 for UDP (RFC 8656,
 * section 18.8), like stunp_body_add. Each STUNP_ALLOCATE request needs this attribute.
 *
 * Returns 0, or the first error of any call with this body. Fails as stunp_body_add does. */
STUNP_INLINED int64_t stunp_body_add_requested_transport(stunp_body *body, uint8_t protocol);

/* Adds STUNP_CHANNEL_NUMBER with this channel (RFC 8656, section 18.1), like stunp_body_add. A
 * STUNP_CHANNEL_BIND request also has the address of the peer (stunp_body_add_peer).
 *
 * Returns 0, or the first error of any call with this body. Errors:
 *   STUNP_BAD_ARGUMENT  `channel` is not from 0x4000 to 0x4FFF
 * and then the errors of stunp_body_add. */
STUNP_INLINED int64_t stunp_body_add_channel_number(stunp_body *body, uint32_t channel);

/* Adds STUNP_REQUESTED_ADDRESS_FAMILY (RFC 8656, section 18.6), like stunp_body_add.
 * `address_length` is the length of an address of the family, as in stunp_address: 4 for IPv4, and
 * 16 for IPv6. Without this attribute a server allocates an IPv4 address.
 *
 * Returns 0, or the first error of any call with this body. Errors:
 *   STUNP_BAD_ARGUMENT  `address_length` is neither 4 nor 16
 * and then the errors of stunp_body_add. */
STUNP_INLINED int64_t stunp_body_add_requested_family(stunp_body *body, size_t address_length);

/* ---- Requests of a client
 *
 * Call stunp_endpoint_client_poll after each call that starts or cancels a request or reads a
 * datagram, and when a wait is over, and repeat the call until it returns STUNP_WAIT. Otherwise
 * requests are not sent, and you do not learn how they ended. Times are nanoseconds of a clock that
 * never goes back, such as CLOCK_MONOTONIC. */

/* Starts a request like stunp_endpoint_client_request. `body` has the attributes one after the
 * other, each with its header and padded to a multiple of 4 bytes, as in a message; but the
 * addresses of STUNP_XOR_PEER_ADDRESS are not XORed. `request` must not be null.
 *
 * Returns and fails as stunp_endpoint_client_request does. */
STUNP_READS(3, 4) STUNP_NOT_NULL(1, 6)
int64_t stunp_endpoint_client_request_with(stunp_endpoint_client *client, uint32_t method,
                                           const uint8_t *body, size_t body_length, uint64_t now,
                                           uint64_t *request);

/* Starts a request with this method and the attributes of `body`, or without attributes if `body`
 * is null. stunp_endpoint_client_poll then writes the bytes of the request, for you to send. Writes
 * the number of the request to `*request`: 0 for the first request of this client, and one more for
 * each further request. The pointer `request` may be null.
 *
 * The attributes of the body are tested one after the other. For the first attribute that is
 * refused, the call returns one of three errors of the list below: the third STUNP_BAD_ARGUMENT,
 * STUNP_NOT_ALLOWED, or the first STUNP_MESSAGE_TOO_LONG.
 *
 * Returns 0. Errors:
 *   the error of the body, if a call with this body has failed
 *   STUNP_BAD_ARGUMENT         the length of the body is above its room or above STUNP_BODY_MAX, or
 *                              its buffer is null
 *   STUNP_EMPTY_HANDLE         the handle is empty
 *   STUNP_WRONG_HANDLE         the handle has no client
 *   STUNP_BAD_ARGUMENT         `method` is above 4095
 *   STUNP_BAD_ARGUMENT         an attribute of the body is incomplete, or is a
 *                              STUNP_XOR_PEER_ADDRESS without an address. Only stunp_body_put can
 *                              add such an address, and no call adds an incomplete attribute
 *   STUNP_NOT_ALLOWED          the type of an attribute is USERNAME, USERHASH, REALM, NONCE,
 *                              PASSWORD-ALGORITHM, PASSWORD-ALGORITHMS, MESSAGE-INTEGRITY,
 *                              MESSAGE-INTEGRITY-SHA256, SOFTWARE or FINGERPRINT, which the client
 *                              writes itself; XOR-MAPPED-ADDRESS or XOR-RELAYED-ADDRESS, whose
 *                              values depend on the transaction ID; or ERROR-CODE, which no request
 *                              has
 *   STUNP_MESSAGE_TOO_LONG     the attributes have more than STUNP_BODY_MAX bytes, counting 24 for
 *                              each STUNP_XOR_PEER_ADDRESS
 *   STUNP_ALREADY_IN_PROGRESS  no transaction ID is left
 *   STUNP_MESSAGE_TOO_LONG     the request does not fit into a message
 *   STUNP_OUT_OF_MEMORY        an allocation failed. The call may return this in place of any error
 *                              after the test of the method */
STUNP_INLINED int64_t stunp_endpoint_client_request(stunp_endpoint_client *client, uint32_t method,
                                                    const stunp_body *body, uint64_t now,
                                                    uint64_t *request);

/* Starts a request like stunp_endpoint_client_request_as. `body` has the same form as in
 * stunp_endpoint_client_request_with, and `request` must not be null.
 *
 * Returns and fails as stunp_endpoint_client_request_as does. */
STUNP_READS(3, 4) STUNP_NOT_NULL(1, 5, 7)
int64_t stunp_endpoint_client_request_as_with(stunp_endpoint_client *client, uint32_t method,
                                              const uint8_t *body, size_t body_length,
                                              const stunp_request_options *options, uint64_t now,
                                              uint64_t *request);

/* Starts a request like stunp_endpoint_client_request, but with options, which say how it is sent,
 * and from which address its response comes. The options are copied. `options` must not be null.
 *
 * Returns 0. Errors:
 *   STUNP_BAD_ARGUMENT  after the test of the method: `options->size` is wrong, or the length of
 *                       `options->from` is neither 0, 4 nor 16
 * and the errors of stunp_endpoint_client_request. */
STUNP_NOT_NULL(1, 4)
STUNP_INLINED int64_t stunp_endpoint_client_request_as(stunp_endpoint_client *client,
                                                       uint32_t method, const stunp_body *body,
                                                       const stunp_request_options *options,
                                                       uint64_t now, uint64_t *request);

/* Reads a datagram like stunp_endpoint_client_receive, but `why` must not be null.
 *
 * Returns and fails as stunp_endpoint_client_receive does. */
STUNP_USE_RESULT STUNP_READS(2, 3) STUNP_NOT_NULL(1, 4, 6)
int64_t stunp_endpoint_client_receive_with(stunp_endpoint_client *client, const uint8_t *message,
                                           size_t message_length, const stunp_address *from,
                                           uint64_t now, uint32_t *why);

/* Reads the datagram of `length` bytes that arrived from the address `from`. Call
 * stunp_endpoint_client_poll after this call, to learn what to do next. The result means the
 * following:
 *
 *   - STUNP_NOT_OURS: the datagram is not for this client, so pass it to the next client on the
 *     socket. It is not a STUN message, but for example ChannelData or media; or it is a request;
 *     or it is a response, but to no outstanding request; or it does not come from the server's
 *     address. (If the options of a request name another address, its response must come from that
 *     address instead.)
 *   - STUNP_IS_INDICATION: the datagram is an indication from the server. It is not authenticated,
 *     and the client has checked neither its FINGERPRINT nor its attributes.
 *   - STUNP_IS_RESPONSE: the datagram is a response to a request of this client. Either the
 *     response ends its request, or it is a challenge or an unsigned error, after which the client
 *     sends another message of the request. The next call of stunp_endpoint_client_poll returns
 *     which.
 *   - STUNP_DROPPED: the datagram is a response to a request of this client, but is not accepted.
 *     The call writes the reason to `*why`, unless `why` is null. The request continues. If an
 *     allocation fails, the response is dropped with STUNP_DROP_OUT_OF_MEMORY. If another message
 *     of a request becomes the current one, and there is no memory to store the earlier message,
 *     the client forgets the earlier message, and the call returns STUNP_NOT_OURS for a response to
 *     it. stunp_endpoint_client_poll and stunp_endpoint_client_cancel do not allocate.
 *
 * An IPv4 address and the same address mapped into IPv6 (::ffff:a.b.c.d) count as one address.
 *
 * Returns a stunp_kind. Errors:
 *   STUNP_EMPTY_HANDLE  the handle is empty
 *   STUNP_WRONG_HANDLE  the handle has no client
 *   STUNP_BAD_ARGUMENT  `from` is not an IPv4 or IPv6 address */
STUNP_INLINED int64_t stunp_endpoint_client_receive(stunp_endpoint_client *client,
                                                    const uint8_t *bytes, size_t length,
                                                    const stunp_address *from, uint64_t now,
                                                    stunp_drop *why);

/* Finds out what to do next, like stunp_endpoint_client_poll. `event` must not be null.
 *
 * Returns and fails as stunp_endpoint_client_poll does. */
STUNP_USE_RESULT STUNP_WRITES(3, 4) STUNP_NOT_NULL(1, 5)
int64_t stunp_endpoint_client_poll_with(stunp_endpoint_client *client, uint64_t now, uint8_t *out,
                                        size_t room, stunp_event *event);

/* Finds out what to do next, and writes it to `*event`. Also writes the request to send, or the
 * response that ended a request, to the front of `out`. A buffer of STUNP_LONGEST_MESSAGE bytes has
 * room for any message. Call it after each call that starts or cancels a request or reads a
 * datagram, and when a wait is over, and repeat the call until it returns STUNP_WAIT. Otherwise
 * requests are not sent, and you do not learn how they ended.
 *
 * Returns a stunp_event_kind. Errors, after which `event->kind` is STUNP_NO_EVENT:
 *   STUNP_EMPTY_HANDLE      the handle is empty
 *   STUNP_WRONG_HANDLE      the handle has no client
 *   STUNP_BAD_ARGUMENT      `event->size` is wrong
 *   STUNP_BUFFER_TOO_SMALL  the request or the response does not fit into `room` bytes, and is
 *                           lost. Nothing is written to `out`. `event->needed` is its length. If a
 *                           request is lost, `event->result` is 0, and the request is
 *                           retransmitted when its next transmission is due, but not over a stream.
 *                           If a response is lost, its request has ended: `event->request` is
 *                           the number of the request, and `event->result` its result */
STUNP_USE_RESULT
STUNP_INLINED int64_t stunp_endpoint_client_poll(stunp_endpoint_client *client, uint64_t now,
                                                 uint8_t *out, size_t room, stunp_event *event);

/* Returns the timeout in milliseconds that you pass to poll() of POSIX after STUNP_WAIT. If no
 * request is outstanding, returns -1, which means no timeout. Otherwise, the timeout is rounded up
 * and never 0, so that a loop does not spin until `event->until`. */
STUNP_INLINED int stunp_poll_timeout(const stunp_event *event, uint64_t now);

/* Cancels a request: stunp_endpoint_client_poll then returns STUNP_ENDED for it, with the result
 * STUNP_RESULT_CANCELLED.
 *
 * Returns 1, or 0 if the request has ended already. In a condition an error would count as true:
 * call stunp_endpoint_client_try_cancel there. Errors:
 *   STUNP_EMPTY_HANDLE  the handle is empty
 *   STUNP_WRONG_HANDLE  the handle has no client */
STUNP_NOT_NULL(1)
int64_t stunp_endpoint_client_cancel(stunp_endpoint_client *client, uint64_t request);

/* Cancels a request like stunp_endpoint_client_cancel. Returns true if the request is cancelled,
 * and false if it has ended already or the handle has no client. */
STUNP_NOT_NULL(1)
STUNP_INLINED bool stunp_endpoint_client_try_cancel(stunp_endpoint_client *client,
                                                    uint64_t request);

/* Writes to `*dropped` how many responses to an outstanding request were dropped, and why the last
 * of them was dropped. Call it before you cancel the request, because the client forgets this
 * information when the request ends. If the request times out, the stunp_event contains this
 * information. `dropped` must not be null.
 *
 * Returns 1, or 0 if the request has ended already. In a condition an error would count as true:
 * compare the result with 1. Errors:
 *   STUNP_EMPTY_HANDLE  the handle is empty
 *   STUNP_WRONG_HANDLE  the handle has no client */
STUNP_USE_RESULT STUNP_NOT_NULL(1, 3)
int64_t stunp_endpoint_client_dropped(stunp_endpoint_client *client, uint64_t request,
                                      stunp_dropped *dropped);

/* Returns an English text for a stunp_result, like stunp_strerror for an error. */
STUNP_INLINED const char *stunp_result_text(stunp_result result);

/* ---- Checks of ICE with further attributes
 *
 * A check may have further attributes in addition to those of ICE, such as NETWORK-COST (0xC057),
 * which libwebrtc sends. You pass further attributes in a stunp_body, like the attributes of a
 * request. */

/* Writes a check with further attributes, like stunp_ice_checker_check_body. `body` has the
 * attributes one after the other, each with its header and padded to a multiple of 4 bytes, as in a
 * message. `check` must not be null.
 *
 * Returns and fails as stunp_ice_checker_check_body does. */
STUNP_USE_RESULT STUNP_READS(6, 7) STUNP_WRITES(8, 9) STUNP_NOT_NULL(1, 2, 3, 10)
int64_t stunp_ice_checker_check_body_with(stunp_ice_checker *checker, const uint8_t id[12],
                                          const stunp_address *to, uint32_t priority, bool nominate,
                                          const uint8_t *body, size_t body_length, uint8_t *out,
                                          size_t room, stunp_ice_check *check);

/* Writes a check like stunp_ice_checker_check, with the attributes of `body` in their order before
 * its signature, or without further attributes if `body` is null. A buffer of STUNP_ICE_CHECK_MAX
 * bytes plus the length of the body is enough. The peer refuses the check with a 420 if it does not
 * know the type of one of these attributes, and this type is below 0x8000.
 *
 *     uint8_t attributes[8], bytes[STUNP_ICE_CHECK_MAX + sizeof attributes];
 *     stunp_body body = stunp_body_on(attributes, sizeof attributes);
 *     stunp_body_add_number(&body, 0xC057, (uint32_t)network << 16 | cost, 4); // NETWORK-COST
 *     int64_t length = stunp_ice_checker_check_body(&agent, id, &to, priority, false, &body, bytes,
 *                                                   sizeof bytes, &check);
 *
 * The attributes of the body are tested one after the other. The call returns the error of the
 * first attribute that is refused.
 *
 * Returns the length of the check. Errors, after which nothing is written:
 *   the error of the body, if a call with this body has failed
 *   STUNP_EMPTY_HANDLE      the handle is empty
 *   STUNP_WRONG_HANDLE      the handle has no agent
 *   STUNP_BAD_ARGUMENT      `to` is not an IPv4 or IPv6 address
 *   STUNP_CANNOT_SIGN       the credentials of the peer are not known yet
 *   STUNP_BAD_ARGUMENT      an attribute of the body is incomplete. No call adds such an attribute
 *   STUNP_NOT_ALLOWED       the type of an attribute is USE-CANDIDATE, ICE-CONTROLLED or
 *                           ICE-CONTROLLING, which the arguments and the role of the agent decide;
 *                           XOR-PEER-ADDRESS, which is XORed only in a request of a client; or
 *                           MESSAGE-INTEGRITY, MESSAGE-INTEGRITY-SHA256 or FINGERPRINT
 *   STUNP_ATTRIBUTE_EXISTS  the check has an attribute of this type already; it always has USERNAME
 *                           and PRIORITY
 *   STUNP_MESSAGE_TOO_LONG  the check does not fit into a message
 *   STUNP_OUT_OF_MEMORY     an allocation failed. The call may return this in place of any error of
 *                           an attribute, or of any later error
 *   STUNP_BUFFER_TOO_SMALL  the check does not fit into `room` bytes */
STUNP_USE_RESULT
STUNP_INLINED int64_t stunp_ice_checker_check_body(stunp_ice_checker *checker,
                                                   const uint8_t id[12], const stunp_address *to,
                                                   uint32_t priority, bool nominate,
                                                   const stunp_body *body, uint8_t *out,
                                                   size_t room, stunp_ice_check *check);

/* ---- Checks of ICE with their timers
 *
 * A stunp_ice_checks stores the outstanding checks of an agent. For each check it has the time at
 * which the check is retransmitted, the time at which it times out, and the addresses between which
 * it is sent. It uses memory that you pass, and does not allocate. Each check that you start ends
 * exactly once: in stunp_ice_checks_receive, if its answer arrives; in stunp_ice_checks_poll, if no
 * answer arrives in time; or in stunp_ice_checks_cancel. You choose the order and the pace of new
 * checks, which is at most one every 50 ms (section 14.2).
 *
 *     // Sends what is due. `send` sends from an address of this agent to one of the peer.
 *     void send_checks(stunp_ice_checks *checks, uint64_t now,
 *                      void (*send)(const stunp_address *from, const stunp_address *to,
 *                                   const uint8_t *bytes, size_t length)) {
 *         stunp_ice_event event;
 *         stunp_event_kind kind;
 *         while ((kind = stunp_ice_checks_poll(checks, now, &event)) != STUNP_WAIT) {
 *             if (kind == STUNP_TRANSMIT) send(&event.from, &event.to, event.bytes, event.length);
 *             // else STUNP_ENDED: nobody has answered event.check, so its pair fails
 *         }
 *     }
 *
 * Then wait for a datagram until the time that stunp_ice_checks_until returns, and pass each
 * datagram to stunp_ice_checks_receive. These calls are written in C and use the calls of the
 * agent, so they are tested, but not proved. */

enum {
    /* The longest check that fits into a stunp_ice_outstanding. This is more than
     * STUNP_ICE_CHECK_MAX, because a check may have further attributes. */
    STUNP_ICE_STORED_MAX = 1024,
    /* The largest number of transmissions of a check. */
    STUNP_ICE_TRANSMISSIONS_MAX = 255
};

/* The memory of one outstanding check. Do not write to the fields. */
typedef struct {
    stunp_ice_check check;
    stunp_address from;
    uint64_t started;
    uint64_t next;
    uint64_t wait;
    uint64_t longest;
    uint64_t last;
    uint32_t left;
    bool is_outstanding;
    size_t length;
    uint8_t bytes[STUNP_ICE_STORED_MAX];
} stunp_ice_outstanding;

/* The outstanding checks of an agent. Use a stunp_ice_checks in only one thread at a time. Do not
 * write to the fields. */
typedef struct {
    stunp_ice_checker *checker;
    stunp_ice_outstanding *stored;
    size_t count;
} stunp_ice_checks;

/* A check to start. A field that is 0 or null takes its default.
 *
 *   size           sizeof (stunp_ice_new_check), set by STUNP_INIT
 *   id             12 random bytes that no other check has. It has no default
 *   from           the base of the local candidate: the address of its socket, or, if the candidate
 *                  is relayed, the relayed address. It must equal the address that you pass to
 *                  stunp_ice_checks_receive as `at` for a datagram that arrives at this candidate.
 *                  So for a socket that is bound to all addresses of a machine, you may use any one
 *                  of these addresses
 *   to             the address of the remote candidate
 *   priority       the priority of the peer-reflexive candidate that the peer may learn from this
 *                  check (section 7.1.1), from stunp_ice_priority
 *   nominates      whether the check nominates its pair, if this agent has the controlling role
 *   initial        how long to wait after the first transmission, in nanoseconds. Each further wait
 *                  is twice the wait before (RFC 8489, section 6.2.1). By default 500000000 (500
 *                  ms); section 14.3 asks for more if there are many pairs
 *   longest        the longest of these waits, in nanoseconds. By default the waits have no bound
 *   last           how long to wait after the last transmission, in nanoseconds. By default
 *                  8000000000 (8 s)
 *   transmissions  how often the check is sent, up to STUNP_ICE_TRANSMISSIONS_MAX times. By default
 *                  7 times. For a check of consent, set this to 1 and `last` to 30 s (RFC 7675,
 *                  section 5.1)
 *   body           further attributes of the check (stunp_ice_checker_check_body). By default the
 *                  check has no further attributes */
typedef struct {
    size_t size;
    uint8_t id[12];
    stunp_address from;
    stunp_address to;
    uint32_t priority;
    bool nominates;
    uint64_t initial;
    uint64_t longest;
    uint64_t last;
    uint32_t transmissions;
    const stunp_body *body;
} stunp_ice_new_check;

/* A check that has ended because its answer arrived. The outcome is in the stunp_ice_received.
 *
 *   check    the check
 *   from     the address of this agent from which the check was sent
 *   elapsed  the nanoseconds since the check was started, which is the round-trip time if it was
 *            sent once */
typedef struct {
    stunp_ice_check check;
    stunp_address from;
    uint64_t elapsed;
} stunp_ice_ended;

/* What to do next for the checks.
 *
 *   kind    STUNP_TRANSMIT: send the bytes. STUNP_ENDED: the check has timed out. STUNP_WAIT: there
 *           is nothing to do yet, and all other fields are 0 or null
 *   from    the address of this agent from which the check is sent
 *   check   the check
 *   to      the address to which the check is sent
 *   bytes   STUNP_TRANSMIT: the bytes of the check, valid until the next call with these checks
 *   length  STUNP_TRANSMIT: the number of bytes to send */
typedef struct {
    stunp_event_kind kind;
    stunp_address from;
    stunp_address to;
    stunp_ice_check check;
    const uint8_t *bytes;
    size_t length;
} stunp_ice_event;

/* Returns a stunp_ice_checks for an agent, without outstanding checks. `stored` has room for
 * `count` outstanding checks. The array `stored` and the agent must outlive the stunp_ice_checks.
 * The checklists of an agent together have at most 100 pairs by default (section 6.1.2.5), each
 * with one check, or with more if triggered checks replace earlier ones. */
STUNP_NOT_NULL(1)
STUNP_INLINED stunp_ice_checks stunp_ice_checks_on(stunp_ice_checker *checker,
                                                   stunp_ice_outstanding *stored, size_t count);

/* Starts a check. stunp_ice_checks_poll then returns it for you to send.
 *
 * Returns 0. Errors, after which nothing has changed:
 *   STUNP_BAD_ARGUMENT         `size` is wrong, `from` is not an IPv4 or IPv6 address, or
 *                              `transmissions` is above STUNP_ICE_TRANSMISSIONS_MAX
 *   STUNP_ALREADY_IN_PROGRESS  a check with this ID is outstanding: use a new random ID
 *   STUNP_BUFFER_TOO_SMALL     `count` checks are outstanding, or the check has more than
 *                              STUNP_ICE_STORED_MAX bytes
 * and then the errors of stunp_ice_checker_check_body, such as STUNP_BAD_ARGUMENT if `to` is not an
 * IPv4 or IPv6 address, and STUNP_CANNOT_SIGN if the credentials of the peer are not known yet. */
STUNP_NOT_NULL(1, 2)
STUNP_INLINED int64_t stunp_ice_checks_start(stunp_ice_checks *checks,
                                             const stunp_ice_new_check *check, uint64_t now);

/* Judges a datagram like stunp_ice_checker_receive, with the outstanding check that has the
 * datagram's transaction ID. The datagram arrived at the address `at` of this agent, from the
 * address `from`. If the call returns STUNP_ANSWER, send the answer from the address `at` to the
 * address `from`.
 *
 * The answer to a check must come from the address to which the check was sent, and arrive at the
 * address from which the check was sent. If the peer's answer took another path, the check fails
 * with STUNP_ICE_OTHER_PATH (section 7.2.5.2.1). An answer that is not signed by the peer is
 * dropped, whichever path it took. An IPv4 address and the same address mapped into IPv6 count as
 * one address.
 *
 * If the call returns STUNP_IS_RESPONSE, a check has ended, and the call writes this check to
 * `*ended`; otherwise `*ended` is not written. `received` and `ended` may be null.
 *
 * Returns and fails as stunp_ice_checker_receive does. It also fails with STUNP_BAD_ARGUMENT if
 * `at` is not an IPv4 or IPv6 address. After an error, or if the datagram is dropped, all checks
 * continue. */
STUNP_USE_RESULT STUNP_NOT_NULL(1, 4, 5)
STUNP_INLINED int64_t stunp_ice_checks_receive(stunp_ice_checks *checks,
                                               const uint8_t *STUNP_RESTRICT bytes, size_t length,
                                               const stunp_address *at, const stunp_address *from,
                                               uint64_t now, uint8_t *STUNP_RESTRICT out,
                                               size_t room, stunp_ice_received *received,
                                               stunp_ice_ended *ended);

/* Finds out what to do next for the checks, and writes it to `*event`. Call it after each call of
 * stunp_ice_checks_start and at the time that stunp_ice_checks_until returns, and repeat the call
 * until it returns STUNP_WAIT. Otherwise checks are not sent, and you do not learn which checks
 * have timed out.
 *
 * Returns `event->kind`: STUNP_WAIT, STUNP_TRANSMIT, or STUNP_ENDED for a check that has timed
 * out. */
STUNP_USE_RESULT STUNP_NOT_NULL(1, 3)
STUNP_INLINED stunp_event_kind stunp_ice_checks_poll(stunp_ice_checks *checks, uint64_t now,
                                                     stunp_ice_event *event);

/* Returns the earlier of `until` and the time at which there is something to do for the checks. If
 * no check is outstanding, returns `until`. To get the milliseconds for poll(), write the result to
 * the field `until` of a stunp_event and call stunp_poll_timeout. */
STUNP_USE_RESULT STUNP_NOT_NULL(1)
STUNP_INLINED uint64_t stunp_ice_checks_until(const stunp_ice_checks *checks, uint64_t until);

/* Returns the outstanding check with this ID, or null if it has ended or was never started. The
 * pointer is valid until the next call with these checks. */
STUNP_USE_RESULT STUNP_NOT_NULL(1, 2)
STUNP_INLINED const stunp_ice_check *stunp_ice_checks_find(const stunp_ice_checks *checks,
                                                           const uint8_t id[12]);

/* Returns the number of outstanding checks. */
STUNP_USE_RESULT STUNP_NOT_NULL(1)
STUNP_INLINED size_t stunp_ice_checks_outstanding(const stunp_ice_checks *checks);

/* Stops retransmitting a check, but its answer still ends the check. Call it for a check that is no
 * longer needed, for example because a triggered check replaces it (section 7.3.1.4). If no answer
 * arrives, the check still times out when it would have timed out before. Returns true, or false if
 * no outstanding check has this ID. */
STUNP_NOT_NULL(1, 2)
STUNP_INLINED bool stunp_ice_checks_stop_sending(stunp_ice_checks *checks, const uint8_t id[12]);

/* Cancels a check: stunp_ice_checks_poll does not return STUNP_ENDED for it, and an answer to it is
 * dropped. Returns true, or false if no outstanding check has this ID. */
STUNP_NOT_NULL(1, 2)
STUNP_INLINED bool stunp_ice_checks_cancel(stunp_ice_checks *checks, const uint8_t id[12]);

/* ---- Lines of candidates (RFC 8839, section 5.1)
 *
 *     // `line` is from the peer, such as "candidate:1 1 udp 2130706431 192.0.2.1 5000 typ host".
 *     stunp_ice_candidate candidate;
 *     if (stunp_ice_candidate_read(&candidate, line, strlen(line)) == STUNP_ICE_LINE_READ)
 *         add_remote_candidate(&candidate.address, candidate.priority);
 *     // Otherwise skip the line: it may be over TCP, or have a name in place of an address.
 *
 * These calls are written in C, so they are tested, but not proved. */

/* A candidate over UDP. After stunp_ice_candidate_read, its texts point into the line, and do not
 * end with a zero byte.
 *
 *   kind               how the candidate was found
 *   component          the number of the component, from 1 to 256
 *   has_related        whether the line has the related address
 *   priority           the priority, from 1 to 2147483647 (stunp_ice_priority)
 *   foundation         1 to 32 letters, digits, `+` and `/`, equal for candidates with the same
 *                      kind, base and server (section 5.1.1.3)
 *   foundation_length  the length of the foundation, in bytes
 *   extensions         pairs of words at the end of the line, such as `ufrag h6vY`, with a space
 *                      between any two words (stunp_ice_candidate_extension). Null if the candidate
 *                      has no extensions
 *   extensions_length  the length of the extensions, in bytes
 *   address            the address to which the peer sends checks
 *   related            the base of a reflexive candidate, or the mapped address of a relayed
 *                      candidate */
typedef struct {
    stunp_ice_candidate_kind kind;
    uint16_t component;
    bool has_related;
    uint32_t priority;
    const char *foundation;
    size_t foundation_length;
    const char *extensions;
    size_t extensions_length;
    stunp_address address;
    stunp_address related;
} stunp_ice_candidate;

/* Why a line is not a usable candidate: the first of these reasons that applies. */
typedef enum stunp_ice_line {
    STUNP_ICE_LINE_READ = 0,          /* the line is a usable candidate */
    STUNP_ICE_LINE_NO_CANDIDATE = 1,  /* the line does not begin with `candidate:` and the eight
                                       * words of a candidate, or its foundation is malformed */
    STUNP_ICE_LINE_NOT_UDP = 2,       /* the transport is not UDP */
    STUNP_ICE_LINE_NO_COMPONENT = 3,  /* the component is not a number from 1 to 256 */
    STUNP_ICE_LINE_NO_PRIORITY = 4,   /* the priority is not a number from 1 to 2147483647 */
    STUNP_ICE_LINE_NO_ADDRESS = 5,    /* the address is not an IP address with a port: it may be a
                                       * name that ends with `.local`, with which browsers hide
                                       * addresses */
    STUNP_ICE_LINE_NO_KIND = 6        /* the type is not host, prflx, srflx or relay */
} stunp_ice_line;

/* Reads a candidate from the value of an `a=candidate` line of SDP, with or without `a=` in front.
 * In browsers, RTCIceCandidate.candidate has this value. Words are separated by spaces or tabs, and
 * the line may end with CR and LF. A related address that is not an IP address with a port is
 * ignored. `*candidate` has all extensions, whatever their names are.
 *
 * Returns STUNP_ICE_LINE_READ, or the reason why the line is not a usable candidate. In that case
 * all fields of `*candidate` are 0 or null. */
STUNP_USE_RESULT STUNP_READS(2, 3) STUNP_NOT_NULL(1)
STUNP_INLINED stunp_ice_line stunp_ice_candidate_read(stunp_ice_candidate *candidate,
                                                      const char *line, size_t length);

/* Returns the value of the extension with this name, and writes its length to `*length`. The name
 * ends with a zero byte. If the candidate has no such extension, or the extension has no value,
 * returns null and writes 0 to `*length`. The extension `ufrag` has the username fragment of the
 * agent to which the candidate belongs, which distinguishes the candidates of a restarted session
 * from those of the session before (RFC 8840). */
STUNP_USE_RESULT STUNP_NOT_NULL(1, 2, 3)
STUNP_INLINED const char *stunp_ice_candidate_extension(const stunp_ice_candidate *candidate,
                                                        const char *name, size_t *length);

/* Writes the line of a candidate, without `a=`, to the front of `out`, and a zero byte after the
 * line. A buffer of 256 bytes is enough for a line without extensions. The words of the extensions
 * are written with one space between any two words, and are not tested otherwise.
 *
 * Returns the length of the line, without the zero byte. Errors, after which nothing is written:
 *   STUNP_BAD_ARGUMENT      `kind` is not a stunp_ice_candidate_kind, the foundation is malformed,
 *                           the component or the priority is out of range, `address` is not an IPv4
 *                           or IPv6 address, or `has_related` is true and `related` is not an IPv4
 *                           or IPv6 address
 *   STUNP_BUFFER_TOO_SMALL  the line and the zero byte do not fit into `room` bytes */
STUNP_USE_RESULT STUNP_WRITES(2, 3) STUNP_NOT_NULL(1)
STUNP_INLINED int64_t stunp_ice_candidate_write(const stunp_ice_candidate *candidate, char *out,
                                                size_t room);

/* ---- Keepalives
 *
 * An allocation, a permission, a channel and the path through a NAT all end unless something is
 * sent in time. A stunp_keepalive stores when to send something. It sends nothing itself, and is
 * plain data. Times are nanoseconds of the clock that you pass to a client.
 *
 *     // After a STUNP_ALLOCATE or STUNP_REFRESH request has succeeded with this lifetime:
 *     stunp_keepalive refresh = stunp_keepalive_before(lifetime, now);
 *     // In the loop: sends a request when it is due, and shortens the wait so that the next one is
 *     // in time.
 *     if (stunp_keepalive_is_due(&refresh, now))
 *         stunp_endpoint_client_request(&client, STUNP_REFRESH, &body, now, &request);
 *     event.until = stunp_keepalive_until(&refresh, event.until); // before stunp_poll_timeout */

/* A timer for something that you send again and again. You may read the fields, and set `next`.
 *
 *   every  the nanoseconds from one keepalive to the next; 0 if no keepalive is ever due
 *   next   when the next keepalive is due, in nanoseconds of your clock; UINT64_MAX if no keepalive
 *          is ever due */
typedef struct {
    uint64_t every;
    uint64_t next;
} stunp_keepalive;

/* Returns a keepalive that is due `every` nanoseconds after `now`, and again `every` nanoseconds
 * after each call of stunp_keepalive_is_due that returns true. If `every` is 0, the keepalive is
 * never due.
 *
 * Use 15 seconds for a pair of ICE (RFC 8445, section 11) and for other paths through a NAT. Use
 * 240 seconds for a permission of TURN, which lasts 300 seconds, and 540 seconds for a channel,
 * which lasts 600 seconds (RFC 8656, sections 9 and 12). */
STUNP_INLINED stunp_keepalive stunp_keepalive_every(uint64_t every, uint64_t now);

/* Returns a keepalive for something that lasts `lifetime` seconds from `now` on, such as an
 * allocation of TURN. The keepalive is due a minute before the lifetime ends (RFC 8656, section 8),
 * or, if the lifetime is less than two minutes, after half of it. If `lifetime` is 0, the keepalive
 * is never due. */
STUNP_INLINED stunp_keepalive stunp_keepalive_before(uint64_t lifetime, uint64_t now);

/* Returns whether a keepalive is due. If it is due, the call also sets the time at which it is due
 * next: `every` nanoseconds after `now`. So a keepalive that was not tested for a long time is due
 * only once. */
STUNP_USE_RESULT STUNP_NOT_NULL(1)
STUNP_INLINED bool stunp_keepalive_is_due(stunp_keepalive *keepalive, uint64_t now);

/* Returns the earlier of `until` and the time at which a keepalive is due. You may wait until the
 * returned time. */
STUNP_USE_RESULT STUNP_NOT_NULL(1)
STUNP_INLINED uint64_t stunp_keepalive_until(const stunp_keepalive *keepalive, uint64_t until);

/* ---- Versions */

/* Returns the version of the archive, which equals STUNP_VERSION if the header and the archive come
 * from the same release. Never fails. */
int64_t stunp_endpoint_version(void);

/* Returns the version of the archive like stunp_endpoint_version, but under a name that changes
 * with each release that breaks compatibility. As with stunp_release_0_3 of stunp.h, if you define
 * STUNP_CHECK_RELEASE, a program that was compiled for another release does not link. */
int64_t stunp_endpoint_release_0_3(void);
#if defined __GNUC__ && defined STUNP_CHECK_RELEASE
static int64_t (*const stunp_endpoint_release_wanted)(void) __attribute__((used)) =
    stunp_endpoint_release_0_3;
#endif

/* The library is compiled with enumerations of the size of an int. */
STUNP_ENUM_IS_INT(stunp_credentials);
STUNP_ENUM_IS_INT(stunp_kind);
STUNP_ENUM_IS_INT(stunp_drop);
STUNP_ENUM_IS_INT(stunp_cause);
STUNP_ENUM_IS_INT(stunp_ice_outcome);
STUNP_ENUM_IS_INT(stunp_ice_candidate_kind);
STUNP_ENUM_IS_INT(stunp_ice_consent_step);
STUNP_ENUM_IS_INT(stunp_event_kind);
STUNP_ENUM_IS_INT(stunp_result);
STUNP_ENUM_IS_INT(stunp_ice_line);

#if STUNP_INLINE_CALLS
#include "stunp_endpoint_inline.h"
#include "stunp_ice_inline.h"
#endif

#ifdef __cplusplus
}
#endif

#endif
