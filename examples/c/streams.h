/* The TCP connections of a server. Each stream is cut into messages by their lengths (RFC 8489,
 * section 6.2.2), which are answered on the same connection. A connection has a buffer for one
 * message of at most MOST_BYTES. It ends if the stream has anything else, if no complete message
 * has arrived for too long, or if the client does not read its answers. */
#ifndef STUN_STREAMS_H
#define STUN_STREAMS_H

#include "net.h"

/* The most connections at a time; one more ends the connection that has been silent for longest. */
enum { MOST_CONNECTIONS = 256 };

/* Makes an epoll report this number as `data.fd` whenever a socket can be read. */
bool watch(int queue, int socket, int number);

/* Accepts a connection, and makes an epoll report it as `first` plus the number of the
 * connection. */
void accept_stream(int listening, int queue, int first);

/* Writes the answer to a message, with the length 0 if there is none. */
typedef void answer_message(const struct datagram *message, struct answer *answer);

/* Reads the bytes that have arrived on the connection with this number, and answers each complete
 * message. */
void read_stream(int number, answer_message *answer);

/* Ends each connection on which no complete message has arrived for this many nanoseconds. You may
 * call it often, because it looks only once a second. */
void end_idle_streams(uint64_t nanoseconds);

#endif
