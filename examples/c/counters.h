/* The counters of all processes of a server, as a line of its log and as a file for Prometheus. */
#ifndef STUN_COUNTERS_H
#define STUN_COUNTERS_H

#include <stdbool.h>
#include <stdint.h>

/* The causes of refusals are in the order of stunp_cause. */
enum number { ANSWERED, REFUSED_400, REFUSED_401, REFUSED_420, REFUSED_438, NOT_STUN, MALFORMED,
              WRONG_FINGERPRINT, UNKNOWN_ATTRIBUTE, OUT_OF_MEMORY, OTHER, NO_SIGNATURE, INCOMPLETE,
              OTHER_ALGORITHMS, OTHER_FEATURES, STALE_NONCE, WRONG_CREDENTIALS, NOT_UNDERSTOOD,
              NOT_BINDING, NUMBERS };

/* Creates the counters for this many processes, in memory that they share. */
bool open_counters(unsigned long processes);

/* Makes this process use the counters with this number. Until then it uses the counters with the
 * number 0. */
void count_as(unsigned long process);
void count(enum number what);

/* Returns the value by which a counter differs from the others of its kind, such as the name of a
 * cause. */
const char *label_of(enum number what);

/* Prints a line `TIME NAME=VALUE ..` with the counters of all processes. */
void log_counters(void);

/* Writes the counters to a new file FILE.new and renames it to FILE, so that a reader of FILE never
 * sees an incomplete file. If it fails, returns false with the reason in errno. */
bool write_metrics(const char *file);

/* Starts a thread that writes the file every five seconds, and reports when this begins to fail. A
 * slow disk then does not stop the loop that serves. If it fails, returns false with the reason in
 * errno. */
bool start_metrics(const char *file);

#endif
