/* The signals and processes of a server, and the lines that it prints without ever waiting for
 * their reader. */
#ifndef STUN_PROCESSES_H
#define STUN_PROCESSES_H

#include "net.h"
#include <pthread.h>
#include <signal.h>

/* Whether SIGTERM or SIGINT arrived since `hear_signals` was called, and how often SIGHUP (read the
 * users again) and SIGUSR1 (print the counters) did. SIGPIPE is ignored. The first two interrupt a
 * read, and the others do not. To lose no SIGHUP, read its count before you act on it. */
extern volatile sig_atomic_t is_ending, hangups, reports;
void hear_signals(void);

/* Reports that the process with this number has acted on a SIGHUP. The next process then receives
 * it. */
void say_hangup_is_done(unsigned long number);

/* Starts a thread that signals do not wake, because they have to wake the loop that serves. Returns
 * 0 or the number of the error. */
int start_thread(pthread_t *thread, void *(*run)(void *), void *with);

/* Print like printf, but print nothing if this would have to wait. The second call puts the time in
 * front. */
void say(const char *format, ...) __attribute__((format(printf, 1, 2)));
void say_at_time(const char *format, ...) __attribute__((format(printf, 1, 2)));

/* Prints `udp_server: ..` on standard error, with the time in front once the server serves. */
void complain(const char *format, ...) __attribute__((format(printf, 1, 2)));

/* The addresses (open_server), the port, the number of processes and the calls of a server. `serve`
 * receives the number of its process, from 0 on, and returns whether it succeeded. `look` is called
 * now and then in the first process, which serves only if it is the only one. */
enum { MOST_PROCESSES = 64 };
struct service {
    struct place place;
    unsigned long port, processes;
    bool (*serve)(const struct listener *listener, unsigned long number);
    void (*look)(void);
};

/* Prints `port N` and serves, in one process or in several. Each process has its own sockets on the
 * port. The kernel delivers the datagrams of an address to the same process, as long as no process
 * starts or ends. SIGHUP is passed on to one process after the other, so that only one at a time is
 * busy with it. Returns the status of the program. */
int serve_in_processes(const struct service *service);

#endif
