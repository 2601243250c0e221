/* Implements processes.h on Linux. */
#define _GNU_SOURCE
#include "processes.h"
#include "net.h"
#include <errno.h>
#include <poll.h>
#include <stdarg.h>
#include <stdio.h>
#include <stdlib.h>
#include <string.h>
#include <sys/mman.h>
#include <sys/prctl.h>
#include <sys/wait.h>
#include <unistd.h>

volatile sig_atomic_t is_ending, hangups, reports;

/* How many SIGHUPs each process has acted on, in memory that all processes share. */
static unsigned long *hangups_done;

static void hear(int number) {
    if (number == SIGHUP) hangups++;
    else if (number == SIGUSR1) reports++;
    else __atomic_store_n(&is_ending, 1, __ATOMIC_RELAXED); /* other threads read it */
}

void hear_signals(void) {
    static const int heard[] = {SIGTERM, SIGINT, SIGHUP, SIGUSR1};
    for (size_t i = 0; i < sizeof heard / sizeof *heard; i++) {
        bool ends = heard[i] == SIGTERM || heard[i] == SIGINT;
        sigaction(heard[i],
                  &(struct sigaction){.sa_handler = hear, .sa_flags = ends ? 0 : SA_RESTART}, NULL);
    }
    sigaction(SIGPIPE, &(struct sigaction){.sa_handler = SIG_IGN}, NULL);
}

void say_hangup_is_done(unsigned long number) {
    __atomic_fetch_add(&hangups_done[number], 1, __ATOMIC_RELAXED);
}

int start_thread(pthread_t *thread, void *(*run)(void *), void *with) {
    sigset_t all, before;
    sigfillset(&all);
    pthread_sigmask(SIG_SETMASK, &all, &before);
    int error = pthread_create(thread, NULL, run, with);
    pthread_sigmask(SIG_SETMASK, &before, NULL);
    return error;
}

/* ---- Lines */

static bool is_serving;
enum { LONGEST_COMPLAINT = 2048 };

/* Prints a line after a prefix. A pipe that can be written to has room for a whole line, so the
 * line is not split. */
static void print(const char *begin, const char *format, va_list values) {
    char line[1100];
    struct pollfd out = {STDOUT_FILENO, POLLOUT, 0};
    int length = snprintf(line, sizeof line, "%s", begin);
    length += vsnprintf(line + length, sizeof line - (size_t)length, format, values);
    if ((size_t)length >= sizeof line || poll(&out, 1, 0) <= 0 || (out.revents & POLLOUT) == 0)
        return;
    if (write(STDOUT_FILENO, line, (size_t)length) < 0) return; /* nobody reads it */
}

void say(const char *format, ...) {
    va_list values;
    va_start(values, format);
    print("", format, values);
    va_end(values);
}

void say_at_time(const char *format, ...) {
    char begin[TIME_LENGTH + 1];
    va_list values;
    strcat(strcpy(begin, time_text((char[TIME_LENGTH]){0})), " ");
    va_start(values, format);
    print(begin, format, values);
    va_end(values);
}

void complain(const char *format, ...) {
    char line[LONGEST_COMPLAINT];
    const char *time = is_serving ? time_text((char[TIME_LENGTH]){0}) : "";
    va_list values;
    va_start(values, format);
    vsnprintf(line, sizeof line, format, values);
    va_end(values);
    fprintf(stderr, "%s%sudp_server: %s", time, is_serving ? " " : "", line);
}

/* Prints the port, which shows that the server serves from now on. */
static void say_port(unsigned long port) {
    is_serving = true;
    say("port %lu\n", port);
}

static int serve_alone(const struct service *service) {
    struct listener listener;
    unsigned long port = service->port;
    if (!open_server(&service->place, &port, &listener)) return 1;
    say_port(port);
    bool is_right = service->serve(&listener, 0);
    close_server(&listener);
    return is_right ? 0 : 1;
}

/* Returns whether no other program has the port. The sockets of workers share it, and would share
 * it with other programs too. Port 0 becomes a port that was free. */
static bool is_free(const struct service *service, unsigned long *port) {
    struct place place = service->place;
    struct listener listener;
    place.is_shared = false;
    if (!open_server(&place, port, &listener)) return false;
    close_server(&listener);
    return true;
}

/* Starts a process that serves, and returns its number, or -1. */
static pid_t start_worker(const struct service *service, unsigned long port,
                          unsigned long number) {
    pid_t parent = getpid();
    struct place place = service->place;
    struct listener listener;
    place.is_shared = true;
    if (!open_server(&place, &port, &listener)) return -1;
    pid_t worker = fork();
    if (worker == 0) {
        prctl(PR_SET_PDEATHSIG, SIGTERM);
        if (getppid() != parent) exit(1);
        is_serving = true;
        exit(service->serve(&listener, number) ? 0 : 1);
    }
    close_server(&listener);
    return worker;
}

static void tell_all(const pid_t *workers, unsigned long processes, int number) {
    for (unsigned long i = 0; i < processes; i++) kill(workers[i], number);
}

/* The round in which a SIGHUP is passed on to one worker after the other. */
struct round {
    sig_atomic_t heard;        /* `hangups` when this round began */
    unsigned long turn;        /* the worker that acts on it now; the number of workers if the round
                                * is over */
    unsigned long done_before; /* how many that worker had acted on when it got the signal */
};

/* Passes the SIGHUP on to the worker whose turn it is. */
static void take_turn(struct round *round, const pid_t *workers) {
    round->done_before = __atomic_load_n(&hangups_done[round->turn], __ATOMIC_RELAXED);
    kill(workers[round->turn], SIGHUP);
}

/* Continues a round if the worker whose turn it was is done, or begins a round if a SIGHUP arrived
 * since the last one began. */
static void pass_hangups_on(struct round *round, const pid_t *workers, unsigned long processes) {
    sig_atomic_t heard = hangups;
    if (round->turn < processes) {
        unsigned long done = __atomic_load_n(&hangups_done[round->turn], __ATOMIC_RELAXED);
        if (done == round->done_before || ++round->turn == processes) return;
    } else {
        if (round->heard == heard) return;
        *round = (struct round){.heard = heard};
    }
    take_turn(round, workers);
}

/* Waits for a signal to end, or until a worker has ended, and then ends all workers. A worker that
 * has ended is not reaped before that, so that no other process has its number when the signals are
 * sent. */
static int end_together(const struct service *service, const pid_t *workers) {
    siginfo_t ended = {0};
    struct round round = {.turn = service->processes};
    int status = 0, one;
    pid_t reaped;
    while (!is_ending && ended.si_pid == 0) {
        usleep(100000);
        pass_hangups_on(&round, workers, service->processes);
        service->look();
        waitid(P_ALL, 0, &ended, WEXITED | WNOHANG | WNOWAIT);
    }
    tell_all(workers, service->processes, SIGTERM);
    while ((reaped = waitpid(-1, &one, 0)) > 0 || errno == EINTR) status |= reaped > 0 ? one : 0;
    return status != 0 || !is_ending;
}

int serve_in_processes(const struct service *service) {
    pid_t workers[MOST_PROCESSES];
    unsigned long port = service->port;
    hangups_done = mmap(NULL, service->processes * sizeof *hangups_done, PROT_READ | PROT_WRITE,
                        MAP_SHARED | MAP_ANONYMOUS, -1, 0);
    if (hangups_done == MAP_FAILED) {
        perror("mmap");
        return 1;
    }
    if (service->processes == 1) return serve_alone(service);
    if ((!service->place.is_shared || port == 0) && !is_free(service, &port)) return 1;
    for (unsigned long i = 0; i < service->processes; i++)
        if ((workers[i] = start_worker(service, port, i)) < 0) return 1;
    say_port(port);
    return end_together(service, workers);
}
