/* A library for LD_PRELOAD that makes system calls fail, or return other results. The environment
 * says which:
 *
 * FAILING_READS=N    the first N calls of recvmsg and recvmmsg fail with ENOBUFS
 * NO_IPV6=1          no IPv6 socket can be created
 * SLEPT=FILE         as soon as FILE exists, the machine has slept for a minute, by CLOCK_BOOTTIME
 *                    and CLOCK_REALTIME, and /proc/uptime has the contents of FILE
 * COUNTED=FILE       a byte is appended to FILE for each call of getrandom
 * SLOW_LOOP=N        epoll_create1 takes N seconds */
#define _GNU_SOURCE
#include <dlfcn.h>
#include <errno.h>
#include <fcntl.h>
#include <stdarg.h>
#include <stdlib.h>
#include <string.h>
#include <sys/socket.h>
#include <sys/types.h>
#include <time.h>
#include <unistd.h>

/* Whether this read is one of those that fail. */
static int fails(void) {
    static long left = -1;
    const char *number = getenv("FAILING_READS");
    if (left < 0) left = number == NULL ? 0 : atol(number);
    if (left == 0) return 0;
    left--;
    errno = ENOBUFS;
    return 1;
}

int recvmmsg(int fd, struct mmsghdr *messages, unsigned number, int flags, struct timespec *until) {
    int (*call)(int, struct mmsghdr *, unsigned, int, struct timespec *) =
        (int (*)(int, struct mmsghdr *, unsigned, int, struct timespec *))dlsym(RTLD_NEXT,
                                                                                "recvmmsg");
    return fails() ? -1 : call(fd, messages, number, flags, until);
}

ssize_t recvmsg(int fd, struct msghdr *message, int flags) {
    if (fails()) return -1;
    ssize_t (*call)(int, struct msghdr *, int) =
        (ssize_t(*)(int, struct msghdr *, int))dlsym(RTLD_NEXT, "recvmsg");
    return call(fd, message, flags);
}

int socket(int domain, int type, int protocol) {
    if (domain == AF_INET6 && getenv("NO_IPV6") != NULL) {
        errno = EAFNOSUPPORT;
        return -1;
    }
    int (*call)(int, int, int) = (int (*)(int, int, int))dlsym(RTLD_NEXT, "socket");
    return call(domain, type, protocol);
}

/* The file, or NULL before the machine slept. */
static const char *slept(void) {
    const char *file = getenv("SLEPT");
    return file != NULL && access(file, F_OK) == 0 ? file : NULL;
}

int clock_gettime(clockid_t clock, struct timespec *now) {
    int (*call)(clockid_t, struct timespec *) =
        (int (*)(clockid_t, struct timespec *))dlsym(RTLD_NEXT, "clock_gettime");
    int status = call(clock, now);
    int goes_on = clock == CLOCK_BOOTTIME || clock == CLOCK_REALTIME;
    if (goes_on && slept() != NULL) now->tv_sec += 60;
    return status;
}

int open64(const char *path, int flags, ...) {
    int (*call)(const char *, int, ...) =
        (int (*)(const char *, int, ...))dlsym(RTLD_NEXT, "open64");
    va_list mode;
    va_start(mode, flags);
    if (strcmp(path, "/proc/uptime") == 0 && slept() != NULL) path = slept();
    int file = call(path, flags, va_arg(mode, mode_t));
    va_end(mode);
    return file;
}

int epoll_create1(int flags) {
    int (*call)(int) = (int (*)(int))dlsym(RTLD_NEXT, "epoll_create1");
    const char *seconds = getenv("SLOW_LOOP");
    const struct timespec end = {seconds == NULL ? 0 : atol(seconds), 0};
    struct timespec left = end; /* a signal does not end the wait */
    while (nanosleep(&left, &left) != 0) continue;
    return call(flags);
}

ssize_t getrandom(void *out, size_t length, unsigned flags) {
    ssize_t (*call)(void *, size_t, unsigned) =
        (ssize_t(*)(void *, size_t, unsigned))dlsym(RTLD_NEXT, "getrandom");
    const char *path = getenv("COUNTED");
    int file = path == NULL ? -1 : open(path, O_WRONLY | O_APPEND);
    if (file >= 0) {
        if (write(file, ".", 1) < 0) return -1;
        close(file);
    }
    return call(out, length, flags);
}
