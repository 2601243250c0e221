/* Loaded before the C library (LD_PRELOAD), for glibc: reads and writes that give and take little,
 * are interrupted or fail, and allocations that are refused. What is done is in the environment:
 *   STRAIN_READS        slow: a read gives one byte, and every second is interrupted; after
 *                       STRAIN_READ_LEFT bytes reads fail, where it is given. endless: each gives a
 *                       digit 0. interrupted: each is interrupted
 *   STRAIN_WRITES       slow: a write takes one byte, and every second is interrupted. Else a write
 *                       takes one byte, up to STRAIN_WRITE_LEFT, and then fail, stop (takes
 *                       nothing) or stall (is interrupted)
 *   STRAIN_REFUSED_FROM, STRAIN_REFUSED_TO
 *                       the numbers, from 1, of the first and the last allocation that is refused
 *   STRAIN_TOLD         a file in which the numbers of reads and of allocations are written at the
 *                       end
 * Only the standard input is read so, and only the standard output written. */
#define _GNU_SOURCE
#include <dlfcn.h>
#include <errno.h>
#include <fcntl.h>
#include <stdio.h>
#include <stdlib.h>
#include <string.h>
#include <unistd.h>

extern void *__libc_malloc(size_t size);
extern void *__libc_realloc(void *old, size_t size);

static long allocations, reads, writes, given, taken;
static ssize_t (*real_read)(int, void *, size_t);
static ssize_t (*real_write)(int, const void *, size_t);

static long number(const char *name, long otherwise) {
    const char *text = getenv(name);
    return text ? atol(text) : otherwise;
}

static int is_refused(void) {
    allocations++;
    if (!getenv("STRAIN_REFUSED_FROM")) return 0;
    if (allocations < number("STRAIN_REFUSED_FROM", 0)
        || allocations > number("STRAIN_REFUSED_TO", 0))
        return 0;
    errno = ENOMEM;
    return 1;
}

void *malloc(size_t size) {
    return is_refused() ? NULL : __libc_malloc(size);
}

void *realloc(void *old, size_t size) {
    return is_refused() ? NULL : __libc_realloc(old, size);
}

static ssize_t fail(int error) {
    errno = error;
    return -1;
}

ssize_t read(int descriptor, void *bytes, size_t size) {
    if (!real_read) *(void **)&real_read = dlsym(RTLD_NEXT, "read");
    const char *how = getenv("STRAIN_READS");
    if (descriptor != 0) return real_read(descriptor, bytes, size);
    reads++;
    if (!how || size == 0) return real_read(descriptor, bytes, size);
    if (!strcmp(how, "interrupted")) return fail(EINTR);
    if (!strcmp(how, "endless")) {
        *(char *)bytes = '0';
        return 1;
    }
    if (reads % 2) return fail(EINTR);
    if (given == number("STRAIN_READ_LEFT", -1)) return fail(EIO);
    given++;
    return real_read(descriptor, bytes, 1);
}

ssize_t write(int descriptor, const void *bytes, size_t size) {
    if (!real_write) *(void **)&real_write = dlsym(RTLD_NEXT, "write");
    const char *how = getenv("STRAIN_WRITES");
    if (descriptor != 1 || !how || size == 0) return real_write(descriptor, bytes, size);
    if (!strcmp(how, "slow")) return writes++ % 2 ? real_write(descriptor, bytes, 1) : fail(EINTR);
    if (taken < number("STRAIN_WRITE_LEFT", 0)) {
        taken++;
        return real_write(descriptor, bytes, 1);
    }
    if (!strcmp(how, "stop")) return 0;
    return fail(!strcmp(how, "stall") ? EINTR : EIO);
}

__attribute__((destructor)) static void tell(void) {
    const char *path = getenv("STRAIN_TOLD");
    char text[64];
    long counted = allocations;
    int told = path ? open(path, O_WRONLY | O_TRUNC) : -1;
    int length = snprintf(text, sizeof text, "%ld %ld\n", reads, counted);
    if (told < 0) return;
    if (!real_write) *(void **)&real_write = dlsym(RTLD_NEXT, "write");
    if (real_write(told, text, (size_t)length) < length) perror("strain");
    close(told);
}
