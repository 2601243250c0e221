/* A library for LD_PRELOAD whose allocations fail while the file exists that EXHAUSTED names. */
#define _GNU_SOURCE
#include <errno.h>
#include <stdlib.h>
#include <unistd.h>

void *__libc_malloc(size_t length);
void *__libc_calloc(size_t number, size_t length);
void *__libc_realloc(void *block, size_t length);
void *__libc_memalign(size_t alignment, size_t length);

static int is_exhausted(void) {
    const char *file = getenv("EXHAUSTED");
    if (file == NULL || access(file, F_OK) != 0) return 0;
    errno = ENOMEM;
    return 1;
}

void *malloc(size_t length) { return is_exhausted() ? NULL : __libc_malloc(length); }

void *calloc(size_t number, size_t length) {
    return is_exhausted() ? NULL : __libc_calloc(number, length);
}

void *realloc(void *block, size_t length) {
    return is_exhausted() ? NULL : __libc_realloc(block, length);
}

int posix_memalign(void **block, size_t alignment, size_t length) {
    *block = is_exhausted() ? NULL : __libc_memalign(alignment, length);
    return *block == NULL ? ENOMEM : 0;
}
