/* The allocator of the proved archives, on top of malloc. The length of each block is stored before
 * it, so that the bytes can be counted, and can be overwritten before they are freed, because they
 * may be those of a password or a key.
 *
 * Each count is changed atomically, so several threads may use handles at the same time, each
 * thread its own. */
#include "heap.h"
#include "stunp_endpoint.h"
#include <stdint.h>
#include <stdlib.h>
#include <string.h>

/* The header before a block, as long as the widest alignment of malloc, so that the block is
 * aligned too. */
typedef union {
    size_t length;
    long double number;
    void *pointer;
    uint8_t room[16]; /* the widest alignment that the library asks for */
} head;

static size_t bound = SIZE_MAX, blocks, bytes, asked, refused;

static const rattle_allocation none = {false, NULL};

/* Counts `length` more bytes. Returns false if they exceed the bound, or if this is the allocation
 * to refuse. */
static bool take(size_t length) {
    size_t number = __atomic_add_fetch(&asked, 1, __ATOMIC_SEQ_CST);
    if (number == __atomic_load_n(&refused, __ATOMIC_SEQ_CST)) return false;
    size_t most = __atomic_load_n(&bound, __ATOMIC_SEQ_CST);
    size_t held = __atomic_load_n(&bytes, __ATOMIC_SEQ_CST);
    do {
        if (held > most || length > most - held) return false;
    } while (!__atomic_compare_exchange_n(&bytes, &held, held + length, false, __ATOMIC_SEQ_CST,
                                          __ATOMIC_SEQ_CST));
    return true;
}

static void give_back(size_t length) { __atomic_sub_fetch(&bytes, length, __ATOMIC_SEQ_CST); }

/* Returns whether a block of this length and alignment can be allocated with its header. The
 * archive never asks for the length 0. */
static bool is_plain(size_t length, size_t alignment) {
    return alignment <= sizeof(head) && length > 0 && length <= SIZE_MAX / 2;
}

rattle_allocation rattle_alloc(size_t length, size_t alignment) {
    if (!is_plain(length, alignment) || !take(length)) return none;
    head *block = malloc(sizeof(head) + length);
    if (block == NULL) {
        give_back(length);
        return none;
    }
    block->length = length;
    __atomic_add_fetch(&blocks, 1, __ATOMIC_SEQ_CST);
    return (rattle_allocation){true, block + 1};
}

/* A compiler may remove a memset of memory that is not read again, but not a call through a pointer
 * that it must read. */
static void *(*const volatile overwrite)(void *, int, size_t) = memset;

static void wipe_and_free(head *block) {
    overwrite(block + 1, 0, block->length);
    free(block);
}

/* Does not use realloc, which leaves the old bytes in memory when it moves a block. A refusal
 * leaves the block unchanged. */
rattle_allocation rattle_realloc(void *at, size_t kept, size_t length, size_t alignment) {
    head *old = (head *)at - 1;
    size_t before = old->length, more = length > before ? length - before : 0;
    if (!is_plain(length, alignment) || !take(more)) return none;
    head *block = malloc(sizeof(head) + length);
    if (block == NULL) {
        give_back(more);
        return none;
    }
    block->length = length;
    memcpy(block + 1, at, kept);
    wipe_and_free(old);
    if (length < before) give_back(before - length);
    return (rattle_allocation){true, block + 1};
}

void rattle_dealloc(void *at) {
    head *block = (head *)at - 1;
    give_back(block->length);
    __atomic_sub_fetch(&blocks, 1, __ATOMIC_SEQ_CST);
    wipe_and_free(block);
}

void stunp_heap_bound(size_t most) { __atomic_store_n(&bound, most, __ATOMIC_SEQ_CST); }
size_t stunp_heap_blocks(void) { return __atomic_load_n(&blocks, __ATOMIC_SEQ_CST); }
size_t stunp_heap_bytes(void) { return __atomic_load_n(&bytes, __ATOMIC_SEQ_CST); }
size_t stunp_heap_asked(void) { return __atomic_load_n(&asked, __ATOMIC_SEQ_CST); }
void stunp_heap_refuse(size_t n) {
    __atomic_store_n(&refused, n == 0 ? 0 : stunp_heap_asked() + n, __ATOMIC_SEQ_CST);
}
