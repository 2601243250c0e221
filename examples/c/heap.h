/* The allocator of the proved archives: three functions on top of malloc, with a limit and
 * counts. */
#ifndef STUNP_HEAP_H
#define STUNP_HEAP_H

#include <stddef.h>

#ifdef __cplusplus
extern "C" {
#endif

/* stunp_endpoint.h declares the three functions. An allocation fails if malloc fails, if it exceeds
 * the limit, if its alignment is wider than that of malloc, or if you requested this with
 * stunp_heap_refuse. The call of the library then fails with STUNP_OUT_OF_MEMORY. */

/* Limits how many bytes may be allocated at the same time. The limit is SIZE_MAX until you call
 * this. */
void stunp_heap_bound(size_t bytes);

/* Return how many blocks and bytes are allocated now, without those that malloc needs for itself,
 * and how many allocations were requested so far. */
size_t stunp_heap_blocks(void);
size_t stunp_heap_bytes(void);
size_t stunp_heap_asked(void);

/* Makes only the n-th allocation from now on fail, or none if n is 0. This is for tests. */
void stunp_heap_refuse(size_t n);

#ifdef __cplusplus
}
#endif

#endif
