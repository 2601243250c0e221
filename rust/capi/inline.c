/* The calls that are done in C, which the headers only declare for programs (STUNP_INLINE_CALLS of
 * stunp.h). tools/rust_c.sh compiles it into both libraries. */
#define STUNP_INLINE_CALLS 1
#define STUNP_INLINED
#include "stunp_endpoint.h"
