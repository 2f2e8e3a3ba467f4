/* The heap functions that the library of dccp.h calls. libdccp_heap.a has them over malloc, realloc and free; a program with its own
 * allocator leaves that archive out and defines all three.
 *
 * They are called on the thread of the call that needs them: if several threads use ends, several threads call these. They do not call the
 * library. Alignments are powers of two, 16 at most. A size of 0 asks for a block of any size. `at` is never NULL: if there is no block, it may
 * be any aligned pointer, which nobody reads. */
#ifndef DCCP_HEAP_H
#define DCCP_HEAP_H

#include <stdbool.h>
#include <stddef.h>

#ifdef __cplusplus
extern "C" {
#endif

/* Whether there is a block, and where. */
typedef struct rattle_block {
    bool ok;
    void *at;
} rattle_block;

/* A block of `size` bytes at a multiple of `alignment`. Its bytes may have any values. If `ok` is false, the call of the library returns
 * DCCP_NO_MEMORY. */
rattle_block rattle_alloc(size_t size, size_t alignment);

/* The block `old` of `old_size` bytes, now with `size` bytes, maybe at another place; the bytes that both have are unchanged. If `ok` is false,
 * `old` is unchanged too. */
rattle_block rattle_realloc(void *old, size_t old_size, size_t size, size_t alignment);

/* Frees a block that one of the other two gave. It is called once for each. */
void rattle_dealloc(void *at);

#ifdef __cplusplus
}
#endif

#endif
