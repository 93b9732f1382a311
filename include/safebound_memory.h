/* Memory for SafeBound's library, for programs that give it an allocator of their own.

   libsafebound.a takes all its memory by three functions. It defines them over malloc, as weak symbols. A program that
   defines all three replaces them, for example by a planner's memory context, or in a test by an allocator that fails. In
   libsafebound.so they are bound to malloc.

   All three belong to one allocator. Threads that call the library at the same time may call it at the same time. The
   library frees all memory of a call before the call returns.

   Each function has to return to its caller: no longjmp, no C++ exception, no end of the thread. If there is too little
   memory, it says so, and the call ends with SAFEBOUND_NO_MEMORY. A program that wants to jump does so after the call,
   which has then freed everything. A function may take locks of its own, and may call other allocators. */

#ifndef SAFEBOUND_MEMORY_H
#define SAFEBOUND_MEMORY_H

#include <stddef.h>

/* bool. C89 has no bool, so there it is a byte with the value 0 or 1. */
#if defined(__cplusplus) || (defined(__STDC_VERSION__) && __STDC_VERSION__ >= 199901L)
#include <stdbool.h>
typedef bool rattle_given;
#else
typedef unsigned char rattle_given;
#endif

#ifdef __cplusplus
extern "C" {
#endif

/* The answer to a request: `given` is 0 if there is too little memory; `at` is then not read. */
typedef struct rattle_memory {
    rattle_given given;
    void *at;
} rattle_memory;

/* `size` bytes, aligned to `align`, which is a power of two up to 16. `at` isn't NULL, even for 0 bytes. */
rattle_memory rattle_alloc(size_t size, size_t align);

/* Resizes the block at `at` from `size` to `new_size` bytes, and may move it. If there is too little memory, the old block
   is unchanged. */
rattle_memory rattle_realloc(void *at, size_t size, size_t new_size, size_t align);

/* Frees a block. */
void rattle_dealloc(void *at);

#ifdef __cplusplus
}
#endif

#endif
