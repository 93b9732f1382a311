/* The library's memory over malloc, in the archive and in the shared object. The functions are weak, so a program's own
   functions of these names replace them. malloc aligns to 16, and no caller asks for more. */
#include "safebound_memory.h"

#include <stdlib.h>

#define WEAK __attribute__((weak))

/* malloc(0) may return NULL although there is memory. */
static size_t at_least_one(size_t size) { return size > 0 ? size : 1; }

WEAK rattle_memory rattle_alloc(size_t size, size_t align) {
    (void)align;
    void *at = malloc(at_least_one(size));
    return (rattle_memory){at != NULL, at};
}

WEAK rattle_memory rattle_realloc(void *at, size_t size, size_t new_size, size_t align) {
    (void)size;
    (void)align;
    void *moved = realloc(at, at_least_one(new_size));
    return (rattle_memory){moved != NULL, moved};
}

WEAK void rattle_dealloc(void *at) { free(at); }
