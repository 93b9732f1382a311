/* Memory over malloc that counts the blocks not yet freed. The including program defines is_refused, which says whether
   the next request fails. */
#ifndef COUNTED_MEMORY_H
#define COUNTED_MEMORY_H
#include "safebound_memory.h"

#include <stdlib.h>

static long kept;

static bool is_refused(void);

rattle_memory rattle_alloc(size_t size, size_t align) {
    (void)align;
    if (is_refused()) return (rattle_memory){false, NULL};
    kept++;
    return (rattle_memory){true, malloc(size + 1)};
}

rattle_memory rattle_realloc(void *at, size_t size, size_t new_size, size_t align) {
    (void)size;
    (void)align;
    if (is_refused()) return (rattle_memory){false, NULL};
    return (rattle_memory){true, realloc(at, new_size + 1)};
}

void rattle_dealloc(void *at) {
    kept--;
    free(at);
}

#endif
