/* Linked beside command.c. The program then has both libraries, which use the same functions for memory. */
#include "safebound.h"

#include <stdlib.h>

__attribute__((constructor)) static void both(void) {
    uint64_t keys[] = {8, 8, 2}, detail;
    safebound_run runs[4];
    if (safebound_degrees(keys, 3, runs, 4, &detail) != SAFEBOUND_OK || detail != 2) abort();
}
