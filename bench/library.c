/* Measures calls of the library from C. bench/library compiles it, and explains its lines.
   It prints a name, the number of elements of the result, and the nanoseconds of a call, the least of several. If the
   limit of work stops a call, as it may stop that of a clique, it prints the work in place of the number of elements. */
#define _POSIX_C_SOURCE 199309L
#include "safebound.h"

#include <inttypes.h>
#include <stdio.h>
#include <stdlib.h>
#include <string.h>
#include <time.h>

#define MOST_ENTRIES SAFEBOUND_MOST_ENTRIES
#define MOST_PAIRS (MOST_ENTRIES * (MOST_ENTRIES - 1) / 2)
#define MOST_LISTS (2 * MOST_PAIRS)
#define PIECES 23
#define BUDGET SAFEBOUND_MOST_BUDGET
/* A limit of work. A star of sixteen entries is below it. A clique of sixteen, which would take more than a minute, is above it. */
#define MOST_WORK UINT64_C(500000000)

static uint64_t now(void) {
    struct timespec at;
    clock_gettime(CLOCK_MONOTONIC, &at);
    return (uint64_t)at.tv_sec * 1000000000 + (uint64_t)at.tv_nsec;
}

static void need_ok(safebound_status status) {
    if (status == SAFEBOUND_OK) return;
    fprintf(stderr, "library: status %" PRIu32 "\n", status);
    exit(1);
}

/* ---- entries in a chain, a star, a ring and a clique, with lists as bench/planning has them */

typedef enum { CHAIN, STAR, RING, CLIQUE } shape;

typedef struct {
    uint64_t rows[MOST_ENTRIES];
    safebound_equality equalities[MOST_PAIRS];
    safebound_list lists[MOST_LISTS];
    safebound_run runs[MOST_LISTS * PIECES];
    size_t entries, equality_count, list_count, run_count;
} query;

static void add_list(query *made, uint32_t entry, uint32_t column, uint64_t pieces) {
    uint64_t rows = made->rows[entry], left = rows, first = made->run_count;
    for (uint64_t step = pieces; step >= 2; step--) {
        uint64_t degree = step * (column + 1), keys = rows / pieces / degree;
        made->runs[made->run_count++] = (safebound_run){degree, keys};
        left -= degree * keys;
    }
    made->runs[made->run_count++] = (safebound_run){1, left};
    made->lists[made->list_count++] = (safebound_list){entry, column, first, made->run_count - first};
}

static void join(query *made, uint32_t left, uint32_t left_column, uint32_t right, uint32_t right_column) {
    made->equalities[made->equality_count++] = (safebound_equality){left, left_column, right, right_column};
    add_list(made, left, left_column, PIECES);
    add_list(made, right, right_column, PIECES);
}

/* In a star and a clique each equality has columns of its own. */
static query *query_of(shape shape, uint32_t entries) {
    static query made;
    uint32_t last = entries - 1;
    made = (query){.entries = entries};
    for (uint32_t entry = 0; entry < entries; entry++) made.rows[entry] = 1000000 + 77777 * entry;
    for (uint32_t entry = 0; entry < last; entry++) {
        if (shape == CHAIN || shape == RING) join(&made, entry, 1, entry + 1, 0);
        if (shape == STAR) join(&made, 0, entry, entry + 1, 0);
        for (uint32_t other = entry + 1; shape == CLIQUE && other < entries; other++) join(&made, entry, other, other, entry);
    }
    if (shape == RING) join(&made, last, 1, 0, 0);
    return &made;
}

static void time_bounds(const char *name, shape shape, uint32_t entries, int times) {
    static uint64_t bounds[1 << MOST_ENTRIES];
    const query *made = query_of(shape, entries);
    uint64_t least = UINT64_MAX, detail = 0;
    for (int i = 0; i < times; i++) {
        uint64_t start = now();
        safebound_status status = safebound_bounds_within(
            made->rows, entries, made->equalities, made->equality_count, made->lists, made->list_count, made->runs,
            made->run_count, MOST_WORK, bounds, 1 << MOST_ENTRIES, &detail);
        uint64_t taken = now() - start;
        if (shape != CLIQUE || status != SAFEBOUND_WORK) need_ok(status);
        if (taken < least) least = taken;
    }
    printf("%s %" PRIu64 " %" PRIu64 "\n", name, detail, least);
}

/* Bounds, each greater by one than the bound before. */
static void time_plans(size_t entries, int times) {
    static uint64_t bounds[1 << MOST_ENTRIES];
    safebound_level levels[MOST_ENTRIES];
    safebound_join joins[MOST_ENTRIES];
    uint64_t order = UINT64_MAX, tree = UINT64_MAX, length = 0, joined = 0;
    for (size_t set = 0; set < (size_t)1 << entries; set++) bounds[set] = set;
    for (int i = 0; i < times; i++) {
        uint64_t start = now();
        need_ok(safebound_order(bounds, (size_t)1 << entries, BUDGET, levels, MOST_ENTRIES, &length));
        uint64_t between = now();
        need_ok(safebound_tree(bounds, (size_t)1 << entries, BUDGET, joins, MOST_ENTRIES, &joined));
        uint64_t end = now();
        if (between - start < order) order = between - start;
        if (end - between < tree) tree = end - between;
    }
    printf("order_%zu %" PRIu64 " %" PRIu64 "\n", entries, length, order);
    printf("tree_%zu %" PRIu64 " %" PRIu64 "\n", entries, joined, tree);
}

/* ---- keys, as bench/degree_lists.rs has them */

static uint64_t key_of(const char *kind, uint64_t state) {
    if (strcmp(kind, "different") == 0) return state;
    if (strcmp(kind, "equal") == 0) return 7;
    return (state & 0xffffffff) >> (32 - (state >> 58) % 22);
}

static void time_degrees(const char *kind, size_t count, int times) {
    static safebound_run runs[1 << 16];
    uint64_t state = 88172645463325252, least = UINT64_MAX, length = 0;
    uint64_t *keys = malloc(count * sizeof *keys);
    if (keys == NULL) need_ok(SAFEBOUND_NO_MEMORY);
    for (size_t i = 0; i < count; i++) {
        state ^= state << 13;
        state ^= state >> 7;
        state ^= state << 17;
        keys[i] = key_of(kind, state);
    }
    for (int i = 0; i < times; i++) {
        uint64_t start = now();
        need_ok(safebound_degrees(keys, count, runs, 1 << 16, &length));
        uint64_t taken = now() - start;
        if (taken < least) least = taken;
    }
    free(keys);
    printf("degrees_%s %" PRIu64 " %" PRIu64 "\n", kind, length, least);
}

int main(int count, char **words) {
    size_t keys = count > 1 ? strtoull(words[1], NULL, 10) : 10000000;
    time_bounds("bounds_3", CHAIN, 3, 2000);
    time_bounds("bounds_6", CHAIN, 6, 500);
    time_bounds("bounds_12", CHAIN, 12, 20);
    time_bounds("chain_16", CHAIN, 16, 5);
    time_bounds("star_16", STAR, 16, 2);
    time_bounds("ring_16", RING, 16, 5);
    time_bounds("clique_16", CLIQUE, 16, 5);
    time_plans(3, 2000);
    time_plans(12, 20);
    time_plans(16, 2);
    time_degrees("different", keys, 3);
    time_degrees("equal", keys, 3);
    time_degrees("unequal", keys, 3);
    return 0;
}
