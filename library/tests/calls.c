/* Reads calls, one on each line, and makes them from C. For each call it writes one line: status, detail, elements.

     degrees ROOM N KEY..
     append, lesser or greater, and ROOM N (DEGREE KEYS).. M (DEGREE KEYS)..
     compress ACCURACY ROOM N (DEGREE KEYS)..                                cut ROWS ROOM N (DEGREE KEYS)..
     bounds ROOM QUERY                bounds_within LIMIT ROOM QUERY         set_bound SET ROOM QUERY
       with a QUERY of N ROWS.. N (4 NUMBERS).. N (4 NUMBERS).. N (DEGREE KEYS)..
     order BUDGET ROOM N BOUND..      tree BUDGET ROOM N BOUND..      version ROOM
     joined_rows KIND ROOM 3 INNER LEFT RIGHT

   Before a call `refuse N` lets its Nth request for memory fail. Each array ends at the end of a page, and touching the next
   page ends the program, so no step past a length goes unnoticed. After a call the program checks that no argument has
   changed, no memory is kept, and nothing past the result is written. Unless the status is OK, only the detail may be written. */
#define _GNU_SOURCE
#include "safebound.h"
#include "counted_memory.h"

#include <inttypes.h>
#include <stdio.h>
#include <stdlib.h>
#include <string.h>
#include <sys/mman.h>
#include <unistd.h>

#define UNTOUCHED 0xA5
#define NO_DETAIL UINT64_C(0xA5A5A5A5A5A5A5A5)
#define MOST_ARRAYS 6

/* ---- memory */

static long requests, refused;

static bool is_refused(void) { return ++requests == refused; }

/* ---- arrays before a page that can't be touched */

typedef struct {
    unsigned char *pages, *bytes, *copy;
    size_t mapped, size;
} array;

static void stop(const char *why) {
    fflush(stdout);
    fprintf(stderr, "calls: %s\n", why);
    exit(1);
}

static array array_of(size_t size) {
    size_t page = (size_t)sysconf(_SC_PAGESIZE), mapped = (size / page + 2) * page;
    unsigned char *pages = mmap(NULL, mapped, PROT_READ | PROT_WRITE, MAP_PRIVATE | MAP_ANONYMOUS, -1, 0);
    if (pages == MAP_FAILED || mprotect(pages + mapped - page, page, PROT_NONE) != 0) stop("no pages");
    array made = {pages, pages + mapped - page - size, NULL, mapped, size};
    memset(made.bytes, UNTOUCHED, size);
    return made;
}

static void drop(array *gone) {
    munmap(gone->pages, gone->mapped);
    free(gone->copy);
}

/* ---- the line that is read */

static char *rest;
static array given[MOST_ARRAYS];
static size_t given_count;

static uint64_t read_number(void) {
    char *end;
    uint64_t read = strtoull(rest, &end, 10);
    if (end == rest) stop("a number is missing");
    rest = end;
    return read;
}

/* Reads a length and as many elements. Each element has `narrow` numbers of 32 bits, then `wide` numbers of 64 bits. */
static void *read_elements(size_t *length, size_t wide, size_t narrow) {
    *length = read_number();
    array made = array_of(*length * (8 * wide + 4 * narrow));
    unsigned char *at = made.bytes;
    for (size_t i = 0; i < *length; i++) {
        for (size_t k = 0; k < narrow; k++, at += 4) {
            uint32_t read = (uint32_t)read_number();
            memcpy(at, &read, 4);
        }
        for (size_t k = 0; k < wide; k++, at += 8) {
            uint64_t read = read_number();
            memcpy(at, &read, 8);
        }
    }
    made.copy = malloc(made.size + 1);
    memcpy(made.copy, made.bytes, made.size);
    given[given_count++] = made;
    return made.bytes;
}

/* ---- the answer */

static void check_rest(const array *into, size_t written) {
    for (size_t i = written; i < into->size; i++)
        if (into->bytes[i] != UNTOUCHED) stop("written where nothing may be written");
    for (size_t i = 0; i < given_count; i++)
        if (memcmp(given[i].bytes, given[i].copy, given[i].size) != 0) stop("an argument has changed");
    if (kept != 0) stop("memory is kept");
}

static void print_answer(safebound_status status, const uint64_t *told, array *into, size_t element) {
    uint64_t detail = *told;
    check_rest(into, status == SAFEBOUND_OK ? detail * element : 0);
    printf("%" PRIu32, status);
    if (detail == NO_DETAIL) printf(" -");
    else printf(" %" PRIu64, detail);
    for (size_t i = 0; status == SAFEBOUND_OK && i < detail * element; i += element < 8 ? 1 : 8) {
        uint64_t read = into->bytes[i];
        if (element >= 8) memcpy(&read, into->bytes + i, 8);
        printf(" %" PRIu64, read);
    }
    printf(" requests %ld\n", requests);
    drop(into);
    for (size_t i = 0; i < given_count; i++) drop(&given[i]);
    given_count = 0;
}

/* ---- calls */

static void degrees(uint64_t *detail) {
    size_t room = read_number(), n;
    array into = array_of(room * sizeof(safebound_run));
    const uint64_t *keys = read_elements(&n, 1, 0);
    print_answer(safebound_degrees(keys, n, (safebound_run *)into.bytes, room, detail), detail, &into, sizeof(safebound_run));
}

static void compress(uint64_t *detail) {
    uint64_t accuracy = read_number();
    size_t room = read_number(), n;
    array into = array_of(room * sizeof(safebound_run));
    const safebound_run *runs = read_elements(&n, 2, 0);
    print_answer(safebound_compress(runs, n, accuracy, (safebound_run *)into.bytes, room, detail), detail, &into, sizeof(safebound_run));
}

static void cut(uint64_t *detail) {
    uint64_t rows = read_number();
    size_t room = read_number(), n;
    array into = array_of(room * sizeof(safebound_run));
    const safebound_run *runs = read_elements(&n, 2, 0);
    print_answer(safebound_cut(runs, n, rows, (safebound_run *)into.bytes, room, detail), detail, &into, sizeof(safebound_run));
}

typedef safebound_status of_two_lists(const safebound_run *, size_t, const safebound_run *, size_t, safebound_run *, size_t,
                                      uint64_t *);

static void call_with_two_lists(of_two_lists *call, uint64_t *detail) {
    size_t room = read_number(), n, m;
    array into = array_of(room * sizeof(safebound_run));
    const safebound_run *runs = read_elements(&n, 2, 0), *others = read_elements(&m, 2, 0);
    print_answer(call(runs, n, others, m, (safebound_run *)into.bytes, room, detail), detail, &into, sizeof(safebound_run));
}

static void append(uint64_t *detail) { call_with_two_lists(safebound_append, detail); }

static void lesser(uint64_t *detail) { call_with_two_lists(safebound_lesser, detail); }

static void greater(uint64_t *detail) { call_with_two_lists(safebound_greater, detail); }

typedef struct {
    const uint64_t *rows;
    const safebound_equality *equalities;
    const safebound_list *lists;
    const safebound_run *runs;
    size_t entries, equalities_length, lists_length, runs_length;
} query;

static query read_query(void) {
    query read;
    read.rows = read_elements(&read.entries, 1, 0);
    read.equalities = read_elements(&read.equalities_length, 0, 4);
    read.lists = read_elements(&read.lists_length, 2, 2);
    read.runs = read_elements(&read.runs_length, 2, 0);
    return read;
}

static void bounds(uint64_t *detail) {
    size_t room = read_number();
    array into = array_of(room * 8);
    query q = read_query();
    safebound_status status = safebound_bounds(q.rows, q.entries, q.equalities, q.equalities_length, q.lists, q.lists_length,
                                               q.runs, q.runs_length, (uint64_t *)into.bytes, room, detail);
    print_answer(status, detail, &into, 8);
}

static void bounds_within(uint64_t *detail) {
    uint64_t limit = read_number();
    size_t room = read_number();
    array into = array_of(room * 8);
    query q = read_query();
    safebound_status status =
        safebound_bounds_within(q.rows, q.entries, q.equalities, q.equalities_length, q.lists, q.lists_length, q.runs,
                                q.runs_length, limit, (uint64_t *)into.bytes, room, detail);
    print_answer(status, detail, &into, 8);
}

static void set_bound(uint64_t *detail) {
    uint64_t set = read_number();
    array into = array_of(read_number() * 8);
    query q = read_query();
    safebound_status status = safebound_set_bound(q.rows, q.entries, q.equalities, q.equalities_length, q.lists,
                                                  q.lists_length, q.runs, q.runs_length, set, detail);
    print_answer(status, detail, &into, 0);
}

static void order(uint64_t *detail) {
    uint64_t budget = read_number();
    size_t room = read_number(), n;
    array into = array_of(room * sizeof(safebound_level));
    const uint64_t *given_bounds = read_elements(&n, 1, 0);
    print_answer(safebound_order(given_bounds, n, budget, (safebound_level *)into.bytes, room, detail), detail, &into, sizeof(safebound_level));
}

static void tree(uint64_t *detail) {
    uint64_t budget = read_number();
    size_t room = read_number(), n;
    array into = array_of(room * sizeof(safebound_join));
    const uint64_t *given_bounds = read_elements(&n, 1, 0);
    print_answer(safebound_tree(given_bounds, n, budget, (safebound_join *)into.bytes, room, detail), detail, &into, sizeof(safebound_join));
}

static void joined_rows(uint64_t *detail) {
    uint64_t kind = read_number();
    array into = array_of(read_number() * 8);
    size_t n;
    const uint64_t *rows = read_elements(&n, 1, 0);
    if (n != 3) stop("there are three bounds");
    print_answer(safebound_joined_rows(kind, rows[0], rows[1], rows[2], detail), detail, &into, 0);
}

static void version(uint64_t *detail) {
    size_t room = read_number();
    array into = array_of(room);
    print_answer(safebound_version((char *)into.bytes, room, detail), detail, &into, 1);
}

static bool begins_with(const char *word) {
    size_t length = strlen(word);
    if (strncmp(rest, word, length) != 0 || rest[length] != ' ') return false;
    rest += length;
    return true;
}

static const struct {
    const char *name;
    void (*call)(uint64_t *detail);
} CALLS[] = {{"degrees", degrees}, {"compress", compress},           {"append", append},
             {"lesser", lesser},   {"greater", greater},             {"cut", cut},
             {"bounds", bounds},   {"bounds_within", bounds_within}, {"set_bound", set_bound},
             {"order", order},     {"tree", tree},                   {"joined_rows", joined_rows},
             {"version", version}};

static void make_call(void) {
    requests = 0;
    refused = begins_with("refuse") ? (long)read_number() : 0;
    while (*rest == ' ') rest++;
    for (size_t i = 0; i < sizeof CALLS / sizeof *CALLS; i++) {
        if (begins_with(CALLS[i].name)) {
            uint64_t detail = NO_DETAIL;
            CALLS[i].call(&detail);
            return;
        }
    }
    stop("no such call");
}

int main(void) {
    char *line = NULL;
    size_t room = 0;
    while (getline(&line, &room, stdin) > 0) {
        rest = line;
        make_call();
        fflush(stdout);
    }
    free(line);
    return 0;
}
