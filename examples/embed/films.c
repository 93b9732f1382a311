/* The query of examples/films, planned from lists.

       SELECT .. FROM PERSON P, CAST_INFO CI, TITLE T, MOVIE_COMPANY MC, COMPANY C
       WHERE CI.PERSON = P.ID AND CI.TITLE = T.ID AND MC.TITLE = T.ID AND MC.COMPANY = C.ID
         AND CI.PART = 'director' AND C.COUNTRY = 'NO'

   A planner has its own access to the values of a column. This program reads them from the files of that folder:

       cc -Iinclude examples/embed/films.c library/out/libsafebound.a -o films
       ./films examples/films */
#include "safebound.h"

#include <inttypes.h>
#include <stdio.h>
#include <stdlib.h>
#include <string.h>

#define ENTRIES 5
#define SETS (1 << ENTRIES)
#define MOST_ROWS 4096
#define MOST_RUNS 64

static const char *const NAMES[ENTRIES] = {"P", "CI", "T", "MC", "C"};

/* The joined columns, each with its file and, if there is one, the condition on its entry. */
static const struct {
    uint32_t entry, column;
    const char *file, *name, *where, *is;
} COLUMNS[] = {
    {0, 0, "person.csv", "ID", NULL, NULL},
    {1, 0, "cast_info.csv", "PERSON", "PART", "director"},
    {1, 1, "cast_info.csv", "TITLE", "PART", "director"},
    {2, 0, "title.csv", "ID", NULL, NULL},
    {3, 0, "movie_company.csv", "TITLE", NULL, NULL},
    {3, 1, "movie_company.csv", "COMPANY", NULL, NULL},
    {4, 0, "company.csv", "ID", "COUNTRY", "NO"},
};
#define COLUMN_COUNT (sizeof COLUMNS / sizeof *COLUMNS)

static const safebound_equality EQUALITIES[] = {{1, 0, 0, 0}, {1, 1, 2, 0}, {3, 0, 2, 0}, {3, 1, 4, 0}};
#define EQUALITY_COUNT (sizeof EQUALITIES / sizeof *EQUALITIES)

static void stop(const char *what, uint64_t number) {
    fprintf(stderr, "films: %s %" PRIu64 "\n", what, number);
    exit(1);
}

/* The header explains each status. This program ends at any status but SAFEBOUND_OK. */
static void need_ok(safebound_status status) {
    if (status != SAFEBOUND_OK) stop("status", status);
}

/* ---- the values of a column */

static char *field(char *line, int at) {
    for (char *part = strtok(line, ",\r\n"); part != NULL; part = strtok(NULL, ",\r\n"))
        if (at-- == 0) return part;
    return "";
}

static int place_of(const char *header, const char *name) {
    char copy[256];
    for (int at = 0; at < 16; at++) {
        strcpy(copy, header);
        if (strcmp(field(copy, at), name) == 0) return at;
    }
    return -1;
}

/* The values of a column in the rows where another column has the given value. The fields of these files have no quotes. */
static size_t read_keys(FILE *file, const char *name, const char *where, const char *is, uint64_t *keys) {
    char header[256], line[256], copy[256];
    if (fgets(header, sizeof header, file) == NULL) stop("no header", 0);
    int at = place_of(header, name), tested = where == NULL ? -1 : place_of(header, where);
    size_t count = 0;
    while (count < MOST_ROWS && fgets(line, sizeof line, file) != NULL) {
        strcpy(copy, line);
        if (where == NULL || strcmp(field(copy, tested), is) == 0) keys[count++] = strtoull(field(line, at), NULL, 10);
    }
    return count;
}

/* ---- what is known of the query */

static uint64_t rows[ENTRIES];
static safebound_run runs[COLUMN_COUNT * MOST_RUNS];
static safebound_list lists[COLUMN_COUNT];
static size_t run_count;

/* Appends the list of a column to the lists before it: the column's degree sequence, in few runs. */
static void add_list(size_t i, const uint64_t *keys, size_t count) {
    safebound_run all[MOST_ROWS];
    uint64_t length, few;
    need_ok(safebound_degrees(keys, count, all, MOST_ROWS, &length));
    need_ok(safebound_compress(all, length, 1, runs + run_count, MOST_RUNS, &few));
    lists[i] = (safebound_list){COLUMNS[i].entry, COLUMNS[i].column, run_count, few};
    rows[COLUMNS[i].entry] = count;
    run_count += few;
}

static void read_lists(const char *folder) {
    uint64_t keys[MOST_ROWS];
    for (size_t i = 0; i < COLUMN_COUNT; i++) {
        char path[1024];
        snprintf(path, sizeof path, "%s/%s", folder, COLUMNS[i].file);
        FILE *file = fopen(path, "r");
        if (file == NULL) stop(path, 0);
        add_list(i, keys, read_keys(file, COLUMNS[i].name, COLUMNS[i].where, COLUMNS[i].is, keys));
        fclose(file);
    }
}

/* ---- plans */

static void print_order(const uint64_t *bounds, uint64_t budget) {
    safebound_level levels[ENTRIES];
    uint64_t detail;
    safebound_status status = safebound_order(bounds, SETS, budget, levels, ENTRIES, &detail);
    if (status == SAFEBOUND_BUDGET) {
        printf("no order within %" PRIu64 " rows: %" PRIu64 " would do\n", budget, detail);
        return;
    }
    need_ok(status);
    printf("best order\n");
    for (int k = 0; k < ENTRIES; k++) printf("  %s %" PRIu64 "\n", NAMES[levels[k].entry], levels[k].bound);
}

static void print_tree(const uint64_t *bounds, uint64_t budget) {
    safebound_join joins[ENTRIES - 1];
    uint64_t detail;
    need_ok(safebound_tree(bounds, SETS, budget, joins, ENTRIES - 1, &detail));
    printf("best tree\n");
    for (int i = 0; i < ENTRIES - 1; i++) {
        uint64_t sides[] = {joins[i].left, joins[i].right};
        printf("  join %d:", i);
        for (int side = 0; side < 2; side++) {
            if (sides[side] < ENTRIES) printf(" %s", NAMES[sides[side]]);
            else printf(" join %" PRIu64, sides[side] - ENTRIES);
        }
        printf(" %" PRIu64 "\n", joins[i].bound);
    }
}

int main(int count, char **words) {
    uint64_t bounds[SETS], detail;
    read_lists(count > 1 ? words[1] : "examples/films");
    need_ok(safebound_bounds(rows, ENTRIES, EQUALITIES, EQUALITY_COUNT, lists, COLUMN_COUNT, runs, run_count, bounds, SETS, &detail));
    printf("all five joined: at most %" PRIu64 " rows\n", bounds[SETS - 1]);
    print_order(bounds, 1000000);
    print_tree(bounds, 1000000);
    print_order(bounds, 1000);
    return 0;
}
