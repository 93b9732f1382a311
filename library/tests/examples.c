/* Runs each example of the header: first each call alone, then all of them from several threads at the same time. */
#include "safebound.h"

#include <pthread.h>
#include <stdio.h>
#include <stdlib.h>
#include <string.h>

#define THREADS 4
#define TIMES 2000

#define CHECK(fact)                                                        \
    do {                                                                   \
        if (!(fact)) {                                                     \
            fprintf(stderr, "%s:%d: not so: %s\n", __FILE__, __LINE__, #fact); \
            exit(1);                                                       \
        }                                                                  \
    } while (0)

static void check_run(safebound_run run, uint64_t degree, uint64_t keys) {
    CHECK(run.degree == degree);
    CHECK(run.keys == keys);
}

static void degrees_of_a_column(void) {
    uint64_t keys[] = {8, 8, 8, 8, 8, 2, 2, 2, 5}, number;
    safebound_run runs[64];
    CHECK(safebound_degrees(keys, 9, runs, 64, &number) == SAFEBOUND_OK);
    CHECK(number == 3);
    check_run(runs[0], 5, 1);
    check_run(runs[1], 3, 1);
    check_run(runs[2], 1, 1);
}

static void few_runs(void) {
    safebound_run runs[] = {{5, 1}, {4, 1}, {3, 1}, {1, 1}}, few[5];
    uint64_t number;
    CHECK(safebound_compress(runs, 4, 1, few, 5, &number) == SAFEBOUND_OK);
    CHECK(number == 2);
    check_run(few[0], 5, 2);
    check_run(few[1], 3, 1);
}

static void rows_that_came_later(void) {
    safebound_run old[] = {{3, 1}, {1, 2}}, later[] = {{2, 2}}, both[3];
    uint64_t number;
    CHECK(safebound_append(old, 2, later, 1, both, 3, &number) == SAFEBOUND_OK);
    CHECK(number == 3);
    check_run(both[0], 5, 1);
    check_run(both[1], 3, 1);
    check_run(both[2], 1, 1);
}

static void rows_of_two_conditions(void) {
    safebound_run red[] = {{3, 2}}, circles[] = {{4, 1}, {1, 2}}, both[9];
    uint64_t number;
    CHECK(safebound_lesser(red, 1, circles, 2, both, 9, &number) == SAFEBOUND_OK);
    CHECK(number == 3);
    check_run(both[0], 3, 1);
    check_run(both[1], 2, 1);
    check_run(both[2], 1, 1);
}

static void rows_of_one_of_two_values(void) {
    safebound_run red[] = {{3, 1}, {1, 1}}, blue[] = {{2, 2}, {1, 1}}, any[4];
    uint64_t number;
    CHECK(safebound_greater(red, 2, blue, 2, any, 4, &number) == SAFEBOUND_OK);
    CHECK(number == 3);
    check_run(any[0], 3, 1);
    check_run(any[1], 2, 1);
    check_run(any[2], 1, 1);
}

static void few_rows(void) {
    safebound_run runs[] = {{5, 1}, {4, 1}}, few[3];
    uint64_t number;
    CHECK(safebound_cut(runs, 2, 7, few, 3, &number) == SAFEBOUND_OK);
    CHECK(number == 2);
    check_run(few[0], 5, 1);
    check_run(few[1], 2, 1);
    CHECK(safebound_cut(runs, 2, 0, few, 3, &number) == SAFEBOUND_OK);
    CHECK(number == 0);
}

static void bounds_of_two_entries(void) {
    uint64_t rows[] = {6, 5}, bounds[4], number;
    safebound_equality equalities[] = {{0, 0, 1, 0}};
    safebound_run runs[] = {{3, 2}, {2, 2}, {1, 1}};
    safebound_list lists[] = {{0, 0, 0, 1}, {1, 0, 1, 2}};
    CHECK(safebound_bounds(rows, 2, equalities, 1, lists, 2, runs, 3, bounds, 4, &number) == SAFEBOUND_OK);
    CHECK(number == 4);
    uint64_t expected[] = {1, 6, 5, 12};
    CHECK(memcmp(bounds, expected, sizeof expected) == 0);
    rows[1] = expected[2] = 100;
    CHECK(safebound_bounds(rows, 2, equalities, 1, lists, 2, runs, 3, bounds, 4, &number) == SAFEBOUND_OK);
    CHECK(memcmp(bounds, expected, sizeof expected) == 0);
}

static void bounds_within_a_limit(void) {
    uint64_t rows[] = {6, 5}, bounds[4], number;
    safebound_equality equalities[] = {{0, 0, 1, 0}};
    safebound_run runs[] = {{3, 2}, {2, 2}, {1, 1}};
    safebound_list lists[] = {{0, 0, 0, 1}, {1, 0, 1, 2}};
    CHECK(safebound_bounds_within(rows, 2, equalities, 1, lists, 2, runs, 3, 6, bounds, 4, &number) == SAFEBOUND_WORK);
    CHECK(number == 7);
    CHECK(safebound_bounds_within(rows, 2, equalities, 1, lists, 2, runs, 3, 7, bounds, 4, &number) == SAFEBOUND_OK);
    CHECK(number == 4);
    CHECK(bounds[3] == 12);
}

static void bound_of_one_set(void) {
    uint64_t rows[] = {6, 5}, number;
    safebound_equality equalities[] = {{0, 0, 1, 0}};
    safebound_run runs[] = {{3, 2}, {2, 2}, {1, 1}};
    safebound_list lists[] = {{0, 0, 0, 1}, {1, 0, 1, 2}};
    CHECK(safebound_set_bound(rows, 2, equalities, 1, lists, 2, runs, 3, 3, &number) == SAFEBOUND_OK);
    CHECK(number == 12);
    CHECK(safebound_set_bound(rows, 2, equalities, 1, lists, 2, runs, 3, 4, &number) == SAFEBOUND_BAD_SET);
    CHECK(number == 4);
}

static void rows_of_joined_tables(void) {
    uint64_t number, expected[] = {18, 17, 23, 6, 6};
    for (uint64_t kind = SAFEBOUND_LEFT_JOIN; kind <= SAFEBOUND_ANTI_JOIN; kind++) {
        CHECK(safebound_joined_rows(kind, 12, 6, 5, &number) == SAFEBOUND_OK);
        CHECK(number == expected[kind - SAFEBOUND_LEFT_JOIN]);
    }
    CHECK(safebound_joined_rows(SAFEBOUND_FULL_JOIN, SAFEBOUND_NO_BOUND, 6, 5, &number) == SAFEBOUND_OK);
    CHECK(number == SAFEBOUND_NO_BOUND);
    CHECK(safebound_joined_rows(6, 12, 6, 5, &number) == SAFEBOUND_BAD_JOIN_KIND);
    CHECK(number == 6);
}

/* Each status has a text of its own. All other numbers share one text. */
static void texts_of_statuses(void) {
    const char *none = safebound_status_text(SAFEBOUND_BAD_JOIN_KIND + 1);
    for (safebound_status status = SAFEBOUND_OK; status <= SAFEBOUND_BAD_JOIN_KIND; status++) {
        int is_status = status <= SAFEBOUND_WORK || status >= SAFEBOUND_BAD_KEYS;
        CHECK(is_status == (strcmp(safebound_status_text(status), none) != 0));
        for (safebound_status other = SAFEBOUND_OK; is_status && other < status; other++)
            CHECK(strcmp(safebound_status_text(status), safebound_status_text(other)) != 0);
    }
    CHECK(strcmp(safebound_status_text(SAFEBOUND_ROOM), "the room is too small") == 0);
    CHECK(strcmp(safebound_status_text(UINT32_MAX), "no status of this library") == 0);
}

static void best_order(void) {
    uint64_t bounds[] = {1, 2, 2, 9, 2, 5, 5, 6}, number;
    safebound_level levels[3], expected[] = {{0, 2}, {2, 5}, {1, 6}};
    CHECK(safebound_order(bounds, 8, 1000000, levels, 3, &number) == SAFEBOUND_OK);
    CHECK(number == 3);
    CHECK(memcmp(levels, expected, sizeof expected) == 0);
    CHECK(safebound_order(bounds, 8, 5, levels, 3, &number) == SAFEBOUND_BUDGET);
    CHECK(number == 6);
}

static void best_tree(void) {
    uint64_t bounds[] = {1, 3, 3, 5, 3, 5, 5, 9}, number;
    safebound_join joins[2], expected[] = {{1, 2, 5}, {0, 3, 9}};
    CHECK(safebound_tree(bounds, 8, 1000000, joins, 2, &number) == SAFEBOUND_OK);
    CHECK(number == 2);
    CHECK(memcmp(joins, expected, sizeof expected) == 0);
}

static void bytes_of_plans(void) {
    uint64_t rows[] = {6, 5}, number;
    safebound_level levels[] = {{1, 5}, {0, 12}};
    safebound_join joins[] = {{0, 1, 12}}, along[] = {{1, 0, 12}};
    CHECK(safebound_memory(rows, 2, levels, 2, &number) == SAFEBOUND_OK);
    CHECK(number == 531);
    CHECK(safebound_tree_memory(rows, 2, along, 1, &number) == SAFEBOUND_OK);
    CHECK(number == 531);
    CHECK(safebound_tree_memory(rows, 2, joins, 1, &number) == SAFEBOUND_OK);
    CHECK(number == 507);
    CHECK(safebound_memory(rows, 2, levels, 1, &number) == SAFEBOUND_BAD_LEVELS);
    CHECK(number == 1);
    joins[0].right = 2;
    CHECK(safebound_tree_memory(rows, 2, joins, 1, &number) == SAFEBOUND_BAD_JOIN);
    CHECK(number == 0);
    levels[1].bound = UINT64_MAX;
    CHECK(safebound_memory(rows, 2, levels, 2, &number) == SAFEBOUND_PAST_BITS);
}

static void version(void) {
    char text[64], header[64];
    uint64_t number;
    CHECK(safebound_version(text, 64, &number) == SAFEBOUND_OK);
    CHECK(number == strlen(text) + 1);
    sprintf(header, "%d.%d.%d", SAFEBOUND_VERSION_MAJOR, SAFEBOUND_VERSION_MINOR, SAFEBOUND_VERSION_PATCH);
    CHECK(strcmp(text, header) == 0);
    CHECK(SAFEBOUND_VERSION_NUMBER >= 1000);
    CHECK(safebound_version(text, 1, &number) == SAFEBOUND_ROOM);
}

static void *run_all_examples(void *times) {
    for (int time = 0; time < *(int *)times; time++) {
        degrees_of_a_column();
        few_runs();
        rows_that_came_later();
        rows_of_two_conditions();
        rows_of_one_of_two_values();
        few_rows();
        bounds_of_two_entries();
        bounds_within_a_limit();
        bound_of_one_set();
        rows_of_joined_tables();
        texts_of_statuses();
        best_order();
        best_tree();
        bytes_of_plans();
        version();
    }
    return NULL;
}

int main(int count, char **words) {
    int once = 1, often = count > 1 ? atoi(words[1]) : TIMES;
    run_all_examples(&once);
    pthread_t threads[THREADS];
    for (int i = 0; i < THREADS; i++) CHECK(pthread_create(&threads[i], NULL, run_all_examples, &often) == 0);
    for (int i = 0; i < THREADS; i++) CHECK(pthread_join(threads[i], NULL) == 0);
    puts("the header's examples: as it says, alone and from four threads");
    return 0;
}
