/* SafeBound's library: row bounds of joins that are never too low, and the best plans by them.

   A planner gives for each entry of a query the most rows that it may have, and for each joined column how often its
   values repeat. It gets a bound for every set of entries, the best left-deep order and the best join tree.

   For all calls:

   - A call leaves nothing behind: there are no handles and no global state, and nothing to set up or tear down.
     Threads may call at the same time. No call may come from a signal handler, or from the child of a fork of a
     process with threads.
   - Numbers have 64 bits. Lengths and rooms are in elements, not in bytes.
   - A pointer is never NULL and is aligned for its type, even if its length is 0. During a call nobody may change
     what it reads. The memory that it writes may not overlap any other argument.
   - Each call checks every value that it gets. It returns a status. The status says what number is in `*detail`:

     SAFEBOUND_OK           `detail` is the number of elements written, or the number that the call computes.
     SAFEBOUND_ROOM         The room is too small. `detail` is the room that is needed.
     SAFEBOUND_NO_MEMORY    There was too little memory. `detail` is unchanged.
     SAFEBOUND_BUDGET       The best plan exceeds the budget. `detail` is the least budget that would do.
     SAFEBOUND_PAST_BITS    Each plan has a part without a bound, or the number has more than 64 bits. `detail` is unchanged.
     SAFEBOUND_WORK         The work exceeds the limit. `detail` is the limit that would do.
     the others             A value is wrong. `detail` says where: which element, from 0, of the array that is named
                            with the status below, or the number itself.

     Nothing but `detail` is written unless the status is SAFEBOUND_OK. If several statuses apply, the call returns the
     first one in its list. If several elements are wrong, `detail` names the first. SAFEBOUND_NO_MEMORY may come in
     place of any other status.

   The library takes memory by three functions. The archive defines them over malloc, and a program may replace them:
   safebound_memory.h. */

#ifndef SAFEBOUND_H
#define SAFEBOUND_H

#include <stddef.h>
#include <stdint.h>

#ifdef __cplusplus
extern "C" {
#endif

/* The version of this header; safebound_version tells that of the library. The number rises with each version. */
#define SAFEBOUND_VERSION_MAJOR 0
#define SAFEBOUND_VERSION_MINOR 4
#define SAFEBOUND_VERSION_PATCH 0
#define SAFEBOUND_VERSION_NUMBER \
    (SAFEBOUND_VERSION_MAJOR * 1000000 + SAFEBOUND_VERSION_MINOR * 1000 + SAFEBOUND_VERSION_PATCH)

/* Limits. tools/limits takes their numbers from the crate limits. SafeBound's own engine takes at most
   SAFEBOUND_ENGINE_ENTRIES entries, so the two calls that compute its memory refuse more. */
#define SAFEBOUND_MOST_ENTRIES 16
#define SAFEBOUND_ENGINE_ENTRIES 12
#define SAFEBOUND_MOST_EQUALITIES 256
#define SAFEBOUND_MOST_TURNS 16
#define SAFEBOUND_MOST_ACCURACY 64
#define SAFEBOUND_MOST_ROWS (UINT64_C(1) << 48)
#define SAFEBOUND_MOST_BUDGET (UINT64_C(1) << 59)

/* No bound is known. A bound that 64 bits can't hold is given as this number too. */
#define SAFEBOUND_NO_BOUND UINT64_MAX

/* The `first` of a column's list if no row has a value in the column. Its `length` is then 0. */
#define SAFEBOUND_NO_VALUES UINT64_MAX

typedef uint32_t safebound_status;

enum {
    SAFEBOUND_OK = 0,
    SAFEBOUND_ROOM = 1,
    SAFEBOUND_NO_MEMORY = 2,
    SAFEBOUND_BUDGET = 3,
    SAFEBOUND_PAST_BITS = 4,
    SAFEBOUND_WORK = 5,

    SAFEBOUND_BAD_KEYS = 16,       /* the number of keys */
    SAFEBOUND_BAD_ACCURACY = 17,   /* the accuracy */
    SAFEBOUND_BAD_RUN = 18,        /* an element of `runs` */
    SAFEBOUND_BAD_OTHER_RUN = 19,  /* an element of `others` */
    SAFEBOUND_BAD_SUM = 20,        /* the sum of two lists */
    SAFEBOUND_BAD_ENTRIES = 21,    /* the number of entries */
    SAFEBOUND_BAD_ROWS = 22,       /* an element of `rows` */
    SAFEBOUND_BAD_EQUALITIES = 23, /* the number of equalities */
    SAFEBOUND_BAD_EQUALITY = 24,   /* an element of `equalities` */
    SAFEBOUND_BAD_LIST = 25,       /* an element of `lists` */
    SAFEBOUND_MISSING_LIST = 26,   /* an element of `equalities`, of which a column has no list */
    SAFEBOUND_BAD_BOUNDS = 27,     /* the number of bounds */
    SAFEBOUND_BAD_BUDGET = 28,     /* the budget */
    SAFEBOUND_BAD_LEVELS = 29,     /* the number of levels */
    SAFEBOUND_BAD_LEVEL = 30,      /* an element of `levels` */
    SAFEBOUND_BAD_JOINS = 31,      /* the number of joins */
    SAFEBOUND_BAD_JOIN = 32,       /* an element of `joins` */
    SAFEBOUND_BAD_SET = 33,        /* the set */
    SAFEBOUND_BAD_JOIN_KIND = 34   /* the kind of a join */
};

/* The kinds of joins of safebound_joined_rows. */
enum {
    SAFEBOUND_LEFT_JOIN = 1,  /* LEFT OUTER JOIN */
    SAFEBOUND_RIGHT_JOIN = 2, /* RIGHT OUTER JOIN */
    SAFEBOUND_FULL_JOIN = 3,  /* FULL OUTER JOIN */
    SAFEBOUND_SEMI_JOIN = 4,  /* the rows of the left side that have a match (EXISTS) */
    SAFEBOUND_ANTI_JOIN = 5   /* the rows of the left side that have no match (NOT EXISTS) */
};

/* `keys` different keys, each of which occurs in `degree` rows.

   A list of runs says how often the values of a column repeat, the most frequent first: (5, 1), (2, 3) is one value in
   five rows and three values in two rows each. A list is valid if each degree and each number of keys is at least 1, no
   degree is above the one before it, and all degrees sum to at most 2^48. Otherwise `detail` is the first run that breaks
   this rule. A list without runs is valid too, but as the list of a column it has to be marked (safebound_list). */
typedef struct safebound_run {
    uint64_t degree;
    uint64_t keys;
} safebound_run;

/* An equality between columns of two different entries. Entries are numbered from 0. A column may have any number: the
   number only distinguishes the columns of one entry. */
typedef struct safebound_equality {
    uint32_t left_entry;
    uint32_t left_column;
    uint32_t right_entry;
    uint32_t right_column;
} safebound_equality;

/* The list of an entry's column: `length` elements of the call's `runs`, at least one, from the element `first` on. Two
   lists may share runs, for example if a table is joined with itself.

   If no row has a value in the column, the list has no runs: `first` is SAFEBOUND_NO_VALUES and `length` is 0. Any other
   list without runs is refused, since the caller may have forgotten to fill it. */
typedef struct safebound_list {
    uint32_t entry;
    uint32_t column;
    uint64_t first;
    uint64_t length;
} safebound_list;

/* One level of an order: the entry that is joined there, and the bound in rows of this entry and all before it. */
typedef struct safebound_level {
    uint64_t entry;
    uint64_t bound;
} safebound_level;

/* A node of a join tree: the two nodes that it joins, and its bound in rows. With n entries the nodes 0 to n - 1 are the
   entries, and node n + i is element i. */
typedef struct safebound_join {
    uint64_t left;
    uint64_t right;
    uint64_t bound;
} safebound_join;

/* The degree sequence of a column, as runs: how many rows have each of its keys, the most frequent first.

   `keys` are the column's values, one for each row that has one, in any order; rows without a value (NULL) are left out.
   Any 64 bits are a key: give texts and other types a number each. The runs have different degrees.

   SAFEBOUND_BAD_KEYS     more than 2^48 keys; `detail` is their number
   SAFEBOUND_NO_MEMORY    it takes about as much memory as the keys do
   SAFEBOUND_ROOM         needed: a run per different degree, at most the square root of twice the number of keys
   SAFEBOUND_OK

   Example: the keys 8, 8, 8, 8, 8, 2, 2, 2, 5 give (5, 1), (3, 1), (1, 1).

       uint64_t keys[] = {8, 8, 8, 8, 8, 2, 2, 2, 5}, detail;
       safebound_run runs[64];
       safebound_status status = safebound_degrees(keys, 9, runs, 64, &detail);
       // SAFEBOUND_OK, and detail is 3 */
safebound_status safebound_degrees(const uint64_t *keys, size_t keys_length, safebound_run *into, size_t room,
                                   uint64_t *detail);

/* A few runs that dominate a list. What the list says of a column stays true, and later calls are faster.

   The sum is the list's. At accuracy K, from 1 to 64, each degree is at most (K + 1) / K times the list's degree at
   the same rank. There are at most K times as many runs as the first degree has binary digits, and one more.

   SAFEBOUND_BAD_ACCURACY    not from 1 to 64; `detail` is the accuracy
   SAFEBOUND_BAD_RUN         `detail` is the element of `runs`
   SAFEBOUND_NO_MEMORY
   SAFEBOUND_ROOM            at most one more than `runs` has
   SAFEBOUND_OK

   Example: (5, 1), (4, 1), (3, 1), (1, 1) gives (5, 2), (3, 1) at accuracy 1.

       safebound_status status = safebound_compress(runs, runs_length, 8, few, 64, &detail); */
safebound_status safebound_compress(const safebound_run *runs, size_t runs_length, uint64_t accuracy,
                                    safebound_run *into, size_t room, uint64_t *detail);

/* The rank-wise sum of two lists, for example of a column's list and of the list of rows that came later. At each rank it
   has the sum of both degrees, so it dominates the old and the new rows together, whichever values repeat. If one list is of
   the rows that satisfy condition A, and the other of those that satisfy condition B, the sum is a list for A OR B.

   SAFEBOUND_BAD_RUN          `detail` is the element of `runs`
   SAFEBOUND_BAD_OTHER_RUN    `detail` is the element of `others`
   SAFEBOUND_BAD_SUM          the degrees of both lists sum to more than 2^48; `detail` is that sum
   SAFEBOUND_NO_MEMORY
   SAFEBOUND_ROOM             at most as many runs as both lists have together
   SAFEBOUND_OK

   Example: (3, 1), (1, 2) and (2, 2) give (5, 1), (3, 1), (1, 1).

       safebound_status status = safebound_append(old, 2, later, 1, both, 3, &detail); */
safebound_status safebound_append(const safebound_run *runs, size_t runs_length, const safebound_run *others,
                                  size_t others_length, safebound_run *into, size_t room, uint64_t *detail);

/* The lesser of two lists. If one list is of the rows that satisfy condition A, and the other of those that satisfy
   condition B, the result is a list for A AND B. The sum of its first r degrees is the lesser of the sums of the two lists'
   first r degrees. (The lesser degree at each rank would be too low.)

   SAFEBOUND_BAD_RUN          `detail` is the element of `runs`
   SAFEBOUND_BAD_OTHER_RUN    `detail` is the element of `others`
   SAFEBOUND_NO_MEMORY
   SAFEBOUND_ROOM             at most three times as many runs as both lists have together
   SAFEBOUND_OK

   Example: (3, 2) and (4, 1), (1, 2) give (3, 1), (2, 1), (1, 1).

       safebound_status status = safebound_lesser(red, 1, circles, 2, both, 9, &detail); */
safebound_status safebound_lesser(const safebound_run *runs, size_t runs_length, const safebound_run *others,
                                  size_t others_length, safebound_run *into, size_t room, uint64_t *detail);

/* The greater of two lists, rank by rank. It dominates all that either list dominates. If one list is of the rows with one
   value in a column, and the other of those with another value, the result is a list for the rows of any one of the two
   values. For the rows of both values together take safebound_append.

   SAFEBOUND_BAD_RUN          `detail` is the element of `runs`
   SAFEBOUND_BAD_OTHER_RUN    `detail` is the element of `others`
   SAFEBOUND_BAD_SUM          the greater degrees sum to more than 2^48; `detail` is that sum
   SAFEBOUND_NO_MEMORY
   SAFEBOUND_ROOM             at most as many runs as both lists have together
   SAFEBOUND_OK

   Example: (3, 1), (1, 1) and (2, 2), (1, 1) give (3, 1), (2, 1), (1, 1).

       safebound_status status = safebound_greater(red, 2, blue, 2, any, 4, &detail); */
safebound_status safebound_greater(const safebound_run *runs, size_t runs_length, const safebound_run *others,
                                   size_t others_length, safebound_run *into, size_t room, uint64_t *detail);

/* A list that is cut at a number of rows. It dominates any rows that the list dominates, if there are at most that many.
   It has the list's degrees while their sum is within that number, and then one degree for the rest of the number.

   SAFEBOUND_BAD_RUN      `detail` is the element of `runs`
   SAFEBOUND_NO_MEMORY
   SAFEBOUND_ROOM         at most one more than `runs` has
   SAFEBOUND_OK           no elements where `rows` is 0

   Example: (5, 1), (4, 1) cut at 7 rows gives (5, 1), (2, 1).

       safebound_status status = safebound_cut(runs, 2, 7, few, 3, &detail); */
safebound_status safebound_cut(const safebound_run *runs, size_t runs_length, uint64_t rows, safebound_run *into,
                               size_t room, uint64_t *detail);

/* The bounds of all sets of entries, in rows. A set is a number whose bit i is 1 if entry i is in it. With n entries
   there are 2^n sets: `into[set]` is the set's bound, and `into[0]` is 1.

   `rows` has for each entry its row bound: the most rows that it may have. `lists` has a list for each column that an
   equality names. The list must dominate the column's values: any r different values occur in no more rows than the list's
   first r degrees sum to. The lists of safebound_degrees dominate, and so do the lists that safebound_compress and
   safebound_append make from them.

   If a list sums to more than the row bound, it is cut there, so the list of a whole table serves for some of its rows. If
   it sums to less, the other rows are taken for rows without a value (NULL), which join with nothing. In a set where an
   equality names the column, the entry then has at most as many rows as the list sums to. The entry's number of rows is
   then the least of its row bound and these sums. If no equality of the set names one of its columns, it is its row bound.
   The list of a column that no equality names is checked but not used. Runs that belong to no list aren't read.

   A choice has one row from each entry of the set. The bound is at least the number of choices that satisfy all equalities
   between these entries, or it is SAFEBOUND_NO_BOUND.

   SAFEBOUND_BAD_ENTRIES       not from 1 to SAFEBOUND_MOST_ENTRIES; `detail` is their number
   SAFEBOUND_BAD_ROWS          more than 2^48; `detail` is the element of `rows`
   SAFEBOUND_BAD_EQUALITIES    more than 256; `detail` is their number
   SAFEBOUND_BAD_EQUALITY      an entry that doesn't exist, or one entry on both sides; `detail` is the element
   SAFEBOUND_BAD_LIST          an entry that doesn't exist, a list without runs and without the mark, runs outside
                               `runs`, or a second list of one column; `detail` is the element of `lists`
   SAFEBOUND_BAD_RUN           `detail` is the element of `runs`, in the first list that has a wrong run
   SAFEBOUND_MISSING_LIST      a column without a list; `detail` is the element of `equalities`
   SAFEBOUND_ROOM              2^n bounds
   SAFEBOUND_NO_MEMORY
   SAFEBOUND_OK

   Example: two entries with 6 and 5 rows, joined by column 0 of each.

       uint64_t rows[] = {6, 5}, bounds[4], detail;
       safebound_equality equalities[] = {{0, 0, 1, 0}};
       safebound_run runs[] = {{3, 2}, {2, 2}, {1, 1}};
       safebound_list lists[] = {{0, 0, 0, 1}, {1, 0, 1, 2}};
       safebound_status status =
           safebound_bounds(rows, 2, equalities, 1, lists, 2, runs, 3, bounds, 4, &detail);
       // SAFEBOUND_OK, and bounds are 1, 6, 5, 12

   With the rows 6 and 100 the bounds are 1, 6, 100, 12: at most 5 of the 100 rows have a value and may join. */
safebound_status safebound_bounds(const uint64_t *rows, size_t entries, const safebound_equality *equalities,
                                  size_t equalities_length, const safebound_list *lists, size_t lists_length,
                                  const safebound_run *runs, size_t runs_length, uint64_t *into, size_t room,
                                  uint64_t *detail);

/* Like safebound_bounds, with a limit on the work. The work is counted before the first set is bounded, so a call whose
   work exceeds the limit ends at once.

   Each set is bounded in as many turns as it has equalities, but in at least one and at most SAFEBOUND_MOST_TURNS. The
   work of a turn is 1 plus the number of runs in the two lists of each equality of the set. The work of a call is that of
   all turns of all sets. It measures the query, and doesn't count steps. Turns of a set that make the same columns equal
   are bounded only once; if the equalities close no cycle, this holds for all turns. Lists also grow along a chain of
   joins.

   The statuses are those of safebound_bounds. Between SAFEBOUND_ROOM and SAFEBOUND_NO_MEMORY comes

   SAFEBOUND_WORK              the work exceeds `limit`; `detail` is the work, at most 2^64 - 1

   Example: the first query above has a work of 7.

       safebound_status status =
           safebound_bounds_within(rows, 2, equalities, 1, lists, 2, runs, 3, 6, bounds, 4, &detail);
       // SAFEBOUND_WORK, and detail is 7 */
safebound_status safebound_bounds_within(const uint64_t *rows, size_t entries, const safebound_equality *equalities,
                                         size_t equalities_length, const safebound_list *lists, size_t lists_length,
                                         const safebound_run *runs, size_t runs_length, uint64_t limit, uint64_t *into,
                                         size_t room, uint64_t *detail);

/* The bound of one set of entries: the number that safebound_bounds writes for that set. No other set is bounded. A planner
   that comes to sets one by one can use it. It also bounds a whole query, whose set is 2^n - 1. At SAFEBOUND_OK `detail` is
   the bound.

   The statuses are those of safebound_bounds without SAFEBOUND_ROOM. Before SAFEBOUND_NO_MEMORY comes

   SAFEBOUND_BAD_SET           an entry that doesn't exist; `detail` is the set

   Example: in the first query above the bound of both entries is 12.

       safebound_status status =
           safebound_set_bound(rows, 2, equalities, 1, lists, 2, runs, 3, 3, &detail);
       // SAFEBOUND_OK, and detail is 12 */
safebound_status safebound_set_bound(const uint64_t *rows, size_t entries, const safebound_equality *equalities,
                                     size_t equalities_length, const safebound_list *lists, size_t lists_length,
                                     const safebound_run *runs, size_t runs_length, uint64_t set, uint64_t *detail);

/* A bound of the rows of an outer join, a semi-join or an anti-join. `inner` is a bound of the inner join of both sides by
   the same condition; `left` and `right` are bounds of all rows of the sides. A condition in ON that names only one side
   mustn't lower them: an outer join and an anti-join keep rows that fail it. At SAFEBOUND_OK `detail` is

       SAFEBOUND_LEFT_JOIN     inner + left
       SAFEBOUND_RIGHT_JOIN    inner + right
       SAFEBOUND_FULL_JOIN     inner + left + right
       SAFEBOUND_SEMI_JOIN     the lesser of inner and left
       SAFEBOUND_ANTI_JOIN     left

   A sum of SAFEBOUND_NO_BOUND or more is returned as SAFEBOUND_NO_BOUND. As an argument this number says that no bound is
   known.

   SAFEBOUND_BAD_JOIN_KIND     no kind of join; `detail` is the kind
   SAFEBOUND_OK

   Example: if the inner join of 6 rows and 5 rows has at most 12 rows, the left join has at most 18.

       safebound_status status = safebound_joined_rows(SAFEBOUND_LEFT_JOIN, 12, 6, 5, &detail); */
safebound_status safebound_joined_rows(uint64_t kind, uint64_t inner, uint64_t left, uint64_t right, uint64_t *detail);

/* The best left-deep order over bounds of all sets, as safebound_bounds gives them: 2^n numbers. The first, that of the
   empty set, isn't read.

   An order's levels are the bounds of its first entry, of its first two entries, and so on. Its cost is its largest level.
   The best order has the least cost. Of orders with equal cost it has the least sum of levels. Of orders with equal cost and
   sum it is the first by the numbers of its entries, in lexicographic order. `into` gets its n levels.

   SAFEBOUND_BAD_BOUNDS    not 2^n of them, for an n from 1 to SAFEBOUND_MOST_ENTRIES; `detail` is their number
   SAFEBOUND_BAD_BUDGET    more than 2^59; `detail` is the budget
   SAFEBOUND_ROOM          n levels
   SAFEBOUND_NO_MEMORY
   SAFEBOUND_PAST_BITS     the largest level of each order is SAFEBOUND_NO_BOUND
   SAFEBOUND_BUDGET        the largest level of the best order is above the budget; `detail` is that level
   SAFEBOUND_OK

   Example: over the bounds 1, 2, 2, 9, 2, 5, 5, 6 of three entries the best order is 0, 2, 1 with the levels 2, 5, 6. With a
   budget of 5 the status is SAFEBOUND_BUDGET, and `detail` is 6.

       safebound_level levels[3];
       safebound_status status = safebound_order(bounds, 8, 1000000, levels, 3, &detail); */
safebound_status safebound_order(const uint64_t *bounds, size_t bounds_length, uint64_t budget, safebound_level *into,
                                 size_t room, uint64_t *detail);

/* The best join tree of any shape over bounds of all sets.

   A tree's levels are the bounds of its joins; a tree of one entry has that entry's bound as its level. The best tree has
   the least largest level, and of trees with equal largest levels the least sum of levels. Further ties are decided from the
   root on: the least left set, as a number, is best; then the left tree decides in the same way, and then the right tree.
   The left set of each join has the first entry of the set that the join splits. `into` gets the tree's n - 1 joins: each
   join comes after the joins below it, left before right, and the last join is the root.

   SAFEBOUND_BAD_BOUNDS    not 2^n of them, for an n from 1 to SAFEBOUND_MOST_ENTRIES; `detail` is their number
   SAFEBOUND_BAD_BUDGET    more than 2^59; `detail` is the budget
   SAFEBOUND_ROOM          n - 1 joins
   SAFEBOUND_NO_MEMORY
   SAFEBOUND_PAST_BITS     the largest level of each tree is SAFEBOUND_NO_BOUND
   SAFEBOUND_BUDGET        the largest level of the best tree is above the budget; `detail` is that level
   SAFEBOUND_OK

   Example: over the bounds 1, 3, 3, 5, 3, 5, 5, 9 of three entries the best tree joins 1 with 2, at most 5 rows, and 0 with
   these, at most 9: the elements are (1, 2, 5), (0, 3, 9).

       safebound_join joins[2];
       safebound_status status = safebound_tree(bounds, 8, 1000000, joins, 2, &detail); */
safebound_status safebound_tree(const uint64_t *bounds, size_t bounds_length, uint64_t budget, safebound_join *into,
                                size_t room, uint64_t *detail);

/* How many bytes the buffers of SafeBound's own engine take for an order: a list of row numbers for each entry, pairs of
   rows for each level but the first, chains of the rows of each entry but the first, the keys of the longest list that has
   chains, and the entries below each node. The number is the sum, over all buffers and lists of buffers, of capacity times
   the size of an element. An order is a join tree whose right nodes are entries: safebound_tree_memory gives the same
   number for that tree.

   `rows` has for each entry its row bound, as for safebound_bounds; `levels` is what safebound_order wrote. At SAFEBOUND_OK
   `detail` is the number of bytes, which is the same on every machine.

   SAFEBOUND_BAD_ENTRIES    not from 1 to SAFEBOUND_ENGINE_ENTRIES; `detail` is their number
   SAFEBOUND_BAD_LEVELS     not as many as entries; `detail` is their number
   SAFEBOUND_BAD_LEVEL      an entry that doesn't exist; `detail` is the element of `levels`
   SAFEBOUND_PAST_BITS      2^64 bytes or more
   SAFEBOUND_OK

   Example: entries of 6 and 5 rows, in the order 1, 0 with the levels 5 and 12, take 531 bytes.

       uint64_t rows[] = {6, 5}, detail;
       safebound_level levels[] = {{1, 5}, {0, 12}};
       safebound_status status = safebound_memory(rows, 2, levels, 2, &detail); */
safebound_status safebound_memory(const uint64_t *rows, size_t entries, const safebound_level *levels,
                                  size_t levels_length, uint64_t *detail);

/* The same number for a join tree. Each join has pairs of rows and chains of its right node's rows, and each node has its
   list of entries. `joins` is what safebound_tree wrote.

   SAFEBOUND_BAD_ENTRIES    not from 1 to SAFEBOUND_ENGINE_ENTRIES; `detail` is their number
   SAFEBOUND_BAD_JOINS      not one fewer than entries; `detail` is their number
   SAFEBOUND_BAD_JOIN       a join of a node that isn't before it; `detail` is the element of `joins`
   SAFEBOUND_PAST_BITS      2^64 bytes or more
   SAFEBOUND_OK

   Example: entries of 6 and 5 rows, joined to at most 12 rows with 5 rows on the right, take 507 bytes.

       uint64_t rows[] = {6, 5}, detail;
       safebound_join joins[] = {{0, 1, 12}};
       safebound_status status = safebound_tree_memory(rows, 2, joins, 1, &detail); */
safebound_status safebound_tree_memory(const uint64_t *rows, size_t entries, const safebound_join *joins,
                                       size_t joins_length, uint64_t *detail);

/* The library's version as text, such as 0.4.0. A 0 byte ends it, and counts for the room.

   SAFEBOUND_ROOM
   SAFEBOUND_OK */
safebound_status safebound_version(char *into, size_t room, uint64_t *detail);

/* The text of a status, in English and without an end of line, such as "the room is too small". For a number that is no
   status it is "no status of this library". It is never NULL, and is never freed or changed. */
const char *safebound_status_text(safebound_status status);

#ifdef __cplusplus
}
#endif

#endif
