/* The statistics that the extension keeps of tables, and the degree lists
 * under conditions. All files of the extension include this one. */
#ifndef SAFEBOUND_STATISTICS_H
#define SAFEBOUND_STATISTICS_H

#include "postgres.h"

#if PG_VERSION_NUM < 150000 || PG_VERSION_NUM >= 160000
#error "this version of safebound is for PostgreSQL 15 alone"
#endif

#include "lib/stringinfo.h"
#include "nodes/pathnodes.h"
#include "safebound.h"
#include "utils/hsearch.h"
#include "utils/relcache.h"

/* Sets a hook of PostgreSQL to our function. The hook's old value goes to
 * `before`, and our function calls it. */
#define TAKE_HOOK(hook, before, ours) ((before) = (hook), (hook) = (ours))

/* A degree list, and a bound on the number of rows. Rows whose joined column
 * is NULL are counted in `rows` but not in the runs. */
typedef struct DegreeList
{
	uint64 rows;
	int length;
	safebound_run *runs;
} DegreeList;

/* Which rows a kept list counts, by their values in the filter column. In the
 * stored bytes of a list, this letter is its kind. */
typedef enum ListKind
{
	LIST_ALL = 'w',   /* all rows */
	LIST_VALUE = 'v', /* one common value of the filter column */
	LIST_NULL = 'n',  /* the filter column is NULL */
	LIST_OTHER = 'o', /* dominates the list of any value that isn't common */
	LIST_ANY = 'a',   /* dominates the list of any value */
	LIST_LEAF =
		'l', /* a range of values in the column's order, up to `value` */
	LIST_NODE = 'm' /* an inner node of the tree of ranges: two neighbours one
					   level below, or the odd last one alone */
} ListKind;

/* The letter of a stored list whose value is stored elsewhere: at the same
 * place among the lists of the filter column with `joined` 0. */
#define VALUE_ELSEWHERE(kind) ((char) ((kind) - 'a' + 'A'))

typedef struct KeptList
{
	ListKind kind;
	Datum value; /* for LIST_VALUE the value, for LIST_LEAF its greatest value;
					otherwise unused */
	DegreeList list;
} KeptList;

/* The lists of a joined column by a filter column. If `joined` is 0, only
   their numbers of rows are used. If `filter` is 0, there is one list, of all
   rows. If `along` isn't 0, the filter column belongs to the table `referred`,
   and the column `along` refers to `key` of that table. */
typedef struct KeptPair
{
	AttrNumber joined;
	AttrNumber filter;
	AttrNumber along;
	Oid referred;
	AttrNumber key;
	Oid filter_type; /* as it was when the column was counted */
	Oid filter_collation;
	int length;
	KeptList *lists;
	int first_leaf;
	int leaves;
} KeptPair;

/* A foreign key of one column: `along` of this table refers to `key` of the
 * table `referred`. */
typedef struct Reference
{
	AttrNumber along;
	Oid referred;
	AttrNumber key;
} Reference;

typedef struct Deltas Deltas;

typedef struct KeptTable
{
	Oid relation;
	int64 version; /* the version of the statistics, a new number each time
					  they are made */
	Deltas *
		deltas; /* the rows that came later; NULL if the table isn't watched */
	List *unchanged; /* for a watched table: the tables to which it refers and
						that haven't changed */
	bool valid; /* whether the statistics are valid for the table as it is now
				 */
	MemoryContext context;
	struct KeptTable
		*next; /* in the list of dropped statistics, which are freed later */
	List *references; /* of Reference: those along which there are pairs */
	HTAB *pairs; /* the pairs that plans asked for */
} KeptTable;

/* lists.c: degree lists, and how they are stored as bytes. All of these
 * allocate in the current memory context. */
extern void
library_check(safebound_status status, uint64 detail, const char *call);
extern DegreeList degrees_of(const uint64 *keys, size_t length, uint64 rows);
extern DegreeList compressed(DegreeList list, int accuracy);
extern DegreeList summed(DegreeList one, DegreeList other);
extern DegreeList lesser(DegreeList one, DegreeList other);
extern DegreeList greater_by_rank(DegreeList one, DegreeList other);
extern bool dominates(const DegreeList *one, const DegreeList *other);
extern void put_number(StringInfo into, uint64 number);
extern void put_list(StringInfo into, const DegreeList *list);
extern uint64 get_number(const char **at, const char *end);
extern DegreeList get_list(const char **at, const char *end);

/* chosen.c: which columns are counted. */
extern Bitmapset *columns_in_keys(Relation relation);

/* keep.c: makes the statistics of a table and stores them. */
extern Relation open_owned(Oid relation);
extern Oid sort_collation(Oid collation);
extern int64
keep_table(Oid relation, Bitmapset *joined, Bitmapset *filters,
		   int most_common, int most_leaves, int accuracy, bool folding);

/* watch.c: all tables such that a statement on one of them may write rows of
 * this table. The table itself is one of them. */
extern List *tables_writing_to(Oid relation);

/* deltas.c: a list with the rows that came after its table was counted. Code
 * that returns a table's list passes it through this function. */
extern DegreeList
with_deltas(const KeptTable *table, AttrNumber joined, DegreeList list);

/* use.c: checks before the extension does anything. */
extern bool library_fits(void);
extern void check_use(void);

/* kept.c: the statistics that this backend has read, in its memory. */
extern const KeptTable *kept_table(Oid relation);
extern char *why_not_known(Oid relation);
extern const KeptPair *
kept_pair(const KeptTable *table, AttrNumber joined, AttrNumber filter);
extern const KeptPair *
kept_pair_along(const KeptTable *table, AttrNumber joined, AttrNumber filter,
				const Reference *reference);
extern bool
has_pairs_along(const KeptTable *table, const Reference *reference);
extern bool
same_column(Oid relation, AttrNumber number, Oid type, Oid collation);
extern bool kept_fresh_only; /* if true, only watched tables are known */
extern void kept_hold(void);
extern void kept_release(void);
extern void kept_free_dropped(void);
extern void kept_init(void);

/* conditions.c: lists of the rows that satisfy a relation's own conditions. */
extern Oid equality_family(Oid relation, AttrNumber column, Oid collation);
extern bool is_immutable(Oid operator);
extern bool
is_equality(Oid relation, AttrNumber column, Oid operator, Oid collation);
extern DegreeList list_under(const KeptTable *table, RelOptInfo *rel,
							 AttrNumber joined, Bitmapset **used);
extern bool
list_along(const KeptTable *table, const Reference *reference,
		   RelOptInfo *referred, AttrNumber joined, DegreeList *list,
		   Bitmapset **used, bool *may_overcount);

#endif
