/* Rows that came after a table was counted. */
#ifndef SAFEBOUND_WATCH_H
#define SAFEBOUND_WATCH_H

#include "counting.h"
#include "own_tables.h"
#include "statistics.h"

#include "utils/relcache.h"
#include "utils/snapshot.h"

/* The value of DELTA_ROWS if rows came or changed without being counted. */
#define NOT_COUNTED (-1)

/* A table that a counted table refers to, as it was at the time of the count.
 */
typedef struct ReferredTable
{
	Oid relation;
	int64 version;
	int64 deltas; /* from state_of_deltas */
} ReferredTable;

/* The row of a table in safebound.kept_table, as a snapshot sees it. */
typedef struct KeptRow
{
	Oid relation;
	int64 version;
	int most_common;
	int most_leaves;
	int accuracy;
	List *sources; /* all tables on which a statement may write rows of this
					  one; NIL if new rows aren't followed */
	Bitmapset *joined;  /* the columns with lists */
	Bitmapset *filters; /* the columns for whose conditions lists are kept */
	List *referred;     /* of ReferredTable */
	int64 rows;         /* when it was counted */
	int64 first_delta;  /* deltas with lower ids aren't there any more */
	int64 merged_delta; /* the first id that may come after the last merge */
	int64 merged_xid;   /* who got a lower id has a lower transaction number */
} KeptRow;

/* From this number of deltas on a table is folded. */
#define MANY_DELTAS 100

/* The rows that came later, as far as a snapshot sees them. */
struct Deltas
{
	MemoryContext context;
	/* A snapshot that sees these deltas; xmax is invalid if none is noted. */
	TransactionId xmin;
	TransactionId xmax;
	uint32 running_length;
	TransactionId *running;
	bool not_counted;
	int length;
	int64 *ids;
	uint64 rows;
	int lists_length;
	AttrNumber *numbers; /* the columns that have lists */
	DegreeList *lists;   /* of these columns, in the same order */
};

/* deltas.c */
extern Bitmapset *numbers_in_array(Datum array);
extern bool find_kept_row(Oid relation, Snapshot snapshot, KeptRow *kept_row);
extern Deltas *
find_deltas(const KeptRow *kept_row, Snapshot snapshot, Deltas *known);
extern void write_delta(Oid relation, int64 rows, StringInfo lists);
extern void delete_deltas(Oid relation, Snapshot snapshot);
extern List *all_kept(void);
extern List *read_followers(Oid source);

extern bool has_mark(Oid relation, Snapshot snapshot);
extern int64 state_of_deltas(const KeptRow *kept_row, Snapshot snapshot);
extern bool has_many_deltas(Oid relation);
extern void move_first_delta(KeptRow *kept_row, Snapshot snapshot);
extern void merge_deltas(KeptRow *kept_row);
extern List *unchanged_references(const KeptRow *kept_row, Snapshot snapshot);

/* kept_rows.c: what is stored of a table beside its lists. */
extern bool forget_kept(Oid relation);
extern void save_kept(const TableCounting *table_count,
					  const KeptRow *before, List *sources);
extern void note_sources(Oid relation, List *sources);
extern void note_merge(const KeptRow *kept_row);

/* followers.c */
extern List *followers_of(Oid source);
extern void invalidate_followers(void);
extern void followers_init(void);

/* folding.c: deltas fold by themselves. */
extern void ask_for_fold(Oid relation, int64 delta);
extern void folding_init(void);

/* watch.c */
extern bool is_intact(Oid relation, List *followed);
extern int64 keep_again(Oid relation, bool folding);
extern void begin_counting(Relation relation, bool folding, KeptRow *before,
						   bool *was_followed);
extern void end_counting(const TableCounting *table_count,
						 const KeptRow *before, bool was_followed);
extern void watch_init(void);

/* followed.c: the triggers */
extern bool is_being_written(const KeptRow *kept_row);
extern bool is_part_of(Oid relation, Oid whole);
extern void mark_not_counted(Oid relation);
extern void forget_marks(void);
extern void followed_init(void);

#endif
