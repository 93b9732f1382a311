/* How a table's columns are counted. Each value gets a code, in the order of
 * the column's sort, and lists are made by counting codes. */
#ifndef SAFEBOUND_COUNTING_H
#define SAFEBOUND_COUNTING_H

#include "statistics.h"

#include "catalog/pg_attribute.h"
#include "executor/tuptable.h"
#include "utils/rel.h"
#include "utils/tuplesort.h"

/* sorted.c: sorts numbers below 2^63, in memory if `most` numbers fit, else in
 * files. */
typedef struct NumberSort NumberSort;
extern NumberSort *sorted_begin(uint64 most, int from, int bits);
extern void sorted_put(NumberSort *sorted, uint64 number);
extern void sorted_perform(NumberSort *sorted);
extern bool sorted_get(NumberSort *sorted, uint64 *number);
extern void sorted_end(NumberSort *sorted);

/* sorted.c: the codes of a column, one for each row, in a file. */
typedef struct Codes Codes;
extern Codes *codes_begin(void);
extern void codes_put(Codes *codes, uint32 code);
extern void codes_finish(Codes *codes);
extern void codes_rewind(Codes *codes);
extern uint32 codes_get(Codes *codes);
extern void codes_end(Codes *codes);

/* rows.c: the rows that are counted. */
typedef struct Rows Rows;
extern Rows *rows_begin(Relation relation);
extern TupleTableSlot *rows_next(Rows *rows);
extern void rows_end(Rows *rows);

typedef struct CommonValue
{
	uint32 code;
	uint64 count;
	Datum value;
} CommonValue;

/* A range of a column's values. It begins after the last value of the leaf
 * before it. All leaves have about the same number of rows. */
typedef struct Leaf
{
	uint32 last; /* the highest code */
	uint64 end;  /* the rows with a value in this leaf and all before it */
	Datum greatest;
} Leaf;

/* A column, as the codes of its rows. Code 0 is NULL. */
typedef struct Column
{
	AttrNumber number;
	Form_pg_attribute attribute;
	bool is_joined;
	bool is_filter;
	const struct Column *along; /* the referring column, if this is a column of
								   a referred table */
	Oid referred;
	AttrNumber key; /* the column to which `along` refers */
	Codes *codes;
	uint32 highest; /* the highest code */
	int common_length;
	CommonValue
		*common; /* the most common values, in the order of their codes */
	int leaves_length;
	Leaf *leaves; /* NULL if the sort didn't keep its order */
} Column;

typedef struct TableCounting
{
	Relation relation;
	uint32 rows;
	int most_common;
	int most_leaves;
	int accuracy;
	int length;
	Column *columns;
	int64 lists; /* how many lists were made */
} TableCounting;

/* referred.c */
extern void
sort_referred(const TableCounting *table_count, const Column *along,
			  Relation referred, AttrNumber key, List *numbers,
			  Tuplesortstate **sorts, TupleTableSlot **slots);

/* How many pairs of a joined column and a filter column a table may have. */
#define MOST_PAIRS 10000

/* chosen.c */
extern void check_pairs(const TableCounting *table_count);

/* columns.c */
extern void put_value(Tuplesortstate *sort, TupleTableSlot *slot, Datum value,
					  bool null, uint32 row);
extern void read_columns(TableCounting *table_count);
extern Column *
referred_columns(const TableCounting *table_count, const Column *along,
				 ForeignKeyCacheInfo *reference, int *length);
extern void end_columns(Column *columns, int length);

/* counts.c */
extern void keep_whole(TableCounting *table_count);
extern void
keep_filters(TableCounting *table_count, const Column *filters, int length);

/* keep.c */
extern bool has_order(Form_pg_attribute attribute);
extern void save_pair(const TableCounting *table_count, const Column *joined,
					  const Column *filter, StringInfo bytes);

#endif
