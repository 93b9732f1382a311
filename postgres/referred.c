/* The referred rows along a foreign key, one for each value of the referring
   column.

   Both sides are read and sorted here, and not by a query: for a query the
   planner evaluates expressions that the tables' owners wrote, for example
   those of indexes. */
#include "counting.h"

#include "executor/tuptable.h"
#include "miscadmin.h"
#include "utils/datum.h"
#include "utils/typcache.h"

/* The values of the referring column and the rows of the referred table, both
 * in the order of the values' codes. */
typedef struct Merge
{
	const Column *along;
	FmgrInfo *compare;
	Oid collation;
	AttrNumber key;
	Tuplesortstate *referring;
	Tuplesortstate *referred;
	TupleTableSlot *row; /* the referred row that is next, empty at the end */
} Merge;

static Tuplesortstate *
sort_referring(const TableCounting *table_count, const Column *along, Oid less,
			   Oid collation)
{
	Tuplesortstate *sort = tuplesort_begin_datum(
		along->attribute->atttypid, less, collation, false,
		Max(64, maintenance_work_mem / 4), NULL, TUPLESORT_NONE);
	Rows *all = rows_begin(table_count->relation);
	TupleTableSlot *row;

	while ((row = rows_next(all)) != NULL)
	{
		bool null;
		Datum value = slot_getattr(row, along->number, &null);

		CHECK_FOR_INTERRUPTS();
		if (!null)
			tuplesort_putdatum(sort, value, false);
	}
	rows_end(all);
	tuplesort_performsort(sort);
	return sort;
}

static Tuplesortstate *
sort_rows_by_key(Relation referred, AttrNumber key, Oid less, Oid collation)
{
	bool nulls_first = false;
	Tuplesortstate *sort = tuplesort_begin_heap(
		RelationGetDescr(referred), 1, &key, &less, &collation, &nulls_first,
		Max(64, maintenance_work_mem / 4), NULL, TUPLESORT_NONE);
	Rows *all = rows_begin(referred);
	TupleTableSlot *row;

	while ((row = rows_next(all)) != NULL)
	{
		CHECK_FOR_INTERRUPTS();
		tuplesort_puttupleslot(sort, row);
	}
	rows_end(all);
	tuplesort_performsort(sort);
	return sort;
}

static void
next_referred(Merge *merge)
{
	if (!tuplesort_gettupleslot(merge->referred, true, false, merge->row,
								NULL))
		ExecClearTuple(merge->row);
}

static int
compare_values(const Merge *merge, Datum one, Datum other)
{
	return DatumGetInt32(
		FunctionCall2Coll(merge->compare, merge->collation, one, other));
}

/* Whether the table has a row with this key. Keys are asked for in order. */
static bool
find_referred(Merge *merge, Datum value)
{
	while (!TTS_EMPTY(merge->row))
	{
		bool null;
		Datum key = slot_getattr(merge->row, merge->key, &null);
		int order = null ? 1 : compare_values(merge, key, value);

		CHECK_FOR_INTERRUPTS();
		if (order >= 0)
			return order == 0;
		next_referred(merge);
	}
	return false;
}

/* Puts the columns of the row with this key into their sorts. They are NULL
 * where there is no row: a foreign key may be not valid yet. */
static void
put_referred(Merge *merge, Datum value, List *numbers, uint32 row,
			 Tuplesortstate **sorts, TupleTableSlot **slots)
{
	bool found = find_referred(merge, value);
	ListCell *cell;

	foreach (cell, numbers)
	{
		int i = foreach_current_index(cell);
		bool null = true;
		Datum column = found
			? slot_getattr(merge->row, lfirst_int(cell), &null)
			: (Datum) 0;

		put_value(sorts[i], slots[i], column, null, row);
	}
}

/* Returns the number of different values. */
static uint32
merge_sides(Merge *merge, List *numbers, Tuplesortstate **sorts,
			TupleTableSlot **slots)
{
	Form_pg_attribute attribute = merge->along->attribute;
	uint32 row = 0;
	Datum value, last = (Datum) 0;
	bool null;

	while (tuplesort_getdatum(merge->referring, true, &value, &null, NULL))
	{
		bool begins = row == 0 || compare_values(merge, last, value) != 0;
		Datum passed = begins ? last : value;

		CHECK_FOR_INTERRUPTS();
		if (!attribute->attbyval && (!begins || row > 0))
			pfree(DatumGetPointer(passed));
		if (!begins)
			continue;
		put_referred(merge, value, numbers, ++row, sorts, slots);
		last = value;
	}
	return row;
}

/* Puts each column of the referred rows into a sort of its own, by the codes
 * of the referring values. Row 0 is for NULL, which refers to no row. */
void
sort_referred(const TableCounting *table_count, const Column *along,
			  Relation referred, AttrNumber key, List *numbers,
			  Tuplesortstate **sorts, TupleTableSlot **slots)
{
	TypeCacheEntry *type =
		lookup_type_cache(along->attribute->atttypid,
						  TYPECACHE_LT_OPR | TYPECACHE_CMP_PROC_FINFO);
	Oid collation = sort_collation(along->attribute->attcollation);
	Merge merge = {.along = along,
				   .compare = &type->cmp_proc_finfo,
				   .collation = collation,
				   .key = key};
	uint32 values;

	for (int i = 0; i < list_length(numbers); i++)
		put_value(sorts[i], slots[i], (Datum) 0, true, 0);
	merge.referring =
		sort_referring(table_count, along, type->lt_opr, collation);
	merge.referred = sort_rows_by_key(referred, key, type->lt_opr, collation);
	merge.row = MakeSingleTupleTableSlot(RelationGetDescr(referred),
										 &TTSOpsMinimalTuple);
	next_referred(&merge);
	values = merge_sides(&merge, numbers, sorts, slots);
	if (values != along->highest)
		elog(ERROR, "%u values were found, and %u were counted", values,
			 along->highest);
	ExecDropSingleTupleTableSlot(merge.row);
	tuplesort_end(merge.referring);
	tuplesort_end(merge.referred);
}
