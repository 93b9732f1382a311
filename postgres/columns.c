/* Codes of columns: each column is sorted once, and each row gets the code of
   its value.

   Along a foreign key, columns of the referred table count as columns of this
   one: each row has the values of the row that it refers to. */
#include "counting.h"

#include "access/genam.h"
#include "access/htup_details.h"
#include "access/stratnum.h"
#include "access/table.h"
#include "access/tableam.h"
#include "catalog/pg_collation.h"
#include "catalog/pg_operator.h"
#include "catalog/pg_type.h"
#include "executor/tuptable.h"
#include "miscadmin.h"
#include "utils/builtins.h"
#include "utils/datum.h"
#include "utils/lsyscache.h"
#include "utils/memutils.h"
#include "utils/pg_locale.h"
#include "utils/rel.h"
#include "utils/snapmgr.h"
#include "utils/syscache.h"
#include "utils/tuplesort.h"
#include "utils/typcache.h"

/* Tuples of a column's value and the number of its row. */
static TupleDesc
numbered_values(Form_pg_attribute attribute)
{
	TupleDesc desc = CreateTemplateTupleDesc(2);

	TupleDescInitEntry(desc, 1, "value", attribute->atttypid,
					   attribute->atttypmod, 0);
	TupleDescInitEntryCollation(desc, 1, attribute->attcollation);
	TupleDescInitEntry(desc, 2, "row", INT4OID, -1, 0);
	return desc;
}

/* Equal values don't depend on the sort order. If values are equal only when
 * their bytes are, the sort compares bytes, which is faster. */
Oid
sort_collation(Oid collation)
{
	return OidIsValid(collation) && get_collation_isdeterministic(collation)
		? C_COLLATION_OID
		: collation;
}

/* Whether the sort uses the column's own order, so that consecutive sorted
 * values form a range. */
static bool
keeps_order(Oid collation)
{
	return !OidIsValid(collation) ||
		!get_collation_isdeterministic(collation) ||
		lc_collate_is_c(collation);
}

static Tuplesortstate *
begin_sort(TupleDesc desc, Form_pg_attribute attribute, int memory)
{
	TypeCacheEntry *type =
		lookup_type_cache(attribute->atttypid, TYPECACHE_LT_OPR);
	AttrNumber key = 1;
	Oid collation = sort_collation(attribute->attcollation);
	bool nulls_first = true;

	return tuplesort_begin_heap(desc, 1, &key, &type->lt_opr, &collation,
								&nulls_first, memory, NULL, TUPLESORT_NONE);
}

void
put_value(Tuplesortstate *sort, TupleTableSlot *slot, Datum value, bool null,
		  uint32 row)
{
	ExecClearTuple(slot);
	slot->tts_values[0] = value;
	slot->tts_isnull[0] = null;
	slot->tts_values[1] = Int32GetDatum((int32) row);
	slot->tts_isnull[1] = false;
	ExecStoreVirtualTuple(slot);
	tuplesort_puttupleslot(sort, slot);
}

/* Reads the column of all rows that the snapshot sees, always in the same
 * order. Returns the number of rows. */
static uint32
sort_rows(Relation relation, AttrNumber number, Tuplesortstate *sort,
		  TupleTableSlot *put)
{
	Rows *all = rows_begin(relation);
	TupleTableSlot *row;
	uint32 rows = 0;

	while ((row = rows_next(all)) != NULL)
	{
		bool null;
		Datum value = slot_getattr(row, number, &null);

		CHECK_FOR_INTERRUPTS();
		if (rows >= PG_INT32_MAX)
			ereport(ERROR,
					(errcode(ERRCODE_PROGRAM_LIMIT_EXCEEDED),
					 errmsg("a table of more than %d rows can't be kept",
							PG_INT32_MAX)));
		put_value(sort, put, value, null, rows++);
	}
	rows_end(all);
	return rows;
}

/* The state of coding a column, while its sorted values arrive. */
typedef struct ColumnCoder
{
	Column *column;
	int most_common;
	int most_leaves;
	const uint32 *weights; /* how many rows each row counts for; NULL: one */
	uint64 total;          /* the sum of all weights */
	uint64 nulls;
	uint64 passed; /* the rows of all values before the last one */
	uint64 count;  /* the rows of the last value so far */
	Datum last;
	NumberSort *by_row;
} ColumnCoder;

/* A longer value isn't stored: it counts as one that isn't common, and ends no
 * range. */
#define MOST_VALUE_BYTES 2048

static bool
is_short(const ColumnCoder *coder)
{
	Form_pg_attribute attribute = coder->column->attribute;

	return datumGetSize(coder->last, attribute->attbyval,
						attribute->attlen) <= MOST_VALUE_BYTES;
}

/* Keeps the most common values. A more common value replaces the least common
 * one. */
static void
note_common(ColumnCoder *coder)
{
	Column *column = coder->column;
	int least = 0;
	CommonValue *into;

	if (!is_short(coder))
		return;
	if (column->common_length < coder->most_common)
		into = &column->common[column->common_length++];
	else
	{
		for (int i = 1; i < coder->most_common; i++)
			if (column->common[i].count < column->common[least].count)
				least = i;
		if (coder->most_common == 0 ||
			column->common[least].count >= coder->count)
			return;
		into = &column->common[least];
		if (!column->attribute->attbyval)
			pfree(DatumGetPointer(into->value));
	}
	*into = (CommonValue){.code = column->highest, .count = coder->count};
	into->value = datumCopy(coder->last, column->attribute->attbyval,
							column->attribute->attlen);
}

/* Ends a leaf with the last value, if the leaves so far then have their share
 * of the rows. The last leaf reaches its share only at the last row. */
static void
note_leaf(ColumnCoder *coder)
{
	Column *column = coder->column;
	uint64 all = coder->total - coder->nulls;
	Leaf *leaf = &column->leaves[column->leaves_length];

	if (coder->passed * coder->most_leaves <
			all * (column->leaves_length + 1) ||
		coder->most_leaves == 0 || !is_short(coder))
		return;
	*leaf = (Leaf){.last = column->highest, .end = coder->passed};
	leaf->greatest = datumCopy(coder->last, column->attribute->attbyval,
							   column->attribute->attlen);
	column->leaves_length++;
}

/* All rows of a value have come. */
static void
end_value(ColumnCoder *coder)
{
	if (coder->column->highest == 0)
		return;
	coder->passed += coder->count;
	note_common(coder);
	if (coder->column->leaves)
		note_leaf(coder);
}

static void
begin_value(ColumnCoder *coder, Datum value)
{
	Form_pg_attribute attribute = coder->column->attribute;

	end_value(coder);
	if (coder->column->highest > 0 && !attribute->attbyval)
		pfree(DatumGetPointer(coder->last));
	if (attribute->attlen == -1)
		value = PointerGetDatum(PG_DETOAST_DATUM_PACKED(value));
	coder->last = datumCopy(value, attribute->attbyval, attribute->attlen);
	coder->column->highest++;
	coder->count = 0;
}

static int
by_code(const void *one, const void *other)
{
	uint32 a = ((const CommonValue *) one)->code;
	uint32 b = ((const CommonValue *) other)->code;

	return (a > b) - (a < b);
}

/* Gives each row the code of its value, in the order of the sort. */
static void
code_values(ColumnCoder *coder, Tuplesortstate *sort, TupleTableSlot *slot)
{
	Column *column = coder->column;
	FmgrInfo *equal =
		&lookup_type_cache(column->attribute->atttypid, TYPECACHE_EQ_OPR_FINFO)
			 ->eq_opr_finfo;

	while (tuplesort_gettupleslot(sort, true, true, slot, NULL))
	{
		bool null, isnull;
		Datum value = slot_getattr(slot, 1, &null);
		uint32 row = (uint32) DatumGetInt32(slot_getattr(slot, 2, &isnull));
		uint64 weight = coder->weights ? coder->weights[row] : 1;

		CHECK_FOR_INTERRUPTS();
		if (null)
			coder->nulls += weight;
		else if (column->highest == 0 ||
				 !DatumGetBool(
					 FunctionCall2Coll(equal, column->attribute->attcollation,
									   coder->last, value)))
			begin_value(coder, value);
		coder->count += weight;
		sorted_put(coder->by_row,
				   ((uint64) row << 32) | (null ? 0 : column->highest));
	}
	end_value(coder);
	/* Without an end of the last range there are no ranges. */
	if (column->leaves_length > 0 &&
		column->leaves[column->leaves_length - 1].last < column->highest)
		column->leaves_length = 0;
	qsort(column->common, column->common_length, sizeof(CommonValue), by_code);
}

/* The codes of a sorted column, by its rows. */
static void
write_codes(ColumnCoder *coder)
{
	uint64 number;

	sorted_perform(coder->by_row);
	coder->column->codes = codes_begin();
	while (sorted_get(coder->by_row, &number))
		codes_put(coder->column->codes, (uint32) number);
	codes_finish(coder->column->codes);
	sorted_end(coder->by_row);
}

static void
code_column(const TableCounting *table_count, Column *column,
			Tuplesortstate *sort, TupleDesc desc, uint32 rows,
			const uint32 *weights)
{
	TupleTableSlot *sorted =
		MakeSingleTupleTableSlot(desc, &TTSOpsMinimalTuple);
	ColumnCoder coder = {.column = column,
						 .most_common = table_count->most_common,
						 .most_leaves = table_count->most_leaves,
						 .weights = weights,
						 .total = table_count->rows};

	tuplesort_performsort(sort);
	column->common =
		palloc((table_count->most_common + 1) * sizeof(CommonValue));
	if (keeps_order(column->attribute->attcollation))
		column->leaves = palloc((table_count->most_leaves + 1) * sizeof(Leaf));
	coder.by_row = sorted_begin(rows, 0, 63);
	code_values(&coder, sort, sorted);
	ExecDropSingleTupleTableSlot(sorted);
	tuplesort_end(sort);
	write_codes(&coder);
}

void
end_columns(Column *columns, int length)
{
	for (int i = 0; i < length; i++)
		codes_end(columns[i].codes);
}

void
read_columns(TableCounting *table_count)
{
	for (int i = 0; i < table_count->length; i++)
	{
		Column *column = &table_count->columns[i];
		TupleDesc desc = numbered_values(column->attribute);
		TupleTableSlot *slot = MakeSingleTupleTableSlot(desc, &TTSOpsVirtual);
		Tuplesortstate *sort =
			begin_sort(desc, column->attribute, maintenance_work_mem / 2);

		table_count->rows =
			sort_rows(table_count->relation, column->number, sort, slot);
		code_column(table_count, column, sort, desc, table_count->rows, NULL);
		ExecDropSingleTupleTableSlot(slot);
	}
}

/* The columns of a referred table, by number, whose conditions can be used
 * along a reference to its key. */
static List *
columns_beside(Relation referred, AttrNumber key)
{
	List *numbers = NIL;

	for (int i = 0; i < RelationGetDescr(referred)->natts; i++)
		if (i + 1 != key &&
			!TupleDescAttr(RelationGetDescr(referred), i)->attisdropped &&
			has_order(TupleDescAttr(RelationGetDescr(referred), i)))
			numbers = lappend_int(numbers, i + 1);
	return numbers;
}

/* How many rows have each code. */
static uint32 *
weights_of(const TableCounting *table_count, const Column *column)
{
	uint32 *weights = MemoryContextAllocExtended(
		CurrentMemoryContext, ((Size) column->highest + 1) * sizeof(uint32),
		MCXT_ALLOC_HUGE | MCXT_ALLOC_ZERO);

	codes_rewind(column->codes);
	for (uint32 row = 0; row < table_count->rows; row++)
		weights[codes_get(column->codes)]++;
	return weights;
}

/* Turns the codes of a column of the referred table into codes of the rows
 * that refer to it. */
static void
spread_codes(const TableCounting *table_count, const Column *along,
			 Column *column)
{
	uint32 *map = MemoryContextAllocHuge(
		CurrentMemoryContext, ((Size) along->highest + 1) * sizeof(uint32));

	codes_rewind(column->codes);
	for (uint32 code = 0; code <= along->highest; code++)
		map[code] = codes_get(column->codes);
	codes_end(column->codes);
	column->codes = codes_begin();
	codes_rewind(along->codes);
	for (uint32 row = 0; row < table_count->rows; row++)
		codes_put(column->codes, map[codes_get(along->codes)]);
	codes_finish(column->codes);
	pfree(map);
}

/* The columns of the table to which a column refers, as columns of the
 * referring rows. */
Column *
referred_columns(const TableCounting *table_count, const Column *along,
				 ForeignKeyCacheInfo *reference, int *length)
{
	Relation referred = table_open(reference->confrelid, AccessShareLock);
	List *numbers = columns_beside(referred, reference->confkey[0]);
	Column *columns = palloc0((list_length(numbers) + 1) * sizeof(Column));
	Tuplesortstate **sorts =
		palloc((list_length(numbers) + 1) * sizeof(Tuplesortstate *));
	TupleTableSlot **slots =
		palloc((list_length(numbers) + 1) * sizeof(TupleTableSlot *));
	TupleDesc *descs = palloc((list_length(numbers) + 1) * sizeof(TupleDesc));
	uint32 *weights;

	*length = list_length(numbers);
	for (int i = 0; i < *length; i++)
	{
		columns[i] = (Column){.number = list_nth_int(numbers, i),
							  .is_filter = true,
							  .along = along,
							  .referred = reference->confrelid,
							  .key = reference->confkey[0]};
		columns[i].attribute = memcpy(
			palloc(ATTRIBUTE_FIXED_PART_SIZE),
			TupleDescAttr(RelationGetDescr(referred), columns[i].number - 1),
			ATTRIBUTE_FIXED_PART_SIZE);
		descs[i] = numbered_values(columns[i].attribute);
		slots[i] = MakeSingleTupleTableSlot(descs[i], &TTSOpsVirtual);
		sorts[i] = begin_sort(descs[i], columns[i].attribute,
							  Max(64, maintenance_work_mem / (*length + 1)));
	}
	if (*length > 0)
		sort_referred(table_count, along, referred, reference->confkey[0],
					  numbers, sorts, slots);
	weights = weights_of(table_count, along);
	for (int i = 0; i < *length; i++)
	{
		code_column(table_count, &columns[i], sorts[i], descs[i],
					along->highest + 1, weights);
		spread_codes(table_count, along, &columns[i]);
		ExecDropSingleTupleTableSlot(slots[i]);
	}
	pfree(weights);
	table_close(referred, NoLock);
	return columns;
}
