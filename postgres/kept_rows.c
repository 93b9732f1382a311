/* The rows of tables in kept_table and in kept_source: what is stored of a
 * table beside its lists. */
#include "watch.h"

#include "access/htup_details.h"
#include "access/xact.h"
#include "catalog/pg_type.h"
#include "utils/array.h"
#include "utils/timestamp.h"
#include "utils/snapmgr.h"

static void
delete_sources(Oid relation, List *sources)
{
	ListCell *cell;

	foreach (cell, sources)
	{
		Datum key[SOURCE_COLUMNS] = {ObjectIdGetDatum(lfirst_oid(cell)),
									 ObjectIdGetDatum(relation)};

		delete_own(KEPT_SOURCE, NULL, SOURCE_COLUMNS, key);
	}
}

static void
insert_sources(Oid relation, List *sources)
{
	ListCell *cell;

	foreach (cell, sources)
	{
		Datum row[SOURCE_COLUMNS] = {ObjectIdGetDatum(lfirst_oid(cell)),
									 ObjectIdGetDatum(relation)};

		insert_own(KEPT_SOURCE, row, NULL);
	}
}

/* Deletes a table's row and its lists. Returns whether there was a row. */
bool
forget_kept(Oid relation)
{
	Datum key = ObjectIdGetDatum(relation);
	KeptRow before;
	bool were = find_kept_row(relation, NULL, &before);

	if (were)
		delete_sources(relation, before.sources);
	delete_own(KEPT_LISTS, NULL, 1, &key);
	delete_own(KEPT_TABLE, NULL, 1, &key);
	invalidate_followers();
	CommandCounterIncrement();
	return were;
}

static Datum
oid_array(List *oids)
{
	Datum *values = palloc(sizeof(Datum) * (list_length(oids) + 1));
	ListCell *cell;

	foreach (cell, oids)
		values[foreach_current_index(cell)] =
			ObjectIdGetDatum(lfirst_oid(cell));
	return PointerGetDatum(construct_array(values, list_length(oids), OIDOID,
										   4, true, TYPALIGN_INT));
}

static Datum
number_array(Bitmapset *numbers)
{
	Datum *values = palloc(sizeof(Datum) * (bms_num_members(numbers) + 1));
	int length = 0;
	int number = -1;

	while ((number = bms_next_member(numbers, number)) >= 0)
		values[length++] = Int16GetDatum(number);
	return PointerGetDatum(
		construct_array(values, length, INT2OID, 2, true, TYPALIGN_SHORT));
}

/* Notes on which tables a statement may write rows of this one. NIL: new rows
 * aren't followed. */
void
note_sources(Oid relation, List *sources)
{
	Datum key = ObjectIdGetDatum(relation);
	Datum row[TABLE_COLUMNS] = {0};
	bool nulls[TABLE_COLUMNS] = {false};
	bool replaced[TABLE_COLUMNS] = {false};
	KeptRow before;

	if (!find_kept_row(relation, NULL, &before))
		return;
	row[TABLE_SOURCES - 1] = oid_array(sources);
	nulls[TABLE_SOURCES - 1] = sources == NIL;
	replaced[TABLE_SOURCES - 1] = true;
	delete_sources(relation, before.sources);
	insert_sources(relation, sources);
	update_own(KEPT_TABLE, 1, &key, row, nulls, replaced);
	invalidate_followers();
	CommandCounterIncrement();
}

/* Notes that deltas were merged. */
void
note_merge(const KeptRow *kept_row)
{
	Datum key = ObjectIdGetDatum(kept_row->relation);
	Datum row[TABLE_COLUMNS] = {0};
	bool nulls[TABLE_COLUMNS] = {false};
	bool replaced[TABLE_COLUMNS] = {false};

	row[TABLE_FIRST_DELTA - 1] = Int64GetDatum(kept_row->first_delta);
	row[TABLE_MERGED_DELTA - 1] = Int64GetDatum(kept_row->merged_delta);
	row[TABLE_MERGED_XID - 1] = Int64GetDatum(kept_row->merged_xid);
	for (int column = TABLE_FIRST_DELTA; column <= TABLE_MERGED_XID; column++)
		replaced[column - 1] = true;
	update_own(KEPT_TABLE, 1, &key, row, nulls, replaced);
	CommandCounterIncrement();
}

/* The columns of a referred table that lists use. */
typedef struct UsedColumns
{
	Oid referred;
	Bitmapset *columns;
} UsedColumns;

/* Which columns the lists of a table count. */
typedef struct CountedColumns
{
	Bitmapset *joined;
	Bitmapset *filters;
	List *along; /* of UsedColumns */
} CountedColumns;

static void
note_along(CountedColumns *counted, Oid referred, AttrNumber filter,
		   AttrNumber key)
{
	UsedColumns *used = NULL;
	ListCell *cell;

	foreach (cell, counted->along)
		if (((UsedColumns *) lfirst(cell))->referred == referred)
			used = lfirst(cell);
	if (used == NULL)
	{
		used = palloc0(sizeof(UsedColumns));
		used->referred = referred;
		counted->along = lappend(counted->along, used);
	}
	used->columns = bms_add_member(used->columns, filter);
	used->columns = bms_add_member(used->columns, key);
}

static void
note_pair(CountedColumns *counted, const Datum *row)
{
	AttrNumber joined = DatumGetInt16(row[LISTS_JOINED - 1]);
	AttrNumber filter = DatumGetInt16(row[LISTS_FILTER - 1]);

	if (DatumGetInt16(row[LISTS_ALONG - 1]) > 0)
		note_along(counted, DatumGetObjectId(row[LISTS_REFERRED - 1]), filter,
				   DatumGetInt16(row[LISTS_KEY - 1]));
	else if (filter == 0 && joined > 0)
		counted->joined = bms_add_member(counted->joined, joined);
	else if (joined == 0 && filter > 0)
		counted->filters = bms_add_member(counted->filters, filter);
}

static CountedColumns
counted_columns(Oid relation)
{
	Datum key = ObjectIdGetDatum(relation);
	OwnScan scan = begin_own_scan(KEPT_LISTS, NULL, 1, &key);
	CountedColumns counted = {0};
	HeapTuple tuple;

	while (HeapTupleIsValid(tuple = next_own(&scan)))
	{
		Datum row[LISTS_COLUMNS];
		bool nulls[LISTS_COLUMNS];

		heap_deform_tuple(tuple, RelationGetDescr(scan.own), row, nulls);
		note_pair(&counted, row);
	}
	end_own_scan(&scan);
	return counted;
}

/* Whether changes of these columns of a table are followed, as the active
 * snapshot sees it. */
static bool
are_followed(const UsedColumns *used, KeptRow *kept_row)
{
	return find_kept_row(used->referred, GetActiveSnapshot(), kept_row) &&
		kept_row->sources != NIL &&
		!has_mark(used->referred, GetActiveSnapshot()) &&
		bms_is_subset(used->columns,
					  bms_union(kept_row->joined, kept_row->filters));
}

/* Three numbers for each referred table that is watched, as it was when the
 * lists along the reference were made. */
static Datum
referred_array(List *along)
{
	Datum *numbers = palloc(sizeof(Datum) * 3 * (list_length(along) + 1));
	int length = 0;
	ListCell *cell;

	foreach (cell, along)
	{
		UsedColumns *used = lfirst(cell);
		KeptRow kept_row;

		if (!are_followed(used, &kept_row))
			continue;
		numbers[length++] = Int64GetDatum(used->referred);
		numbers[length++] = Int64GetDatum(kept_row.version);
		numbers[length++] =
			Int64GetDatum(state_of_deltas(&kept_row, GetActiveSnapshot()));
	}
	return PointerGetDatum(construct_array(numbers, length, INT8OID, 8,
										   FLOAT8PASSBYVAL, TYPALIGN_DOUBLE));
}

/* Stores the row of a table whose lists were stored before. The active
 * snapshot is that of the count. */
void
save_kept(const TableCounting *table_count, const KeptRow *before,
		  List *sources)
{
	Oid relation = RelationGetRelid(table_count->relation);
	CountedColumns counted;
	Datum row[TABLE_COLUMNS];
	bool nulls[TABLE_COLUMNS] = {false};

	CommandCounterIncrement();
	counted = counted_columns(relation);
	row[TABLE_RELATION - 1] = ObjectIdGetDatum(relation);
	row[TABLE_ROWS - 1] = Int64GetDatum(table_count->rows);
	row[TABLE_ACCURACY - 1] = Int16GetDatum(table_count->accuracy);
	row[TABLE_COMMON - 1] = Int16GetDatum(table_count->most_common);
	row[TABLE_RANGES - 1] = Int16GetDatum(table_count->most_leaves);
	row[TABLE_MADE - 1] =
		TimestampTzGetDatum(GetCurrentTransactionStartTimestamp());
	row[TABLE_VERSION - 1] = Int64GetDatum(next_version());
	row[TABLE_SOURCES - 1] = oid_array(sources);
	nulls[TABLE_SOURCES - 1] = sources == NIL;
	row[TABLE_JOINED - 1] = number_array(counted.joined);
	row[TABLE_FILTERS - 1] = number_array(counted.filters);
	row[TABLE_REFERRED - 1] = referred_array(counted.along);
	row[TABLE_FIRST_DELTA - 1] = Int64GetDatum(before->first_delta);
	row[TABLE_MERGED_DELTA - 1] = Int64GetDatum(before->merged_delta);
	row[TABLE_MERGED_XID - 1] = Int64GetDatum(before->merged_xid);
	insert_own(KEPT_TABLE, row, nulls);
	insert_sources(relation, sources);
	invalidate_followers();
	CommandCounterIncrement();
}
