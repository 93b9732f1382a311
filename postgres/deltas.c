/* Deltas: the rows that came after a table was counted. Triggers write one
   delta for each statement, and readers add the deltas to the lists.

   Deltas are inserted, and never changed. When the table is counted again, the
   deltas that its snapshot sees are deleted. Rows are committed together with
   their delta. So a row that a snapshot sees is counted in lists or deltas
   that the snapshot sees. */
#include "watch.h"

#include "access/htup_details.h"
#include "access/table.h"
#include "access/transam.h"
#include "access/xact.h"
#include "catalog/indexing.h"
#include "catalog/pg_type.h"
#include "utils/array.h"
#include "utils/builtins.h"
#include "utils/lsyscache.h"
#include "utils/memutils.h"
#include "utils/rel.h"
#include "utils/snapmgr.h"

/* A sum may have as many runs as all its lists together. If it has more than
 * this number, it is compressed. */
#define MANY_RUNS 64

static Datum *
datums_in_array(Datum array, Oid type, int *length)
{
	int16 size;
	bool by_value;
	char align;
	Datum *values;
	bool *nulls;

	get_typlenbyvalalign(type, &size, &by_value, &align);
	deconstruct_array(DatumGetArrayTypeP(array), type, size, by_value, align,
					  &values, &nulls, length);
	return values;
}

Bitmapset *
numbers_in_array(Datum array)
{
	Bitmapset *numbers = NULL;
	int length;
	Datum *values = datums_in_array(array, INT2OID, &length);

	for (int i = 0; i < length; i++)
		numbers = bms_add_member(numbers, DatumGetInt16(values[i]));
	return numbers;
}

/* The referred tables in an array, which has three numbers for each table. */
static List *
referred_in_array(Datum array)
{
	List *referred = NIL;
	int length;
	Datum *values = datums_in_array(array, INT8OID, &length);

	for (int i = 0; i + 2 < length; i += 3)
	{
		ReferredTable *table = palloc(sizeof(ReferredTable));

		*table = (ReferredTable){(Oid) DatumGetInt64(values[i]),
								 DatumGetInt64(values[i + 1]),
								 DatumGetInt64(values[i + 2])};
		referred = lappend(referred, table);
	}
	return referred;
}

static void
read_kept_row(Relation tables, HeapTuple tuple, KeptRow *kept_row)
{
	Datum row[TABLE_COLUMNS];
	bool nulls[TABLE_COLUMNS];

	heap_deform_tuple(tuple, RelationGetDescr(tables), row, nulls);
	*kept_row =
		(KeptRow){.relation = DatumGetObjectId(row[TABLE_RELATION - 1]),
				  .version = DatumGetInt64(row[TABLE_VERSION - 1]),
				  .most_common = DatumGetInt16(row[TABLE_COMMON - 1]),
				  .most_leaves = DatumGetInt16(row[TABLE_RANGES - 1]),
				  .accuracy = DatumGetInt16(row[TABLE_ACCURACY - 1]),
				  .rows = DatumGetInt64(row[TABLE_ROWS - 1]),
				  .first_delta = DatumGetInt64(row[TABLE_FIRST_DELTA - 1]),
				  .merged_delta = DatumGetInt64(row[TABLE_MERGED_DELTA - 1]),
				  .merged_xid = DatumGetInt64(row[TABLE_MERGED_XID - 1])};
	if (!nulls[TABLE_SOURCES - 1])
	{
		int length;
		Datum *sources =
			datums_in_array(row[TABLE_SOURCES - 1], OIDOID, &length);

		for (int i = 0; i < length; i++)
			kept_row->sources =
				lappend_oid(kept_row->sources, DatumGetObjectId(sources[i]));
	}
	if (!nulls[TABLE_JOINED - 1])
		kept_row->joined = numbers_in_array(row[TABLE_JOINED - 1]);
	if (!nulls[TABLE_FILTERS - 1])
		kept_row->filters = numbers_in_array(row[TABLE_FILTERS - 1]);
	if (!nulls[TABLE_REFERRED - 1])
		kept_row->referred = referred_in_array(row[TABLE_REFERRED - 1]);
}

/* Reads the row of a table in kept_table that a snapshot sees; with NULL, the
 * row as it is now. Returns false if the table isn't kept. */
bool
find_kept_row(Oid relation, Snapshot snapshot, KeptRow *kept_row)
{
	Datum key = ObjectIdGetDatum(relation);
	OwnScan scan;
	HeapTuple tuple;
	bool found;

	if (extension_presence() != PRESENT)
		return false;
	scan = begin_own_scan(KEPT_TABLE, snapshot, 1, &key);
	tuple = next_own(&scan);
	found = HeapTupleIsValid(tuple);
	if (found)
		read_kept_row(scan.own, tuple, kept_row);
	end_own_scan(&scan);
	return found;
}

/* The oids of all kept tables, as of now. */
List *
all_kept(void)
{
	OwnScan scan = begin_own_scan(KEPT_TABLE, NULL, 0, NULL);
	List *all = NIL;
	HeapTuple tuple;
	bool null;

	while (HeapTupleIsValid(tuple = next_own(&scan)))
		all = lappend_oid(
			all,
			DatumGetObjectId(heap_getattr(tuple, TABLE_RELATION,
										  RelationGetDescr(scan.own), &null)));
	end_own_scan(&scan);
	return all;
}

/* What followers_of returns, from the tables. */
List *
read_followers(Oid source)
{
	Datum key = ObjectIdGetDatum(source);
	OwnScan scan = begin_own_scan(KEPT_SOURCE, NULL, 1, &key);
	List *followers = NIL;
	HeapTuple tuple;

	while (HeapTupleIsValid(tuple = next_own(&scan)))
	{
		KeptRow *kept_row = palloc0(sizeof(KeptRow));
		bool null;
		Oid relation = DatumGetObjectId(heap_getattr(
			tuple, SOURCE_RELATION, RelationGetDescr(scan.own), &null));

		if (find_kept_row(relation, NULL, kept_row) &&
			list_member_oid(kept_row->sources, source))
			followers = lappend(followers, kept_row);
	}
	end_own_scan(&scan);
	return followers;
}

/* A scan of the deltas of a table from the first one on that may be there.
   Merged deltas stay in the table and its index until it is vacuumed, and
   would be passed each time. */
static OwnScan
begin_scan_at(const KeptRow *kept_row, Snapshot snapshot)
{
	Datum key[] = {ObjectIdGetDatum(kept_row->relation),
				   Int64GetDatum(kept_row->first_delta)};

	return begin_own_scan_from(KEPT_DELTA, AccessShareLock, snapshot, key);
}

static OwnScan
begin_scan(Oid relation, Snapshot snapshot)
{
	KeptRow kept_row;

	if (!find_kept_row(relation, snapshot, &kept_row))
		kept_row = (KeptRow){.relation = relation};
	return begin_scan_at(&kept_row, snapshot);
}

static int64
number_of(Relation deltas, HeapTuple tuple, int column)
{
	bool null;

	return DatumGetInt64(
		heap_getattr(tuple, column, RelationGetDescr(deltas), &null));
}

/* Whether the table has a mark of rows that came without being counted. */
bool
has_mark(Oid relation, Snapshot snapshot)
{
	OwnScan scan = begin_scan(relation, snapshot);
	bool found = false;
	HeapTuple tuple;

	while (!found && HeapTupleIsValid(tuple = next_own(&scan)))
		found = number_of(scan.own, tuple, DELTA_ROWS) == NOT_COUNTED;
	end_own_scan(&scan);
	return found;
}

/* A number that tells one set of a table's deltas from any other of the same
   version: until the next merge deltas are only added. -1 if they are too
   many. */
int64
state_of_deltas(const KeptRow *kept_row, Snapshot snapshot)
{
	OwnScan scan = begin_scan_at(kept_row, snapshot);
	int64 count = 0;

	while (HeapTupleIsValid(next_own(&scan)))
		count++;
	end_own_scan(&scan);
	return count <= PG_UINT16_MAX ? (kept_row->merged_delta << 16) | count
								  : -1;
}

bool
has_many_deltas(Oid relation)
{
	OwnScan scan = begin_scan(relation, NULL);
	int count = 0;

	while (count < MANY_DELTAS && HeapTupleIsValid(next_own(&scan)))
		count++;
	end_own_scan(&scan);
	return count >= MANY_DELTAS;
}

/* The tables to which a table refers and that haven't changed since it was
   counted. */
List *
unchanged_references(const KeptRow *kept_row, Snapshot snapshot)
{
	List *unchanged = NIL;
	ListCell *cell;

	foreach (cell, kept_row->referred)
	{
		ReferredTable *then = lfirst(cell);
		KeptRow now;

		if (find_kept_row(then->relation, snapshot, &now) &&
			now.version == then->version && now.sources != NIL &&
			!is_being_written(&now) &&
			then->deltas >= 0 &&
			state_of_deltas(&now, snapshot) == then->deltas)
			unchanged = lappend_oid(unchanged, then->relation);
	}
	return unchanged;
}

static DegreeList *
list_at(Deltas *deltas, AttrNumber number)
{
	for (int i = 0; i < deltas->lists_length; i++)
		if (deltas->numbers[i] == number)
			return &deltas->lists[i];
	return NULL;
}

/* The list of a column for which a delta has no list. All its rows may have
 * one value. */
static DegreeList
one_value(uint64 rows)
{
	DegreeList list = {rows, 1, palloc(sizeof(safebound_run))};

	list.runs[0] = (safebound_run){.degree = rows, .keys = 1};
	return list;
}

static DegreeList
short_sum(DegreeList one, DegreeList other, int accuracy)
{
	DegreeList both = summed(one, other);

	return both.length > MANY_RUNS ? compressed(both, accuracy) : both;
}

/* Adds one delta to the sums. */
static void
add_delta(Deltas *sums, const KeptRow *kept_row, Relation deltas,
		  HeapTuple tuple)
{
	int64 rows = number_of(deltas, tuple, DELTA_ROWS);
	bool null;
	bytea *bytes = DatumGetByteaP(
		heap_getattr(tuple, DELTA_LISTS, RelationGetDescr(deltas), &null));
	const char *at = VARDATA_ANY(bytes);
	const char *end = at + VARSIZE_ANY_EXHDR(bytes);
	Bitmapset *missing = bms_copy(kept_row->joined);
	int number = -1;

	if (rows == NOT_COUNTED)
		sums->not_counted = true;
	if (rows <= 0)
		return;
	sums->rows += rows;
	while (at < end)
	{
		AttrNumber column = (AttrNumber) get_number(&at, end);
		DegreeList list = get_list(&at, end);
		DegreeList *sum = list_at(sums, column);

		if (sum != NULL)
			*sum = short_sum(*sum, list, kept_row->accuracy);
		missing = bms_del_member(missing, column);
	}
	while ((number = bms_next_member(missing, number)) >= 0)
		*list_at(sums, number) = short_sum(
			*list_at(sums, number), one_value(rows), kept_row->accuracy);
}

/* The ids of the deltas that a snapshot sees, without their lists. */
static Deltas *
read_ids(const KeptRow *kept_row, Snapshot snapshot)
{
	OwnScan scan = begin_scan_at(kept_row, snapshot);
	Deltas *sums = palloc0(sizeof(Deltas));
	int capacity = 16;
	HeapTuple tuple;

	sums->ids = palloc(capacity * sizeof(int64));
	while (HeapTupleIsValid(tuple = next_own(&scan)))
	{
		if (sums->length == capacity)
			sums->ids = repalloc(sums->ids, (capacity *= 2) * sizeof(int64));
		sums->ids[sums->length++] = number_of(scan.own, tuple, DELTA_ID);
	}
	end_own_scan(&scan);
	return sums;
}

static void
sum_deltas(Deltas *sums, const KeptRow *kept_row, Snapshot snapshot)
{
	OwnScan scan = begin_scan_at(kept_row, snapshot);
	HeapTuple tuple;
	int number = -1;

	sums->numbers =
		palloc(sizeof(AttrNumber) * (bms_num_members(kept_row->joined) + 1));
	sums->lists =
		palloc0(sizeof(DegreeList) * (bms_num_members(kept_row->joined) + 1));
	while ((number = bms_next_member(kept_row->joined, number)) >= 0)
		sums->numbers[sums->lists_length++] = number;
	while (HeapTupleIsValid(tuple = next_own(&scan)))
		add_delta(sums, kept_row, scan.own, tuple);
	end_own_scan(&scan);
}

static bool
same_ids(const Deltas *one, const Deltas *other)
{
	return one && one->length == other->length &&
		memcmp(one->ids, other->ids, one->length * sizeof(int64)) == 0;
}

/* Whether what a snapshot sees doesn't depend on this transaction's own
 * writes. */
static bool
is_plain(Snapshot snapshot)
{
	return snapshot->snapshot_type == SNAPSHOT_MVCC &&
		!snapshot->takenDuringRecovery &&
		!TransactionIdIsValid(GetTopTransactionIdIfAny());
}

static void
note_snapshot(Deltas *sums, Snapshot snapshot)
{
	Size size = snapshot->xcnt * sizeof(TransactionId);

	if (!is_plain(snapshot))
		return;
	sums->xmin = snapshot->xmin;
	sums->xmax = snapshot->xmax;
	sums->running_length = snapshot->xcnt;
	if (sums->running)
		pfree(sums->running);
	sums->running = MemoryContextAlloc(sums->context, size + 1);
	memcpy(sums->running, snapshot->xip, size);
}

/* Whether a snapshot sees the same transactions as the noted one. Then it sees
 * the same deltas, and they needn't be read. */
static bool
is_noted(const Deltas *known, Snapshot snapshot)
{
	return known && TransactionIdIsValid(known->xmax) && is_plain(snapshot) &&
		known->xmin == snapshot->xmin && known->xmax == snapshot->xmax &&
		known->running_length == snapshot->xcnt &&
		memcmp(known->running, snapshot->xip,
			   snapshot->xcnt * sizeof(TransactionId)) == 0;
}

/* The sum of the deltas that a snapshot sees, in a memory context of its own
   below the current one. If `known` is the sum of the same deltas, it is
   returned. */
Deltas *
find_deltas(const KeptRow *kept_row, Snapshot snapshot, Deltas *known)
{
	MemoryContext context, before;
	Deltas *sums;
	bool same;

	if (is_noted(known, snapshot))
		return known;
	context = AllocSetContextCreate(CurrentMemoryContext, "safebound deltas",
									ALLOCSET_SMALL_SIZES);
	before = MemoryContextSwitchTo(context);
	sums = read_ids(kept_row, snapshot);
	same = same_ids(known, sums);
	sums->context = context;
	note_snapshot(same ? known : sums, snapshot);
	if (!same)
		sum_deltas(sums, kept_row, snapshot);
	MemoryContextSwitchTo(before);
	if (!same)
		return sums;
	MemoryContextDelete(context);
	return known;
}

/* A table's list, with the rows that came later. */
DegreeList
with_deltas(const KeptTable *table, AttrNumber joined, DegreeList list)
{
	DegreeList *came = table->deltas ? list_at(table->deltas, joined) : NULL;
	DegreeList all = list;

	if (table->deltas == NULL || table->deltas->rows == 0)
		return list;
	if (joined != 0)
		all = summed(list, came ? *came : one_value(table->deltas->rows));
	all.rows = list.rows + table->deltas->rows;
	return all;
}

/* A transaction has its number before its deltas get theirs:
 * move_first_delta needs that. */
void
write_delta(Oid relation, int64 rows, StringInfo lists)
{
	bytea *bytes = palloc(VARHDRSZ + lists->len);
	Datum values[DELTA_COLUMNS] = {ObjectIdGetDatum(relation), 0,
								   Int64GetDatum(rows),
								   PointerGetDatum(bytes)};

	GetCurrentTransactionId();
	values[DELTA_ID - 1] = Int64GetDatum(next_version());
	SET_VARSIZE(bytes, VARHDRSZ + lists->len);
	memcpy(VARDATA(bytes), lists->data, lists->len);
	insert_own(KEPT_DELTA, values, NULL);
	ask_for_fold(relation, DatumGetInt64(values[DELTA_ID - 1]));
}

/* The 64-bit number of a transaction that isn't newer than `next`. */
static int64
full_number(TransactionId number, FullTransactionId next)
{
	uint64 epoch = EpochFromFullTransactionId(next);

	if (number > XidFromFullTransactionId(next))
		epoch--;
	return (int64) ((epoch << 32) | number);
}

/* Called when the deltas that a snapshot sees have been deleted. If all
   transactions of the time of the last merge had ended in that snapshot, then
   all deltas with an id from before that merge are either deleted or never
   came. */
void
move_first_delta(KeptRow *kept_row, Snapshot snapshot)
{
	if (kept_row->merged_xid > 0 &&
		full_number(snapshot->xmin, ReadNextFullTransactionId()) >=
			kept_row->merged_xid)
		kept_row->first_delta = kept_row->merged_delta;
	kept_row->merged_delta = next_version();
	kept_row->merged_xid =
		(int64) U64FromFullTransactionId(ReadNextFullTransactionId());
}

static StringInfoData
bytes_of_sums(const Deltas *sums)
{
	StringInfoData bytes;

	initStringInfo(&bytes);
	for (int i = 0; i < sums->lists_length; i++)
	{
		put_number(&bytes, sums->numbers[i]);
		put_list(&bytes, &sums->lists[i]);
	}
	return bytes;
}

/* Replaces the deltas that the active snapshot sees by their sum. Whoever
 * calls holds ShareUpdateExclusiveLock on the table. */
void
merge_deltas(KeptRow *kept_row)
{
	Deltas *sums = find_deltas(kept_row, GetActiveSnapshot(), NULL);
	StringInfoData bytes = bytes_of_sums(sums);

	if (sums->not_counted)
		return;
	delete_deltas(kept_row->relation, GetActiveSnapshot());
	move_first_delta(kept_row, GetActiveSnapshot());
	note_merge(kept_row);
	write_delta(kept_row->relation, sums->rows, &bytes);
}

/* Deletes the deltas that a snapshot sees. Their rows are now counted in the
 * lists. */
void
delete_deltas(Oid relation, Snapshot snapshot)
{
	Relation deltas = open_own(KEPT_DELTA, RowExclusiveLock);
	OwnScan scan = begin_scan(relation, snapshot);
	HeapTuple tuple;

	while (HeapTupleIsValid(tuple = next_own(&scan)))
		CatalogTupleDelete(deltas, &tuple->t_self);
	end_own_scan(&scan);
	table_close(deltas, NoLock);
}
