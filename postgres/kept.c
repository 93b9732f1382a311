/* The backend's cache of statistics. The lists of a pair of columns are read
   when a plan first asks for them. They are dropped when the definition of the
   table, or of one to which it refers, changes, or when it is counted again.
 */
#include "watch.h"

#include "access/htup_details.h"
#include "catalog/pg_class.h"
#include "catalog/pg_type.h"
#include "utils/builtins.h"
#include "utils/datum.h"
#include "utils/hsearch.h"
#include "utils/inval.h"
#include "utils/lsyscache.h"
#include "utils/memutils.h"
#include "utils/rel.h"
#include "utils/snapmgr.h"
#include "utils/syscache.h"

static HTAB *tables;

/* Statistics that are out of date, but that a plan being made may still point
 * to. */
static KeptTable *dropped;
static List *dropped_deltas;

/* Whether a column still has the type and the collation with which it was
 * counted. If not, its values may have changed. */
bool
same_column(Oid relation, AttrNumber number, Oid type, Oid collation)
{
	HeapTuple tuple;
	bool same;

	if (number == 0)
		return true;
	tuple = SearchSysCache2(ATTNUM, ObjectIdGetDatum(relation),
							Int16GetDatum(number));
	if (!HeapTupleIsValid(tuple))
		return false;
	same = ((Form_pg_attribute) GETSTRUCT(tuple))->atttypid == type &&
		((Form_pg_attribute) GETSTRUCT(tuple))->attcollation == collation;
	ReleaseSysCache(tuple);
	return same;
}

static Datum
get_value(const char **at, const char *end, Oid type)
{
	uint64 size = get_number(at, end);
	int16 length;
	bool by_value;
	Datum value;

	get_typlenbyval(type, &length, &by_value);
	if (by_value)
		size = sizeof(Datum);
	if (size > (uint64) (end - *at))
		ereport(ERROR,
				(errcode(ERRCODE_DATA_CORRUPTED),
				 errmsg("a kept list ends too early")));
	if (by_value)
		memcpy(&value, *at, sizeof(Datum));
	else
		value = PointerGetDatum(memcpy(palloc(size), *at, size));
	*at += size;
	return value;
}

/* Which lists a pair has. */
typedef struct PairKey
{
	Oid referred;
	AttrNumber along;
	AttrNumber key;
	AttrNumber joined;
	AttrNumber filter;
} PairKey;

typedef struct PairEntry
{
	PairKey key;
	KeptPair *pair; /* NULL: there is none */
} PairEntry;

static Snapshot
snapshot_of_plan(void)
{
	return ActiveSnapshotSet() ? GetActiveSnapshot()
							   : GetTransactionSnapshot();
}

static bool
has_value(ListKind kind)
{
	return kind == LIST_VALUE || kind == LIST_LEAF;
}

/* The next list, whose value may be that of `elsewhere`. */
static KeptList
get_kept_list(const char **at, const char *end, Oid type,
			  const KeptList *elsewhere)
{
	KeptList list = {.kind = (ListKind) *(*at)++};

	if (list.kind == VALUE_ELSEWHERE(LIST_VALUE) ||
		list.kind == VALUE_ELSEWHERE(LIST_LEAF))
	{
		list.kind += 'a' - 'A';
		if (elsewhere == NULL || elsewhere->kind != list.kind)
			ereport(ERROR,
					(errcode(ERRCODE_DATA_CORRUPTED),
					 errmsg("a kept list has no value")));
		list.value = elsewhere->value;
	}
	else if (has_value(list.kind))
		list.value = get_value(at, end, type);
	list.list = get_list(at, end);
	return list;
}

/* Reads the lists of a pair. `values` has the values of the filter column, if
 * it isn't the pair itself. */
static void
read_lists(KeptPair *pair, bytea *bytes, const KeptPair *values)
{
	const char *at = VARDATA_ANY(bytes);
	const char *end = at + VARSIZE_ANY_EXHDR(bytes);
	int capacity = 4;

	pair->lists = palloc(capacity * sizeof(KeptList));
	while (at < end)
	{
		KeptList list = get_kept_list(
			&at, end, pair->filter_type,
			values && pair->length < values->length
				? &values->lists[pair->length]
				: NULL);

		if (pair->length == capacity)
			pair->lists =
				repalloc(pair->lists, (capacity *= 2) * sizeof(KeptList));
		if (list.kind == LIST_LEAF && pair->leaves++ == 0)
			pair->first_leaf = pair->length;
		pair->lists[pair->length++] = list;
	}
}

static bool
has_same_columns(const KeptTable *table, const Datum *row)
{
	Oid referred = DatumGetObjectId(row[LISTS_REFERRED - 1]);

	return same_column(table->relation, DatumGetInt16(row[LISTS_JOINED - 1]),
					   DatumGetObjectId(row[LISTS_JOINED_TYPE - 1]),
					   DatumGetObjectId(row[LISTS_JOINED_COLLATION - 1])) &&
		same_column(OidIsValid(referred) ? referred : table->relation,
					DatumGetInt16(row[LISTS_FILTER - 1]),
					DatumGetObjectId(row[LISTS_FILTER_TYPE - 1]),
					DatumGetObjectId(row[LISTS_FILTER_COLLATION - 1]));
}

static const KeptPair *find_pair(const KeptTable *table, PairKey key);

/* A pair of the table from its row, in a memory context below the current one;
 * NULL if its columns have changed. */
static KeptPair *
read_pair(const KeptTable *table, const PairKey *key, const Datum *row)
{
	PairKey of_values = *key;
	const KeptPair *values = NULL;
	KeptPair *pair;

	of_values.joined = 0;
	if (!has_same_columns(table, row))
		return NULL;
	if (key->joined != 0 && key->filter != 0)
		values = find_pair(table, of_values);
	pair = palloc0(sizeof(KeptPair));
	*pair = (KeptPair){.joined = key->joined,
					   .filter = key->filter,
					   .along = key->along,
					   .referred = key->referred,
					   .key = key->key};
	pair->filter_type = DatumGetObjectId(row[LISTS_FILTER_TYPE - 1]);
	pair->filter_collation =
		DatumGetObjectId(row[LISTS_FILTER_COLLATION - 1]);
	read_lists(pair, DatumGetByteaP(row[LISTS_BYTES - 1]), values);
	return pair;
}

/* Reads a pair's row, if there is one. */
static KeptPair *
load_pair(const KeptTable *table, const PairKey *key, Snapshot snapshot)
{
	Datum values[] = {ObjectIdGetDatum(table->relation),
					  Int16GetDatum(key->joined), Int16GetDatum(key->filter),
					  Int16GetDatum(key->along),
					  ObjectIdGetDatum(key->referred),
					  Int16GetDatum(key->key)};
	OwnScan scan =
		begin_own_scan(KEPT_LISTS, snapshot, lengthof(values), values);
	HeapTuple tuple = next_own(&scan);
	KeptPair *pair = NULL;

	if (HeapTupleIsValid(tuple))
	{
		Datum row[LISTS_COLUMNS];
		bool nulls[LISTS_COLUMNS];

		heap_deform_tuple(tuple, RelationGetDescr(scan.own), row, nulls);
		pair = read_pair(table, key, row);
	}
	end_own_scan(&scan);
	return pair;
}

/* Whether the snapshot sees the version of the statistics that was read. */
static bool
same_version(const KeptTable *table, Snapshot snapshot)
{
	KeptRow kept_row;

	return find_kept_row(table->relation, snapshot, &kept_row) &&
		kept_row.version == table->version;
}

/* A pair, which is read when it is first asked for. Its memory context is
   below the current one until nothing can fail any more, so that an error
   leaves nothing of it. */
static const KeptPair *
find_pair(const KeptTable *table, PairKey key)
{
	PairEntry *entry = hash_search(table->pairs, &key, HASH_FIND, NULL);
	Snapshot snapshot = snapshot_of_plan();
	MemoryContext context, before;
	KeptPair *pair;

	if (entry != NULL)
		return entry->pair;
	if (!same_version(table, snapshot))
		return NULL;
	context = AllocSetContextCreate(
		CurrentMemoryContext, "safebound pair", ALLOCSET_SMALL_SIZES);
	before = MemoryContextSwitchTo(context);
	pair = load_pair(table, &key, snapshot);
	MemoryContextSwitchTo(before);
	entry = hash_search(table->pairs, &key, HASH_ENTER, NULL);
	entry->pair = pair;
	if (pair)
		MemoryContextSetParent(context, table->context);
	else
		MemoryContextDelete(context);
	return pair;
}

static void
note_reference(KeptTable *table, const Datum *row)
{
	Reference *reference = palloc(sizeof(Reference));

	*reference = (Reference){DatumGetInt16(row[LISTS_ALONG - 1]),
							 DatumGetObjectId(row[LISTS_REFERRED - 1]),
							 DatumGetInt16(row[LISTS_KEY - 1])};
	if (reference->along != 0 && !has_pairs_along(table, reference))
		table->references = lappend(table->references, reference);
}

/* Notes the references along which there are pairs. */
static void
read_references(KeptTable *table, Snapshot snapshot)
{
	Datum values[] = {ObjectIdGetDatum(table->relation), Int16GetDatum(0)};
	OwnScan scan =
		begin_own_scan(KEPT_LISTS, snapshot, lengthof(values), values);
	HeapTuple tuple;

	while (HeapTupleIsValid(tuple = next_own(&scan)))
	{
		Datum row[LISTS_COLUMNS];
		bool nulls[LISTS_COLUMNS];

		heap_deform_tuple(tuple, RelationGetDescr(scan.own), row, nulls);
		note_reference(table, row);
	}
	end_own_scan(&scan);
}

static HTAB *
pairs_table(void)
{
	HASHCTL control = {.keysize = sizeof(PairKey),
					   .entrysize = sizeof(PairEntry),
					   .hcxt = CurrentMemoryContext};

	return hash_create("safebound pairs", 16, &control,
					   HASH_ELEM | HASH_BLOBS | HASH_CONTEXT);
}

/* Reads the statistics into a memory context below the current one, so that an
 * error leaves nothing of them in memory. */
static KeptTable *
load_table(const KeptRow *kept_row, Snapshot snapshot)
{
	MemoryContext context = AllocSetContextCreate(
		CurrentMemoryContext, "safebound statistics", ALLOCSET_SMALL_SIZES);
	MemoryContext before = MemoryContextSwitchTo(context);
	KeptTable *table = palloc0(sizeof(KeptTable));

	table->relation = kept_row->relation;
	table->version = kept_row->version;
	table->context = context;
	table->pairs = pairs_table();
	read_references(table, snapshot);
	/* pg_upgrade takes statistics along, and no internal triggers. */
	table->valid = kept_pair(table, 0, 0) != NULL &&
		(kept_row->sources == NIL ||
		 is_intact(kept_row->relation, kept_row->sources));
	MemoryContextSwitchTo(before);
	return table;
}

typedef struct TableEntry
{
	Oid relation;
	KeptTable *table;
} TableEntry;

static void
drop_deltas(Deltas *deltas)
{
	if (deltas != NULL)
		dropped_deltas = lappend(dropped_deltas, deltas);
}

static void
drop_table(KeptTable *table)
{
	table->next = dropped;
	dropped = table;
}

/* How many plans are being made or admitted. */
static int holders;

void
kept_hold(void)
{
	holders++;
}

void
kept_release(void)
{
	holders--;
}

/* Frees the dropped statistics. It is called when no plan is being made. */
void
kept_free_dropped(void)
{
	while (dropped != NULL && holders == 0)
	{
		KeptTable *next = dropped->next;

		if (dropped->deltas)
			MemoryContextDelete(dropped->deltas->context);
		MemoryContextDelete(dropped->context);
		dropped = next;
	}
	while (dropped_deltas != NIL && holders == 0)
	{
		MemoryContextDelete(((Deltas *) linitial(dropped_deltas))->context);
		dropped_deltas = list_delete_first(dropped_deltas);
	}
}

static KeptTable *
table_of_version(const KeptRow *kept_row, Snapshot snapshot)
{
	bool found;
	TableEntry *entry =
		hash_search(tables, &kept_row->relation, HASH_FIND, &found);
	KeptTable *table;

	if (found && entry->table->version == kept_row->version)
		return entry->table;
	table = load_table(kept_row, snapshot);
	entry = hash_search(tables, &kept_row->relation, HASH_ENTER, &found);
	if (found)
		drop_table(entry->table);
	MemoryContextSetParent(table->context, CacheMemoryContext);
	entry->table = table;
	return table;
}

static void
take_deltas(KeptTable *table, const KeptRow *kept_row, Snapshot snapshot)
{
	Deltas *deltas = find_deltas(kept_row, snapshot, table->deltas);
	MemoryContext before = MemoryContextSwitchTo(CacheMemoryContext);

	if (deltas != table->deltas)
		drop_deltas(table->deltas);
	MemoryContextSetParent(deltas->context, CacheMemoryContext);
	table->deltas = deltas;
	MemoryContextSwitchTo(before);
}

bool kept_fresh_only = false;

/* Whether a partitioned table still has the parts with which it was counted. A
   part is attached without waiting for readers. So an older snapshot sees the
   part's rows, but not the mark that a part was attached. */
static bool
same_parts(const KeptRow *kept_row)
{
	return kept_row->sources == NIL ||
		get_rel_relkind(kept_row->relation) != RELKIND_PARTITIONED_TABLE ||
		equal(tables_writing_to(kept_row->relation), kept_row->sources);
}

/* The statistics of a table as the active snapshot sees them, or NULL.
   Statistics dropped meanwhile stay in memory until no plan is being made.
   This backend caches one version of them, but a snapshot may see another
   version. */
const KeptTable *
kept_table(Oid relation)
{
	Snapshot snapshot = snapshot_of_plan();
	KeptTable *table, *view;
	KeptRow kept_row;

	if (!find_kept_row(relation, snapshot, &kept_row) ||
		(kept_fresh_only && kept_row.sources == NIL) ||
		is_being_written(&kept_row) || !same_parts(&kept_row))
		return NULL;
	table = table_of_version(&kept_row, snapshot);
	if (!table->valid)
		return NULL;
	if (kept_row.sources != NIL)
		take_deltas(table, &kept_row, snapshot);
	if (table->deltas && table->deltas->not_counted)
		return NULL;
	view = palloc(sizeof(KeptTable));
	*view = *table;
	view->unchanged = unchanged_references(&kept_row, snapshot);
	return view;
}

/* Why a table counts as unknown when only watched tables are known, and what
 * to do about it. */
char *
why_not_known(Oid relation)
{
	char *name = DatumGetCString(
		DirectFunctionCall1(regclassout, ObjectIdGetDatum(relation)));
	KeptRow kept_row;

	if (!find_kept_row(relation, GetActiveSnapshot(), &kept_row) ||
		kept_row.sources == NIL)
		return psprintf("%s isn't watched: SELECT safebound.watch(%s) counts "
						"and follows it.",
						name, quote_literal_cstr(name));
	if (is_being_written(&kept_row))
		return psprintf("%s is being written to: its rows are counted once "
						"that statement ends.",
						name);
	return psprintf("%s is unknown, since something changed it that isn't "
					"followed: SELECT safebound.watch(%s) counts it anew.",
					name, quote_literal_cstr(name));
}

const KeptPair *
kept_pair(const KeptTable *table, AttrNumber joined, AttrNumber filter)
{
	return kept_pair_along(table, joined, filter, NULL);
}

/* The pair of a joined column and a filter column along a reference. Without a
 * reference (NULL), the filter column belongs to the table itself. */
const KeptPair *
kept_pair_along(const KeptTable *table, AttrNumber joined, AttrNumber filter,
				const Reference *reference)
{
	PairKey key = {.joined = joined, .filter = filter};

	if (reference)
	{
		key.along = reference->along;
		key.referred = reference->referred;
		key.key = reference->key;
	}
	return find_pair(table, key);
}

bool
has_pairs_along(const KeptTable *table, const Reference *reference)
{
	ListCell *cell;

	foreach (cell, table->references)
	{
		Reference *one = lfirst(cell);

		if (one->along == reference->along &&
			one->referred == reference->referred &&
			one->key == reference->key)
			return true;
	}
	return false;
}

static bool
refers_to(const KeptTable *table, Oid relation)
{
	ListCell *cell;

	foreach (cell, table->references)
		if (((Reference *) lfirst(cell))->referred == relation)
			return true;
	return false;
}

static void
drop_entry(TableEntry *entry)
{
	drop_table(entry->table);
	hash_search(tables, &entry->relation, HASH_REMOVE, NULL);
}

/* Drops the statistics of a table that changed, and those along references to
 * it. InvalidOid means that all tables may have changed. */
static void
on_invalidation(Datum argument, Oid relation)
{
	HASH_SEQ_STATUS status;
	TableEntry *entry;

	hash_seq_init(&status, tables);
	while ((entry = hash_seq_search(&status)) != NULL)
		if (!OidIsValid(relation) || entry->relation == relation ||
			refers_to(entry->table, relation))
			drop_entry(entry);
}

void
kept_init(void)
{
	HASHCTL control = {.keysize = sizeof(Oid),
					   .entrysize = sizeof(TableEntry)};

	tables =
		hash_create("safebound tables", 64, &control, HASH_ELEM | HASH_BLOBS);
	CacheRegisterRelcacheCallback(on_invalidation, (Datum) 0);
}
