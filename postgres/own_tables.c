/* How the extension's own tables are found, read and written. */
#include "own_tables.h"
#include "statistics.h"

#include "access/genam.h"
#include "access/htup_details.h"
#include "access/relation.h"
#include "access/table.h"
#include "catalog/dependency.h"
#include "catalog/indexing.h"
#include "catalog/pg_class.h"
#include "catalog/pg_depend.h"
#include "catalog/pg_extension.h"
#include "catalog/pg_proc.h"
#include "catalog/pg_type.h"
#include "commands/extension.h"
#include "commands/sequence.h"
#include "utils/fmgroids.h"
#include "utils/inval.h"
#include "utils/lsyscache.h"
#include "utils/rel.h"
#include "utils/syscache.h"

#define EXTENSION "safebound"
#define MOST_COLUMNS 16

/* A table's name in the extension, and the types of its columns, in order. */
typedef struct OwnDefinition
{
	const char *name;
	char kind;
	int columns;
	Oid types[MOST_COLUMNS];
} OwnDefinition;

static const OwnDefinition definitions[OWN_LENGTH] = {
	[KEPT_TABLE] = {"kept_table",
					RELKIND_RELATION,
					TABLE_COLUMNS,
					{REGCLASSOID, INT8OID, INT2OID, INT2OID, INT2OID,
					 TIMESTAMPTZOID, INT8OID, OIDARRAYOID, INT2ARRAYOID,
					 INT2ARRAYOID, INT8ARRAYOID, INT8OID, INT8OID, INT8OID}},
	[KEPT_LISTS] = {"kept_lists",
					RELKIND_RELATION,
					LISTS_COLUMNS,
					{REGCLASSOID, INT2OID, INT2OID, INT2OID, OIDOID, INT2OID,
					 REGTYPEOID, REGTYPEOID, OIDOID, OIDOID, BYTEAOID}},
	[KEPT_DELTA] = {"kept_delta",
					RELKIND_RELATION,
					DELTA_COLUMNS,
					{OIDOID, INT8OID, INT8OID, BYTEAOID}},
	[KEPT_SOURCE] = {"kept_source",
					 RELKIND_RELATION,
					 SOURCE_COLUMNS,
					 {OIDOID, OIDOID}},
	[VERSIONS] = {
		"versions", RELKIND_SEQUENCE, 3, {INT8OID, INT8OID, BOOLOID}}};

/* What this backend knows of the extension, until something of it changes. */
typedef struct Identity
{
	bool known;
	Presence presence;
	Oid tables[OWN_LENGTH];
	Oid follow;
} Identity;

static Identity identity;

/* How many invalidations came. One that comes while the extension is looked up
 * means that it has to be looked up again. */
static uint64 invalidations;

static bool
has_columns(Relation own, const OwnDefinition *definition)
{
	TupleDesc desc = RelationGetDescr(own);

	if (own->rd_rel->relkind != definition->kind ||
		desc->natts != definition->columns)
		return false;
	for (int i = 0; i < desc->natts; i++)
		if (TupleDescAttr(desc, i)->attisdropped ||
			TupleDescAttr(desc, i)->atttypid != definition->types[i])
			return false;
	return true;
}

static void
note_relation(Oid relation, Identity *into)
{
	char *name = get_rel_name(relation);

	for (int i = 0; name && i < OWN_LENGTH; i++)
		if (strcmp(name, definitions[i].name) == 0)
			into->tables[i] = relation;
}

static void
note_function(Oid function, Identity *into)
{
	char *name = get_func_name(function);

	if (name && strcmp(name, "follow") == 0 &&
		get_func_rettype(function) == TRIGGEROID)
		into->follow = function;
}

/* Finds the members of the extension that are used from C. */
static void
find_members(Oid extension, Identity *into)
{
	Relation depend = table_open(DependRelationId, AccessShareLock);
	ScanKeyData key[2];
	SysScanDesc scan;
	HeapTuple tuple;

	ScanKeyInit(&key[0], Anum_pg_depend_refclassid, BTEqualStrategyNumber,
				F_OIDEQ, ObjectIdGetDatum(ExtensionRelationId));
	ScanKeyInit(&key[1], Anum_pg_depend_refobjid, BTEqualStrategyNumber,
				F_OIDEQ, ObjectIdGetDatum(extension));
	scan =
		systable_beginscan(depend, DependReferenceIndexId, true, NULL, 2, key);
	while (HeapTupleIsValid(tuple = systable_getnext(scan)))
	{
		Form_pg_depend member = (Form_pg_depend) GETSTRUCT(tuple);

		if (member->deptype != DEPENDENCY_EXTENSION)
			continue;
		if (member->classid == RelationRelationId)
			note_relation(member->objid, into);
		if (member->classid == ProcedureRelationId)
			note_function(member->objid, into);
	}
	systable_endscan(scan);
	table_close(depend, AccessShareLock);
}

static bool
is_as_defined(OwnTable table, Oid relation)
{
	Relation own = OidIsValid(relation)
		? try_relation_open(relation, AccessShareLock)
		: NULL;
	bool same = own && has_columns(own, &definitions[table]);

	if (own)
		relation_close(own, AccessShareLock);
	return same;
}

static Presence
presence_of(const Identity *found)
{
	for (int i = 0; i < OWN_LENGTH; i++)
		if (!is_as_defined(i, found->tables[i]))
			return DIFFERENT;
	return OidIsValid(found->follow) ? PRESENT : DIFFERENT;
}

static const Identity *
find_identity(void)
{
	while (!identity.known)
	{
		uint64 before = invalidations;
		Oid extension = get_extension_oid(EXTENSION, true);
		Identity found = {.presence = ABSENT};

		if (OidIsValid(extension))
		{
			find_members(extension, &found);
			found.presence =
				library_fits() ? presence_of(&found) : DIFFERENT;
		}
		identity = found;
		identity.known = invalidations == before;
	}
	return &identity;
}

Presence
extension_presence(void)
{
	return find_identity()->presence;
}

Oid
own_oid(OwnTable table)
{
	return extension_presence() == PRESENT ? identity.tables[table]
										   : InvalidOid;
}

bool
is_own_table(Oid relation)
{
	for (int i = 0; extension_presence() != ABSENT && i < OWN_LENGTH; i++)
		if (OidIsValid(relation) && identity.tables[i] == relation)
			return true;
	return false;
}

Oid
follow_oid(void)
{
	return extension_presence() == PRESENT ? identity.follow : InvalidOid;
}

/* A database gets the extension, or loses it, with its tables. */
static void
on_invalidation(Datum argument, Oid relation)
{
	bool concerns = !OidIsValid(relation) || identity.presence != PRESENT;

	for (int i = 0; i < OWN_LENGTH; i++)
		concerns = concerns || identity.tables[i] == relation;
	if (!concerns && identity.known)
		return;
	invalidations++;
	identity.known = false;
}

/* The triggers' function comes after the tables. */
static void
on_function(Datum argument, int cache, uint32 hash)
{
	invalidations++;
	if (identity.presence == DIFFERENT)
		identity.known = false;
}

void
own_tables_init(void)
{
	CacheRegisterRelcacheCallback(on_invalidation, (Datum) 0);
	CacheRegisterSyscacheCallback(PROCOID, on_function, (Datum) 0);
}

Relation
open_own(OwnTable table, LOCKMODE mode)
{
	Oid relation = own_oid(table);
	Relation own =
		OidIsValid(relation) ? try_table_open(relation, mode) : NULL;

	if (own == NULL || !has_columns(own, &definitions[table]))
		ereport(ERROR,
				(errcode(ERRCODE_OBJECT_NOT_IN_PREREQUISITE_STATE),
				 errmsg("the tables of the extension safebound aren't those "
						"of this library"),
				 errhint("ALTER EXTENSION safebound UPDATE brings them to the "
						 "library's version.")));
	return own;
}

static RegProcedure
equality_of(Oid type)
{
	switch (type)
	{
		case INT2OID:
			return F_INT2EQ;
		case INT8OID:
			return F_INT8EQ;
		default:
			return F_OIDEQ;
	}
}

static OwnScan
scan_opened(Relation own, OwnTable table, Snapshot snapshot, int length,
			const Datum *values)
{
	Oid index = RelationGetPrimaryKeyIndex(own);
	ScanKeyData key[MOST_COLUMNS];

	for (int i = 0; i < length; i++)
		ScanKeyInit(&key[i], i + 1, BTEqualStrategyNumber,
					equality_of(definitions[table].types[i]), values[i]);
	return (OwnScan){own,
					 systable_beginscan(own, index,
										length > 0 && OidIsValid(index),
										snapshot, length, key)};
}

OwnScan
begin_own_scan(OwnTable table, Snapshot snapshot, int length, const Datum *key)
{
	return scan_opened(open_own(table, AccessShareLock), table, snapshot,
					   length, key);
}

OwnScan
begin_own_scan_from(OwnTable table, LOCKMODE mode, Snapshot snapshot,
					const Datum *values)
{
	Relation own = open_own(table, mode);
	Oid index = RelationGetPrimaryKeyIndex(own);
	ScanKeyData key[2];

	ScanKeyInit(&key[0], 1, BTEqualStrategyNumber,
				equality_of(definitions[table].types[0]), values[0]);
	ScanKeyInit(&key[1], 2, BTGreaterEqualStrategyNumber, F_INT8GE, values[1]);
	return (OwnScan){own, systable_beginscan(own, index, OidIsValid(index),
											 snapshot, 2, key)};
}

HeapTuple
next_own(OwnScan *scan)
{
	return systable_getnext(scan->scan);
}

void
end_own_scan(OwnScan *scan)
{
	systable_endscan(scan->scan);
	table_close(scan->own, AccessShareLock);
}

void
insert_own(OwnTable table, Datum *values, bool *nulls)
{
	Relation own = open_own(table, RowExclusiveLock);
	bool none[MOST_COLUMNS] = {false};
	HeapTuple tuple =
		heap_form_tuple(RelationGetDescr(own), values, nulls ? nulls : none);

	CatalogTupleInsert(own, tuple);
	heap_freetuple(tuple);
	table_close(own, NoLock);
}

int64
update_own(OwnTable table, int length, const Datum *key, Datum *row,
		   bool *nulls, bool *replaced)
{
	Relation own = open_own(table, RowExclusiveLock);
	OwnScan scan = scan_opened(own, table, NULL, length, key);
	int64 updated = 0;
	HeapTuple tuple;

	while (HeapTupleIsValid(tuple = next_own(&scan)))
	{
		HeapTuple changed = heap_modify_tuple(tuple, RelationGetDescr(own),
											  row, nulls, replaced);

		CatalogTupleUpdate(own, &tuple->t_self, changed);
		heap_freetuple(changed);
		updated++;
	}
	systable_endscan(scan.scan);
	table_close(own, NoLock);
	return updated;
}

int64
delete_own(OwnTable table, Snapshot snapshot, int length, const Datum *key)
{
	Relation own = open_own(table, RowExclusiveLock);
	OwnScan scan = scan_opened(own, table, snapshot, length, key);
	int64 deleted = 0;
	HeapTuple tuple;

	while (HeapTupleIsValid(tuple = next_own(&scan)))
	{
		CatalogTupleDelete(own, &tuple->t_self);
		deleted++;
	}
	systable_endscan(scan.scan);
	table_close(own, NoLock);
	return deleted;
}

/* The next number of a count or a delta. Nobody's rights are asked. */
int64
next_version(void)
{
	relation_close(open_own(VERSIONS, AccessShareLock), NoLock);
	return nextval_internal(own_oid(VERSIONS), false);
}
