/* Changes of a table that its triggers don't see: an event trigger marks the
   watched tables that a command concerns.

   It runs as whoever ran the command, who may have no rights on the extension
   or on these tables. So it asks for none, opens and locks no table but the
   extension's own, and finds watched tables by index. */
#include "triggers.h"
#include "watch.h"

#include "access/htup_details.h"
#include "access/table.h"
#include "catalog/namespace.h"
#include "catalog/partition.h"
#include "catalog/pg_class.h"
#include "catalog/pg_depend.h"
#include "catalog/pg_inherits.h"
#include "catalog/pg_trigger.h"
#include "catalog/pg_type.h"
#include "commands/event_trigger.h"
#include "executor/executor.h"
#include "executor/tuptable.h"
#include "funcapi.h"
#include "tcop/deparse_utility.h"
#include "utils/array.h"
#include "utils/builtins.h"
#include "utils/fmgroids.h"
#include "utils/lsyscache.h"
#include "utils/rel.h"
#include "utils/syscache.h"
#include "utils/tuplestore.h"

PG_FUNCTION_INFO_V1(safebound_on_change);

/* The columns of pg_event_trigger_ddl_commands. */
enum
{
	COMMAND_CLASS = 1,
	COMMAND_OBJECT,
	COMMAND_COLLECTED = 9
};

/* The columns of pg_event_trigger_dropped_objects. */
enum
{
	DROPPED_CLASS = 1,
	DROPPED_OBJECT,
	DROPPED_NAMES = 11
};

static bool
is_there(Oid relation)
{
	return SearchSysCacheExists1(RELOID, ObjectIdGetDatum(relation));
}

static bool
is_watched(Oid relation)
{
	KeptRow kept_row;

	return find_kept_row(relation, NULL, &kept_row) && kept_row.sources != NIL;
}

/* Marks a table that isn't followed completely any more. */
static void
check_watched(Oid relation)
{
	KeptRow kept_row;

	if (find_kept_row(relation, NULL, &kept_row) && kept_row.sources != NIL &&
		!is_intact(relation, kept_row.sources))
		mark_not_counted(relation);
}

static void
check_each(List *tables)
{
	ListCell *cell;

	foreach (cell, tables)
		check_watched(lfirst_oid(cell));
}

static List *
with_descendants(Oid relation)
{
	return has_subclass(relation) ? find_all_inheritors(relation, NoLock, NULL)
								  : list_make1_oid(relation);
}

/* A table, all below it, and those of which it is a part. */
static List *
tables_around(Oid relation)
{
	List *around = is_there(relation) ? with_descendants(relation) : NIL;

	return get_rel_relispartition(relation)
		? list_concat(around, get_partition_ancestors(relation))
		: around;
}

/* Checks the watched tables for which a table is or was a source: those that
 * say so, and those around it. */
static void
check_around(Oid relation)
{
	List *around = tables_around(relation);
	List *followers = followers_of(relation);

	for (int i = 0; i < list_length(followers); i++)
		around = list_append_unique_oid(
			around, ((KeptRow *) list_nth(followers, i))->relation);
	check_each(around);
}

static void
forget_dropped(Oid relation)
{
	KeptRow kept_row;

	if (is_there(relation) || !find_kept_row(relation, NULL, &kept_row))
		return;
	forget_kept(relation);
	delete_deltas(relation, NULL);
}

static void mark_uses(Oid type, List **seen);

/* What depends on a type: a table's column, another type that is made of it,
 * or a column of such a type. */
static void
mark_dependent(Form_pg_depend dependent, List **seen)
{
	if (dependent->classid == TypeRelationId)
		mark_uses(dependent->objid, seen);
	if (dependent->classid != RelationRelationId || dependent->objsubid <= 0)
		return;
	if (is_watched(dependent->objid))
		mark_not_counted(dependent->objid);
	mark_uses(get_rel_type_id(dependent->objid), seen);
}

/* Marks the watched tables with values of a type in them. */
static void
mark_uses(Oid type, List **seen)
{
	Relation depend;
	ScanKeyData key[2];
	SysScanDesc scan;
	HeapTuple tuple;

	if (!OidIsValid(type) || list_member_oid(*seen, type))
		return;
	*seen = lappend_oid(*seen, type);
	depend = table_open(DependRelationId, AccessShareLock);
	ScanKeyInit(&key[0], Anum_pg_depend_refclassid, BTEqualStrategyNumber,
				F_OIDEQ, ObjectIdGetDatum(TypeRelationId));
	ScanKeyInit(&key[1], Anum_pg_depend_refobjid, BTEqualStrategyNumber,
				F_OIDEQ, ObjectIdGetDatum(type));
	scan =
		systable_beginscan(depend, DependReferenceIndexId, true, NULL, 2, key);
	while (HeapTupleIsValid(tuple = systable_getnext(scan)))
		mark_dependent((Form_pg_depend) GETSTRUCT(tuple), seen);
	systable_endscan(scan);
	table_close(depend, AccessShareLock);
}

/* Marks the tables with values of this relation's row type, if its columns
 * changed: values that differed may be equal now. */
static void
mark_row_type(Oid relation)
{
	List *seen = NIL;
	ListCell *cell;

	foreach (cell, with_descendants(relation))
		mark_uses(get_rel_type_id(lfirst_oid(cell)), &seen);
}

/* ALTER TABLE with the tables below has kinds of its own until 15. */
static bool
changes_columns(AlterTableType kind)
{
	switch (kind)
	{
		case AT_AddColumn:
		case AT_DropColumn:
		case AT_AlterColumnType:
#if PG_VERSION_NUM < 160000
		case AT_AddColumnRecurse:
		case AT_DropColumnRecurse:
#endif
			return true;
		default:
			return false;
	}
}

/* Whether a column has the type and the collation with which it was counted as
 * a joined column. */
static bool
has_counted_type(Oid relation, AttrNumber number)
{
	Datum key[] = {ObjectIdGetDatum(relation), Int16GetDatum(number)};
	OwnScan scan = begin_own_scan(KEPT_LISTS, NULL, 2, key);
	HeapTuple tuple;
	bool same = true;

	while (same && HeapTupleIsValid(tuple = next_own(&scan)))
	{
		Datum row[LISTS_COLUMNS];
		bool nulls[LISTS_COLUMNS];

		heap_deform_tuple(tuple, RelationGetDescr(scan.own), row, nulls);
		same = same_column(relation, number,
						   DatumGetObjectId(row[LISTS_JOINED_TYPE - 1]),
						   DatumGetObjectId(row[LISTS_JOINED_COLLATION - 1]));
	}
	end_own_scan(&scan);
	return same;
}

/* Marks a watched table of which a column got another type or collation, also
   without a rewrite. Rows that come are counted by the new equality, and their
   deltas don't fit if the column gets its old type back. */
static void
check_column_type(const ObjectAddress *column)
{
	if (is_watched(column->objectId) &&
		!has_counted_type(column->objectId, column->objectSubId))
		mark_not_counted(column->objectId);
}

/* One part of ALTER TABLE: a change of its columns, say, or another table that
 * it attaches or detaches. */
static void
check_part(Oid relation, const CollectedATSubcmd *part)
{
	if (is_there(relation) && IsA(part->parsetree, AlterTableCmd) &&
		changes_columns(((AlterTableCmd *) part->parsetree)->subtype))
		mark_row_type(relation);
	if (IsA(part->parsetree, AlterTableCmd) &&
		((AlterTableCmd *) part->parsetree)->subtype == AT_AlterColumnType)
		check_column_type(&part->address);
	if (part->address.classId == RelationRelationId &&
		part->address.objectId != relation)
		check_around(part->address.objectId);
}

static void
check_altered(const CollectedCommand *command)
{
	ListCell *cell;

	foreach (cell, command->d.alterTable.subcmds)
		check_part(command->d.alterTable.objectId, lfirst(cell));
}

/* The table of a trigger that is there. */
static Oid
table_of_trigger(Oid trigger)
{
	Relation catalog = table_open(TriggerRelationId, AccessShareLock);
	Oid table = InvalidOid;
	ScanKeyData key;
	SysScanDesc scan;
	HeapTuple tuple;

	ScanKeyInit(&key, Anum_pg_trigger_oid, BTEqualStrategyNumber, F_OIDEQ,
				ObjectIdGetDatum(trigger));
	scan = systable_beginscan(catalog, TriggerOidIndexId, true, NULL, 1, &key);
	tuple = systable_getnext(scan);
	if (HeapTupleIsValid(tuple))
		table = ((Form_pg_trigger) GETSTRUCT(tuple))->tgrelid;
	systable_endscan(scan);
	table_close(catalog, AccessShareLock);
	return table;
}

/* The table of a trigger that was dropped: {schema, table, trigger}. */
static Oid
table_of_names(Datum names)
{
	Datum *values;
	int length;
	Oid schema;

	deconstruct_array(DatumGetArrayTypeP(names), TEXTOID, -1, false,
					  TYPALIGN_INT, &values, NULL, &length);
	if (length != 3)
		return InvalidOid;
	schema = get_namespace_oid(TextDatumGetCString(values[0]), true);
	return OidIsValid(schema)
		? get_relname_relid(TextDatumGetCString(values[1]), schema)
		: InvalidOid;
}

static void
check_command(TupleTableSlot *row, CommandTag tag)
{
	bool null;
	Oid class = DatumGetObjectId(slot_getattr(row, COMMAND_CLASS, &null));
	Oid object = DatumGetObjectId(slot_getattr(row, COMMAND_OBJECT, &null));
	CollectedCommand *command = (CollectedCommand *) DatumGetPointer(
		slot_getattr(row, COMMAND_COLLECTED, &null));

	if (class == TriggerRelationId)
		check_around(table_of_trigger(object));
	if (class != RelationRelationId)
		return;
	if (tag == CMDTAG_REFRESH_MATERIALIZED_VIEW && is_watched(object))
		mark_not_counted(object);
	check_around(object);
	if (!null && command->type == SCT_AlterTable)
		check_altered(command);
}

static void
check_dropped(TupleTableSlot *row, CommandTag tag)
{
	bool null;
	Oid class = DatumGetObjectId(slot_getattr(row, DROPPED_CLASS, &null));
	Oid object = DatumGetObjectId(slot_getattr(row, DROPPED_OBJECT, &null));
	Datum names = slot_getattr(row, DROPPED_NAMES, &null);

	if (class == TriggerRelationId && !null)
		check_around(table_of_names(names));
	if (class != RelationRelationId)
		return;
	forget_dropped(object);
	check_around(object);
}

/* Calls `check` for each object of the command that fired the trigger.
 * `function` is PostgreSQL's, which lists them. */
static void
check_objects(Oid function, CommandTag tag,
			  void (*check)(TupleTableSlot *row, CommandTag tag))
{
	FmgrInfo called;
	LOCAL_FCINFO(call, 0);
	ReturnSetInfo result = {.type = T_ReturnSetInfo,
							.econtext = CreateStandaloneExprContext(),
							.allowedModes = SFRM_Materialize,
							.returnMode = SFRM_Materialize};
	TupleTableSlot *row;

	fmgr_info(function, &called);
	InitFunctionCallInfoData(*call, &called, 0, InvalidOid, NULL,
							 (fmNodePtr) &result);
	FunctionCallInvoke(call);
	row = MakeSingleTupleTableSlot(result.setDesc, &TTSOpsMinimalTuple);
	while (tuplestore_gettupleslot(result.setResult, true, false, row))
		check(row, tag);
	ExecDropSingleTupleTableSlot(row);
	tuplestore_end(result.setResult);
	FreeExprContext(result.econtext, true);
}

/* Marks the table whose rows ALTER TABLE rewrites, perhaps with other values.
 */
static void
mark_rewritten(void)
{
	Oid relation = DatumGetObjectId(
		OidFunctionCall0(F_PG_EVENT_TRIGGER_TABLE_REWRITE_OID));
	KeptRow kept_row;
	ListCell *cell;

	if (find_kept_row(relation, NULL, &kept_row))
		mark_not_counted(relation);
	foreach (cell, followers_of(relation))
		if (is_part_of(relation, ((KeptRow *) lfirst(cell))->relation))
			mark_not_counted(((KeptRow *) lfirst(cell))->relation);
}

Datum
safebound_on_change(PG_FUNCTION_ARGS)
{
	EventTriggerData *event = (EventTriggerData *) fcinfo->context;

	if (!CALLED_AS_EVENT_TRIGGER(fcinfo))
		ereport(
			ERROR,
			(errcode(ERRCODE_E_R_I_E_EVENT_TRIGGER_PROTOCOL_VIOLATED),
			 errmsg("safebound.on_change is called by event triggers alone")));
	if (extension_presence() != PRESENT)
		return PointerGetDatum(NULL);
	if (strcmp(event->event, "table_rewrite") == 0)
		mark_rewritten();
	else if (strcmp(event->event, "sql_drop") == 0)
		check_objects(F_PG_EVENT_TRIGGER_DROPPED_OBJECTS, event->tag,
					  check_dropped);
	else if (strcmp(event->event, "ddl_command_end") == 0)
		check_objects(F_PG_EVENT_TRIGGER_DDL_COMMANDS, event->tag,
					  check_command);
	return PointerGetDatum(NULL);
}
