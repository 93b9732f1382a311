/* Triggers are internal ones, made without SQL: pg_dump leaves them out, a
   table's owner can't disable or replace them, and DROP EXTENSION drops them.
 */
#include "triggers.h"
#include "own_tables.h"

#include "access/htup_details.h"
#include "access/table.h"
#include "access/xact.h"
#include "catalog/dependency.h"
#include "catalog/pg_proc.h"
#include "catalog/pg_trigger.h"
#include "nodes/makefuncs.h"
#include "storage/lmgr.h"
#include "utils/fmgroids.h"
#include "utils/rel.h"

#define OLD_ROWS "old_rows"
#define NEW_ROWS "new_rows"

typedef struct TriggerDefinition
{
	const char *name;
	int16 type;
	char enabled;
	bool old_rows;
	bool new_rows;
} TriggerDefinition;

/* Statements are followed always, and rows on replicas alone. */
static const TriggerDefinition definitions[TRIGGER_KINDS] = {
	[TRIGGER_BEGINS] = {"safebound_begin",
						TRIGGER_TYPE_BEFORE | TRIGGER_TYPE_INSERT |
							TRIGGER_TYPE_UPDATE,
						TRIGGER_FIRES_ALWAYS, false, false},
	[TRIGGER_INSERTED] = {"safebound_insert", TRIGGER_TYPE_INSERT,
						  TRIGGER_FIRES_ALWAYS, false, true},
	[TRIGGER_UPDATED] = {"safebound_update", TRIGGER_TYPE_UPDATE,
						 TRIGGER_FIRES_ALWAYS, true, true},
	[TRIGGER_APPLIED] = {"safebound_applied",
						 TRIGGER_TYPE_ROW | TRIGGER_TYPE_INSERT |
							 TRIGGER_TYPE_UPDATE,
						 TRIGGER_FIRES_ON_REPLICA, false, false}};

static TriggerKind
kind_of(int16 type, bool old_rows, bool new_rows, bool plain)
{
	for (int kind = 0; plain && kind < TRIGGER_KINDS; kind++)
		if (definitions[kind].type == type &&
			definitions[kind].old_rows == old_rows &&
			definitions[kind].new_rows == new_rows)
			return kind;
	return TRIGGER_OTHER;
}

TriggerKind
kind_of_trigger(const Trigger *trigger)
{
	return kind_of(trigger->tgtype, trigger->tgoldtable != NULL,
				   trigger->tgnewtable != NULL,
				   trigger->tgqual == NULL && trigger->tgnattr == 0 &&
					   trigger->tgnargs == 0 &&
					   !OidIsValid(trigger->tgconstraint));
}

static bool
is_null(HeapTuple tuple, Relation catalog, int column)
{
	bool null;

	heap_getattr(tuple, column, RelationGetDescr(catalog), &null);
	return null;
}

/* Which of ours a trigger in the catalog is. One that is disabled, or that was
 * changed in any way, is none of ours. */
static TriggerKind
kind_of_tuple(HeapTuple tuple, Relation catalog)
{
	Form_pg_trigger form = (Form_pg_trigger) GETSTRUCT(tuple);
	TriggerKind kind = form->tgfoid == follow_oid() && form->tgisinternal
		? kind_of(form->tgtype,
				  !is_null(tuple, catalog, Anum_pg_trigger_tgoldtable),
				  !is_null(tuple, catalog, Anum_pg_trigger_tgnewtable),
				  is_null(tuple, catalog, Anum_pg_trigger_tgqual) &&
					  form->tgattr.dim1 == 0 && form->tgnargs == 0 &&
					  !OidIsValid(form->tgconstraint))
		: TRIGGER_OTHER;

	return kind != TRIGGER_OTHER &&
			form->tgenabled == definitions[kind].enabled
		? kind
		: TRIGGER_OTHER;
}

/* Finds our triggers of a table: their oids by kind. Others that call our
 * function are added to `changed`. */
static void
find_triggers(Oid table, Oid *found, List **changed)
{
	Relation catalog = table_open(TriggerRelationId, AccessShareLock);
	ScanKeyData key;
	SysScanDesc scan;
	HeapTuple tuple;

	memset(found, 0, sizeof(Oid) * TRIGGER_KINDS);
	ScanKeyInit(&key, Anum_pg_trigger_tgrelid, BTEqualStrategyNumber, F_OIDEQ,
				ObjectIdGetDatum(table));
	scan = systable_beginscan(catalog, TriggerRelidNameIndexId, true, NULL, 1,
							  &key);
	while (HeapTupleIsValid(tuple = systable_getnext(scan)))
	{
		Form_pg_trigger form = (Form_pg_trigger) GETSTRUCT(tuple);
		TriggerKind kind = kind_of_tuple(tuple, catalog);

		if (kind != TRIGGER_OTHER && !OidIsValid(found[kind]))
			found[kind] = form->oid;
		else if (changed && form->tgfoid == follow_oid())
			*changed = lappend_oid(*changed, form->oid);
	}
	systable_endscan(scan);
	table_close(catalog, AccessShareLock);
}

bool
has_triggers(Oid table, bool applies)
{
	Oid found[TRIGGER_KINDS];

	find_triggers(table, found, NULL);
	return OidIsValid(found[TRIGGER_BEGINS]) &&
		OidIsValid(found[TRIGGER_INSERTED]) &&
		OidIsValid(found[TRIGGER_UPDATED]) &&
		(OidIsValid(found[TRIGGER_APPLIED]) || !applies);
}

static TriggerTransition *
transition_table(const char *name, bool is_new)
{
	TriggerTransition *transition = makeNode(TriggerTransition);

	transition->name = pstrdup(name);
	transition->isNew = is_new;
	transition->isTable = true;
	return transition;
}

static void
make_trigger(Oid table, const TriggerDefinition *definition)
{
	CreateTrigStmt *statement = makeNode(CreateTrigStmt);
	ObjectAddress trigger, function;

	statement->trigname = pstrdup(definition->name);
	statement->row = TRIGGER_FOR_ROW(definition->type);
	statement->timing = definition->type & TRIGGER_TYPE_TIMING_MASK;
	statement->events = definition->type & TRIGGER_TYPE_EVENT_MASK;
	if (definition->old_rows)
		statement->transitionRels = lappend(statement->transitionRels,
											transition_table(OLD_ROWS, false));
	if (definition->new_rows)
		statement->transitionRels = lappend(statement->transitionRels,
											transition_table(NEW_ROWS, true));
	trigger = CreateTriggerFiringOn(
		statement, NULL, table, InvalidOid, InvalidOid, InvalidOid,
		follow_oid(), InvalidOid, NULL, true, false, definition->enabled);
	/* Without CASCADE, DROP EXTENSION drops what depends on it in this way. */
	ObjectAddressSet(function, ProcedureRelationId, follow_oid());
	deleteDependencyRecordsForSpecific(trigger.classId, trigger.objectId,
									   DEPENDENCY_NORMAL, function.classId,
									   function.objectId);
	recordDependencyOn(&trigger, &function, DEPENDENCY_AUTO);
	CommandCounterIncrement();
}

static void
drop_trigger(Oid trigger)
{
	ObjectAddress address;

	if (!OidIsValid(trigger))
		return;
	ObjectAddressSet(address, TriggerRelationId, trigger);
	performDeletion(&address, DROP_RESTRICT, PERFORM_DELETION_INTERNAL);
	CommandCounterIncrement();
}

static void
drop_all(List *triggers)
{
	ListCell *cell;

	foreach (cell, triggers)
		drop_trigger(lfirst_oid(cell));
}

/* Waits for all who are writing to the table. Triggers that are as they should
 * be stay, and those that were changed are dropped. */
void
make_triggers(Oid table, bool applies)
{
	int length = applies ? TRIGGER_KINDS : TRIGGER_APPLIED;
	Oid found[TRIGGER_KINDS];
	List *changed = NIL;

	LockRelationOid(table, ShareRowExclusiveLock);
	find_triggers(table, found, &changed);
	drop_all(changed);
	for (int kind = 0; kind < length; kind++)
		if (!OidIsValid(found[kind]))
			make_trigger(table, &definitions[kind]);
}

void
drop_triggers(Oid table, bool applied, bool statements)
{
	Oid found[TRIGGER_KINDS];

	find_triggers(table, found, NULL);
	for (int kind = 0; kind < TRIGGER_KINDS; kind++)
		if (kind == TRIGGER_APPLIED ? applied : statements)
			drop_trigger(found[kind]);
}
