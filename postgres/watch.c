/* safebound.watch, unwatch and fold. */
#include "triggers.h"
#include "watch.h"

#include "access/genam.h"
#include "access/htup_details.h"
#include "access/relation.h"
#include "access/table.h"
#include "access/xact.h"
#include "catalog/namespace.h"
#include "catalog/pg_class.h"
#include "catalog/pg_inherits.h"
#include "commands/defrem.h"
#include "miscadmin.h"
#include "storage/lmgr.h"
#include "tcop/utility.h"
#include "utils/acl.h"
#include "utils/fmgroids.h"
#include "utils/lsyscache.h"
#include "utils/rel.h"
#include "utils/snapmgr.h"
#include "utils/syscache.h"

PG_FUNCTION_INFO_V1(safebound_watch);
PG_FUNCTION_INFO_V1(safebound_unwatch);
PG_FUNCTION_INFO_V1(safebound_fold);

/* The arguments for counting a table that wasn't kept before. */
#define COMMON 100
#define RANGES 64
#define ACCURACY 8

static ProcessUtility_hook_type utility_before;

/* A table, all tables from which it inherits, and the parts of a partitioned
 * table. A statement on any of these may write to the table. */
List *
tables_writing_to(Oid relation)
{
	Relation inherits = table_open(InheritsRelationId, AccessShareLock);
	List *sources = list_make1_oid(relation);
	List *parts = get_rel_relkind(relation) == RELKIND_PARTITIONED_TABLE
		? find_all_inheritors(relation, NoLock, NULL)
		: NIL;

	for (int i = 0; i < list_length(sources); i++)
	{
		ScanKeyData key;
		SysScanDesc scan;
		HeapTuple tuple;

		ScanKeyInit(&key, Anum_pg_inherits_inhrelid, BTEqualStrategyNumber,
					F_OIDEQ, ObjectIdGetDatum(list_nth_oid(sources, i)));
		scan = systable_beginscan(inherits, InheritsRelidSeqnoIndexId, true,
								  NULL, 1, &key);
		while (HeapTupleIsValid(tuple = systable_getnext(scan)))
			sources = list_append_unique_oid(
				sources, ((Form_pg_inherits) GETSTRUCT(tuple))->inhparent);
		systable_endscan(scan);
	}
	table_close(inherits, AccessShareLock);
	sources = list_concat_unique_oid(sources, parts);
	list_sort(sources, list_oid_cmp);
	return sources;
}

/* Whether a replica that applies rows may write rows of `relation` directly to
 * `source`. */
static bool
applies_rows(Oid source, Oid relation)
{
	return get_rel_relkind(source) == RELKIND_RELATION &&
		(source == relation || is_part_of(source, relation));
}

/* Whether `followed` has all tables on which a statement may write rows of
 * this one, and each of them has its triggers. */
bool
is_intact(Oid relation, List *followed)
{
	List *sources = tables_writing_to(relation);
	ListCell *cell;

	if (!equal(sources, followed))
		return false;
	if (get_rel_relkind(relation) == RELKIND_MATVIEW)
		return true;
	foreach (cell, sources)
		if (!has_triggers(lfirst_oid(cell),
						  applies_rows(lfirst_oid(cell), relation)))
			return false;
	return true;
}

static void
refuse_old_snapshot(void)
{
	if (IsolationUsesXactSnapshot())
		ereport(
			ERROR,
			(errcode(ERRCODE_ACTIVE_SQL_TRANSACTION),
			 errmsg("a table that is watched can be counted in READ COMMITTED "
					"only"),
			 errdetail("In the snapshot of a transaction rows may be missing "
					   "that came since and that other transactions see.")));
}

/* Locks a table and its parts. */
static void
lock_whole(Oid relation, LOCKMODE mode)
{
	LockRelationOid(relation, mode);
	if (get_rel_relkind(relation) == RELKIND_PARTITIONED_TABLE)
		find_all_inheritors(relation, mode, NULL);
}

/* Locks a table against others that count it, and takes a new snapshot. If the
   columns may differ from those counted before, this waits for all writers
   too, since their triggers read the columns. The deltas that the snapshot
   sees are deleted, since their rows are now counted. */
void
begin_counting(Relation relation, bool folding, KeptRow *before,
			   bool *was_followed)
{
	Oid id = RelationGetRelid(relation);

	lock_whole(id, ShareUpdateExclusiveLock);
	*before = (KeptRow){.relation = id};
	*was_followed = find_kept_row(id, NULL, before) && before->sources != NIL;
	if (*was_followed && !folding)
		lock_whole(id, ShareRowExclusiveLock);
	if (*was_followed)
		refuse_old_snapshot();
	CommandCounterIncrement();
	if (IsolationUsesXactSnapshot())
	{
		PushCopiedSnapshot(GetActiveSnapshot());
		UpdateActiveSnapshotCommandId();
	}
	else
		PushActiveSnapshot(GetTransactionSnapshot());
	delete_deltas(id, GetActiveSnapshot());
	move_first_delta(before, GetActiveSnapshot());
	forget_marks();
}

void
end_counting(const TableCounting *table_count, const KeptRow *before,
			 bool was_followed)
{
	save_kept(table_count, before,
			  was_followed && is_intact(before->relation, before->sources)
				  ? before->sources
				  : NIL);
	PopActiveSnapshot();
}

/* Gives a source its triggers. Writers of the table and of its parts are
   waited for. A table above has another owner, perhaps: it isn't locked where
   it has its triggers already. */
static void
follow_source(Oid source, Oid relation)
{
	bool applies = applies_rows(source, relation);

	if (source == relation || is_part_of(source, relation))
		LockRelationOid(source, ShareRowExclusiveLock);
	if (has_triggers(source, applies))
		return;
	if (!pg_class_ownercheck(source, GetUserId()))
		aclcheck_error(ACLCHECK_NOT_OWNER, OBJECT_TABLE, get_rel_name(source));
	make_triggers(source, applies);
}

/* Drops the triggers on a source of a table that isn't watched any more,
 * unless another table needs them. */
static void
leave_source(Oid source)
{
	List *followers = followers_of(source);
	bool applies = false;
	ListCell *cell;

	if (!pg_class_ownercheck(source, GetUserId()))
		return;
	foreach (cell, followers)
		applies = applies ||
			applies_rows(source, ((KeptRow *) lfirst(cell))->relation);
	drop_triggers(source, !applies, followers == NIL);
}

/* Counts a table again. If it has statistics, the same columns are counted. */
int64
keep_again(Oid relation, bool folding)
{
	KeptRow kept_row;

	if (!find_kept_row(relation, NULL, &kept_row))
		return keep_table(relation, NULL, NULL, COMMON, RANGES, ACCURACY,
						  folding);
	/* With 0 as a member, a set without columns isn't NULL. NULL would mean
	 * all columns. */
	return keep_table(relation, bms_add_member(kept_row.joined, 0),
					  bms_add_member(kept_row.filters, 0),
					  kept_row.most_common, kept_row.most_leaves,
					  kept_row.accuracy, folding);
}

/* Checks that the caller may count a table. Returns whether the table can have
 * triggers: a materialized view can't. */
static bool
may_have_triggers(Oid relation)
{
	Relation opened = open_owned(relation);
	bool may = opened->rd_rel->relkind != RELKIND_MATVIEW;

	/* A temporary table is dropped at the end of the session without an event
	 * that the extension could see. */
	if (opened->rd_rel->relpersistence == RELPERSISTENCE_TEMP)
		ereport(ERROR,
				(errcode(ERRCODE_FEATURE_NOT_SUPPORTED),
				 errmsg("\"%s\" is a temporary table, and can't be watched",
						get_rel_name(relation))));
	/* The table is closed here, since its triggers can't be changed while this
	 * backend has it open. */
	relation_close(opened, NoLock);
	return may;
}

Datum
safebound_watch(PG_FUNCTION_ARGS)
{
	Oid relation = PG_GETARG_OID(0);
	bool triggers;
	List *sources;
	int64 lists;
	ListCell *cell;

	check_use();
	triggers = may_have_triggers(relation);
	sources = tables_writing_to(relation);
	refuse_old_snapshot();
	foreach (cell, triggers ? sources : NIL)
		follow_source(lfirst_oid(cell), relation);
	LockRelationOid(relation, ShareRowExclusiveLock);
	CommandCounterIncrement();
	lists = keep_again(relation, false);
	if (!is_intact(relation, sources))
		ereport(ERROR,
				(errcode(ERRCODE_OBJECT_IN_USE),
				 errmsg("what \"%s\" inherits from changed meanwhile",
						get_rel_name(relation))));
	note_sources(relation, sources);
	PG_RETURN_INT64(lists);
}

/* Triggers on tables above are kept, since other tables may need them. Without
 * followers they count nothing. */
Datum
safebound_unwatch(PG_FUNCTION_ARGS)
{
	Oid relation = PG_GETARG_OID(0);
	bool triggers, were;
	KeptRow kept_row = {0};
	ListCell *cell;

	check_use();
	triggers = may_have_triggers(relation);
	LockRelationOid(relation, ShareUpdateExclusiveLock);
	were = find_kept_row(relation, NULL, &kept_row) && kept_row.sources != NIL;
	if (were)
		note_sources(relation, NIL);
	foreach (cell, triggers ? tables_writing_to(relation) : NIL)
		if (lfirst_oid(cell) == relation ||
			is_part_of(lfirst_oid(cell), relation))
			leave_source(lfirst_oid(cell));
	PG_RETURN_BOOL(were);
}

Datum
safebound_fold(PG_FUNCTION_ARGS)
{
	Oid relation = PG_GETARG_OID(0);
	KeptRow kept_row;

	check_use();
	if (!find_kept_row(relation, NULL, &kept_row))
		ereport(ERROR,
				(errcode(ERRCODE_OBJECT_NOT_IN_PREREQUISITE_STATE),
				 errmsg("no statistics of \"%s\" are kept",
						get_rel_name(relation))));
	PG_RETURN_INT64(keep_again(relation, true));
}

/* Folds a table if it has many deltas and the user owns it. */
static void
fold_if_many(Oid relation)
{
	KeptRow kept_row;

	if (find_kept_row(relation, NULL, &kept_row) && kept_row.sources != NIL &&
		SearchSysCacheExists1(RELOID, ObjectIdGetDatum(relation)) &&
		pg_class_ownercheck(relation, GetUserId()) &&
		has_many_deltas(relation))
		keep_again(relation, true);
}

/* Folds after ANALYZE: the tables that it names, or without names all. */
static void
fold_full(List *named)
{
	List *tables = named == NIL ? all_kept() : named;
	ListCell *cell;

	foreach (cell, tables)
		fold_if_many(lfirst_oid(cell));
}

static bool
analyzes(Node *statement)
{
	VacuumStmt *vacuum = (VacuumStmt *) statement;
	ListCell *cell;

	if (!IsA(statement, VacuumStmt))
		return false;
	if (!vacuum->is_vacuumcmd)
		return true;
	foreach (cell, vacuum->options)
		if (strcmp(lfirst_node(DefElem, cell)->defname, "analyze") == 0 &&
			defGetBoolean(lfirst_node(DefElem, cell)))
			return true;
	return false;
}

static List *
named_tables(VacuumStmt *vacuum)
{
	List *named = NIL;
	ListCell *cell;

	foreach (cell, vacuum->rels)
		if (lfirst_node(VacuumRelation, cell)->relation)
			named = lappend_oid(
				named,
				RangeVarGetRelid(lfirst_node(VacuumRelation, cell)->relation,
								 NoLock, true));
	return named;
}

static void
on_utility(PlannedStmt *statement, const char *text, bool read_only,
		   ProcessUtilityContext context, ParamListInfo parameters,
		   QueryEnvironment *environment, DestReceiver *destination,
		   QueryCompletion *completion)
{
	bool folds =
		analyzes(statement->utilityStmt) && !IsolationUsesXactSnapshot();
	List *named =
		folds ? named_tables((VacuumStmt *) statement->utilityStmt) : NIL;

	if (utility_before)
		utility_before(statement, text, read_only, context, parameters,
					   environment, destination, completion);
	else
		standard_ProcessUtility(statement, text, read_only, context,
								parameters, environment, destination,
								completion);
	if (folds && extension_presence() == PRESENT)
	{
		PushActiveSnapshot(GetTransactionSnapshot());
		fold_full(named);
		PopActiveSnapshot();
	}
}

void
watch_init(void)
{
	TAKE_HOOK(ProcessUtility_hook, utility_before, on_utility);
}
