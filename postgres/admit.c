/* Admission: a query is refused before it runs if a join of its plan may have
   more rows than safebound.budget.

   The hook of the planner stores in the plan all that is needed to compute the
   bounds of its joins. They are computed when the plan starts to run, with the
   snapshot and the parameters of that run: a plan may come from an earlier
   snapshot, or be cached and run many times. */
#include "admit.h"

#include "access/parallel.h"
#include "access/table.h"
#include "access/xact.h"
#include "catalog/pg_class.h"
#include "catalog/pg_db_role_setting.h"
#include "executor/executor.h"
#include "lib/stringinfo.h"
#include "miscadmin.h"
#include "optimizer/paths.h"
#include "optimizer/planner.h"
#include "utils/guc.h"
#include "utils/guc_tables.h"
#include "utils/lsyscache.h"
#include "utils/memutils.h"
#include "utils/plancache.h"
#include "utils/snapmgr.h"

/* The standard leaves the SQLSTATE class SB to implementations. */
#define ERRCODE_BUDGET MAKE_SQLSTATE('S', 'B', '0', '0', '1')
#define ERRCODE_UNBOUNDED MAKE_SQLSTATE('S', 'B', '0', '0', '2')

typedef enum UnboundedChoice
{
	UNBOUNDED_REFUSE,
	UNBOUNDED_ADMIT
} UnboundedChoice;

static const struct config_enum_entry unbounded_choices[] = {
	{"refuse", UNBOUNDED_REFUSE, false},
	{"admit", UNBOUNDED_ADMIT, false},
	{NULL, 0, false}};

static int budget;
static int unbounded_setting;

static planner_hook_type planner_before;
static set_rel_pathlist_hook_type rel_paths_before;
static create_upper_paths_hook_type upper_paths_before;
static ExecutorStart_hook_type start_before;

/* A call of the planner. Calls may nest: the planner may evaluate a function,
 * whose queries are planned too. */
typedef struct PlannerCall
{
	struct PlannerCall *outer;
	List *roots; /* each PlannerInfo that made paths or a whole result */
} PlannerCall;

static PlannerCall *planner_call;

/* A plan that was cached while there was no budget lacks the data for its
 * bounds. So all plans are made again. */
static void
on_budget(int changed, void *extra)
{
	if (budget == 0 && changed > 0)
		ResetPlanCache();
}

/* Whether the planner is at work. It may evaluate a user's functions. */
bool
is_planning(void)
{
	return planner_call != NULL;
}

static void
note_root(PlannerInfo *root)
{
	if (planner_call != NULL)
		planner_call->roots =
			list_append_unique_ptr(planner_call->roots, root);
}

static void
on_rel_paths(PlannerInfo *root, RelOptInfo *rel, Index rti, RangeTblEntry *rte)
{
	note_root(root);
	if (rel_paths_before)
		rel_paths_before(root, rel, rti, rte);
}

static void
on_upper_paths(PlannerInfo *root, UpperRelationKind stage, RelOptInfo *input,
			   RelOptInfo *output, void *extra)
{
	if (stage == UPPERREL_FINAL)
		note_root(root);
	if (upper_paths_before)
		upper_paths_before(root, stage, input, output, extra);
}

static PlannedStmt *
call_planner_before(Query *parse, const char *text, int options,
					ParamListInfo parameters)
{
	return planner_before ? planner_before(parse, text, options, parameters)
						  : standard_planner(parse, text, options, parameters);
}

static PlannedStmt *
on_planner(Query *parse, const char *text, int options,
		   ParamListInfo parameters)
{
	PlannerCall mine = {planner_call, NIL};
	PlannedStmt *plan;
	bool exempt;

	if (budget == 0)
		return call_planner_before(parse, text, options, parameters);
	exempt = reads_catalogs_alone(parse);
	planner_call = &mine;
	PG_TRY();
	{
		plan = call_planner_before(parse, text, options, parameters);
	}
	PG_FINALLY();
	{
		planner_call = mine.outer;
	}
	PG_END_TRY();
	if (!has_joins(plan))
		return plan;
	if (exempt)
		put_exemption(plan);
	else
		put_bound_data(plan, joins_of_plan(plan, mine.roots));
	return plan;
}

/* The relations of a join, as the query names them. */
static char *
names_of(PlannerInfo *root, List *join)
{
	StringInfoData names;
	ListCell *cell;

	initStringInfo(&names);
	foreach (cell, join)
	{
		RangeTblEntry *entry = root->simple_rte_array[lfirst_int(cell)];
		const char *alias = entry->eref ? entry->eref->aliasname : "?";
		const char *table =
			entry->rtekind == RTE_RELATION ? get_rel_name(entry->relid) : NULL;

		if (foreach_current_index(cell) > 0)
			appendStringInfoString(&names, lnext(join, cell) ? ", " : " and ");
		if (table && strcmp(table, alias) != 0)
			appendStringInfo(&names, "%s AS ", table);
		appendStringInfoString(&names, alias);
	}
	return names.data;
}

/* Why a relation of a join has no bound, and how to give it one. NULL if it
 * has a bound. */
static char *
why_entry(BoundedQuery *query, int relid)
{
	RangeTblEntry *entry = query->root->simple_rte_array[relid];
	const char *name = entry->eref->aliasname;

	if (query->entries[relid].table)
		return NULL;
	if (entry->rtekind != RTE_RELATION)
		return psprintf("%s is a function, VALUES, or a subquery that stays "
						"apart in the plan. These have no bound.",
						name);
	if (entry->relkind == RELKIND_FOREIGN_TABLE)
		return psprintf("%s is a foreign table. These have no bound.", name);
	if (entry->inh && entry->relkind != RELKIND_PARTITIONED_TABLE)
		return psprintf("%s has children. Only its parts have bounds, where a "
						"query names them.",
						name);
	if (entry->tablesample)
		return psprintf("TABLESAMPLE of %s has no bound.", name);
	return why_not_known(entry->relid);
}

/* Why a join has no bound: its first relation without a bound, or else the
 * limit that the join exceeds. */
static char *
why_unbounded(BoundedQuery *query, List *join, Relids relids)
{
	ListCell *cell;

	foreach (cell, join)
	{
		char *why = why_entry(query, lfirst_int(cell));

		if (why != NULL)
			return why;
	}
	if (list_length(special_joins_within(query, relids)) > MOST_SPECIAL_JOINS)
		return psprintf(
			"A join with more than %d outer and semi-joins has no bound.",
			MOST_SPECIAL_JOINS);
	if (any_torn(query, relids))
		return pstrdup("It joins a part of an outer or semi-join.");
	if (list_length(join) > SAFEBOUND_MOST_ENTRIES)
		return psprintf("A join of more than %d tables has no bound.",
						SAFEBOUND_MOST_ENTRIES);
	return pstrdup("Its bound passes 64 bits. More conditions on columns that "
				   "are kept help.");
}

static void
refuse_unbounded(const char *relations, const char *why)
{
	if (unbounded_setting == UNBOUNDED_ADMIT)
		return;
	ereport(ERROR,
			(errcode(ERRCODE_UNBOUNDED),
			 errmsg("a join of this query has no bound, and "
					"safebound.unbounded is refuse"),
			 relations ? errdetail("It joins %s.", relations) : 0,
			 errhint("%s", why)));
}

/* The hint of a refusal by the budget. It names safebound.estimates = bound
 * where that isn't set. */
static const char *
advice(void)
{
	if (estimates_mode != ESTIMATES_BOUND)
		return "More conditions on columns that are kept help. So does "
			   "safebound.estimates = bound: the planner then looks for an "
			   "order by bounds.";
	return "More conditions on columns that are kept help. So does "
		   "safebound.fold for tables to which rows came.";
}

static void
check_join(BoundedQuery *query, List *join)
{
	Relids relids = NULL;
	uint64 bound;
	ListCell *cell;

	foreach (cell, join)
		relids = bms_add_member(relids, lfirst_int(cell));
	bound = bound_of_join(query, relids);
	if (bound == UNKNOWN)
		refuse_unbounded(names_of(query->root, join),
						 why_unbounded(query, join, relids));
	if (bound != UNKNOWN && bound > (uint64) budget)
		ereport(ERROR,
				(errcode(ERRCODE_BUDGET),
				 errmsg("a join of this query may have %llu rows, and "
						"safebound.budget is %d",
						(unsigned long long) bound, budget),
				 errdetail("It joins %s.", names_of(query->root, join)),
				 errhint("%s", advice())));
}

static void
check_root(List *root_data, ParamListInfo parameters)
{
	BoundedQuery *query = bounded_query(root_of_data(root_data, parameters));
	ListCell *cell;

	foreach (cell, joins_of_data(root_data))
		check_join(query, lfirst(cell));
}

/* In a parallel worker nobody knows which tables the leader's statements are
 * writing to, so its rows may not be counted yet. */
static bool
may_be_writing(void)
{
	return IsParallelWorker() &&
		TransactionIdIsValid(GetTopTransactionIdIfAny());
}

/* Bounds all joins of a plan in the active snapshot. Raises an error at the
   first one that is refused. An error tells something about the tables, so it
   is raised for those alone who may read them. */
static void
check_plan(PlannedStmt *plan, ParamListInfo parameters)
{
	List *bound_data = bound_data_of(plan);

	if (bound_data == NIL ? !has_joins(plan) : is_exempt_data(bound_data))
		return;
	ExecCheckRTPerms(plan->rtable, true);
	if (bound_data == NIL || unknown_joins_of_data(bound_data) > 0)
		refuse_unbounded(
			NULL,
			"What it joins can't be told from the plan: another extension may "
			"have made it.");
	else if (may_be_writing())
		refuse_unbounded(NULL,
						 "A parallel worker runs it in a transaction that "
						 "writes. max_parallel_workers_per_gather = 0 helps.");
	for (int i = 1; i < list_length(bound_data); i++)
		check_root(list_nth(bound_data, i), parameters);
}

static void
admit(QueryDesc *query)
{
	MemoryContext own = AllocSetContextCreate(
		CurrentMemoryContext, "safebound admission", ALLOCSET_DEFAULT_SIZES);
	MemoryContext before = MemoryContextSwitchTo(own);
	bool fresh_before = kept_fresh_only;

	PushActiveSnapshot(query->snapshot);
	kept_hold();
	kept_fresh_only = true;
	PG_TRY();
	{
		check_plan(query->plannedstmt, query->params);
	}
	PG_FINALLY();
	{
		kept_fresh_only = fresh_before;
		kept_release();
	}
	PG_END_TRY();
	PopActiveSnapshot();
	MemoryContextSwitchTo(before);
	MemoryContextDelete(own);
}

/* EXPLAIN without ANALYZE runs nothing, so it isn't checked. */
static void
check_and_start(QueryDesc *query, int flags, bool exempt)
{
	if (budget > 0 && !exempt &&
		!(flags & (EXEC_FLAG_EXPLAIN_ONLY | EXEC_FLAG_WITH_NO_DATA)))
		admit(query);
	if (start_before)
		start_before(query, flags);
	else
		standard_ExecutorStart(query, flags);
}

static void
on_start(QueryDesc *query, int flags)
{
	bool exempt = is_exempt_start(query);
	int *running = begin_running();

	if (running == NULL)
		return check_and_start(query, flags, exempt);
	PG_TRY();
	{
		check_and_start(query, flags, exempt);
	}
	PG_FINALLY();
	{
		end_running(running);
	}
	PG_END_TRY();
}

/* Applies the settings of the role and the database again, as at the beginning
 * of a session. */
static void
apply_settings(void)
{
	bool begins = !IsTransactionState();
	Relation settings;
	Snapshot snapshot;

	if (begins)
		StartTransactionCommand();
	settings = table_open(DbRoleSettingRelationId, AccessShareLock);
	snapshot = RegisterSnapshot(GetCatalogSnapshot(DbRoleSettingRelationId));
	ApplySetting(snapshot, MyDatabaseId, GetSessionUserId(), settings,
				 PGC_S_DATABASE_USER);
	ApplySetting(snapshot, InvalidOid, GetSessionUserId(), settings,
				 PGC_S_USER);
	ApplySetting(snapshot, MyDatabaseId, InvalidOid, settings, PGC_S_DATABASE);
	ApplySetting(snapshot, InvalidOid, InvalidOid, settings, PGC_S_GLOBAL);
	UnregisterSnapshot(snapshot);
	table_close(settings, AccessShareLock);
	if (begins)
		CommitTransactionCommand();
}

/* Whether a setting got a value before it was defined, and that value was
 * refused. The setting then has its default. */
static bool
was_denied(const char *name, bool given)
{
	struct config_generic **settings = get_guc_variables();

	for (int i = 0; given && i < GetNumConfigOptions(); i++)
		if (strcmp(settings[i]->name, name) == 0)
			return settings[i]->source == PGC_S_DEFAULT;
	return false;
}

static void
define_settings(void)
{
	DefineCustomIntVariable(
		"safebound.budget",
		"The most rows that a join of a query may have, by its bound.",
		"A query with a join that may have more is refused before it runs. 0: "
		"no budget.",
		&budget, 0, 0, INT_MAX, PGC_SUSET, 0, NULL, on_budget, NULL);
	DefineCustomEnumVariable("safebound.unbounded",
							 "What is done with a query of which a join has "
							 "no bound, where there is a budget.",
							 NULL, &unbounded_setting, UNBOUNDED_REFUSE,
							 unbounded_choices, PGC_SUSET, 0, NULL, NULL,
							 NULL);
}

/* Before the library is loaded, a session can begin with any value of these
   settings. When they are defined here, PostgreSQL refuses a value that the
   user may not set. But that value has replaced the value from the role, the
   database or the server, so these values are applied again. */
static void
define_guarded_settings(void)
{
	bool budget_given =
		GetConfigOption("safebound.budget", true, false) != NULL;
	bool unbounded_given =
		GetConfigOption("safebound.unbounded", true, false) != NULL;

	define_settings();
	if (!OidIsValid(MyDatabaseId) || IsParallelWorker() ||
		!(was_denied("safebound.budget", budget_given) ||
		  was_denied("safebound.unbounded", unbounded_given)))
		return;
	apply_settings();
	ProcessConfigFile(PGC_SIGHUP);
}

void
admit_init(void)
{
	define_guarded_settings();
	TAKE_HOOK(planner_hook, planner_before, on_planner);
	TAKE_HOOK(set_rel_pathlist_hook, rel_paths_before, on_rel_paths);
	TAKE_HOOK(create_upper_paths_hook, upper_paths_before, on_upper_paths);
	TAKE_HOOK(ExecutorStart_hook, start_before, on_start);
}
