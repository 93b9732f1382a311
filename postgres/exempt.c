/* Queries that are admitted whatever they join: those over PostgreSQL's own
   catalogs alone, those that PostgreSQL makes itself to check foreign keys and
   to refresh a materialized view, and the part of a query that a parallel
   worker runs.

   Nobody may give another query the mark of one of these. So a mark is nothing
   that a query says, such as a name or a text: it is where in PostgreSQL the
   query was started. */
#include "admit.h"
#include "watch.h"

#include "access/htup_details.h"
#include "access/parallel.h"
#include "access/table.h"
#include "access/xact.h"
#include "catalog/catalog.h"
#include "catalog/dependency.h"
#include "catalog/namespace.h"
#include "catalog/pg_class.h"
#include "catalog/pg_index.h"
#include "commands/extension.h"
#include "executor/executor.h"
#include "nodes/nodeFuncs.h"
#include "parser/parsetree.h"
#include "tcop/utility.h"
#include "utils/fmgroids.h"
#include "utils/lsyscache.h"
#include "utils/rel.h"
#include "utils/relcache.h"
#include "utils/rls.h"
#include "utils/syscache.h"

static ExecutorCheckPerms_hook_type check_rights_before;
static ExecutorRun_hook_type run_before;
static ExecutorFinish_hook_type finish_before;
static ProcessUtility_hook_type utility_before;

/* A query, or a subquery, in which catalogs are looked for, and those around
 * it. */
typedef struct CatalogSearch
{
	struct CatalogSearch *outer;
	Query *query;
} CatalogSearch;

static bool any_other_source(Query *query, CatalogSearch *outer);

/* Whether a table is a system catalog or one of this extension's tables. */
static bool
is_catalog(Oid relation)
{
	return IsCatalogRelationOid(relation) || is_own_table(relation);
}

/* Whether a view came with PostgreSQL or with this extension. */
static bool
is_view_of_system(Oid view)
{
	Oid extension = get_extension_oid("safebound", true);

	return view < FirstNormalObjectId ||
		(OidIsValid(extension) &&
		 getExtensionOfObject(RelationRelationId, view) == extension);
}

/* Whether a query is the text of such a view. The rewriter puts the view
 * itself before its entries. */
static bool
is_system_view(Query *query)
{
	RangeTblEntry *first = query->rtable ? linitial(query->rtable) : NULL;

	return first && first->rtekind == RTE_RELATION &&
		first->relkind == RELKIND_VIEW && is_view_of_system(first->relid);
}

/* Whether a query is within the text of such a view. */
static bool
is_in_system_view(CatalogSearch *search)
{
	for (; search; search = search->outer)
		if (is_system_view(search->query))
			return true;
	return false;
}

/* Whether an expression is a column of a catalog, perhaps as another type. An
 * array has as many elements then. */
static bool
is_catalog_column(Node *node, CatalogSearch *search)
{
	RangeTblEntry *entry;

	while (node && (IsA(node, RelabelType) || IsA(node, ArrayCoerceExpr)))
		node = IsA(node, RelabelType)
			? (Node *) ((RelabelType *) node)->arg
			: (Node *) ((ArrayCoerceExpr *) node)->arg;
	if (node == NULL || !IsA(node, Var))
		return false;
	for (Index i = 0; i < ((Var *) node)->varlevelsup && search; i++)
		search = search->outer;
	if (search == NULL)
		return false;
	entry = rt_fetch(((Var *) node)->varno, search->query->rtable);
	return entry->rtekind == RTE_RELATION && is_catalog(entry->relid);
}

static bool
is_call_on_column(Node *node, Oid function, CatalogSearch *search)
{
	return node && IsA(node, FuncExpr) &&
		((FuncExpr *) node)->funcid == function &&
		is_catalog_column(linitial(((FuncExpr *) node)->args), search);
}

/* Whether a function makes its rows from a column of a catalog, or from a
 * constant and catalogs, as in the queries by which psql describes things. */
static bool
is_of_catalog(Node *node, CatalogSearch *search)
{
	FuncExpr *call = (FuncExpr *) node;

	if (!IsA(call, FuncExpr))
		return false;
	switch (call->funcid)
	{
		case F_PG_PARTITION_TREE:
		case F_PG_PARTITION_ANCESTORS:
			return IsA(linitial(call->args), Const) ||
				is_catalog_column(linitial(call->args), search);
		case F_UNNEST_ANYARRAY:
		case F_PG_OPTIONS_TO_TABLE:
			return is_catalog_column(linitial(call->args), search);
		case F_GENERATE_SERIES_INT4_INT4:
			return IsA(linitial(call->args), Const) &&
				is_call_on_column(lsecond(call->args), F_ARRAY_UPPER, search);
		default:
			return false;
	}
}

static bool
all_of_catalog(RangeTblEntry *entry, CatalogSearch *search)
{
	ListCell *cell;

	foreach (cell, entry->functions)
		if (!is_of_catalog(lfirst_node(RangeTblFunction, cell)->funcexpr,
						   search))
			return false;
	return true;
}

/* Whether an entry may have rows that aren't of a catalog. Subqueries are
 * looked at on their own. */
static bool
is_other_source(RangeTblEntry *entry, CatalogSearch *search)
{
	switch (entry->rtekind)
	{
		case RTE_RELATION:
			return entry->relkind != RELKIND_VIEW && !is_catalog(entry->relid);
		case RTE_SUBQUERY:
		case RTE_JOIN:
		case RTE_VALUES:
		case RTE_RESULT:
			return false;
		case RTE_CTE:
			return entry->self_reference;
		case RTE_FUNCTION:
			return !is_in_system_view(search) &&
				!all_of_catalog(entry, search);
		default:
			return true;
	}
}

static bool
find_other_source(Node *node, CatalogSearch *search)
{
	if (node == NULL)
		return false;
	if (IsA(node, RangeTblEntry))
		return is_other_source((RangeTblEntry *) node, search);
	if (IsA(node, Query))
		return any_other_source((Query *) node, search);
	if (IsA(node, FuncExpr) && ((FuncExpr *) node)->funcretset &&
		!is_in_system_view(search) && !is_of_catalog(node, search))
		return true;
	return expression_tree_walker(node, find_other_source, search);
}

static bool
any_other_source(Query *query, CatalogSearch *outer)
{
	CatalogSearch search = {outer, query};

	return query_tree_walker(query, find_other_source, &search,
							 QTW_EXAMINE_RTES_BEFORE);
}

static bool
find_catalog(Node *node, void *nothing)
{
	if (node == NULL)
		return false;
	if (IsA(node, RangeTblEntry))
		return ((RangeTblEntry *) node)->rtekind == RTE_RELATION &&
			is_catalog(((RangeTblEntry *) node)->relid);
	if (IsA(node, Query))
		return query_tree_walker((Query *) node, find_catalog, nothing,
								 QTW_EXAMINE_RTES_BEFORE);
	return expression_tree_walker(node, find_catalog, nothing);
}

/* Whether a query reads catalogs, and all its rows come from them and from
   VALUES. The query is as the rewriter leaves it. */
bool
reads_catalogs_alone(Query *query)
{
	return query->commandType == CMD_SELECT &&
		find_catalog((Node *) query, NULL) && !any_other_source(query, NULL);
}

/* The two tables of a new foreign key that PostgreSQL is about to check with
 * the next query that starts; InvalidOid if there is none. */
static Oid checked_key[2];

static void
forget_checked_key(void)
{
	checked_key[0] = checked_key[1] = InvalidOid;
}

static bool
is_plain(RangeTblEntry *entry)
{
	return entry->rtekind == RTE_RELATION &&
		check_enable_rls(entry->relid, InvalidOid, true) != RLS_ENABLED;
}

/* PostgreSQL's check of a new foreign key asks for the rights on both tables,
   and wants no error. Nothing else does. It then runs its query, unless row
   security applies. */
static bool
on_check_rights(List *entries, bool raise)
{
	bool may =
		check_rights_before ? check_rights_before(entries, raise) : true;

	if (!raise && may && list_length(entries) == 2 &&
		is_plain(linitial(entries)) && is_plain(lsecond(entries)))
	{
		checked_key[0] = linitial_node(RangeTblEntry, entries)->relid;
		checked_key[1] = lsecond_node(RangeTblEntry, entries)->relid;
	}
	return may;
}

/* Whether a plan's tables all satisfy a test, and it reads nothing else. */
static bool
reads_only(PlannedStmt *plan, bool (*test)(Oid))
{
	ListCell *cell;

	foreach (cell, plan->rtable)
	{
		RangeTblEntry *entry = lfirst(cell);

		if (entry->rtekind == RTE_RELATION ? !test(entry->relid)
										   : entry->rtekind != RTE_JOIN &&
					entry->rtekind != RTE_SUBQUERY &&
					entry->rtekind != RTE_RESULT)
			return false;
	}
	return true;
}

static bool
is_in_checked_key(Oid relation)
{
	return relation == checked_key[0] || relation == checked_key[1] ||
		is_part_of(relation, checked_key[0]) ||
		is_part_of(relation, checked_key[1]);
}

/* Whether a query is the check of a new foreign key: the first one that starts
   after the rights were asked for. Queries of functions that the planner
   evaluates meanwhile are others. */
static bool
is_key_check(QueryDesc *query)
{
	bool is_check;

	if (!OidIsValid(checked_key[0]) || is_planning())
		return false;
	is_check = reads_only(query->plannedstmt, is_in_checked_key);
	forget_checked_key();
	return is_check;
}

/* A statement that is running and asks joins of PostgreSQL's own: REFRESH
 * MATERIALIZED VIEW CONCURRENTLY, or the detaching of a part to which a
 * foreign key refers. */
typedef struct AskingStatement
{
	struct AskingStatement *outer;
	RangeVar *refreshed; /* NULL: it detaches a part */
	int running;         /* how many queries are running within it */
} AskingStatement;

static AskingStatement *asking;

static bool
has_expressions(Oid index)
{
	HeapTuple tuple = SearchSysCache1(INDEXRELID, ObjectIdGetDatum(index));
	bool any = !HeapTupleIsValid(tuple) ||
		!heap_attisnull(tuple, Anum_pg_index_indexprs, NULL) ||
		!heap_attisnull(tuple, Anum_pg_index_indpred, NULL);

	if (HeapTupleIsValid(tuple))
		ReleaseSysCache(tuple);
	return any;
}

/* Whether a view has an index with expressions. PostgreSQL evaluates them when
 * it looks at the index, outside of any query. */
static bool
has_index_expressions(Oid view)
{
	Relation relation = table_open(view, AccessShareLock);
	bool any = false;
	ListCell *cell;

	foreach (cell, RelationGetIndexList(relation))
		any = any || has_expressions(lfirst_oid(cell));
	table_close(relation, AccessShareLock);
	return any;
}

static bool
is_refreshed_table(Oid relation)
{
	return get_rel_persistence(relation) == RELPERSISTENCE_TEMP ||
		(get_rel_relkind(relation) == RELKIND_MATVIEW &&
		 relation == RangeVarGetRelid(asking->refreshed, NoLock, true));
}

/* Whether a plan reads the refreshed view and the temporary tables that have
 * its new rows, and a user's function can't have asked it. */
static bool
compares_refreshed(PlannedStmt *plan)
{
	Oid view = RangeVarGetRelid(asking->refreshed, NoLock, true);

	return OidIsValid(view) && reads_only(plan, is_refreshed_table) &&
		!has_index_expressions(view);
}

/* Whether the statement itself asks a query. A user's function runs within
 * another query or within the planner. */
static bool
is_of_statement(QueryDesc *query)
{
	return asking && asking->running == 0 && !is_planning() &&
		(asking->refreshed == NULL || compares_refreshed(query->plannedstmt));
}

/* Whether a query is a parallel worker's part of its leader's query, which was
 * checked there. It sends its rows to the leader. */
static bool
is_leaders(QueryDesc *query)
{
	return IsParallelWorker() && query->dest &&
		query->dest->mydest == DestTupleQueue;
}

bool
is_exempt_start(QueryDesc *query)
{
	bool is_check = is_key_check(query);

	return is_check || is_leaders(query) || is_of_statement(query);
}

/* Notes that a query starts, runs or finishes within an asking statement.
 * Returns what `end_running` takes; NULL if there is no such statement. */
int *
begin_running(void)
{
	if (asking)
		asking->running++;
	return asking ? &asking->running : NULL;
}

void
end_running(int *running)
{
	if (running)
		--*running;
}

static void
run(QueryDesc *query, ScanDirection direction, uint64 count, bool once)
{
	if (run_before)
		run_before(query, direction, count, once);
	else
		standard_ExecutorRun(query, direction, count, once);
}

static void
on_run(QueryDesc *query, ScanDirection direction, uint64 count, bool once)
{
	int *running = begin_running();

	if (running == NULL)
		return run(query, direction, count, once);
	PG_TRY();
	{
		run(query, direction, count, once);
	}
	PG_FINALLY();
	{
		end_running(running);
	}
	PG_END_TRY();
}

static void
finish(QueryDesc *query)
{
	if (finish_before)
		finish_before(query);
	else
		standard_ExecutorFinish(query);
}

static void
on_finish(QueryDesc *query)
{
	int *running = begin_running();

	if (running == NULL)
		return finish(query);
	PG_TRY();
	{
		finish(query);
	}
	PG_FINALLY();
	{
		end_running(running);
	}
	PG_END_TRY();
}

static void
run_utility(PlannedStmt *statement, const char *text, bool read_only,
			ProcessUtilityContext context, ParamListInfo parameters,
			QueryEnvironment *environment, DestReceiver *receiver,
			QueryCompletion *completion)
{
	if (utility_before)
		utility_before(statement, text, read_only, context, parameters,
					   environment, receiver, completion);
	else
		standard_ProcessUtility(statement, text, read_only, context,
								parameters, environment, receiver, completion);
}

/* Whether a statement asks joins of PostgreSQL's own. Sets the view that it
 * refreshes. */
static bool
is_asking(Node *statement, RangeVar **refreshed)
{
	RefreshMatViewStmt *refresh = (RefreshMatViewStmt *) statement;
	AlterTableStmt *alter = (AlterTableStmt *) statement;

	*refreshed = NULL;
	if (IsA(statement, RefreshMatViewStmt))
	{
		*refreshed = refresh->relation;
		return refresh->concurrent;
	}
	/* PostgreSQL combines the detaching of a part with nothing else. */
	return IsA(statement, AlterTableStmt) && list_length(alter->cmds) == 1 &&
		linitial_node(AlterTableCmd, alter->cmds)->subtype ==
		AT_DetachPartition;
}

static void
on_utility(PlannedStmt *statement, const char *text, bool read_only,
		   ProcessUtilityContext context, ParamListInfo parameters,
		   QueryEnvironment *environment, DestReceiver *receiver,
		   QueryCompletion *completion)
{
	AskingStatement mine = {.outer = asking};

	if (!is_asking(statement->utilityStmt, &mine.refreshed))
		return run_utility(statement, text, read_only, context, parameters,
						   environment, receiver, completion);
	asking = &mine;
	PG_TRY();
	{
		run_utility(statement, text, read_only, context, parameters,
					environment, receiver, completion);
	}
	PG_FINALLY();
	{
		asking = mine.outer;
	}
	PG_END_TRY();
}

static void
on_transaction_end(XactEvent event, void *argument)
{
	forget_checked_key();
}

static void
on_subtransaction_end(SubXactEvent event, SubTransactionId mine,
					  SubTransactionId parent, void *argument)
{
	forget_checked_key();
}

void
exempt_init(void)
{
	TAKE_HOOK(ExecutorCheckPerms_hook, check_rights_before, on_check_rights);
	TAKE_HOOK(ExecutorRun_hook, run_before, on_run);
	TAKE_HOOK(ExecutorFinish_hook, finish_before, on_finish);
	TAKE_HOOK(ProcessUtility_hook, utility_before, on_utility);
	RegisterXactCallback(on_transaction_end, NULL);
	RegisterSubXactCallback(on_subtransaction_end, NULL);
}
