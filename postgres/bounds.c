/* safebound.bounds: the joins of a query's plan, each with its bound,
 * PostgreSQL's estimate and the statistics used. */
#include "admit.h"

#include "executor/executor.h"
#include "optimizer/optimizer.h"
#include "funcapi.h"
#include "optimizer/pathnode.h"
#include "tcop/tcopprot.h"
#include "utils/array.h"
#include "utils/builtins.h"
#include "utils/lsyscache.h"
#include "catalog/pg_type.h"

PG_FUNCTION_INFO_V1(safebound_bounds_of);

static Query *
analysed(const char *text)
{
	List *parsed = pg_parse_query(text);
	List *queries = list_length(parsed) == 1
		? pg_analyze_and_rewrite_fixedparams(linitial(parsed), text, NULL, 0,
											 NULL)
		: NIL;

	if (list_length(queries) != 1 ||
		linitial_node(Query, queries)->commandType == CMD_UTILITY)
		ereport(ERROR,
				(errcode(ERRCODE_INVALID_PARAMETER_VALUE),
				 errmsg("one statement that has a plan is wanted")));
	return linitial(queries);
}

static BoundedQuery *
query_of_root(List *queries, PlannerInfo *root)
{
	ListCell *cell;

	foreach (cell, queries)
		if (((BoundedQuery *) lfirst(cell))->root == root)
			return lfirst(cell);
	return NULL;
}

/* The names of columns, with a word in front. */
static void
put_columns(StringInfo into, const char *front, Oid relation,
			Bitmapset *columns)
{
	int number = -1;

	while ((number = bms_next_member(columns, number)) >= 0)
	{
		appendStringInfoString(into, front);
		appendStringInfoString(into, get_attname(relation, number, false));
		front = ", ";
	}
}

/* The statistics of a relation in a join: its joined columns, and the columns
 * for whose conditions lists were found. */
static char *
statistics_of(BoundedQuery *query, Relids relids, int relid)
{
	Entry *entry = &query->entries[relid];
	const char *alias = query->root->simple_rte_array[relid]->eref->aliasname;
	Bitmapset *joined = NULL;
	StringInfoData description;
	ListCell *cell;

	initStringInfo(&description);
	appendStringInfoString(&description, alias);
	if (entry->table == NULL)
	{
		appendStringInfoString(&description, ": unknown");
		return description.data;
	}
	for (int i = 0; i < query->columns_length; i++)
		if (query->columns[i].relid == (Index) relid)
			joined = bms_add_member(joined, query->columns[i].number);
	put_columns(&description, ": ", entry->table->relation, joined);
	put_columns(&description, " by ", entry->table->relation, entry->used);
	foreach (cell, query->carried)
	{
		CarrierReference *carried = lfirst(cell);

		if (carried->referring == (Index) relid &&
			bms_is_member(carried->referred, relids) && carried->used)
			put_columns(
				&description,
				psprintf(" by %s.",
						 query->root->simple_rte_array[carried->referred]
							 ->eref->aliasname),
				carried->reference.referred, carried->used);
	}
	return description.data;
}

static Datum
text_array(List *texts)
{
	Datum *datums = palloc((list_length(texts) + 1) * sizeof(Datum));
	ListCell *cell;

	foreach (cell, texts)
		datums[foreach_current_index(cell)] =
			CStringGetTextDatum(lfirst(cell));
	return PointerGetDatum(construct_array(datums, list_length(texts), TEXTOID,
										   -1, false, TYPALIGN_INT));
}

static void
put_join(ReturnSetInfo *into, BoundedQuery *query, Relids relids)
{
	RelOptInfo *rel = find_join_rel(query->root, relids);
	uint64 bound = bound_of_join(query, relids);
	List *names = NIL;
	List *statistics = NIL;
	int relid = -1;
	Datum values[4];
	bool nulls[4] = {false, bound > PG_INT64_MAX, rel == NULL, false};

	while ((relid = bms_next_member(relids, relid)) >= 0)
	{
		names = lappend(names,
						query->root->simple_rte_array[relid]->eref->aliasname);
		statistics = lappend(statistics, statistics_of(query, relids, relid));
	}
	values[0] = text_array(names);
	values[1] = Int64GetDatum((int64) bound);
	values[2] = Int64GetDatum(
		rel ? (int64) Min(clamp_row_est(own_rows(query, rel)), 9e18) : 0);
	values[3] = text_array(statistics);
	tuplestore_putvalues(into->setResult, into->setDesc, values, nulls);
}

/* A join whose relations aren't known. */
static void
put_unknown_join(ReturnSetInfo *into)
{
	Datum values[] = {text_array(NIL), 0, 0, text_array(NIL)};
	bool nulls[] = {false, true, true, false};

	tuplestore_putvalues(into->setResult, into->setDesc, values, nulls);
}

static void
put_bounds(FunctionCallInfo fcinfo, const char *asked)
{
	List *queries;
	List *roots = NIL;
	PlannedStmt *plan = plan_and_store(analysed(asked), asked, &queries);
	ListCell *cell;

	/* A user who may not run the query gets no information about it. */
	ExecCheckRTPerms(plan->rtable, true);
	foreach (cell, queries)
		roots = lappend(roots, ((BoundedQuery *) lfirst(cell))->root);
	InitMaterializedSRF(fcinfo, 0);
	foreach (cell, joins_of_plan(plan, roots))
	{
		PlanJoin *join = lfirst(cell);
		BoundedQuery *query =
			join->root ? query_of_root(queries, join->root) : NULL;

		if (query != NULL)
			put_join((ReturnSetInfo *) fcinfo->resultinfo, query,
					 join->relids);
		else
			put_unknown_join((ReturnSetInfo *) fcinfo->resultinfo);
	}
}

/* Statistics stay in memory after planning, since the bounds are computed from
 * them afterwards. */
Datum
safebound_bounds_of(PG_FUNCTION_ARGS)
{
	char *asked = text_to_cstring(PG_GETARG_TEXT_PP(0));

	check_use();
	kept_hold();
	PG_TRY();
	{
		put_bounds(fcinfo, asked);
	}
	PG_FINALLY();
	{
		kept_release();
	}
	PG_END_TRY();
	return (Datum) 0;
}
