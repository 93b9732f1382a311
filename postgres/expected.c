/* Expected rows of joins: PostgreSQL's own number, corrected by degree lists
   of references to filtered tables, and by counted numbers of distinct values.
 */
#include "planning.h"

#include <math.h>

#include "access/amapi.h"
#include "access/htup_details.h"
#include "catalog/pg_statistic.h"
#include "miscadmin.h"
#include "optimizer/optimizer.h"
#include "optimizer/plancat.h"
#include "utils/acl.h"
#include "utils/index_selfuncs.h"
#include "utils/selfuncs.h"
#include "utils/syscache.h"

/* Of two numbers in a geometric mean, the one that may be far too high has
 * this weight. It is that of a bound of two relations in rows_by_mode. */
#define WEIGHT_OF_TWO 0.25

/* Whether one of the two relations is on the right side of a semi- or
 * anti-join. Such a side adds no rows. */
static bool
is_in_semi_join(BoundedQuery *query, const CarrierReference *carried)
{
	ListCell *cell;

	foreach (cell, query->root->join_info_list)
	{
		SpecialJoinInfo *join = lfirst(cell);

		if ((join->jointype == JOIN_SEMI || join->jointype == JOIN_ANTI) &&
			(bms_is_member(carried->referring, join->syn_righthand) ||
			 bms_is_member(carried->referred, join->syn_righthand)))
			return true;
	}
	return false;
}

/* One share is of the referring rows: those whose referred row satisfies the
   conditions. The other is of the referred relation's rows: those that satisfy
   them. This is the first share divided by the second. PostgreSQL takes both
   for equal. */
static double
share_along(BoundedQuery *query, CarrierReference *carried)
{
	const DegreeList *list = is_in_semi_join(query, carried)
		? NULL
		: carried_list(query, carried, query->columns_length);
	const KeptTable *table = query->entries[carried->referring].table;
	RelOptInfo *referred = query->entries[carried->referred].rel;
	double all = list
		? with_deltas(table, 0, kept_pair(table, 0, 0)->lists[0].list).rows
		: 0;
	double share;

	if (all < 1 || referred->tuples < 1)
		return 1;
	share = (Max(list->rows, 1) / all) /
		(own_rows(query, referred) / referred->tuples);
	return carried->may_overcount && share > 1 ? pow(share, WEIGHT_OF_TWO)
											   : share;
}

double
expected_share(BoundedQuery *query, Relids relids)
{
	double product = 1;
	ListCell *cell;

	foreach (cell, query->carried)
	{
		CarrierReference *carried = lfirst(cell);

		if (!is_carried(carried, relids))
			continue;
		if (carried->share == 0)
			carried->share = share_along(query, carried);
		product *= carried->share;
	}
	return product;
}

double
expected_rows(BoundedQuery *query, RelOptInfo *rel)
{
	return own_rows(query, rel) * expected_share(query, rel->relids);
}

static get_relation_stats_hook_type relation_stats_before;

/* PostgreSQL's statistics of a column, with the number of distinct values that
 * was counted. */
typedef struct CountedStatistics
{
	bool looked_up;
	bool is_readable; /* whether the current user may read the column */
	HeapTuple tuple;  /* NULL where there is none */
} CountedStatistics;

static Entry *
entry_asked_for(BoundedQuery *query, const RangeTblEntry *asked)
{
	for (int i = 1; i < query->root->simple_rel_array_size; i++)
		if (query->root->simple_rte_array[i] == asked)
			return query->entries[i].table ? &query->entries[i] : NULL;
	return NULL;
}

/* The average share of a column's rows that one look-up finds. Each value is
   looked up once, or, with `as_often`, as often as it occurs. 0 if no row has
   a value. */
static double
share_of_value(const DegreeList *list, bool as_often)
{
	double values = 0;
	double rows = 0;
	double squares = 0;

	for (int i = 0; list && i < list->length; i++)
	{
		values += list->runs[i].keys;
		rows += (double) list->runs[i].keys * list->runs[i].degree;
		squares += (double) list->runs[i].keys * list->runs[i].degree *
			list->runs[i].degree;
	}
	if (values == 0)
		return 0;
	return as_often ? squares / (rows * rows) : 1 / values;
}

/* ANALYZE reads a sample, and often finds far too few distinct values. Then
   their number is computed from the counted list. PostgreSQL assumes that all
   values are equally frequent, so it expects a look-up to find 1 / number of
   the rows. This share is set to a mean of both results of share_of_value. */
static void
set_distinct_values(Form_pg_statistic statistics, const DegreeList *list)
{
	double once = share_of_value(list, false);
	double share = pow(once, 1 - WEIGHT_OF_TWO) *
		pow(share_of_value(list, true), WEIGHT_OF_TWO);
	double sampled_values = statistics->stadistinct < 0
		? -statistics->stadistinct * list->rows
		: statistics->stadistinct;

	/* If there are many values, rows that are inserted later bring new ones.
	 * So the number is given as a fraction of the rows, as ANALYZE does. */
	if (once > 0 && sampled_values < 0.95 / once)
		statistics->stadistinct =
			share * list->rows < 10 ? -1 / share / list->rows : 1 / share;
}

static HeapTuple
counted_statistics(const RangeTblEntry *asked, AttrNumber column,
				   const DegreeList *list)
{
	HeapTuple tuple =
		SearchSysCacheCopy3(STATRELATTINH, ObjectIdGetDatum(asked->relid),
							Int16GetDatum(column), BoolGetDatum(asked->inh));

	if (HeapTupleIsValid(tuple))
		set_distinct_values((Form_pg_statistic) GETSTRUCT(tuple), list);
	return HeapTupleIsValid(tuple) ? tuple : NULL;
}

/* Whether the current user may read the column. PostgreSQL checks this itself
 * if no hook gives it statistics. */
static bool
may_read(const RangeTblEntry *entry, AttrNumber column)
{
	Oid user = entry->checkAsUser ? entry->checkAsUser : GetUserId();

	return entry->securityQuals == NIL &&
		(pg_class_aclcheck(entry->relid, user, ACL_SELECT) == ACLCHECK_OK ||
		 pg_attribute_aclcheck(entry->relid, column, user, ACL_SELECT) ==
			 ACLCHECK_OK);
}

static CountedStatistics
look_at_statistics(const Entry *entry, const RangeTblEntry *asked,
				   AttrNumber column)
{
	const KeptPair *pair = kept_pair(entry->table, column, 0);

	return (CountedStatistics){
		.looked_up = true,
		.is_readable = may_read(asked, column),
		.tuple = pair ? counted_statistics(asked, column, &pair->lists[0].list)
					  : NULL};
}

/* The statistics of a column. They are cached while the query is planned,
 * since PostgreSQL asks for them many times. */
static CountedStatistics *
statistics_asked_for(BoundedQuery *query, const RangeTblEntry *asked,
					 AttrNumber column)
{
	Entry *entry = entry_asked_for(query, asked);
	MemoryContext before;

	if (entry == NULL || column <= 0 || column > entry->rel->max_attr)
		return NULL;
	before = MemoryContextSwitchTo(query->root->planner_cxt);
	if (entry->statistics == NULL)
		entry->statistics =
			palloc0((entry->rel->max_attr + 1) * sizeof(CountedStatistics));
	if (!entry->statistics[column].looked_up)
		entry->statistics[column] = look_at_statistics(entry, asked, column);
	MemoryContextSwitchTo(before);
	return &entry->statistics[column];
}

static void
keep_tuple(HeapTuple tuple)
{
}

/* Gives PostgreSQL the counted numbers of distinct values. PostgreSQL uses
   them to estimate rows of joins, and costs of scans that are repeated for
   each row of another relation. */
static bool
on_relation_stats(PlannerInfo *root, RangeTblEntry *entry, AttrNumber column,
				  VariableStatData *data)
{
	BoundedQuery *query = query_being_planned(root);
	CountedStatistics *counted =
		query ? statistics_asked_for(query, entry, column) : NULL;

	if (counted == NULL || counted->tuple == NULL)
		return relation_stats_before &&
			relation_stats_before(root, entry, column, data);
	data->statsTuple = counted->tuple;
	data->freefunc = keep_tuple;
	data->acl_ok = counted->is_readable;
	return true;
}

static const DegreeList *
list_of_all_rows(BoundedQuery *query, Var *var)
{
	Entry *entry = var ? entry_of(query, var->varno) : NULL;
	const KeptPair *pair =
		entry ? kept_pair(entry->table, var->varattno, 0) : NULL;

	return pair ? &pair->lists[0].list : NULL;
}

/* The share of rows that an index on the column `indexed` finds for a value of
   the column `given`. If `given` is unique, each value is looked up once. If
   both are one column, each value is looked up as often as it occurs.
   Otherwise 0, and PostgreSQL's number is unchanged. */
static double
share_found(BoundedQuery *query, Var *indexed, Var *given)
{
	const DegreeList *list = list_of_all_rows(query, indexed);
	const DegreeList *other = list_of_all_rows(query, given);

	if (list == NULL || other == NULL)
		return 0;
	if (other->length == 1 && other->runs[0].degree == 1)
		return share_of_value(list, false);
	if (indexed->varattno == given->varattno &&
		query->entries[indexed->varno].table->relation ==
			query->entries[given->varno].table->relation)
		return share_of_value(list, true);
	return 0;
}

static double
share_of_scan(BoundedQuery *query, const IndexPath *path)
{
	bool is_full_index = path->indexinfo->indpred == NIL;
	RestrictInfo *info = is_full_index && list_length(path->indexclauses) == 1
		? linitial_node(IndexClause, path->indexclauses)->rinfo
		: NULL;
	OpExpr *equality = info ? (OpExpr *) info->clause : NULL;
	Var *left, *right;

	if (equality == NULL || !IsA(equality, OpExpr) ||
		list_length(equality->args) != 2 || info->mergeopfamilies == NIL)
		return 0;
	left = var_of(linitial(equality->args));
	right = var_of(lsecond(equality->args));
	if (left == NULL || right == NULL || left->varno == right->varno)
		return 0;
	return left->varno == (int) path->indexinfo->rel->relid
		? share_found(query, left, right)
		: share_found(query, right, left);
}

/* The cost of a B-tree scan, corrected if the scan is repeated for each row of
 * other relations. */
static void
cost_btree(PlannerInfo *root, IndexPath *path, double loops, Cost *startup,
		   Cost *total, Selectivity *selectivity, double *correlation,
		   double *pages)
{
	BoundedQuery *query = query_being_planned(root);
	double share =
		query && path->path.param_info ? share_of_scan(query, path) : 0;
	double factor;

	btcostestimate(root, path, loops, startup, total, selectivity, correlation,
				   pages);
	factor = share > 0 && *selectivity > 0 ? share / *selectivity : 1;
	*total = *startup + (*total - *startup) * factor;
	*selectivity *= factor;
	*pages *= factor;
}

static get_relation_info_hook_type relation_info_before;

static void
on_relation_info(PlannerInfo *root, Oid relation, bool with_children,
				 RelOptInfo *rel)
{
	ListCell *cell;

	if (relation_info_before)
		relation_info_before(root, relation, with_children, rel);
	foreach (cell, rel->indexlist)
	{
		IndexOptInfo *index = lfirst(cell);

		if (index->amcostestimate == (void (*)()) btcostestimate)
			index->amcostestimate = (void (*)()) cost_btree;
	}
}

void
expected_init(void)
{
	TAKE_HOOK(get_relation_stats_hook, relation_stats_before,
			  on_relation_stats);
	TAKE_HOOK(get_relation_info_hook, relation_info_before, on_relation_info);
}
