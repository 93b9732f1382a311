/* Gives PostgreSQL's planner row numbers from bounds, in the hooks where it
   makes paths. Each hook calls the hook that was set before it. A relation
   without a bound keeps PostgreSQL's number. */
#include "planning.h"

#include <math.h>

#include "optimizer/cost.h"
#include "optimizer/geqo.h"
#include "optimizer/optimizer.h"
#include "optimizer/pathnode.h"
#include "optimizer/paths.h"
#include "optimizer/planner.h"
#include "tcop/tcopprot.h"
#include "utils/hsearch.h"

int estimates_mode = ESTIMATES_OFF;

/* PostgreSQL may expect almost no rows from many joins. A mean takes this
 * number at least. */
#define LEAST_EXPECTED 0.01

static planner_hook_type planner_before;
static set_rel_pathlist_hook_type rel_paths_before;
static set_join_pathlist_hook_type join_paths_before;
static join_search_hook_type join_search_before;
static create_upper_paths_hook_type upper_paths_before;

/* One call of the planner. A function that the planner evaluates may call the
 * planner again. */
typedef struct PlannerCall
{
	struct PlannerCall *outer;
	List *queries; /* of BoundedQuery, one for each PlannerInfo that has joins
					  or scans */
	List **queries_out; /* where the queries are stored at its end; NULL:
						   nowhere */
} PlannerCall;

static PlannerCall *planner_call;

/* Where the next call of the planner stores its queries. */
static List **next_queries_out;

/* How many rows PostgreSQL itself expects of a relation. A join relation is in
 * the hash table once its bound has been asked for. */
typedef struct OwnRows
{
	RelOptInfo *rel;
	double rows;
} OwnRows;

static HTAB *
own_rows_table(void)
{
	HASHCTL control = {.keysize = sizeof(RelOptInfo *),
					   .entrysize = sizeof(OwnRows),
					   .hcxt = CurrentMemoryContext};

	return hash_create("safebound rows", 32, &control,
					   HASH_ELEM | HASH_BLOBS | HASH_CONTEXT);
}

double
own_rows(BoundedQuery *query, RelOptInfo *rel)
{
	OwnRows *own = hash_search(query->estimates, &rel, HASH_FIND, NULL);

	return own ? own->rows : rel->rows;
}

static void
note_own_rows(BoundedQuery *query, RelOptInfo *rel, double rows)
{
	OwnRows *own = hash_search(query->estimates, &rel, HASH_ENTER, NULL);

	own->rows = rows;
}

/* The number of rows to plan with: the bound, or a weighted geometric mean of
   the bound and the expected rows, at most the bound. For one relation both
   have the same weight. A bound assumes at each join that the most frequent
   values meet. So the bound's weight decreases with the number n of relations:
   it is 1/n^2. */
static double
rows_by_mode(double bound, double expected, int relations)
{
	double weight = relations > 1 ? 1.0 / (relations * relations) : 0.5;
	double mean = estimates_mode == ESTIMATES_MEAN
		? pow(bound, weight) * pow(Max(expected, LEAST_EXPECTED), 1 - weight)
		: bound;

	return clamp_row_est(Min(bound, mean));
}

/* If no condition has a list, the bound is that of the whole table and ignores
   the conditions. A mean then keeps PostgreSQL's number, at most the bound. */
static double
scan_rows(const Entry *entry)
{
	bool conditions_unknown = estimates_mode == ESTIMATES_MEAN &&
		entry->rel->baserestrictinfo != NIL && entry->used == NULL;

	return conditions_unknown
		? Min(entry->rel->rows, (double) entry->rows)
		: rows_by_mode((double) entry->rows, entry->rel->rows, 1);
}

/* All base relations get their numbers before the paths of the first one are
 * final, since the cost of its paths depends on the rows of others. */
static void
set_base_rows(BoundedQuery *query)
{
	for (int i = 1; i < query->root->simple_rel_array_size; i++)
	{
		Entry *entry = &query->entries[i];

		if (entry->table == NULL)
			continue;
		note_own_rows(query, entry->rel, entry->rel->rows);
		if (estimates_mode != ESTIMATES_OFF)
			entry->rel->rows = scan_rows(entry);
	}
}

static BoundedQuery *
query_of(PlannerInfo *root, bool make)
{
	BoundedQuery *query;
	MemoryContext before;
	ListCell *cell;

	foreach (cell, planner_call->queries)
		if (((BoundedQuery *) lfirst(cell))->root == root)
			return lfirst(cell);
	if (!make)
		return NULL;
	before = MemoryContextSwitchTo(root->planner_cxt);
	query = bounded_query(root);
	query->estimates = own_rows_table();
	planner_call->queries = lappend(planner_call->queries, query);
	set_base_rows(query);
	MemoryContextSwitchTo(before);
	return query;
}

/* The query of a PlannerInfo if its rows come from bounds; NULL if they are
 * PostgreSQL's own. */
BoundedQuery *
query_being_planned(PlannerInfo *root)
{
	return estimates_mode != ESTIMATES_OFF && planner_call
		? query_of(root, false)
		: NULL;
}

/* Makes the paths that PostgreSQL's allpaths.c makes for a plain table. */
static void
make_scan_paths(PlannerInfo *root, RelOptInfo *rel)
{
	rel->pathlist = NIL;
	rel->partial_pathlist = NIL;
	add_path(rel, create_seqscan_path(root, rel, rel->lateral_relids, 0));
	if (rel->consider_parallel && rel->lateral_relids == NULL)
	{
		int workers = compute_parallel_worker(rel, rel->pages, -1,
											  max_parallel_workers_per_gather);

		if (workers > 0)
			add_partial_path(rel,
							 create_seqscan_path(root, rel, NULL, workers));
	}
	create_index_paths(root, rel);
	create_tidscan_paths(root, rel);
}

/* Sets the rows of a scan that is repeated for each row of other relations:
 * the bound of its join with these relations, divided by their bound. */
static void
set_parameterised_rows(BoundedQuery *query, RelOptInfo *rel,
					   ParamPathInfo *info)
{
	Relids both = bms_union(info->ppi_req_outer, rel->relids);
	uint64 outer = bound_of_set(query, info->ppi_req_outer);
	uint64 joined = outer == UNKNOWN ? UNKNOWN : bound_of_set(query, both);
	double expected;

	if (joined == UNKNOWN)
		return;
	expected = info->ppi_rows * expected_share(query, both) /
		expected_share(query, info->ppi_req_outer);
	info->ppi_rows = Min(rel->rows,
						 rows_by_mode((double) joined / Max(outer, 1),
									  expected, bms_num_members(both)));
}

/* Makes paths again. PostgreSQL has already made them, including those of
   parameterized scans. For the first relation it used its own rows. For the
   other relations only parameterized scans still have PostgreSQL's own rows.
 */
static void
make_paths_again(BoundedQuery *query, RelOptInfo *rel, bool first)
{
	ListCell *cell;

	foreach (cell, rel->ppilist)
	{
		ParamPathInfo *info = lfirst(cell);

		if (first)
			info->ppi_rows = get_parameterized_baserel_size(query->root, rel,
															info->ppi_clauses);
		set_parameterised_rows(query, rel, info);
	}
	if (first || rel->ppilist != NIL)
		make_scan_paths(query->root, rel);
}

/* Sets the rows of a path. If it appends a single path, that path's rows are
 * set too, since the plan uses that path in its place. */
static void
set_path_rows(Path *path, double rows)
{
	List *parts = IsA(path, AppendPath) ? ((AppendPath *) path)->subpaths
		: IsA(path, MergeAppendPath)    ? ((MergeAppendPath *) path)->subpaths
										: NIL;

	path->rows = rows;
	if (list_length(parts) == 1)
		set_path_rows(linitial(parts), rows);
}

/* A partitioned table's paths append paths of its parts, whose rows are
   PostgreSQL's own. The appending paths get their rows from the bound of the
   whole table. */
static void
set_append_rows(BoundedQuery *query, RelOptInfo *rel)
{
	double share = rel->rows / Max(own_rows(query, rel), 1);
	ListCell *cell;

	foreach (cell, rel->pathlist)
	{
		Path *path = lfirst(cell);

		if (path->param_info != NULL)
		{
			path->param_info->ppi_rows = path->rows;
			set_parameterised_rows(query, rel, path->param_info);
		}
		set_path_rows(
			path, path->param_info ? path->param_info->ppi_rows : rel->rows);
	}
	foreach (cell, rel->partial_pathlist)
		set_path_rows(lfirst(cell),
					  clamp_row_est(((Path *) lfirst(cell))->rows * share));
}

static void
on_rel_paths(PlannerInfo *root, RelOptInfo *rel, Index rti, RangeTblEntry *rte)
{
	if (planner_call != NULL &&
		(estimates_mode != ESTIMATES_OFF || planner_call->queries_out))
	{
		bool first = query_of(root, false) == NULL;
		BoundedQuery *query = query_of(root, true);
		bool known = estimates_mode != ESTIMATES_OFF &&
			rti < (Index) root->simple_rel_array_size &&
			query->entries[rti].rel == rel && query->entries[rti].table;

		if (known && rte->inh)
			set_append_rows(query, rel);
		else if (known)
			make_paths_again(query, rel, first);
	}
	if (rel_paths_before)
		rel_paths_before(root, rel, rti, rte);
}

/* For a query over a single partitioned table, PostgreSQL makes the table's
   paths once more from those of its parts. So their rows are set again. At a
   set operation there is no input. */
static void
on_upper_paths(PlannerInfo *root, UpperRelationKind stage, RelOptInfo *input,
			   RelOptInfo *output, void *extra)
{
	BoundedQuery *query = estimates_mode != ESTIMATES_OFF && planner_call &&
			input != NULL && input->reloptkind == RELOPT_BASEREL
		? query_of(root, false)
		: NULL;

	if (query != NULL && query->entries[input->relid].rel == input &&
		query->entries[input->relid].table &&
		root->simple_rte_array[input->relid]->inh)
		set_append_rows(query, input);
	if (upper_paths_before)
		upper_paths_before(root, stage, input, output, extra);
}

/* How many rows PostgreSQL would expect of a join if both sides still had
 * PostgreSQL's own rows. */
static double
own_join_rows(BoundedQuery *query, RelOptInfo *joinrel, RelOptInfo *outer,
			  RelOptInfo *inner, JoinType type)
{
	double rows = joinrel->rows * own_rows(query, outer) / Max(outer->rows, 1);

	if (type != JOIN_SEMI && type != JOIN_ANTI)
		rows *= own_rows(query, inner) / Max(inner->rows, 1);
	return rows;
}

/* Notes PostgreSQL's own rows of a join relation. If the relation has a bound,
   sets its rows, drops its paths and returns true. The caller then has to make
   the paths again. */
static bool
set_join_rows(BoundedQuery *query, RelOptInfo *joinrel, double estimate)
{
	uint64 bound = bound_of_join(query, joinrel->relids);

	note_own_rows(query, joinrel, estimate);
	if (bound == UNKNOWN)
		return false;
	joinrel->rows = rows_by_mode((double) bound, expected_rows(query, joinrel),
								 bms_num_members(joinrel->relids));
	joinrel->pathlist = NIL;
	joinrel->partial_pathlist = NIL;
	joinrel->ppilist = NIL;
	return true;
}

static bool
is_new(BoundedQuery *query, RelOptInfo *joinrel)
{
	return joinrel->reloptkind == RELOPT_JOINREL &&
		hash_search(query->estimates, &joinrel, HASH_FIND, NULL) == NULL;
}

/* PostgreSQL calls this for each pair of sides of a join relation. At the
   first pair this hook sets the relation's rows, and makes the pair's paths
   again. */
static void
on_join_paths(PlannerInfo *root, RelOptInfo *joinrel, RelOptInfo *outer,
			  RelOptInfo *inner, JoinType type, JoinPathExtraData *extra)
{
	BoundedQuery *query =
		root->join_search_private ? NULL : query_being_planned(root);

	if (query != NULL && is_new(query, joinrel) &&
		set_join_rows(query, joinrel,
					  own_join_rows(query, joinrel, outer, inner,
									extra->sjinfo->jointype)))
		return add_paths_to_joinrel(root, joinrel, outer, inner, type,
									extra->sjinfo, extra->restrictlist);
	if (join_paths_before)
		join_paths_before(root, joinrel, outer, inner, type, extra);
}

/* For joins with a condition that names no relation, such as 1 = 2, PostgreSQL
   doesn't call the hook above. A level with such a join is made again. */
static void
search_level(PlannerInfo *root, BoundedQuery *query, int level)
{
	bool again = false;
	ListCell *cell;

	join_search_one_level(root, level);
	foreach (cell, root->join_rel_level[level])
	{
		RelOptInfo *rel = lfirst(cell);

		if (is_new(query, rel) && !IS_DUMMY_REL(rel) &&
			set_join_rows(query, rel, rel->rows))
			again = true;
	}
	if (again)
		join_search_one_level(root, level);
}

/* Does what PostgreSQL's allpaths.c does after it has made the relations of a
 * level. */
static void
finish_level(PlannerInfo *root, int level)
{
	ListCell *cell;

	foreach (cell, root->join_rel_level[level])
	{
		RelOptInfo *rel = lfirst(cell);

		generate_partitionwise_join_paths(root, rel);
		if (!bms_equal(rel->relids, root->all_baserels))
			generate_useful_gather_paths(root, rel, false);
		set_cheapest(rel);
	}
}

/* PostgreSQL's own search, except that `search_level` makes each level. */
static RelOptInfo *
on_join_search(PlannerInfo *root, int levels, List *initial)
{
	BoundedQuery *query = query_being_planned(root);
	RelOptInfo *rel;

	if (join_search_before)
		return join_search_before(root, levels, initial);
	if (enable_geqo && levels >= geqo_threshold)
		return geqo(root, levels, initial);
	if (query == NULL)
		return standard_join_search(root, levels, initial);
	root->join_rel_level = palloc0((levels + 1) * sizeof(List *));
	root->join_rel_level[1] = initial;
	for (int level = 2; level <= levels; level++)
	{
		search_level(root, query, level);
		finish_level(root, level);
	}
	rel = linitial(root->join_rel_level[levels]);
	root->join_rel_level = NULL;
	return rel;
}

static PlannedStmt *
on_planner(Query *parse, const char *text, int options,
		   ParamListInfo parameters)
{
	PlannerCall mine = {.outer = planner_call,
						.queries_out = next_queries_out};
	PlannedStmt *plan;

	if (planner_call == NULL)
		kept_free_dropped();
	next_queries_out = NULL;
	planner_call = &mine;
	PG_TRY();
	{
		plan = planner_before
			? planner_before(parse, text, options, parameters)
			: standard_planner(parse, text, options, parameters);
	}
	PG_FINALLY();
	{
		planner_call = mine.outer;
	}
	PG_END_TRY();
	if (mine.queries_out)
		*mine.queries_out = mine.queries;
	return plan;
}

/* Plans a query as this session would. Stores in `queries` the relations and
 * equalities of each part of the query. */
PlannedStmt *
plan_and_store(Query *query, const char *text, List **queries)
{
	PlannedStmt *plan;

	*queries = NIL;
	next_queries_out = queries;
	PG_TRY();
	{
		plan = pg_plan_query(query, text, CURSOR_OPT_PARALLEL_OK, NULL);
	}
	PG_FINALLY();
	{
		/* Another planner hook may have failed before ours took
		 * `next_queries_out`. */
		next_queries_out = NULL;
	}
	PG_END_TRY();
	return plan;
}

void
planning_init(void)
{
	expected_init();
	TAKE_HOOK(planner_hook, planner_before, on_planner);
	TAKE_HOOK(set_rel_pathlist_hook, rel_paths_before, on_rel_paths);
	TAKE_HOOK(set_join_pathlist_hook, join_paths_before, on_join_paths);
	TAKE_HOOK(join_search_hook, join_search_before, on_join_search);
	TAKE_HOOK(create_upper_paths_hook, upper_paths_before, on_upper_paths);
}
