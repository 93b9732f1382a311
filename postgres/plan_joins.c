/* The joins of a finished plan, each with the relations that it joins.

   While a query is planned, each path points to the relation whose rows it
   makes, and a join relation has the set of relations that it joins. A plan is
   made from the chosen path, node by node, and doesn't have these sets. So
   both trees are walked together, and each join node gets the set of the path
   from which it was made.

   Why the bound of this set is never less than the rows of the node:

   - A path of a join relation makes the rows of the query's join of exactly
	 the relations in the set, whatever the order in which it joins them. If
	 it is repeated for each row of another relation, or joins parts of
	 partitioned tables, it makes some of them. The planner may replace a side
	 by a node without rows, since its conditions contradict each other or all
	 its parts were pruned. The set of the join has the relations of that side
	 still, though no scan of the plan names them.
   - The walk starts at the paths of the whole query, or of a subquery of its
	 own, within the planner's call that made this plan: both have the same
	 range table in memory. It goes on only while both trees agree: a node and
	 a path are the same kind of join, with the same numbers of rows and costs,
	 and have equally many nodes below. If they differ anywhere, all joins of
	 the tree are unknown.
   - The sets aren't trusted blindly. All scans below a node have to be of
	 relations of its set, or of subqueries in it. Otherwise the node is
	 unknown.
   - A join that is unknown has no bound, and never a smaller one.

   A plan's scans name entries of the plan's own range table, which has the
   entries of all subqueries one behind the other. The planner copies an entry
   into it together with the pointer to its names, so the entry can be found
   again by that pointer. A scan below a join may belong to a subquery whose
   own scan node the planner removed. It is then taken for that subquery. */
#include "admit.h"

#include "miscadmin.h"
#include "nodes/pathnodes.h"
#include "utils/hsearch.h"

/* The origin of an entry of the range table. */
typedef struct Origin
{
	Alias *names;
	PlannerInfo *root;
	Index relid;
} Origin;

/* A node that joins, and what its path joins. */
typedef struct MatchedJoin
{
	Plan *node;
	PlannerInfo *root;
	Relids relids;
} MatchedJoin;

typedef struct JoinSearch
{
	PlannedStmt *plan;
	HTAB *origins; /* of Origin, by names */
	HTAB *matched; /* of MatchedJoin, by node */
	List *joins;   /* of PlanJoin */
} JoinSearch;

/* The entries that a single scan joins, for example on a foreign server or by
 * another extension. */
static Bitmapset *
joined_elsewhere(Plan *plan)
{
	Bitmapset *numbers = IsA(plan, ForeignScan)
		? ((ForeignScan *) plan)->fs_relids
		: IsA(plan, CustomScan) ? ((CustomScan *) plan)->custom_relids
								: NULL;

	return bms_membership(numbers) == BMS_MULTIPLE ? numbers : NULL;
}

static bool
is_join(Plan *plan)
{
	return IsA(plan, NestLoop) || IsA(plan, MergeJoin) || IsA(plan, HashJoin);
}

/* The nodes directly below a node. */
static List *
children_of(Plan *plan)
{
	List *children = NIL;

	if (outerPlan(plan))
		children = lappend(children, outerPlan(plan));
	if (innerPlan(plan))
		children = lappend(children, innerPlan(plan));
	switch (nodeTag(plan))
	{
		case T_Append:
			return list_concat(children, ((Append *) plan)->appendplans);
		case T_MergeAppend:
			return list_concat(children, ((MergeAppend *) plan)->mergeplans);
		case T_SubqueryScan:
			return lappend(children, ((SubqueryScan *) plan)->subplan);
		case T_CustomScan:
			return list_concat(children, ((CustomScan *) plan)->custom_plans);
		default:
			return children;
	}
}

static bool
any_join(Plan *plan)
{
	ListCell *cell;

	check_stack_depth();
	if (plan == NULL)
		return false;
	if (is_join(plan) || joined_elsewhere(plan))
		return true;
	foreach (cell, children_of(plan))
		if (any_join(lfirst(cell)))
			return true;
	return false;
}

bool
has_joins(PlannedStmt *plan)
{
	ListCell *cell;

	foreach (cell, plan->subplans)
		if (any_join(lfirst(cell)))
			return true;
	return any_join(plan->planTree);
}

/* The entry that a scan reads; 0 if the node isn't a scan of a single entry.
 */
static Index
scanned_entry(Plan *plan)
{
	switch (nodeTag(plan))
	{
		case T_SeqScan:
		case T_SampleScan:
		case T_IndexScan:
		case T_IndexOnlyScan:
		case T_BitmapIndexScan:
		case T_BitmapHeapScan:
		case T_TidScan:
		case T_TidRangeScan:
		case T_SubqueryScan:
		case T_FunctionScan:
		case T_ValuesScan:
		case T_TableFuncScan:
		case T_CteScan:
		case T_NamedTuplestoreScan:
		case T_WorkTableScan:
			return ((Scan *) plan)->scanrelid;
		default:
			return 0;
	}
}

/* The entries that a node without join nodes below it reads. */
static Bitmapset *
entries_of_scan(Plan *plan)
{
	if (IsA(plan, ForeignScan))
		return ((ForeignScan *) plan)->fs_relids;
	if (IsA(plan, CustomScan))
		return ((CustomScan *) plan)->custom_relids;
	return scanned_entry(plan) ? bms_make_singleton(scanned_entry(plan))
							   : NULL;
}

/* The parent of a child in its own PlannerInfo, or 0 if it isn't a child. In a
   finished plan both numbers are shifted by one amount; the array is still
   indexed by the child's old number. */
static Index
parent_of(PlannerInfo *root, Index child)
{
	AppendRelInfo *info =
		root->append_rel_array ? root->append_rel_array[child] : NULL;

	return info ? info->parent_relid - (info->child_relid - child) : 0;
}

/* The number in `root` of an entry, or of the subquery that has the entry. 0
 * if the entry isn't below `root`. */
static Index
relid_in(PlannerInfo *root, const Origin *origin)
{
	PlannerInfo *at = origin->root;
	Index relid = origin->relid;

	while (at != root)
	{
		PlannerInfo *parent = at->parent_root;
		Index below = 0;

		for (int i = 1; parent && i < parent->simple_rel_array_size; i++)
			if (parent->simple_rel_array[i] &&
				parent->simple_rel_array[i]->subroot == at)
				below = i;
		if (below == 0)
			return 0;
		at = parent;
		relid = below;
	}
	while (parent_of(at, relid) != 0)
		relid = parent_of(at, relid);
	return relid;
}

static const Origin *
origin_of(JoinSearch *search, int number)
{
	Alias *names =
		list_nth_node(RangeTblEntry, search->plan->rtable, number - 1)->eref;

	return hash_search(search->origins, &names, HASH_FIND, NULL);
}

/* Whether all these scans are of relations of a join, or of subqueries in it.
 */
static bool
covers(JoinSearch *search, const MatchedJoin *match, Bitmapset *scans)
{
	int number = -1;

	while ((number = bms_next_member(scans, number)) >= 0)
	{
		const Origin *origin = origin_of(search, number);
		Index relid = origin ? relid_in(match->root, origin) : 0;

		if (relid == 0 || !bms_is_member(relid, match->relids))
			return false;
	}
	return true;
}

static void
note_join(JoinSearch *search, Plan *node, Bitmapset *scans)
{
	PlanJoin *join = palloc0(sizeof(PlanJoin));
	const MatchedJoin *match =
		hash_search(search->matched, &node, HASH_FIND, NULL);

	search->joins = lappend(search->joins, join);
	if (match == NULL || !covers(search, match, scans))
		return;
	join->root = match->root;
	join->relids = match->relids;
}

/* Notes all joins at a node and below it. Returns the scans there, as numbers
 * in the plan's range table. */
static Bitmapset *
note_joins(JoinSearch *search, Plan *plan)
{
	Bitmapset *scans = NULL;
	ListCell *cell;

	check_stack_depth();
	foreach (cell, children_of(plan))
		scans = bms_add_members(scans, note_joins(search, lfirst(cell)));
	if (is_join(plan) || joined_elsewhere(plan))
		note_join(search, plan,
				  is_join(plan) ? scans : joined_elsewhere(plan));
	/* A scan stands for all nodes below it. */
	return entries_of_scan(plan) ? entries_of_scan(plan) : scans;
}

/* The path below one that has its rows; NULL if this isn't such a path. */
static Path *
path_below(Path *path)
{
	switch (nodeTag(path))
	{
		case T_SubqueryScanPath:
			return ((SubqueryScanPath *) path)->subpath;
		case T_MaterialPath:
			return ((MaterialPath *) path)->subpath;
		case T_MemoizePath:
			return ((MemoizePath *) path)->subpath;
		case T_UniquePath:
			return ((UniquePath *) path)->subpath;
		case T_GatherPath:
			return ((GatherPath *) path)->subpath;
		case T_GatherMergePath:
			return ((GatherMergePath *) path)->subpath;
		case T_ProjectionPath:
			return ((ProjectionPath *) path)->subpath;
		case T_ProjectSetPath:
			return ((ProjectSetPath *) path)->subpath;
		case T_SortPath:
			return ((SortPath *) path)->subpath;
		case T_IncrementalSortPath:
			return ((IncrementalSortPath *) path)->spath.subpath;
		case T_LockRowsPath:
			return ((LockRowsPath *) path)->subpath;
		case T_ModifyTablePath:
			return ((ModifyTablePath *) path)->subpath;
		case T_LimitPath:
			return ((LimitPath *) path)->subpath;
		default:
			return NULL;
	}
}

/* The same, also for paths that group rows or that another server makes. */
static Path *
path_below_group(Path *path)
{
	switch (nodeTag(path))
	{
		case T_GroupPath:
			return ((GroupPath *) path)->subpath;
		case T_UpperUniquePath:
			return ((UpperUniquePath *) path)->subpath;
		case T_AggPath:
			return ((AggPath *) path)->subpath;
		case T_GroupingSetsPath:
			return ((GroupingSetsPath *) path)->subpath;
		case T_WindowAggPath:
			return ((WindowAggPath *) path)->subpath;
		case T_SetOpPath:
			return ((SetOpPath *) path)->subpath;
		case T_ForeignPath:
			return ((ForeignPath *) path)->fdw_outerpath;
		default:
			return path_below(path);
	}
}

/* The paths directly below a path. */
static List *
paths_below(Path *path)
{
	switch (nodeTag(path))
	{
		case T_NestPath:
		case T_MergePath:
		case T_HashPath:
			return list_make2(((JoinPath *) path)->outerjoinpath,
							  ((JoinPath *) path)->innerjoinpath);
		case T_RecursiveUnionPath:
			return list_make2(((RecursiveUnionPath *) path)->leftpath,
							  ((RecursiveUnionPath *) path)->rightpath);
		case T_AppendPath:
			return ((AppendPath *) path)->subpaths;
		case T_MergeAppendPath:
			return ((MergeAppendPath *) path)->subpaths;
		case T_CustomPath:
			return ((CustomPath *) path)->custom_paths;
		default:
			return path_below_group(path) ? list_make1(path_below_group(path))
										  : NIL;
	}
}

/* Whether another server or another extension may make the rows. */
static bool
is_made_elsewhere(Node *node)
{
	return IsA(node, ForeignPath) || IsA(node, CustomPath) ||
		IsA(node, ForeignScan) || IsA(node, CustomScan);
}

/* The join, the branch or the scan at or below a node: nodes with a single one
 * below, such as a sort, are passed. Their paths and nodes may differ. */
static Plan *
plan_at_branch(Plan *plan)
{
	List *below = children_of(plan);

	while (list_length(below) == 1 && !is_made_elsewhere((Node *) plan))
	{
		plan = linitial(below);
		below = children_of(plan);
	}
	return plan;
}

static bool
has_numbers_of(Plan *plan, Path *path)
{
	return plan->startup_cost == path->startup_cost &&
		plan->total_cost == path->total_cost && plan->plan_rows == path->rows;
}

/* The same for paths. `root` becomes that of the subquery which has the path,
   and `same` says whether one of the paths has the node's numbers. A
   projection that needs no node of its own gives its numbers to the node
   below. */
static Path *
path_at_branch(Path *path, PlannerInfo **root, Plan *plan, bool *same)
{
	List *below = paths_below(path);

	*same = has_numbers_of(plan, path);
	while (list_length(below) == 1 && !is_made_elsewhere((Node *) path))
	{
		if (IsA(path, SubqueryScanPath))
			*root = path->parent->subroot;
		path = linitial(below);
		below = paths_below(path);
		*same = *same || has_numbers_of(plan, path);
	}
	return path;
}

/* Whether both are the same kind of join, or none. */
static bool
is_same_join(Plan *plan, Path *path)
{
	switch (nodeTag(plan))
	{
		case T_NestLoop:
			return IsA(path, NestPath) &&
				((Join *) plan)->jointype == ((JoinPath *) path)->jointype;
		case T_MergeJoin:
			return IsA(path, MergePath) &&
				((Join *) plan)->jointype == ((JoinPath *) path)->jointype;
		case T_HashJoin:
			return IsA(path, HashPath) &&
				((Join *) plan)->jointype == ((JoinPath *) path)->jointype;
		case T_ForeignScan:
			return IsA(path, ForeignPath);
		case T_CustomScan:
			return IsA(path, CustomPath);
		default:
			return true;
	}
}

static MatchedJoin *
new_match(Plan *plan, PlannerInfo *root, RelOptInfo *rel)
{
	MatchedJoin *match = palloc(sizeof(MatchedJoin));

	*match = (MatchedJoin){
		plan, root, IS_OTHER_REL(rel) ? rel->top_parent_relids : rel->relids};
	return match;
}

/* Walks both trees. Adds to `matches` the joins of the plan. False if the
 * trees differ. */
static bool
match_trees(Plan *plan, Path *path, PlannerInfo *root, List **matches)
{
	Path *at;
	List *plans, *paths;
	ListCell *one, *other;
	bool same;

	check_stack_depth();
	plan = plan_at_branch(plan);
	at = path_at_branch(path, &root, plan, &same);
	plans = children_of(plan);
	paths = paths_below(at);
	if (list_length(plans) != list_length(paths) || !is_same_join(plan, at))
		return false;
	if (is_join(plan) || joined_elsewhere(plan))
	{
		if (!same || root == NULL)
			return false;
		*matches = lappend(*matches, new_match(plan, root, at->parent));
	}
	forboth (one, plans, other, paths)
		if (!match_trees(lfirst(one), lfirst(other), root, matches))
			return false;
	return true;
}

/* Matches the plan of a query, or of a subquery of its own, with the path from
 * which it was made: one of those that make the query's whole result. */
static void
match_query(JoinSearch *search, Plan *plan, PlannerInfo *root)
{
	RelOptInfo *whole = plan && root && root->upper_rels[UPPERREL_FINAL]
		? linitial(root->upper_rels[UPPERREL_FINAL])
		: NULL;
	List *matches = NIL;
	bool found = false;
	ListCell *cell;

	foreach (cell, whole ? whole->pathlist : NIL)
	{
		matches = NIL;
		found = match_trees(plan, lfirst(cell), root, &matches);
		if (found)
			break;
	}
	foreach (cell, found ? matches : NIL)
	{
		MatchedJoin *match = lfirst(cell);
		bool known;

		*(MatchedJoin *) hash_search(search->matched, &match->node, HASH_ENTER,
									 &known) = *match;
	}
}

static void
note_origins(JoinSearch *search, PlannerInfo *root)
{
	for (int i = 1; root->simple_rte_array && i < root->simple_rel_array_size;
		 i++)
	{
		Origin *origin;
		bool found;

		if (root->simple_rte_array[i] == NULL ||
			root->simple_rte_array[i]->eref == NULL)
			continue;
		origin = hash_search(search->origins, &root->simple_rte_array[i]->eref,
							 HASH_ENTER, &found);
		if (!found)
			*origin = (Origin){root->simple_rte_array[i]->eref, root, i};
	}
}

static HTAB *
table_by_pointer(const char *name, Size entry_size)
{
	HASHCTL control = {.keysize = sizeof(void *),
					   .entrysize = entry_size,
					   .hcxt = CurrentMemoryContext};

	return hash_create(name, 64, &control,
					   HASH_ELEM | HASH_BLOBS | HASH_CONTEXT);
}

/* Notes the entries of a PlannerInfo and of those above it. Returns the
 * topmost one if the plan was made by its call of the planner, else NULL. */
static PlannerInfo *
note_roots(JoinSearch *search, PlannerInfo *root)
{
	note_origins(search, root);
	while (root->parent_root != NULL)
	{
		root = root->parent_root;
		note_origins(search, root);
	}
	return root->glob->finalrtable == search->plan->rtable ? root : NULL;
}

/* All joins of a plan: those of subqueries with plans of their own, then the
   others, each after the joins below it. `roots` has each PlannerInfo that
   made paths for it. */
List *
joins_of_plan(PlannedStmt *plan, List *roots)
{
	JoinSearch search = {
		plan, table_by_pointer("safebound origins", sizeof(Origin)),
		table_by_pointer("safebound joins", sizeof(MatchedJoin)), NIL};
	PlannerInfo *top = NULL;
	ListCell *cell, *other;

	foreach (cell, roots)
	{
		PlannerInfo *root = note_roots(&search, lfirst(cell));

		top = root ? root : top;
	}
	if (top != NULL)
	{
		forboth (cell, plan->subplans, other, top->glob->subroots)
			match_query(&search, lfirst(cell), lfirst(other));
		match_query(&search, plan->planTree, top);
	}
	foreach (cell, lappend(list_copy(plan->subplans), plan->planTree))
		if (lfirst(cell) != NULL)
			note_joins(&search, lfirst(cell));
	hash_destroy(search.origins);
	hash_destroy(search.matched);
	return search.joins;
}
