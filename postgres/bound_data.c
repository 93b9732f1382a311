/* Stores in a plan all that is needed to compute the bounds of its joins when
   it runs.

   A finished plan has neither its equivalence classes nor its original
   conditions. They are copied into the plan, into an entry of its range table
   that nothing refers to. The entry has the kind RTE_RESULT, and its
   values_lists hold the copies. It belongs to no table, takes no lock and
   needs no rights. Plans that are cached or copied keep it. A parallel worker
   doesn't get it. */
#include "admit.h"

#include "nodes/makefuncs.h"
#include "nodes/nodeFuncs.h"
#include "optimizer/clauses.h"
#include "optimizer/optimizer.h"

/* The name that marks the entry. */
#define BOUND_DATA_NAME "*safebound*"

/* In place of the number of unknown joins: the plan is always admitted. */
#define EXEMPT (-1)

/* What is stored of one PlannerInfo, which is the query or a subquery: a list
 * for each thing that bounded_query reads. */
enum
{
	ROOT_DATA_ENTRIES, /* a range table entry for each relation, from 1 on */
	ROOT_DATA_CONDITIONS, /* for each relation the conditions that name no
							 other relation */
	ROOT_DATA_CLASSES, /* equivalence classes: families, collation, members */
	ROOT_DATA_CLAUSES, /* other join clauses, each with the relations that it
						  needs */
	ROOT_DATA_SPECIAL, /* outer and semi-joins */
	ROOT_DATA_JOINS,   /* the joins of the plan */
	ROOT_DATA_LENGTH
};

static List *
numbers_of(Relids relids)
{
	List *numbers = NIL;
	int number = -1;

	while ((number = bms_next_member(relids, number)) >= 0)
		numbers = lappend_int(numbers, number);
	return numbers;
}

static Relids
relids_of(List *numbers)
{
	Relids relids = NULL;
	ListCell *cell;

	foreach (cell, numbers)
		relids = bms_add_member(relids, lfirst_int(cell));
	return relids;
}

/* An entry without its columns. It only says which table it is, if it is a
 * table. */
static RangeTblEntry *
slim_entry(PlannerInfo *root, int relid)
{
	RangeTblEntry *entry = root->simple_rte_array[relid];
	RelOptInfo *rel = root->simple_rel_array[relid];
	RangeTblEntry *slim = makeNode(RangeTblEntry);

	slim->rtekind = RTE_RESULT;
	if (entry == NULL)
		return slim;
	slim->eref = makeAlias(entry->eref->aliasname, NIL);
	if (rel == NULL || rel->reloptkind != RELOPT_BASEREL ||
		entry->rtekind != RTE_RELATION)
		return slim;
	slim->rtekind = RTE_RELATION;
	slim->relid = entry->relid;
	slim->relkind = entry->relkind;
	slim->inh = entry->inh;
	slim->tablesample = copyObject(entry->tablesample);
	return slim;
}

/* The conditions on this single relation. Conditions with subqueries are left
 * out, since they don't lower bounds. */
static List *
conditions_of(RelOptInfo *rel)
{
	List *conditions = NIL;
	ListCell *cell;

	foreach (cell, rel ? rel->baserestrictinfo : NIL)
	{
		Node *clause = (Node *) lfirst_node(RestrictInfo, cell)->clause;

		if (!contain_subplans(clause))
			conditions = lappend(conditions, copyObject(clause));
	}
	return conditions;
}

/* An equivalence class of columns; NIL if it can't be used. */
static List *
class_lists(EquivalenceClass *class)
{
	List *members = NIL;
	ListCell *cell;

	if (!is_class_equal(class))
		return NIL;
	foreach (cell, class->ec_members)
	{
		EquivalenceMember *member = lfirst(cell);

		if (!member->em_is_child && !member->em_is_const &&
			!contain_subplans((Node *) member->em_expr))
			members = lappend(members, copyObject(member->em_expr));
	}
	return list_make3(list_copy(class->ec_opfamilies),
					  list_make1_oid(class->ec_collation), members);
}

/* PostgreSQL lists a clause at each of its relations. It is taken at the first
 * of them. */
static List *
clauses_of(RelOptInfo *rel)
{
	List *clauses = NIL;
	ListCell *cell;

	foreach (cell, rel ? rel->joininfo : NIL)
	{
		RestrictInfo *info = lfirst_node(RestrictInfo, cell);

		if (info->can_join &&
			bms_next_member(info->clause_relids, -1) == (int) rel->relid &&
			!contain_subplans((Node *) info->clause))
			clauses = lappend(clauses,
							  list_make2(copyObject(info->clause),
										 numbers_of(info->required_relids)));
	}
	return clauses;
}

static List *
root_data_of(PlannerInfo *root, List *joins)
{
	List *lists[ROOT_DATA_LENGTH] = {NIL};
	List *root_data = NIL;
	ListCell *cell;

	for (int i = 1; i < root->simple_rel_array_size; i++)
	{
		lists[ROOT_DATA_ENTRIES] =
			lappend(lists[ROOT_DATA_ENTRIES], slim_entry(root, i));
		lists[ROOT_DATA_CONDITIONS] =
			lappend(lists[ROOT_DATA_CONDITIONS],
					conditions_of(root->simple_rel_array[i]));
		lists[ROOT_DATA_CLAUSES] = list_concat(
			lists[ROOT_DATA_CLAUSES], clauses_of(root->simple_rel_array[i]));
	}
	foreach (cell, root->eq_classes)
		if (class_lists(lfirst(cell)) != NIL)
			lists[ROOT_DATA_CLASSES] =
				lappend(lists[ROOT_DATA_CLASSES], class_lists(lfirst(cell)));
	lists[ROOT_DATA_SPECIAL] = copyObject(root->join_info_list);
	foreach (cell, joins)
	{
		PlanJoin *join = lfirst(cell);
		List *numbers = join->root == root ? numbers_of(join->relids) : NIL;

		if (numbers != NIL && !list_member(lists[ROOT_DATA_JOINS], numbers))
			lists[ROOT_DATA_JOINS] = lappend(lists[ROOT_DATA_JOINS], numbers);
	}
	for (int i = 0; i < ROOT_DATA_LENGTH; i++)
		root_data = lappend(root_data, lists[i]);
	return root_data;
}

static void
put_data(PlannedStmt *plan, List *bound_data)
{
	RangeTblEntry *entry = makeNode(RangeTblEntry);

	entry->rtekind = RTE_RESULT;
	entry->eref = makeAlias(BOUND_DATA_NAME, NIL);
	entry->values_lists = bound_data;
	plan->rtable = lappend(plan->rtable, entry);
}

/* Stores in a plan what is needed to compute the bounds of its joins. The
   first list has the number of joins whose relations aren't known; each other
   one has the data of a PlannerInfo. */
void
put_bound_data(PlannedStmt *plan, List *joins)
{
	List *roots = NIL;
	List *bound_data;
	int unknown_joins = 0;
	ListCell *cell;

	foreach (cell, joins)
	{
		PlanJoin *join = lfirst(cell);

		if (join->root == NULL)
			unknown_joins++;
		else
			roots = list_append_unique_ptr(roots, join->root);
	}
	bound_data = list_make1(list_make1_int(unknown_joins));
	foreach (cell, roots)
		bound_data = lappend(bound_data, root_data_of(lfirst(cell), joins));
	put_data(plan, bound_data);
}

/* Stores in a plan that it is admitted whatever it joins. */
void
put_exemption(PlannedStmt *plan)
{
	put_data(plan, list_make1(list_make1_int(EXEMPT)));
}

int
unknown_joins_of_data(List *bound_data)
{
	return linitial_int((List *) linitial(bound_data));
}

bool
is_exempt_data(List *bound_data)
{
	return unknown_joins_of_data(bound_data) == EXEMPT;
}

/* What was stored in a plan; NIL if nothing was. */
List *
bound_data_of(PlannedStmt *plan)
{
	RangeTblEntry *last =
		plan->rtable ? llast_node(RangeTblEntry, plan->rtable) : NULL;

	return last && last->rtekind == RTE_RESULT && last->eref &&
			strcmp(last->eref->aliasname, BOUND_DATA_NAME) == 0
		? last->values_lists
		: NIL;
}

List *
joins_of_data(List *root_data)
{
	return list_nth(root_data, ROOT_DATA_JOINS);
}

static RestrictInfo *
clause_info(PlannerInfo *root, Expr *clause, Relids required)
{
	RestrictInfo *info = makeNode(RestrictInfo);

	info->clause = clause;
	info->clause_relids = pull_varnos(root, (Node *) clause);
	info->required_relids = required;
	return info;
}

/* A relation with its conditions. Parameters in them have the values of this
 * run. */
static RelOptInfo *
rel_of(PlannerInfo *root, int relid, List *conditions)
{
	RelOptInfo *rel = makeNode(RelOptInfo);
	ListCell *cell;

	rel->reloptkind = RELOPT_BASEREL;
	rel->relid = relid;
	rel->relids = bms_make_singleton(relid);
	rel->rtekind = root->simple_rte_array[relid]->rtekind;
	foreach (cell, conditions)
	{
		Node *clause = eval_const_expressions(root, lfirst(cell));

		rel->baserestrictinfo =
			lappend(rel->baserestrictinfo,
					clause_info(root, (Expr *) clause, rel->relids));
	}
	return rel;
}

static EquivalenceClass *
class_of(PlannerInfo *root, List *lists)
{
	EquivalenceClass *class = makeNode(EquivalenceClass);
	ListCell *cell;

	class->ec_opfamilies = linitial(lists);
	class->ec_collation = linitial_oid((List *) lsecond(lists));
	foreach (cell, (List *) lthird(lists))
	{
		EquivalenceMember *member = makeNode(EquivalenceMember);

		member->em_expr = lfirst(cell);
		member->em_relids = pull_varnos(root, lfirst(cell));
		class->ec_members = lappend(class->ec_members, member);
		class->ec_relids =
			bms_add_members(class->ec_relids, member->em_relids);
	}
	return class;
}

static void
add_clause(PlannerInfo *root, Expr *clause, List *required)
{
	RestrictInfo *info = clause_info(root, clause, relids_of(required));
	int relid = -1;

	info->can_join = true;
	if (is_opclause(clause) && list_length(((OpExpr *) clause)->args) == 2)
	{
		info->left_relids =
			pull_varnos(root, linitial(((OpExpr *) clause)->args));
		info->right_relids =
			pull_varnos(root, lsecond(((OpExpr *) clause)->args));
	}
	while ((relid = bms_next_member(info->clause_relids, relid)) >= 0)
		if (root->simple_rel_array[relid])
			root->simple_rel_array[relid]->joininfo =
				lappend(root->simple_rel_array[relid]->joininfo, info);
}

/* A PlannerInfo with the fields that bounded_query reads, and with the
 * parameters of this run. */
PlannerInfo *
root_of_data(List *root_data, ParamListInfo parameters)
{
	PlannerInfo *root = makeNode(PlannerInfo);
	List *entries = list_nth(root_data, ROOT_DATA_ENTRIES);
	ListCell *cell;

	root->glob = makeNode(PlannerGlobal);
	root->glob->boundParams = parameters;
	root->planner_cxt = CurrentMemoryContext;
	root->simple_rel_array_size = list_length(entries) + 1;
	root->simple_rel_array =
		palloc0(root->simple_rel_array_size * sizeof(RelOptInfo *));
	root->simple_rte_array =
		palloc0(root->simple_rel_array_size * sizeof(RangeTblEntry *));
	for (int i = 1; i < root->simple_rel_array_size; i++)
	{
		root->simple_rte_array[i] = list_nth(entries, i - 1);
		if (root->simple_rte_array[i]->rtekind == RTE_RELATION)
			root->simple_rel_array[i] = rel_of(
				root, i,
				list_nth(list_nth(root_data, ROOT_DATA_CONDITIONS), i - 1));
	}
	foreach (cell, (List *) list_nth(root_data, ROOT_DATA_CLASSES))
		root->eq_classes =
			lappend(root->eq_classes, class_of(root, lfirst(cell)));
	foreach (cell, (List *) list_nth(root_data, ROOT_DATA_CLAUSES))
		add_clause(root, linitial((List *) lfirst(cell)),
				   lsecond((List *) lfirst(cell)));
	root->join_info_list = list_nth(root_data, ROOT_DATA_SPECIAL);
	return root;
}
