/* Bounds of the rows of sets of relations and of joins, by the library. A join
 * may include outer, semi- and anti-joins. */
#include "planning.h"

#include "access/stratnum.h"
#include "catalog/pg_class.h"
#include "nodes/nodeFuncs.h"
#include "optimizer/optimizer.h"
#include "optimizer/paths.h"
#include "port/pg_bitutils.h"
#include "utils/lsyscache.h"

/* A list with more runs is compressed before it is joined, since planning
 * waits for the bounds. */
#define MOST_RUNS 48
#define PLANNING_ACCURACY 6

/* A query can have at most this many known relations, since a set of them is a
 * number of 64 bits. */
#define MOST_KNOWN 64

/* The column of this query that an expression is, apart from mere changes of
 * type. NULL if it isn't a column. */
Var *
var_of(Expr *expression)
{
	while (expression && IsA(expression, RelabelType))
		expression = ((RelabelType *) expression)->arg;
	if (expression && IsA(expression, Var) &&
		((Var *) expression)->varlevelsup == 0 &&
		((Var *) expression)->varattno > 0)
		return (Var *) expression;
	return NULL;
}

/* The statistics of a relation, or NULL. */
Entry *
entry_of(BoundedQuery *query, int relid)
{
	return relid > 0 && relid < query->root->simple_rel_array_size &&
			query->entries[relid].table
		? &query->entries[relid]
		: NULL;
}

/* A list gets longer with each condition. */
static DegreeList
compressed_if_long(DegreeList list)
{
	return list.length > MOST_RUNS ? compressed(list, PLANNING_ACCURACY)
								   : list;
}

/* The place of a joined column in `columns`; a new column is added. -1 if no
 * list of it is kept. */
static int
joined_column(BoundedQuery *query, Var *var)
{
	Entry *entry = entry_of(query, var->varno);

	if (entry == NULL || kept_pair(entry->table, var->varattno, 0) == NULL)
		return -1;
	for (int i = 0; i < query->columns_length; i++)
		if (query->columns[i].relid == (Index) var->varno &&
			query->columns[i].number == var->varattno)
			return i;
	if (query->columns_length == query->columns_capacity)
		query->columns =
			repalloc(query->columns,
					 (query->columns_capacity *= 2) * sizeof(JoinedColumn));
	query->columns[query->columns_length] = (JoinedColumn){
		.relid = var->varno,
		.number = var->varattno,
		.list = compressed_if_long(list_under(entry->table, entry->rel,
											  var->varattno, &entry->used))};
	return query->columns_length++;
}

/* Whether the = of two members' types depends on their values alone, where the
 * families have one. */
static bool
is_equality_immutable(List *families, Oid left, Oid right)
{
	ListCell *cell;

	foreach (cell, families)
	{
		Oid equality = get_opfamily_member(lfirst_oid(cell), left, right,
										   BTEqualStrategyNumber);

		if (OidIsValid(equality) && !is_immutable(equality))
			return false;
	}
	return true;
}

/* Whether the members of an equivalence class are equal in each row. They
   aren't if an expression is volatile, or if the = of two of their types isn't
   immutable: PostgreSQL tests some of the class's equalities and takes the
   others to follow. */
bool
is_class_equal(EquivalenceClass *class)
{
	List *types = NIL;
	ListCell *cell, *other;

	if (class->ec_has_volatile || class->ec_merged)
		return false;
	foreach (cell, class->ec_members)
		types = list_append_unique_oid(
			types, lfirst_node(EquivalenceMember, cell)->em_datatype);
	foreach (cell, types)
		foreach (other, types)
			if (!is_equality_immutable(class->ec_opfamilies, lfirst_oid(cell),
									   lfirst_oid(other)))
				return false;
	return true;
}

/* Adds the columns of one of PostgreSQL's equivalence classes as equal
 * columns. */
static void
add_class(BoundedQuery *query, EquivalenceClass *class)
{
	EqualColumns *equal = palloc0(sizeof(EqualColumns));
	ListCell *cell;

	equal->columns =
		palloc((list_length(class->ec_members) + 1) * sizeof(int));
	foreach (cell, class->ec_members)
	{
		EquivalenceMember *member = lfirst(cell);
		Var *var = member->em_is_child || member->em_is_const
			? NULL
			: var_of(member->em_expr);
		Entry *entry = var ? entry_of(query, var->varno) : NULL;
		int column;

		if (entry == NULL ||
			!list_member_oid(class->ec_opfamilies,
							 equality_family(entry->table->relation,
											 var->varattno,
											 class->ec_collation)))
			continue;
		column = joined_column(query, var);
		if (column >= 0)
			equal->columns[equal->length++] = column;
	}
	if (equal->length > 1)
		query->equalities = lappend(query->equalities, equal);
}

/* Adds an equality that is in no equivalence class, such as one in an outer
 * join's ON. */
static void
add_clause(BoundedQuery *query, RestrictInfo *info)
{
	OpExpr *clause = (OpExpr *) info->clause;
	Var *left = info->can_join && IsA(clause, OpExpr)
		? var_of(linitial(clause->args))
		: NULL;
	Var *right = left ? var_of(lsecond(clause->args)) : NULL;
	Entry *left_entry = left ? entry_of(query, left->varno) : NULL;
	Entry *right_entry = right ? entry_of(query, right->varno) : NULL;
	EqualColumns *equal = palloc0(sizeof(EqualColumns));

	if (left_entry == NULL || right_entry == NULL ||
		left->varno == right->varno ||
		!is_equality(left_entry->table->relation, left->varattno, clause->opno,
					 clause->inputcollid) ||
		!is_equality(right_entry->table->relation, right->varattno,
					 clause->opno, clause->inputcollid))
		return;
	equal->required = info->required_relids;
	equal->length = 2;
	equal->columns = palloc(2 * sizeof(int));
	equal->columns[0] = joined_column(query, left);
	equal->columns[1] = joined_column(query, right);
	if (equal->columns[0] >= 0 && equal->columns[1] >= 0)
		query->equalities = lappend(query->equalities, equal);
}

/* PostgreSQL lists a clause at both of its relations. It is added only at the
 * relation with the lower number. */
static void
add_clauses(BoundedQuery *query, RelOptInfo *rel)
{
	ListCell *cell;

	foreach (cell, rel->joininfo)
	{
		RestrictInfo *info = lfirst_node(RestrictInfo, cell);

		if (bms_num_members(info->clause_relids) == 2 &&
			bms_next_member(info->clause_relids, -1) == (int) rel->relid)
			add_clause(query, info);
	}
}

/* Adds a reference of one relation to another along an equality, if the
 * referred relation has conditions and lists are kept for the reference. */
static void
add_carried(BoundedQuery *query, const EqualColumns *equal,
			const JoinedColumn *along, const JoinedColumn *key)
{
	Entry *referring = &query->entries[along->relid];
	Entry *referred = &query->entries[key->relid];
	Reference reference = {along->number, referred->table->relation,
						   key->number};
	CarrierReference *carried;

	if (along->relid == key->relid || referred->rel->baserestrictinfo == NIL ||
		!has_pairs_along(referring->table, &reference))
		return;
	carried = palloc0(sizeof(CarrierReference));
	*carried = (CarrierReference){.referring = along->relid,
								  .referred = key->relid,
								  .required = equal->required,
								  .reference = reference};
	query->carried = lappend(query->carried, carried);
}

/* Tests for each pair of equal columns whether one refers to the other. */
static void
find_carried(BoundedQuery *query, const EqualColumns *equal)
{
	for (int i = 0; i < equal->length; i++)
		for (int j = 0; j < equal->length; j++)
			add_carried(query, equal, &query->columns[equal->columns[i]],
						&query->columns[equal->columns[j]]);
}

static void
make_room_for_carried(BoundedQuery *query)
{
	ListCell *cell;

	foreach (cell, query->carried)
	{
		CarrierReference *carried = lfirst(cell);

		carried->looked_up =
			palloc0((query->columns_length + 1) * sizeof(bool));
		carried->lists =
			palloc0((query->columns_length + 1) * sizeof(DegreeList *));
	}
}

/* The list of a referring relation's column under the conditions of the
   referred relation, or NULL. `column` is a place in `columns`. The place
   after the last one stands for the number of rows. */
const DegreeList *
carried_list(BoundedQuery *query, CarrierReference *carried, int column)
{
	AttrNumber joined =
		column < query->columns_length ? query->columns[column].number : 0;
	DegreeList list;

	if (!carried->looked_up[column] &&
		list_along(query->entries[carried->referring].table,
				   &carried->reference, query->entries[carried->referred].rel,
				   joined, &list, &carried->used, &carried->may_overcount))
	{
		carried->lists[column] = palloc(sizeof(DegreeList));
		*carried->lists[column] = compressed_if_long(list);
	}
	carried->looked_up[column] = true;
	return carried->lists[column];
}

/* Whether a join of these relations joins along the reference. If so, the
 * referred relation's conditions apply to the referring rows. */
bool
is_carried(const CarrierReference *carried, Relids relids)
{
	return bms_is_member(carried->referring, relids) &&
		bms_is_member(carried->referred, relids) &&
		bms_is_subset(carried->required, relids);
}

/* The relation's references that are also equalities within the set, as
 * indexes into `carried`. */
static Bitmapset *
held_in_set(BoundedQuery *query, Relids relids, Index relid)
{
	Bitmapset *held = NULL;
	ListCell *cell;

	foreach (cell, query->carried)
		if (((CarrierReference *) lfirst(cell))->referring == relid &&
			is_carried(lfirst(cell), relids))
			held = bms_add_member(held, foreach_current_index(cell));
	return held;
}

/* The lesser of a column's list and its lists along these references. */
static DegreeList
narrowed_list(BoundedQuery *query, const Bitmapset *held, int column,
			  DegreeList list)
{
	int place = -1;

	while ((place = bms_next_member(held, place)) >= 0)
	{
		const DegreeList *other =
			carried_list(query, list_nth(query->carried, place), column);

		if (other != NULL)
			list = lesser(list, *other);
	}
	return list;
}

/* A column's list within a set, lowered by its relation's references to other
   relations of the set. Many sets give the same list, so it is cached. */
static DegreeList
list_in_set(BoundedQuery *query, Relids relids, int column)
{
	JoinedColumn *joined = &query->columns[column];
	Bitmapset *held = held_in_set(query, relids, joined->relid);
	NarrowedList *made;
	ListCell *cell;

	if (held == NULL)
		return joined->list;
	foreach (cell, joined->narrowed_lists)
		if (bms_equal(((NarrowedList *) lfirst(cell))->held, held))
			return ((NarrowedList *) lfirst(cell))->list;
	made = palloc(sizeof(NarrowedList));
	*made =
		(NarrowedList){held, narrowed_list(query, held, column, joined->list)};
	joined->narrowed_lists = lappend(joined->narrowed_lists, made);
	return made->list;
}

/* A relation's row bound within a set, lowered by its references to other
 * relations of the set. */
static uint64
rows_in_set(BoundedQuery *query, Relids relids, Index relid)
{
	return narrowed_list(query, held_in_set(query, relids, relid),
						 query->columns_length,
						 (DegreeList){query->entries[relid].rows, 0, NULL})
		.rows;
}

static bool
can_be_known(PlannerInfo *root, RelOptInfo *rel)
{
	RangeTblEntry *entry;

	if (rel == NULL || rel->reloptkind != RELOPT_BASEREL ||
		rel->rtekind != RTE_RELATION || IS_DUMMY_REL(rel))
		return false;
	entry = root->simple_rte_array[rel->relid];
	if (entry->tablesample != NULL)
		return false;
	/* A query also reads the rows of a table's children, which its statistics
	 * don't count. The statistics of a partitioned table count its parts.
	 */
	return entry->inh ? entry->relkind == RELKIND_PARTITIONED_TABLE
					  : entry->relkind == RELKIND_RELATION ||
			entry->relkind == RELKIND_MATVIEW;
}

/* The bound of a set of relations. Bit i of the set is the relation with
 * number i. */
typedef struct KnownBound
{
	uint64 set;
	uint64 bound;
} KnownBound;

static HTAB *
known_bounds(void)
{
	HASHCTL control = {.keysize = sizeof(uint64),
					   .entrysize = sizeof(KnownBound),
					   .hcxt = CurrentMemoryContext};

	return hash_create("safebound bounds", 64, &control,
					   HASH_ELEM | HASH_BLOBS | HASH_CONTEXT);
}

BoundedQuery *
bounded_query(PlannerInfo *root)
{
	BoundedQuery *query = palloc0(sizeof(BoundedQuery));
	int number = 0;
	ListCell *cell;

	query->root = root;
	query->bounds = known_bounds();
	query->entries = palloc0(root->simple_rel_array_size * sizeof(Entry));
	query->columns_capacity = 8;
	query->columns = palloc(query->columns_capacity * sizeof(JoinedColumn));
	for (int i = 1; i < root->simple_rel_array_size; i++)
	{
		RelOptInfo *rel = root->simple_rel_array[i];
		const KeptTable *table = can_be_known(root, rel)
			? kept_table(root->simple_rte_array[i]->relid)
			: NULL;

		if (table != NULL && number < MOST_KNOWN)
		{
			query->entries[i] =
				(Entry){.table = table, .rel = rel, .number = number++};
			query->entries[i].rows =
				list_under(table, rel, 0, &query->entries[i].used).rows;
		}
	}
	foreach (cell, root->eq_classes)
	{
		if (is_class_equal(lfirst(cell)))
			add_class(query, lfirst(cell));
	}
	for (int i = 1; i < root->simple_rel_array_size; i++)
		if (query->entries[i].table)
			add_clauses(query, query->entries[i].rel);
	foreach (cell, query->equalities)
		find_carried(query, lfirst(cell));
	make_room_for_carried(query);
	return query;
}

/* The arguments of a call of the library for one set. */
typedef struct SetCall
{
	uint64 rows[SAFEBOUND_MOST_ENTRIES];
	int entries;
	int *number; /* by relid: the entry's number in the call, -1 if the
					relation isn't in the set */
	safebound_equality equalities[SAFEBOUND_MOST_EQUALITIES];
	int equalities_length;
	bool *named; /* by column: whether an equality names it */
} SetCall;

/* Adds an equality if there is room. Without it the bound may be higher, but
 * is still valid. */
static bool
add_equality(SetCall *call, BoundedQuery *query, int left, int right)
{
	JoinedColumn *one = &query->columns[left];
	JoinedColumn *other = &query->columns[right];

	if (call->equalities_length == SAFEBOUND_MOST_EQUALITIES)
		return false;
	call->equalities[call->equalities_length++] =
		(safebound_equality){.left_entry = call->number[one->relid],
							 .left_column = left,
							 .right_entry = call->number[other->relid],
							 .right_column = right};
	call->named[left] = call->named[right] = true;
	return true;
}

/* Adds the equalities of columns within the set, as a chain. A column is
 * skipped if the column before it in the chain belongs to the same entry. */
static void
add_equal_columns(SetCall *call, BoundedQuery *query,
				  const EqualColumns *equal)
{
	int last = -1;

	for (int i = 0; i < equal->length; i++)
	{
		int column = equal->columns[i];
		Index relid = query->columns[column].relid;

		if (call->number[relid] < 0 ||
			(last >= 0 && query->columns[last].relid == relid))
			continue;
		if (last >= 0)
			add_equality(call, query, last, column);
		last = column;
	}
}

/* Calls the library, with the lists of the columns that the equalities name.
 */
static uint64
call_library(SetCall *call, BoundedQuery *query, Relids relids)
{
	safebound_list *lists =
		palloc((query->columns_length + 1) * sizeof(safebound_list));
	DegreeList *taken =
		palloc((query->columns_length + 1) * sizeof(DegreeList));
	safebound_run *runs;
	size_t lists_length = 0;
	size_t runs_length = 0;
	uint64 bound = 0;

	for (int i = 0; i < query->columns_length; i++)
	{
		if (!call->named[i])
			continue;
		taken[i] = list_in_set(query, relids, i);
		runs_length += taken[i].length;
	}
	runs = palloc((runs_length + 1) * sizeof(safebound_run));
	runs_length = 0;
	for (int i = 0; i < query->columns_length; i++)
	{
		DegreeList *list = &taken[i];

		if (!call->named[i])
			continue;
		lists[lists_length++] = (safebound_list){
			.entry = call->number[query->columns[i].relid],
			.column = i,
			.first = list->length ? runs_length : SAFEBOUND_NO_VALUES,
			.length = list->length};
		memcpy(runs + runs_length, list->runs,
			   list->length * sizeof(safebound_run));
		runs_length += list->length;
	}
	library_check(safebound_set_bound(
					  call->rows, call->entries, call->equalities,
					  call->equalities_length, lists, lists_length, runs,
					  runs_length, (UINT64_C(1) << call->entries) - 1, &bound),
				  bound, "safebound_set_bound");
	pfree(lists);
	pfree(runs);
	return bound;
}

/* Asks the library for the bound of a set of relations. UNKNOWN if the set has
 * more relations than the library accepts. */
static uint64
new_bound(BoundedQuery *query, Relids relids, int entries)
{
	SetCall call = {0};
	int relid = -1;
	ListCell *cell;

	if (entries > SAFEBOUND_MOST_ENTRIES)
		return UNKNOWN;
	call.number = palloc(query->root->simple_rel_array_size * sizeof(int));
	for (int i = 0; i < query->root->simple_rel_array_size; i++)
		call.number[i] = -1;
	while ((relid = bms_next_member(relids, relid)) >= 0)
	{
		call.number[relid] = call.entries;
		call.rows[call.entries++] = rows_in_set(query, relids, relid);
	}
	if (call.entries <= 1)
		return call.entries ? call.rows[0] : 1;
	call.named = palloc0((query->columns_length + 1) * sizeof(bool));
	foreach (cell, query->equalities)
	{
		EqualColumns *equal = lfirst(cell);

		if (bms_is_subset(equal->required, relids))
			add_equal_columns(&call, query, equal);
	}
	return call_library(&call, query, relids);
}

/* The bound of the inner join of a set of relations. UNKNOWN if one of them
 * has no statistics. The library is called once for each set. */
uint64
bound_of_set(BoundedQuery *query, Relids relids)
{
	uint64 set = 0;
	int relid = -1;
	KnownBound *known;
	bool found;

	while ((relid = bms_next_member(relids, relid)) >= 0)
	{
		Entry *entry = entry_of(query, relid);

		if (entry == NULL)
			return UNKNOWN;
		set |= UINT64CONST(1) << entry->number;
	}
	known = hash_search(query->bounds, &set, HASH_ENTER, &found);
	if (!found)
		known->bound = new_bound(query, relids, pg_popcount64(set));
	return known->bound;
}

/* The bound of an outer, semi- or anti-join, from the bounds of its inner join
 * and of its sides. */
static uint64
joined_rows(uint64 kind, uint64 inner, uint64 left, uint64 right)
{
	uint64 rows = kind;

	library_check(safebound_joined_rows(kind, inner, left, right, &rows), rows,
				  "safebound_joined_rows");
	return rows;
}

/* Whether an outer, semi- or anti-join belongs to the join of these relations.
 */
static bool
is_within(SpecialJoinInfo *join, Relids relids)
{
	return bms_is_subset(join->min_lefthand, relids) &&
		bms_is_subset(join->min_righthand, relids);
}

/* The bound of a join with outer, semi- and anti-joins. A row of it has one
   row of each relation, but a side of an outer join may be missing. For each
   way in which sides may be missing, the rows are at most those of the inner
   join of the other relations. The bound is the sum over all these ways.
   `joins` has the joins that aren't handled yet; the last one is the
   outermost, and is handled next. `present` has the relations that aren't
   missing so far. */
static uint64
bound_of_ways(BoundedQuery *query, Relids present, List *joins)
{
	SpecialJoinInfo *join;
	List *rest;
	Relids without_right;
	uint64 less;

	if (joins == NIL)
		return bound_of_set(query, present);
	join = llast(joins);
	rest = list_truncate(list_copy(joins), list_length(joins) - 1);
	if (!bms_overlap(join->syn_righthand, present))
		return bound_of_ways(query, present, rest);
	without_right = bms_difference(present, join->syn_righthand);
	less = bound_of_ways(query, without_right, rest);
	switch (join->jointype)
	{
		case JOIN_ANTI:
			return joined_rows(SAFEBOUND_ANTI_JOIN, UNKNOWN, less, UNKNOWN);
		case JOIN_SEMI:
			return joined_rows(SAFEBOUND_SEMI_JOIN,
							   bound_of_ways(query, present, rest), less,
							   UNKNOWN);
		case JOIN_LEFT:
			/* If the left side is missing, a strict condition on it isn't
			 * true. So no right side is joined. */
			if (join->lhs_strict && !bms_overlap(join->min_lefthand, present))
				return less;
			return joined_rows(SAFEBOUND_LEFT_JOIN,
							   bound_of_ways(query, present, rest), less,
							   UNKNOWN);
		case JOIN_FULL:
			return joined_rows(
				SAFEBOUND_FULL_JOIN, bound_of_ways(query, present, rest), less,
				bound_of_ways(
					query, bms_difference(present, join->syn_lefthand), rest));
		default:
			return UNKNOWN;
	}
}

/* The outer, semi- and anti-joins that belong to the join of these relations,
 * the outermost last. */
List *
special_joins_within(BoundedQuery *query, Relids relids)
{
	List *joins = NIL;
	ListCell *cell;

	foreach (cell, query->root->join_info_list)
		if (is_within(lfirst(cell), relids))
			joins = lappend(joins, lfirst(cell));
	return joins;
}

/* Whether relations on both sides of an outer, semi- or anti-join are joined,
   but not all that it needs. The planner makes no such join, with one
   exception: it may join the distinct rows of a semi-join's right side first,
   as in an inner join. */
static bool
is_torn(SpecialJoinInfo *join, Relids relids)
{
	bool distinct = join->jointype == JOIN_SEMI &&
		bms_is_subset(join->syn_righthand, relids);

	return bms_overlap(join->min_lefthand, relids) &&
		bms_overlap(join->min_righthand, relids) && !is_within(join, relids) &&
		!distinct;
}

bool
any_torn(BoundedQuery *query, Relids relids)
{
	ListCell *cell;

	foreach (cell, query->root->join_info_list)
		if (is_torn(lfirst(cell), relids))
			return true;
	return false;
}

/* The bound of the join of these relations. UNKNOWN if it has more outer,
   semi- and anti-joins than MOST_SPECIAL_JOINS, or a part of one. */
uint64
bound_of_join(BoundedQuery *query, Relids relids)
{
	List *joins = special_joins_within(query, relids);

	return list_length(joins) > MOST_SPECIAL_JOINS || any_torn(query, relids)
		? UNKNOWN
		: bound_of_ways(query, relids, joins);
}
