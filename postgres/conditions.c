/* The lists of a relation under its own conditions. A condition that this code
 * doesn't know leaves the list of all rows unchanged. */
#include "statistics.h"

#include "access/stratnum.h"
#include "catalog/pg_collation.h"
#include "catalog/pg_operator.h"
#include "catalog/pg_opfamily.h"
#include "catalog/pg_proc.h"
#include "nodes/nodeFuncs.h"
#include "optimizer/optimizer.h"
#include "utils/array.h"
#include "utils/builtins.h"
#include "utils/lsyscache.h"
#include "utils/pg_locale.h"
#include "utils/typcache.h"

/* IN and = ANY with more values are ignored. */
#define MOST_VALUES 1000

/* The relation whose conditions are used, and the relation that has the lists:
 * the same one, or one that refers to it. */
typedef struct ConditionContext
{
	Oid relation;
	Index entry;            /* the relation's number in the query */
	const KeptTable *table; /* the table that has the lists */
	AttrNumber joined;
	const Reference *reference; /* NULL: the relation has them itself */
	Bitmapset **used;           /* the columns whose conditions had lists */
	bool *may_overcount; /* set if a list may count more rows than satisfy the
							conditions */
} ConditionContext;

static bool list_of_clause(const ConditionContext *context, Node *clause,
						   DegreeList *list);

/* If the expression is a column of this relation, perhaps under conversions
 * that keep the bytes: the column's number; otherwise 0. */
static AttrNumber
column_of(const ConditionContext *context, Node *node)
{
	while (node && IsA(node, RelabelType))
		node = (Node *) ((RelabelType *) node)->arg;
	if (node && IsA(node, Var) &&
		((Var *) node)->varno == (int) context->entry &&
		((Var *) node)->varlevelsup == 0 && ((Var *) node)->varattno > 0)
		return ((Var *) node)->varattno;
	return 0;
}

/* The pair of a filter column, if the column still has the type and the
 * collation with which it was counted. */
static const KeptPair *
pair_of(const ConditionContext *context, AttrNumber column)
{
	const KeptPair *pair = kept_pair_along(context->table, context->joined,
										   column, context->reference);

	return pair &&
			same_column(context->relation, column, pair->filter_type,
						pair->filter_collation)
		? pair
		: NULL;
}

/* The operator family whose = the counting of this column used; InvalidOid if
 * other values may be equal under `collation`. */
Oid
equality_family(Oid relation, AttrNumber column, Oid collation)
{
	Oid type, own;
	int32 typmod;

	get_atttypetypmodcoll(relation, column, &type, &typmod, &own);
	if (collation != own && OidIsValid(collation) && OidIsValid(own) &&
		!(get_collation_isdeterministic(collation) &&
		  get_collation_isdeterministic(own)))
		return InvalidOid;
	return lookup_type_cache(type, TYPECACHE_BTREE_OPFAMILY)->btree_opf;
}

/* Whether an operator's answer depends on its values alone. That of timestamp
 * = timestamptz depends on the time zone, and isn't transitive. */
bool
is_immutable(Oid operator)
{
	return op_volatile(operator) == PROVOLATILE_IMMUTABLE;
}

/* Whether an operator is the = by which equal values were found when the
 * column was counted. */
bool
is_equality(Oid relation, AttrNumber column, Oid operator, Oid collation)
{
	Oid family = equality_family(relation, column, collation);

	return OidIsValid(family) &&
		get_op_opfamily_strategy(operator, family) == BTEqualStrategyNumber &&
		is_immutable(operator);
}

/* A range of a column's values in its order, as a range of leaves. */
typedef struct Range
{
	AttrNumber column;
	const KeptPair *pair;
	int first;
	int last; /* below `first`: the range is empty */
} Range;

/* The first leaf whose greatest value isn't before `value`, by the operator
 * `before`. If there is none, the number of leaves. */
static int
leaf_at(const KeptPair *pair, Oid before, Oid collation, Datum value)
{
	int from = 0;
	int to = pair->leaves;
	FmgrInfo function;

	fmgr_info(get_opcode(before), &function);
	while (from < to)
	{
		int middle = (from + to) / 2;

		if (DatumGetBool(FunctionCall2Coll(
				&function, collation,
				pair->lists[pair->first_leaf + middle].value, value)))
			from = middle + 1;
		else
			to = middle;
	}
	return from;
}

/* Narrows the range to the leaves with values that satisfy a comparison.
 * `value` may have another type than the column. */
static void
set_range(Range *range, const KeptPair *pair, int strategy, Oid less,
		  Oid less_equal, Oid collation, Datum value)
{
	range->pair = pair;
	range->first = 0;
	range->last = pair->leaves - 1;
	if (strategy == BTGreaterStrategyNumber)
		range->first = leaf_at(pair, less_equal, collation, value);
	else if (strategy == BTGreaterEqualStrategyNumber)
		range->first = leaf_at(pair, less, collation, value);
	else
		range->last = Min(range->last, leaf_at(pair, less, collation, value));
}

static bool
is_ordered_by(Oid relation, AttrNumber column, Oid collation)
{
	Oid type, own;
	int32 typmod;

	get_atttypetypmodcoll(relation, column, &type, &typmod, &own);
	return collation == own || !OidIsValid(own) ||
		(OidIsValid(collation) && lc_collate_is_c(own) &&
		 lc_collate_is_c(collation));
}

/* column < constant and the like, on either side. */
static bool
range_of_comparison(const ConditionContext *context, OpExpr *clause,
					Range *range)
{
	Node *left = linitial(clause->args);
	bool column_left = column_of(context, left) != 0;
	Node *other = column_left ? lsecond(clause->args) : left;
	Oid operator= column_left ? clause->opno : get_commutator(clause->opno);
	const KeptPair *pair;
	Oid family, left_type, right_type, less, less_equal;
	int strategy;

	range->column =
		column_of(context, column_left ? left : lsecond(clause->args));
	pair = range->column ? pair_of(context, range->column) : NULL;
	if (pair == NULL || pair->leaves == 0 || !OidIsValid(operator) ||
		!is_ordered_by(context->relation, range->column, clause->inputcollid))
		return false;
	family =
		equality_family(context->relation, range->column, clause->inputcollid);
	if (!OidIsValid(family) || get_op_opfamily_strategy(operator, family) == 0)
		return false;
	get_op_opfamily_properties(operator, family, false, &strategy, &left_type,
							   &right_type);
	while (IsA(other, RelabelType))
		other = (Node *) ((RelabelType *) other)->arg;
	less = get_opfamily_member(family, left_type, right_type,
							   BTLessStrategyNumber);
	less_equal = get_opfamily_member(family, left_type, right_type,
									 BTLessEqualStrategyNumber);
	if (strategy == BTEqualStrategyNumber || !IsA(other, Const) ||
		((Const *) other)->constisnull || !OidIsValid(less) ||
		!OidIsValid(less_equal) || !is_immutable(operator) ||
		!is_immutable(less) || !is_immutable(less_equal))
		return false;
	set_range(range, pair, strategy, less, less_equal, clause->inputcollid,
			  ((Const *) other)->constvalue);
	return true;
}

/* How many bytes of a LIKE pattern come before its first wildcard or escape.
 */
static int
prefix_length(const char *pattern, int length)
{
	int front = 0;

	while (front < length && pattern[front] != '%' && pattern[front] != '_' &&
		   pattern[front] != '\\')
		front++;
	return front;
}

/* The least text, in the order of bytes, that is greater than all texts that
 * begin with `front`; NULL if there is none. */
static text *
text_after_prefix(const char *front, int length)
{
	text *next;

	while (length > 0 && (unsigned char) front[length - 1] == 255)
		length--;
	if (length == 0)
		return NULL;
	next = cstring_to_text_with_len(front, length);
	VARDATA(next)[length - 1]++;
	return next;
}

/* column LIKE 'front%', where texts are ordered by their bytes. */
static bool
range_of_like(const ConditionContext *context, OpExpr *clause, Range *range)
{
	Const *pattern = lsecond(clause->args);
	const KeptPair *pair;
	text *front, *next;
	int length;
	Oid type, collation;
	int32 typmod;
	Range below;

	range->column = column_of(context, linitial(clause->args));
	pair = range->column ? pair_of(context, range->column) : NULL;
	if (clause->opno != OID_TEXT_LIKE_OP || pair == NULL ||
		pair->leaves == 0 || !IsA(pattern, Const) || pattern->constisnull)
		return false;
	get_atttypetypmodcoll(context->relation, range->column, &type, &typmod,
						  &collation);
	if (lookup_type_cache(type, TYPECACHE_BTREE_OPFAMILY)->btree_opf !=
			TEXT_BTREE_FAM_OID ||
		!lc_collate_is_c(collation))
		return false;
	front = DatumGetTextPP(pattern->constvalue);
	length = prefix_length(VARDATA_ANY(front), VARSIZE_ANY_EXHDR(front));
	next = text_after_prefix(VARDATA_ANY(front), length);
	front = cstring_to_text_with_len(VARDATA_ANY(front), length);
	set_range(range, pair, BTGreaterEqualStrategyNumber, TextLessOperator,
			  InvalidOid, C_COLLATION_OID, PointerGetDatum(front));
	if (next == NULL)
		return true;
	set_range(&below, pair, BTLessStrategyNumber, TextLessOperator, InvalidOid,
			  C_COLLATION_OID, PointerGetDatum(next));
	range->last = below.last;
	return true;
}

static bool
range_of_clause(const ConditionContext *context, Node *clause, Range *range)
{
	if (IsA(clause, RestrictInfo))
		clause = (Node *) ((RestrictInfo *) clause)->clause;
	if (!IsA(clause, OpExpr) || list_length(((OpExpr *) clause)->args) != 2)
		return false;
	return range_of_comparison(context, (OpExpr *) clause, range) ||
		range_of_like(context, (OpExpr *) clause, range);
}

/* The list of a range of leaves: the sum of the lists of the fewest nodes that
 * make up the range. */
static DegreeList
list_of_range(const Range *range)
{
	const KeptList *level = range->pair->lists + range->pair->first_leaf;
	int length = range->pair->leaves;
	int first = range->first;
	int end = range->last + 1;
	DegreeList sum = {0};

	if (first >= end)
		return sum;
	for (; first < end;
		 level += length, length = (length + 1) / 2, first /= 2, end /= 2)
	{
		if (first % 2)
			sum = summed(sum, level[first++].list);
		if (end % 2 && first < end)
			sum = summed(sum, level[--end].list);
	}
	return sum;
}

static const KeptList *
list_of_kind(const KeptPair *pair, ListKind kind)
{
	for (int i = 0; i < pair->length; i++)
		if (pair->lists[i].kind == kind)
			return &pair->lists[i];
	return NULL;
}

/* The list of a value: its own list if it is common, else the list of all
 * other values. */
static const KeptList *
list_of_value(const KeptPair *pair, FmgrInfo *equal, Oid collation,
			  bool column_left, Datum value)
{
	for (int i = 0; i < pair->length; i++)
	{
		const KeptList *kept = &pair->lists[i];

		if (kept->kind == LIST_VALUE &&
			DatumGetBool(FunctionCall2Coll(equal, collation,
										   column_left ? kept->value : value,
										   column_left ? value : kept->value)))
			return kept;
	}
	return list_of_kind(pair, LIST_OTHER);
}

static bool
list_of_equality(const ConditionContext *context, OpExpr *clause,
				 DegreeList *list)
{
	Node *left = linitial(clause->args);
	Node *right = lsecond(clause->args);
	bool column_left = column_of(context, left) != 0;
	AttrNumber column =
		column_left ? column_of(context, left) : column_of(context, right);
	Node *other = column_left ? right : left;
	const KeptPair *pair = column ? pair_of(context, column) : NULL;
	const KeptList *kept;
	FmgrInfo equal;

	if (pair == NULL ||
		!is_equality(context->relation, column, clause->opno,
					 clause->inputcollid))
		return false;
	while (IsA(other, RelabelType))
		other = (Node *) ((RelabelType *) other)->arg;
	fmgr_info(get_opcode(clause->opno), &equal);
	if (contain_var_clause(other) || contain_volatile_functions(other))
		return false;
	if (!IsA(other, Const))
		kept = list_of_kind(pair, LIST_ANY);
	else if (((Const *) other)->constisnull)
		return false;
	else
		kept = list_of_value(pair, &equal, clause->inputcollid, column_left,
							 ((Const *) other)->constvalue);
	if (kept == NULL)
		return false;
	*context->used = bms_add_member(*context->used, column);
	*context->may_overcount |= kept->kind != LIST_VALUE;
	*list = kept->list;
	return true;
}

/* The sum of the lists of an array's values. A common value that occurs twice
 * in the array counts once; any other value counts each time. */
static bool
sum_of_values(const ConditionContext *context, const KeptPair *pair,
			  ScalarArrayOpExpr *clause, ArrayType *array, DegreeList *list)
{
	Oid type = ARR_ELEMTYPE(array);
	bool *used = palloc0((pair->length + 1) * sizeof(bool));
	int16 length;
	bool by_value, *nulls;
	char align;
	Datum *values;
	int count;
	FmgrInfo equal;

	get_typlenbyvalalign(type, &length, &by_value, &align);
	deconstruct_array(array, type, length, by_value, align, &values, &nulls,
					  &count);
	fmgr_info(get_opcode(clause->opno), &equal);
	*list = (DegreeList){0};
	if (count > MOST_VALUES)
		return false;
	for (int i = 0; i < count; i++)
	{
		const KeptList *kept = nulls[i]
			? NULL
			: list_of_value(pair, &equal, clause->inputcollid, true,
							values[i]);

		if (kept == NULL || used[kept - pair->lists])
			continue;
		used[kept - pair->lists] = kept->kind == LIST_VALUE;
		*context->may_overcount |= kept->kind != LIST_VALUE;
		*list = summed(*list, kept->list);
	}
	return true;
}

static bool
list_of_array(const ConditionContext *context, ScalarArrayOpExpr *clause,
			  DegreeList *list)
{
	AttrNumber column = column_of(context, linitial(clause->args));
	Node *values = lsecond(clause->args);
	const KeptPair *pair = column ? pair_of(context, column) : NULL;

	while (IsA(values, RelabelType))
		values = (Node *) ((RelabelType *) values)->arg;
	if (pair == NULL || !clause->useOr ||
		!is_equality(context->relation, column, clause->opno,
					 clause->inputcollid))
		return false;
	if (!IsA(values, Const) || ((Const *) values)->constisnull)
		return false;
	if (!sum_of_values(context, pair, clause,
					   DatumGetArrayTypeP(((Const *) values)->constvalue),
					   list))
		return false;
	*context->used = bms_add_member(*context->used, column);
	return true;
}

static bool
list_of_null_test(const ConditionContext *context, NullTest *test,
				  DegreeList *list)
{
	AttrNumber column = column_of(context, (Node *) test->arg);
	const KeptPair *pair = column ? pair_of(context, column) : NULL;
	const KeptList *kept =
		pair && test->nulltesttype == IS_NULL && !test->argisrow
		? list_of_kind(pair, LIST_NULL)
		: NULL;

	if (kept == NULL)
		return false;
	*context->used = bms_add_member(*context->used, column);
	*list = kept->list;
	return true;
}

/* Adds a range. If the same column has a range already, that range becomes the
 * intersection. */
static void
add_range(List **ranges, const Range *range)
{
	Range *known;
	ListCell *cell;

	foreach (cell, *ranges)
	{
		known = lfirst(cell);
		if (known->column == range->column)
		{
			known->first = Max(known->first, range->first);
			known->last = Min(known->last, range->last);
			return;
		}
	}
	known = palloc(sizeof(Range));
	*known = *range;
	*ranges = lappend(*ranges, known);
}

/* Lowers a list by the list of one more condition. `taken` says how many
 * conditions the list already has. */
static void
add_list(const ConditionContext *context, DegreeList *list,
		 const DegreeList *one, int taken)
{
	*context->may_overcount |= taken > 0;
	*list = taken > 0 ? lesser(*list, *one) : *one;
}

/* AND: the lesser of the lists of the conditions that this code knows. */
static bool
list_of_all(const ConditionContext *context, List *clauses, DegreeList *list)
{
	int taken = 0;
	List *ranges = NIL;
	ListCell *cell;

	foreach (cell, clauses)
	{
		DegreeList one;
		Range range;
		bool is_range = range_of_clause(context, lfirst(cell), &range);

		if (is_range)
		{
			add_range(&ranges, &range);
			*context->used = bms_add_member(*context->used, range.column);
		}
		if (!list_of_clause(context, lfirst(cell), &one))
		{
			*context->may_overcount |= !is_range;
			continue;
		}
		add_list(context, list, &one, taken++);
	}
	foreach (cell, ranges)
	{
		DegreeList one = list_of_range(lfirst(cell));

		add_list(context, list, &one, taken++);
	}
	return taken > 0;
}

/* OR: the sum, if this code knows both sides. */
static bool
list_of_any(const ConditionContext *context, List *clauses, DegreeList *list)
{
	Bitmapset *used = bms_copy(*context->used);
	ListCell *cell;

	*list = (DegreeList){0};
	foreach (cell, clauses)
	{
		DegreeList one;

		if (!list_of_all(context, list_make1(lfirst(cell)), &one))
		{
			*context->used = used;
			return false;
		}
		*list = summed(*list, one);
	}
	return true;
}

static bool
list_of_clause(const ConditionContext *context, Node *clause, DegreeList *list)
{
	if (IsA(clause, RestrictInfo))
		clause = (Node *) ((RestrictInfo *) clause)->clause;
	if (is_andclause(clause))
		return list_of_all(context, ((BoolExpr *) clause)->args, list);
	if (is_orclause(clause))
		return list_of_any(context, ((BoolExpr *) clause)->args, list);
	if (IsA(clause, OpExpr) && list_length(((OpExpr *) clause)->args) == 2)
		return list_of_equality(context, (OpExpr *) clause, list);
	if (IsA(clause, ScalarArrayOpExpr))
		return list_of_array(context, (ScalarArrayOpExpr *) clause, list);
	if (IsA(clause, NullTest))
		return list_of_null_test(context, (NullTest *) clause, list);
	return false;
}

/* The list of a joined column over the rows that satisfy the relation's own
 * conditions. If joined is 0, only its number of rows is used. */
DegreeList
list_under(const KeptTable *table, RelOptInfo *rel, AttrNumber joined,
		   Bitmapset **used)
{
	const KeptPair *all = kept_pair(table, joined, 0);
	bool may_overcount = false;
	ConditionContext context = {.relation = table->relation,
								.entry = rel->relid,
								.table = table,
								.joined = joined,
								.used = used,
								.may_overcount = &may_overcount};
	DegreeList all_rows = all->lists[0].list;
	DegreeList list;

	list = list_of_all(&context, rel->baserestrictinfo, &list)
		? lesser(all_rows, list)
		: all_rows;
	return with_deltas(table, joined, list);
}

/* The list of a joined column over the rows that refer to a row that satisfies
   the conditions of its relation. False if there is no list. If the table is
   watched, the referred table has to be unchanged: after a change there, other
   rows of this table may satisfy the conditions. */
bool
list_along(const KeptTable *table, const Reference *reference,
		   RelOptInfo *referred, AttrNumber joined, DegreeList *list,
		   Bitmapset **used, bool *may_overcount)
{
	ConditionContext context = {.relation = reference->referred,
								.entry = referred->relid,
								.table = table,
								.joined = joined,
								.reference = reference,
								.used = used,
								.may_overcount = may_overcount};
	bool is_unchanged = table->deltas
		? list_member_oid(table->unchanged, reference->referred)
		: !kept_fresh_only;

	if (!is_unchanged ||
		!list_of_all(&context, referred->baserestrictinfo, list))
		return false;
	*list = with_deltas(table, joined, *list);
	return true;
}
