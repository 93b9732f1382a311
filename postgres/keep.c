/* safebound.keep and safebound.forget: which columns of a table are counted,
 * and where the lists are written. */
#include "counting.h"
#include "owner.h"
#include "watch.h"

#include "access/htup_details.h"
#include "access/stratnum.h"
#include "access/relation.h"
#include "access/table.h"
#include "access/tableam.h"
#include "access/xact.h"
#include "catalog/index.h"
#include "catalog/pg_class.h"
#include "catalog/pg_collation.h"
#include "catalog/pg_type.h"
#include "executor/tuptable.h"
#include "miscadmin.h"
#include "storage/lmgr.h"
#include "utils/acl.h"
#include "utils/array.h"
#include "utils/builtins.h"
#include "utils/datum.h"
#include "utils/inval.h"
#include "utils/lsyscache.h"
#include "utils/memutils.h"
#include "utils/pg_locale.h"
#include "utils/rel.h"
#include "utils/snapmgr.h"
#include "utils/tuplesort.h"
#include "utils/typcache.h"

PG_FUNCTION_INFO_V1(safebound_keep);
PG_FUNCTION_INFO_V1(safebound_forget);

void
save_pair(const TableCounting *table_count, const Column *joined,
		  const Column *filter, StringInfo bytes)
{
	bytea *lists = palloc(VARHDRSZ + bytes->len);
	Datum values[LISTS_COLUMNS] = {
		ObjectIdGetDatum(RelationGetRelid(table_count->relation)),
		Int16GetDatum(joined ? joined->number : 0),
		Int16GetDatum(filter ? filter->number : 0),
		Int16GetDatum(filter && filter->along ? filter->along->number : 0),
		ObjectIdGetDatum(filter ? filter->referred : InvalidOid),
		Int16GetDatum(filter ? filter->key : 0),
		ObjectIdGetDatum(joined ? joined->attribute->atttypid : InvalidOid),
		ObjectIdGetDatum(filter ? filter->attribute->atttypid : InvalidOid),
		ObjectIdGetDatum(joined ? joined->attribute->attcollation
								: InvalidOid),
		ObjectIdGetDatum(filter ? filter->attribute->attcollation
								: InvalidOid),
		PointerGetDatum(lists)};

	SET_VARSIZE(lists, VARHDRSZ + bytes->len);
	memcpy(VARDATA(lists), bytes->data, bytes->len);
	insert_own(KEPT_LISTS, values, NULL);
	pfree(lists);
}

/* Whether a column's type has an order, so that equal values can be found. */
bool
has_order(Form_pg_attribute attribute)
{
	TypeCacheEntry *type = lookup_type_cache(
		attribute->atttypid, TYPECACHE_LT_OPR | TYPECACHE_EQ_OPR);

	return OidIsValid(type->lt_opr) && OidIsValid(type->eq_opr);
}

/* The numbers of the named columns. Each column has to exist and to have an
 * order. */
static Bitmapset *
named_columns(Relation relation, ArrayType *names)
{
	Bitmapset *numbers =
		bms_make_singleton(0); /* with 0, which is no column: an empty set
								  would be NULL, which means all columns */
	Datum *values;
	bool *nulls;
	int length;

	deconstruct_array(names, NAMEOID, NAMEDATALEN, false, TYPALIGN_CHAR,
					  &values, &nulls, &length);
	for (int i = 0; i < length; i++)
	{
		AttrNumber number = nulls[i]
			? InvalidAttrNumber
			: get_attnum(RelationGetRelid(relation),
						 NameStr(*DatumGetName(values[i])));

		if (number <= 0)
			ereport(ERROR,
					(errcode(ERRCODE_UNDEFINED_COLUMN),
					 errmsg("column \"%s\" of relation \"%s\" does not exist",
							nulls[i] ? "" : NameStr(*DatumGetName(values[i])),
							RelationGetRelationName(relation))));
		if (!has_order(TupleDescAttr(RelationGetDescr(relation), number - 1)))
			ereport(ERROR,
					(errcode(ERRCODE_FEATURE_NOT_SUPPORTED),
					 errmsg("column \"%s\" has a type without an order",
							NameStr(*DatumGetName(values[i])))));
		numbers = bms_add_member(numbers, number);
	}
	return numbers;
}

/* All columns whose equal values can be found. */
static Bitmapset *
all_columns(Relation relation)
{
	TupleDesc desc = RelationGetDescr(relation);
	Bitmapset *numbers = NULL;

	for (int i = 0; i < desc->natts; i++)
		if (!TupleDescAttr(desc, i)->attisdropped &&
			has_order(TupleDescAttr(desc, i)))
			numbers = bms_add_member(numbers, i + 1);
	return numbers;
}

static void
choose_columns(TableCounting *table_count, Bitmapset *joined,
			   Bitmapset *filters)
{
	Bitmapset *all = all_columns(table_count->relation);
	Bitmapset *keys = columns_in_keys(table_count->relation);
	Bitmapset *joins = joined ? joined : bms_overlap(keys, all) ? keys : all;
	Bitmapset *conditions = filters ? filters : all;
	int number = -1;

	table_count->columns =
		palloc0(sizeof(Column) * (bms_num_members(all) + 1));
	while ((number = bms_next_member(all, number)) >= 0)
	{
		Column column = {.number = number,
						 .is_joined = bms_is_member(number, joins),
						 .is_filter = bms_is_member(number, conditions)};

		column.attribute =
			TupleDescAttr(RelationGetDescr(table_count->relation), number - 1);
		if (column.is_joined || column.is_filter)
			table_count->columns[table_count->length++] = column;
	}
	check_pairs(table_count);
}

/* Whether there can be lists along a reference. The user must be allowed to
   read the whole referred table, and numbers for the columns' values must fit
   in memory. Both columns must have the same =, which is also the = of the
   reference. */
static bool
may_follow(const TableCounting *table_count, const Column *along,
		   const ForeignKeyCacheInfo *reference)
{
	Relation referred = table_open(reference->confrelid, AccessShareLock);
	Form_pg_attribute key =
		TupleDescAttr(RelationGetDescr(referred), reference->confkey[0] - 1);
	bool may = referred->rd_rel->relkind == RELKIND_RELATION &&
		!referred->rd_rel->relrowsecurity &&
		!table_count->relation->rd_rel->relrowsecurity &&
		reference->nkeys == 1 &&
		pg_class_aclcheck(reference->confrelid, GetUserId(), ACL_SELECT) ==
			ACLCHECK_OK &&
		key->atttypid == along->attribute->atttypid &&
		key->attcollation == along->attribute->attcollation &&
		get_op_opfamily_strategy(
			reference->conpfeqop[0],
			lookup_type_cache(key->atttypid, TYPECACHE_BTREE_OPFAMILY)
				->btree_opf) == BTEqualStrategyNumber &&
		((Size) along->highest + 1) * 2 * sizeof(uint32) <=
			(Size) maintenance_work_mem * 1024;

	table_close(referred, NoLock);
	return may;
}

/* Makes lists of this table's rows under conditions on a table to which they
 * refer. */
static void
keep_along(TableCounting *table_count, const Column *along,
		   ForeignKeyCacheInfo *reference)
{
	MemoryContext own = AllocSetContextCreate(
		CurrentMemoryContext, "safebound reference", ALLOCSET_DEFAULT_SIZES);
	MemoryContext before = MemoryContextSwitchTo(own);
	int length;
	Column *columns = referred_columns(table_count, along, reference, &length);

	keep_filters(table_count, columns, length);
	end_columns(columns, length);
	MemoryContextSwitchTo(before);
	MemoryContextDelete(own);
}

static void
keep_references(TableCounting *table_count)
{
	List *references = copyObject(RelationGetFKeyList(table_count->relation));
	ListCell *cell;

	foreach (cell, references)
	{
		ForeignKeyCacheInfo *reference = lfirst(cell);

		for (int i = 0; i < table_count->length; i++)
			if (table_count->columns[i].is_joined &&
				table_count->columns[i].number == reference->conkey[0] &&
				may_follow(table_count, &table_count->columns[i], reference))
				keep_along(table_count, &table_count->columns[i], reference);
	}
}

/* Opens a table for its owner. Other users may not keep its statistics, and
 * get an error. */
Relation
open_owned(Oid relation)
{
	Relation opened = relation_open(relation, AccessShareLock);

	if (!pg_class_ownercheck(relation, GetUserId()))
		aclcheck_error(ACLCHECK_NOT_OWNER, OBJECT_TABLE,
					   RelationGetRelationName(opened));
	if (opened->rd_rel->relkind != RELKIND_RELATION &&
		opened->rd_rel->relkind != RELKIND_PARTITIONED_TABLE &&
		opened->rd_rel->relkind != RELKIND_MATVIEW)
		ereport(ERROR,
				(errcode(ERRCODE_WRONG_OBJECT_TYPE),
				 errmsg("\"%s\" is not a table or materialized view",
						RelationGetRelationName(opened))));
	return opened;
}

static int
within(int value, int least, int most, const char *name)
{
	if (value < least || value > most)
		ereport(ERROR,
				(errcode(ERRCODE_INVALID_PARAMETER_VALUE),
				 errmsg("%s has to be from %d to %d", name, least, most)));
	return value;
}

/* Counts a table in a new snapshot. If `joined` or `filters` is NULL, it means
 * all columns that have an order. */
int64
keep_table(Oid relation, Bitmapset *joined, Bitmapset *filters,
		   int most_common, int most_leaves, int accuracy, bool folding)
{
	TableCounting table_count = {.most_common = most_common,
								 .most_leaves = most_leaves,
								 .accuracy = accuracy,
								 .relation = open_owned(relation)};
	Caller caller = begin_as_owner(table_count.relation->rd_rel->relowner);
	bool followed;
	KeptRow before;

	choose_columns(&table_count, joined, filters);
	begin_counting(table_count.relation, folding, &before, &followed);
	forget_kept(relation);
	CacheInvalidateRelcache(table_count.relation);
	read_columns(&table_count);
	keep_whole(&table_count);
	keep_filters(&table_count, table_count.columns, table_count.length);
	keep_references(&table_count);
	end_columns(table_count.columns, table_count.length);
	end_counting(&table_count, &before, followed);
	end_as_owner(&caller);
	relation_close(table_count.relation, NoLock);
	return table_count.lists;
}

static Bitmapset *
named_or_all(Oid relation, FunctionCallInfo fcinfo, int argument)
{
	Relation opened;
	Bitmapset *numbers;

	if (PG_ARGISNULL(argument))
		return NULL;
	opened = open_owned(relation);
	numbers = named_columns(opened, PG_GETARG_ARRAYTYPE_P(argument));
	relation_close(opened, NoLock);
	return numbers;
}

/* Tells a session once that a budget needs more than kept tables. */
static void
say_not_watched(Oid relation)
{
	static bool told = false;
	KeptRow kept_row;

	if (told || !find_kept_row(relation, NULL, &kept_row) ||
		kept_row.sources != NIL)
		return;
	told = true;
	ereport(NOTICE,
			(errmsg("\"%s\" is kept, and not watched: safebound.budget takes "
					"bounds of watched tables alone",
					get_rel_name(relation)),
			 errhint("safebound.watch counts a table and follows the rows "
					 "that come.")));
}

Datum
safebound_keep(PG_FUNCTION_ARGS)
{
	Oid relation = PG_GETARG_OID(0);
	int64 lists;

	check_use();
	if (PG_ARGISNULL(0) || PG_ARGISNULL(3) || PG_ARGISNULL(4) ||
		PG_ARGISNULL(5))
		PG_RETURN_NULL();
	lists = keep_table(
		relation, named_or_all(relation, fcinfo, 1),
		named_or_all(relation, fcinfo, 2),
		within(PG_GETARG_INT32(3), 0, 1000, "common"),
		within(PG_GETARG_INT32(4), 0, 1000, "ranges"),
		within(PG_GETARG_INT32(5), 1, SAFEBOUND_MOST_ACCURACY, "accuracy"),
		false);
	say_not_watched(relation);
	PG_RETURN_INT64(lists);
}

Datum
safebound_forget(PG_FUNCTION_ARGS)
{
	Relation opened;
	bool were;

	check_use();
	opened = open_owned(PG_GETARG_OID(0));
	LockRelationOid(PG_GETARG_OID(0), ShareUpdateExclusiveLock);
	were = forget_kept(PG_GETARG_OID(0));
	delete_deltas(PG_GETARG_OID(0), NULL);
	CacheInvalidateRelcache(opened);
	relation_close(opened, NoLock);
	PG_RETURN_BOOL(were);
}
