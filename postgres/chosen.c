/* Which columns of a table are counted if nobody names them. */
#include "counting.h"

#include "access/htup_details.h"
#include "access/sysattr.h"
#include "catalog/pg_class.h"
#include "utils/rel.h"
#include "utils/syscache.h"

/* The columns in a key, a foreign key or an index: those by which tables are
 * joined, as far as the table's definition tells. */
Bitmapset *
columns_in_keys(Relation relation)
{
	Bitmapset *indexed =
		RelationGetIndexAttrBitmap(relation, INDEX_ATTR_BITMAP_ALL);
	Bitmapset *numbers = NULL;
	ListCell *cell;
	int at = -1;

	while ((at = bms_next_member(indexed, at)) >= 0)
		if (at + FirstLowInvalidHeapAttributeNumber > 0)
			numbers = bms_add_member(numbers,
									 at + FirstLowInvalidHeapAttributeNumber);
	foreach (cell, RelationGetFKeyList(relation))
	{
		ForeignKeyCacheInfo *reference = lfirst(cell);

		for (int i = 0; i < reference->nkeys; i++)
			numbers = bms_add_member(numbers, reference->conkey[i]);
	}
	return numbers;
}

static int
length_of(Oid relation)
{
	HeapTuple tuple = SearchSysCache1(RELOID, ObjectIdGetDatum(relation));
	int length;

	if (!HeapTupleIsValid(tuple))
		return 0;
	length = ((Form_pg_class) GETSTRUCT(tuple))->relnatts;
	ReleaseSysCache(tuple);
	return length;
}

/* How many columns of other tables are filter columns along foreign keys. */
static int
columns_along(Relation relation, Bitmapset *joined)
{
	int columns = 0;
	ListCell *cell;

	foreach (cell, RelationGetFKeyList(relation))
	{
		ForeignKeyCacheInfo *reference = lfirst(cell);

		if (reference->nkeys == 1 &&
			bms_is_member(reference->conkey[0], joined))
			columns += length_of(reference->confrelid);
	}
	return columns;
}

/* Raises an error if there would be too many pairs of a joined column and a
 * filter column. */
void
check_pairs(const TableCounting *table_count)
{
	Bitmapset *joined = NULL;
	int filters = 0;
	int joins;

	for (int i = 0; i < table_count->length; i++)
	{
		if (table_count->columns[i].is_joined)
			joined =
				bms_add_member(joined, table_count->columns[i].number);
		filters += table_count->columns[i].is_filter;
	}
	joins = bms_num_members(joined);
	filters += columns_along(table_count->relation, joined);
	if ((joins + 1) * (int64) filters > MOST_PAIRS)
		ereport(
			ERROR,
			(errcode(ERRCODE_PROGRAM_LIMIT_EXCEEDED),
			 errmsg("\"%s\" has too many columns to count each joined column "
					"under each filter column: %d and %d",
					RelationGetRelationName(table_count->relation), joins,
					filters),
			 errdetail("At most %d pairs are counted.", MOST_PAIRS),
			 errhint("Name those that queries use in the arguments columns "
					 "and filters of safebound.keep.")));
}
