/* The rows of a table, or of all parts of a partitioned table, as the active
   snapshot sees them, always in the same order. While a table is counted, it
   and its parts are locked, so that its parts don't change. */
#include "counting.h"

#include "access/table.h"
#include "access/tableam.h"
#include "access/tupconvert.h"
#include "catalog/pg_inherits.h"
#include "executor/tuptable.h"
#include "utils/lsyscache.h"
#include "utils/rel.h"
#include "utils/snapmgr.h"

struct Rows
{
	Relation whole;
	List *tables;  /* the tables that have rows, by oid */
	int next;      /* the next place in the list */
	Relation part; /* the table that is being read; NULL: the next one has to
					  be opened */
	TableScanDesc scan;
	TupleTableSlot *read;
	AttrMap *map; /* from the part's columns to those of the whole table; NULL
					 if they are the same */
	TupleTableSlot *mapped;
};

/* The table itself, or the parts of a partitioned table that have rows of
 * their own. */
static List *
tables_with_rows(Relation whole)
{
	List *tables = NIL;
	ListCell *cell;

	if (whole->rd_rel->relkind != RELKIND_PARTITIONED_TABLE)
		return list_make1_oid(RelationGetRelid(whole));
	foreach (
		cell,
		find_all_inheritors(RelationGetRelid(whole), AccessShareLock, NULL))
	{
		char kind = get_rel_relkind(lfirst_oid(cell));

		if (kind == RELKIND_FOREIGN_TABLE)
			ereport(ERROR,
					(errcode(ERRCODE_FEATURE_NOT_SUPPORTED),
					 errmsg("a part of \"%s\" is a foreign table",
							RelationGetRelationName(whole))));
		if (kind == RELKIND_RELATION)
			tables = lappend_oid(tables, lfirst_oid(cell));
	}
	return tables;
}

Rows *
rows_begin(Relation relation)
{
	Rows *rows = palloc0(sizeof(Rows));

	rows->whole = relation;
	rows->tables = tables_with_rows(relation);
	rows->mapped =
		MakeSingleTupleTableSlot(RelationGetDescr(relation), &TTSOpsVirtual);
	return rows;
}

static void
open_part(Rows *rows)
{
	rows->part =
		table_open(list_nth_oid(rows->tables, rows->next++), AccessShareLock);
	rows->scan = table_beginscan_strat(rows->part, GetActiveSnapshot(), 0,
									   NULL, true, false);
	rows->read = table_slot_create(rows->part, NULL);
	rows->map = build_attrmap_by_name_if_req(RelationGetDescr(rows->part),
											 RelationGetDescr(rows->whole));
}

static void
close_part(Rows *rows)
{
	ExecDropSingleTupleTableSlot(rows->read);
	table_endscan(rows->scan);
	table_close(rows->part, NoLock);
	rows->part = NULL;
}

/* The next row, with the columns of the whole table; NULL at the end. */
TupleTableSlot *
rows_next(Rows *rows)
{
	while (rows->part != NULL || rows->next < list_length(rows->tables))
	{
		if (rows->part == NULL)
			open_part(rows);
		if (table_scan_getnextslot(rows->scan, ForwardScanDirection,
								   rows->read))
			return rows->map
				? execute_attr_map_slot(rows->map, rows->read, rows->mapped)
				: rows->read;
		close_part(rows);
	}
	return NULL;
}

void
rows_end(Rows *rows)
{
	if (rows->part != NULL)
		close_part(rows);
	ExecDropSingleTupleTableSlot(rows->mapped);
	pfree(rows);
}
