/* The extension's own tables: which they are, and how they are read and
   written.

   No SQL is run for this, since names and operators in SQL mean what the
   caller's search_path says. Tables are found as members of the extension,
   rows go through the heap and the indexes, and no rights are asked: whoever
   calls has to check what its user may do. */
#ifndef SAFEBOUND_OWN_TABLES_H
#define SAFEBOUND_OWN_TABLES_H

#include "postgres.h"

#include "access/genam.h"
#include "access/htup.h"
#include "storage/lockdefs.h"
#include "utils/relcache.h"
#include "utils/snapshot.h"

/* What belongs to the extension and is used from C. */
typedef enum OwnTable
{
	KEPT_TABLE,
	KEPT_LISTS,
	KEPT_DELTA,
	KEPT_SOURCE,
	VERSIONS, /* the sequence */
	OWN_LENGTH
} OwnTable;

/* The columns of these tables. They are in own_tables.c with their types, too.
 */
enum
{
	TABLE_RELATION = 1,
	TABLE_ROWS,
	TABLE_ACCURACY,
	TABLE_COMMON,
	TABLE_RANGES,
	TABLE_MADE,
	TABLE_VERSION,
	TABLE_SOURCES,
	TABLE_JOINED,
	TABLE_FILTERS,
	TABLE_REFERRED,
	TABLE_FIRST_DELTA,
	TABLE_MERGED_DELTA,
	TABLE_MERGED_XID,
	TABLE_COLUMNS = TABLE_MERGED_XID
};

enum
{
	LISTS_RELATION = 1,
	LISTS_JOINED,
	LISTS_FILTER,
	LISTS_ALONG,
	LISTS_REFERRED,
	LISTS_KEY,
	LISTS_JOINED_TYPE,
	LISTS_FILTER_TYPE,
	LISTS_JOINED_COLLATION,
	LISTS_FILTER_COLLATION,
	LISTS_BYTES,
	LISTS_COLUMNS = LISTS_BYTES
};

enum
{
	DELTA_RELATION = 1,
	DELTA_ID,
	DELTA_ROWS,
	DELTA_LISTS,
	DELTA_COLUMNS = DELTA_LISTS
};

/* The tables on which a statement may write rows of a watched table, by
 * themselves: kept_table has the same as arrays. */
enum
{
	SOURCE_SOURCE = 1,
	SOURCE_RELATION,
	SOURCE_COLUMNS = SOURCE_RELATION
};

typedef enum Presence
{
	ABSENT,    /* this database doesn't have the extension */
	DIFFERENT, /* it has it, but with other tables than this library knows:
				  ALTER EXTENSION safebound UPDATE wasn't run */
	PRESENT
} Presence;

extern Presence extension_presence(void);

/* The oid of a table. InvalidOid unless the extension is PRESENT. */
extern Oid own_oid(OwnTable table);
extern bool is_own_table(Oid relation);

/* The oid of the triggers' function; InvalidOid unless PRESENT. */
extern Oid follow_oid(void);

/* Opens a table, and raises an error if it isn't there or has other columns.
 */
extern Relation open_own(OwnTable table, LOCKMODE mode);

/* A scan of the rows whose first columns have the values of `key`. These are
   the first columns of the primary key too, so its index is used. With
   `length` 0, all rows are scanned. If `snapshot` is NULL, rows are seen as of
   now: what others have committed, and what this transaction wrote before its
   last CommandCounterIncrement. */
typedef struct OwnScan
{
	Relation own;
	SysScanDesc scan;
} OwnScan;

extern OwnScan begin_own_scan(OwnTable table, Snapshot snapshot, int length,
							  const Datum *key);

/* A scan of the rows whose first column has the value key[0], and whose second
 * one has at least key[1], which is a bigint. */
extern OwnScan begin_own_scan_from(OwnTable table, LOCKMODE mode,
								   Snapshot snapshot, const Datum *key);
extern HeapTuple next_own(OwnScan *scan);
extern void end_own_scan(OwnScan *scan);

/* Writers. They don't wait for one another: of two transactions that change
   one row, the second gets an error. So who changes the rows of a table holds
   ShareUpdateExclusiveLock on that table, at least. What is written is seen
   after CommandCounterIncrement. With `nulls` NULL no value is NULL. */
extern void insert_own(OwnTable table, Datum *values, bool *nulls);

/* Replaces, in each row that begins with `key`, the columns that `replaced`
 * names by those of `row`. This and delete_own return the number of rows. */
extern int64 update_own(OwnTable table, int length, const Datum *key,
						Datum *row, bool *nulls, bool *replaced);
extern int64
delete_own(OwnTable table, Snapshot snapshot, int length, const Datum *key);
extern int64 next_version(void);

extern void own_tables_init(void);

#endif
