/* Deltas fold by themselves.

   A transaction that wrote one of many deltas starts a worker when it commits.
   The worker counts a small table anew, and a large one where many rows came.
   Else it merges the deltas into one. Nobody waits for it: where no worker can
   be started, or somebody counts or vacuums the table, a later writer tries
   again. */
#include "watch.h"

#include "access/xact.h"
#include "catalog/pg_authid.h"
#include "common/hashfn.h"
#include "miscadmin.h"
#include "postmaster/bgworker.h"
#include "storage/ipc.h"
#include "storage/lmgr.h"
#include "storage/proc.h"
#include "tcop/tcopprot.h"
#include "utils/guc.h"
#include "utils/lsyscache.h"
#include "utils/memutils.h"
#include "utils/snapmgr.h"
#include "utils/syscache.h"
#include "utils/timestamp.h"

/* One delta of so many looks how many there are. */
#define DELTAS_FOR_A_LOOK 32

/* A session starts no second worker within this time. */
#define MILLISECONDS_BETWEEN 1000

/* A table of fewer rows, or one of whose rows one in so many came later, is
 * counted anew. */
#define FEW_ROWS 10000
#define ONE_IN_ROWS 10

PGDLLEXPORT void safebound_fold_worker(Datum relation);

/* Tables to fold, in TopMemoryContext. */
static List *wanted;

/* What a worker is told beside the table. */
typedef struct WorkerTask
{
	Oid database;
	Oid user; /* the table's owner, or InvalidOid if that role can't log in */
} WorkerTask;

/* Ids are hashed, since a table's ids may all be even, say. */
void
ask_for_fold(Oid relation, int64 delta)
{
	MemoryContext before;

	if (murmurhash32((uint32) delta) % DELTAS_FOR_A_LOOK != 0 ||
		!has_many_deltas(relation))
		return;
	before = MemoryContextSwitchTo(TopMemoryContext);
	wanted = list_append_unique_oid(wanted, relation);
	MemoryContextSwitchTo(before);
}

static Oid
user_for(Oid relation)
{
	HeapTuple table = SearchSysCache1(RELOID, ObjectIdGetDatum(relation));
	HeapTuple role;
	Oid owner = InvalidOid;
	bool may_log_in = false;

	if (HeapTupleIsValid(table))
	{
		owner = ((Form_pg_class) GETSTRUCT(table))->relowner;
		ReleaseSysCache(table);
	}
	role = SearchSysCache1(AUTHOID, ObjectIdGetDatum(owner));
	if (HeapTupleIsValid(role))
	{
		Form_pg_authid form = (Form_pg_authid) GETSTRUCT(role);

		may_log_in = form->rolcanlogin && form->rolconnlimit < 0;
		ReleaseSysCache(role);
	}
	return may_log_in ? owner : InvalidOid;
}

static void
start_worker(Oid relation)
{
	static TimestampTz last;
	TimestampTz now = GetCurrentTimestamp();
	WorkerTask task = {MyDatabaseId, user_for(relation)};
	BackgroundWorker worker = {
		.bgw_name = "safebound fold",
		.bgw_type = "safebound fold",
		.bgw_flags =
			BGWORKER_SHMEM_ACCESS | BGWORKER_BACKEND_DATABASE_CONNECTION,
		.bgw_start_time = BgWorkerStart_RecoveryFinished,
		.bgw_restart_time = BGW_NEVER_RESTART,
		.bgw_library_name = "$libdir/safebound",
		.bgw_function_name = "safebound_fold_worker",
		.bgw_main_arg = ObjectIdGetDatum(relation)};

	if (!TimestampDifferenceExceeds(last, now, MILLISECONDS_BETWEEN))
		return;
	last = now;
	memcpy(worker.bgw_extra, &task, sizeof(task));
	RegisterDynamicBackgroundWorker(&worker, NULL);
}

static void
on_transaction_end(XactEvent event, void *argument)
{
	ListCell *cell;

	if (event == XACT_EVENT_PRE_COMMIT)
		foreach (cell, wanted)
			start_worker(lfirst_oid(cell));
	if (event == XACT_EVENT_PRE_COMMIT || event == XACT_EVENT_ABORT ||
		event == XACT_EVENT_PREPARE)
	{
		list_free(wanted);
		wanted = NIL;
	}
}

static int64
rows_of_deltas(const KeptRow *kept_row)
{
	return (int64) find_deltas(kept_row, GetActiveSnapshot(), NULL)->rows;
}

static void
fold_or_merge(Oid relation)
{
	KeptRow kept_row;

	if (!ConditionalLockRelationOid(relation, ShareUpdateExclusiveLock) ||
		!SearchSysCacheExists1(RELOID, ObjectIdGetDatum(relation)) ||
		!find_kept_row(relation, NULL, &kept_row) || kept_row.sources == NIL ||
		has_mark(relation, NULL) || !has_many_deltas(relation))
		return;
	/* A snapshot from before the lock may see deltas that somebody merged. */
	PushActiveSnapshot(GetTransactionSnapshot());
	if (kept_row.rows < FEW_ROWS ||
		rows_of_deltas(&kept_row) >= kept_row.rows / ONE_IN_ROWS)
		keep_again(relation, true);
	else
		merge_deltas(&kept_row);
	PopActiveSnapshot();
}

/* Settings of a role or a database that would stop a count, as autovacuum sets
 * them. */
static void
settle(void)
{
	SetConfigOption("default_transaction_isolation", "read committed",
					PGC_SUSET, PGC_S_OVERRIDE);
	SetConfigOption("default_transaction_read_only", "off", PGC_SUSET,
					PGC_S_OVERRIDE);
	SetConfigOption("statement_timeout", "0", PGC_SUSET, PGC_S_OVERRIDE);
	SetConfigOption("lock_timeout", "0", PGC_SUSET, PGC_S_OVERRIDE);
	SetConfigOption("idle_in_transaction_session_timeout", "0", PGC_SUSET,
					PGC_S_OVERRIDE);
}

/* The worker has the rights of the table's owner. If that role can't log in,
   it begins as autovacuum does. The count runs as the owner then, too. */
void
safebound_fold_worker(Datum relation)
{
	WorkerTask task;

	memcpy(&task, MyBgworkerEntry->bgw_extra, sizeof(task));
	pqsignal(SIGTERM, die);
	BackgroundWorkerUnblockSignals();
	settle();
	BackgroundWorkerInitializeConnectionByOid(task.database, task.user, 0);
	StartTransactionCommand();
	PushActiveSnapshot(GetTransactionSnapshot());
	fold_or_merge(DatumGetObjectId(relation));
	PopActiveSnapshot();
	CommitTransactionCommand();
}

void
folding_init(void)
{
	RegisterXactCallback(on_transaction_end, NULL);
}
