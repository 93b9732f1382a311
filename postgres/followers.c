/* Which watched tables a statement's table brings rows to, in this backend's
   memory: each statement that writes asks for it.

   Who changes what is stored of a watched table invalidates kept_source. A
   backend hears of it when it next locks a table, at the latest the table to
   which it writes: who starts to watch that one waits for its writers. */
#include "watch.h"

#include "access/xact.h"
#include "utils/hsearch.h"
#include "utils/inval.h"
#include "utils/memutils.h"

typedef struct Followed
{
	Oid source;
	List *followers; /* of KeptRow */
} Followed;

static MemoryContext context; /* of what is known; NULL: nothing is */
static HTAB *followed;
static Oid source_table;
static uint64 changes;

/* What was known before a change. Statements that began before may still point
 * to it until the transaction ends. */
static List *stale;

static void
forget_followers(void)
{
	MemoryContext before;

	changes++;
	if (context == NULL)
		return;
	before = MemoryContextSwitchTo(TopMemoryContext);
	stale = lappend(stale, context);
	MemoryContextSwitchTo(before);
	context = NULL;
	followed = NULL;
}

static void
on_invalidation(Datum argument, Oid relation)
{
	if (!OidIsValid(relation) || relation == source_table)
		forget_followers();
}

static void
on_transaction_end(XactEvent event, void *argument)
{
	if (event != XACT_EVENT_COMMIT && event != XACT_EVENT_ABORT &&
		event != XACT_EVENT_PREPARE)
		return;
	while (stale != NIL)
	{
		MemoryContextDelete(linitial(stale));
		stale = list_delete_first(stale);
	}
}

static void
begin_cache(void)
{
	HASHCTL control = {.keysize = sizeof(Oid), .entrysize = sizeof(Followed)};

	if (context != NULL)
		return;
	control.hcxt =
		AllocSetContextCreate(CacheMemoryContext, "safebound followers",
							  ALLOCSET_SMALL_SIZES);
	followed = hash_create("safebound followers", 16, &control,
						   HASH_ELEM | HASH_BLOBS | HASH_CONTEXT);
	context = control.hcxt;
	source_table = own_oid(KEPT_SOURCE);
}

/* The watched tables that may get rows from a statement on `source`, as of
 * now. The list stays until the transaction ends. */
List *
followers_of(Oid source)
{
	Followed *entry =
		followed ? hash_search(followed, &source, HASH_FIND, NULL) : NULL;
	uint64 before = changes;
	MemoryContext caller;
	List *followers;

	if (entry != NULL)
		return entry->followers;
	begin_cache();
	caller = MemoryContextSwitchTo(context);
	followers = read_followers(source);
	MemoryContextSwitchTo(caller);
	if (changes == before)
	{
		entry = hash_search(followed, &source, HASH_ENTER, NULL);
		entry->followers = followers;
	}
	return followers;
}

/* Called by who changes the sources or the columns of a watched table. */
void
invalidate_followers(void)
{
	CacheInvalidateRelcacheByRelid(own_oid(KEPT_SOURCE));
}

void
followers_init(void)
{
	CacheRegisterRelcacheCallback(on_invalidation, (Datum) 0);
	RegisterXactCallback(on_transaction_end, NULL);
}
