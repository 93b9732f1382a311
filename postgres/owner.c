/* Counting as the table's owner, with restrictions. */
#include "owner.h"

#include "miscadmin.h"
#include "utils/guc.h"

Caller
begin_as_owner(Oid owner)
{
	Caller caller;

	GetUserIdAndSecContext(&caller.user, &caller.context);
	SetUserIdAndSecContext(owner,
						   caller.context | SECURITY_RESTRICTED_OPERATION);
	caller.level = NewGUCNestLevel();
	set_config_option("search_path", "pg_catalog, pg_temp", PGC_USERSET,
					  PGC_S_SESSION, GUC_ACTION_SAVE, true, 0, false);
	return caller;
}

void
end_as_owner(const Caller *caller)
{
	AtEOXact_GUC(false, caller->level);
	SetUserIdAndSecContext(caller->user, caller->context);
}
