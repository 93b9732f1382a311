/* Whose rights a count has. */
#ifndef SAFEBOUND_OWNER_H
#define SAFEBOUND_OWNER_H

#include "postgres.h"

/* What end_as_owner restores. */
typedef struct Caller
{
	Oid user;
	int context;
	int level;
} Caller;

/* Runs what follows as a table's owner, as ANALYZE does: what its owner wrote,
   say an operator or an expression of an index, can't use the rights of
   whoever called, and can't change the caller's session. The search_path has
   PostgreSQL's own schema alone. An error restores the caller too. */
extern Caller begin_as_owner(Oid owner);
extern void end_as_owner(const Caller *caller);

#endif
