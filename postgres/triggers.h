/* The triggers of a table that is followed. */
#ifndef SAFEBOUND_TRIGGERS_H
#define SAFEBOUND_TRIGGERS_H

#include "postgres.h"

#include "commands/trigger.h"

typedef enum TriggerKind
{
	TRIGGER_BEGINS,   /* a statement begins */
	TRIGGER_INSERTED, /* it inserted rows */
	TRIGGER_UPDATED,  /* it updated rows */
	TRIGGER_APPLIED,  /* a replica applied a row */
	TRIGGER_KINDS,
	TRIGGER_OTHER = TRIGGER_KINDS
} TriggerKind;

/* Which of ours a trigger that fires is, by all that it was made with. */
extern TriggerKind kind_of_trigger(const Trigger *trigger);

/* Whether a table has the triggers that count statements, and if a replica may
 * apply rows to it, the one that notices them. Nothing is locked. */
extern bool has_triggers(Oid table, bool applies);

/* Makes those that are missing or changed. No rights are checked. */
extern void make_triggers(Oid table, bool applies);

/* Drops the trigger that notices applied rows, and with `all` the others. */
extern void drop_triggers(Oid table, bool applied, bool statements);

#endif
