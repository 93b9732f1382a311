/* The extension's module: it defines settings, and starts all other parts. */
#include "admit.h"
#include "watch.h"

#include "fmgr.h"
#include "utils/guc.h"

PG_MODULE_MAGIC;

void _PG_init(void);

static const struct config_enum_entry estimates_modes[] = {
	{"off", ESTIMATES_OFF, false},
	{"mean", ESTIMATES_MEAN, false},
	{"bound", ESTIMATES_BOUND, false},
	{NULL, 0, false}};

void
_PG_init(void)
{
	DefineCustomEnumVariable("safebound.estimates",
							 "Which numbers of rows the planner is given.",
							 "off: its own; bound: row bounds; mean: the "
							 "geometric mean of both, never above the bound.",
							 &estimates_mode, ESTIMATES_OFF, estimates_modes,
							 PGC_USERSET, GUC_EXPLAIN, NULL, NULL, NULL);
	own_tables_init();
	kept_init();
	planning_init();
	admit_init();
	exempt_init();
	followed_init();
	folding_init();
	followers_init();
	watch_init();
	MarkGUCPrefixReserved("safebound");
}
