/* Admission: the joins of a plan, the data from which their bounds are
 * computed, and the refusal. */
#ifndef SAFEBOUND_ADMIT_H
#define SAFEBOUND_ADMIT_H

#include "planning.h"

#include "executor/execdesc.h"
#include "nodes/plannodes.h"

/* A join of a plan: the relations that it joins, by their numbers in one
 * PlannerInfo. If they aren't known, root is NULL. */
typedef struct PlanJoin
{
	PlannerInfo *root;
	Relids relids;
} PlanJoin;

/* plan_joins.c */
extern bool has_joins(PlannedStmt *plan);
extern List *joins_of_plan(PlannedStmt *plan, List *roots);

/* bound_data.c: the data from which bounds are computed, stored in the plan */
extern void put_bound_data(PlannedStmt *plan, List *joins);
extern void put_exemption(PlannedStmt *plan);
extern List *bound_data_of(PlannedStmt *plan);
extern bool is_exempt_data(List *bound_data);
extern int unknown_joins_of_data(List *bound_data);
extern PlannerInfo *root_of_data(List *root_data, ParamListInfo parameters);
extern List *joins_of_data(List *root_data);

/* exempt.c: queries that are admitted whatever they join */
extern bool reads_catalogs_alone(Query *query);
extern bool is_exempt_start(QueryDesc *query);
extern int *begin_running(void);
extern void end_running(int *running);
extern void exempt_init(void);

/* admit.c */
extern bool is_planning(void);
extern void admit_init(void);

#endif
