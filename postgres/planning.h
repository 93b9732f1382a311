/* The relations and equalities of one PlannerInfo, in the library's terms. */
#ifndef SAFEBOUND_PLANNING_H
#define SAFEBOUND_PLANNING_H

#include "statistics.h"

#include "nodes/plannodes.h"
#include "utils/hsearch.h"

/* A join with more outer and semi-joins isn't bounded: each of them doubles
 * the number of ways in which sides may be missing. */
#define MOST_SPECIAL_JOINS 6

/* No row bound is known. */
#define UNKNOWN SAFEBOUND_NO_BOUND

typedef enum EstimatesMode
{
	ESTIMATES_OFF,
	ESTIMATES_MEAN,
	ESTIMATES_BOUND
} EstimatesMode;

extern int estimates_mode;

/* A relation of FROM with kept statistics. */
typedef struct Entry
{
	const KeptTable *table; /* NULL: it has no statistics */
	RelOptInfo *rel;
	uint64 rows;     /* its row bound */
	int number;      /* its number among the known relations */
	Bitmapset *used; /* the columns for whose conditions lists were found */
	struct CountedStatistics
		*statistics; /* by column; NULL: none was asked for */
} Entry;

/* A joined column under its entry's own conditions. */
typedef struct JoinedColumn
{
	Index relid;
	AttrNumber number;
	DegreeList list;
	List *narrowed_lists; /* of NarrowedList: its lists in sets so far */
} JoinedColumn;

/* A joined column's list in sets where its relation is joined to relations to
   which it refers. The list takes the conditions on these relations into
   account. */
typedef struct NarrowedList
{
	Bitmapset *held; /* the references that are equalities within the set, as
						indexes into `carried` */
	DegreeList list;
} NarrowedList;

/* Columns that are equal in each joined row that has a row of every relation
 * in `required`. */
typedef struct EqualColumns
{
	Relids required; /* NULL: no relation is required, as in an equivalence
						class */
	int length;
	int *columns;
} EqualColumns;

/* A reference of a relation to another one, along an equality of the query.
   The referring relation has lists under the conditions on the other one. */
typedef struct CarrierReference
{
	Index referring;
	Index referred;
	Relids required; /* as in the equality */
	Reference reference;
	bool *looked_up;    /* for each column, and at last for the number of rows:
						   whether the list was looked for */
	DegreeList **lists; /* NULL where there is none */
	Bitmapset *used;    /* the columns of the referred relation for whose
						   conditions lists were found */
	bool may_overcount; /* the lists may have more rows than refer */
	double share;       /* from expected.c; 0: not computed */
} CarrierReference;

typedef struct BoundedQuery
{
	PlannerInfo *root;
	Entry *entries; /* by relid */
	int columns_length;
	int columns_capacity;
	JoinedColumn *columns;
	List *equalities; /* of EqualColumns */
	List *carried;    /* of CarrierReference */
	HTAB *bounds;     /* of the sets that were asked for */
	HTAB *estimates;  /* PostgreSQL's own rows, by relation */
} BoundedQuery;

/* joins.c */
extern Var *var_of(Expr *expression);
extern Entry *entry_of(BoundedQuery *query, int relid);
extern bool is_class_equal(EquivalenceClass *class);
extern BoundedQuery *bounded_query(PlannerInfo *root);
extern uint64 bound_of_set(BoundedQuery *query, Relids relids);
extern List *special_joins_within(BoundedQuery *query, Relids relids);
extern bool any_torn(BoundedQuery *query, Relids relids);
extern uint64 bound_of_join(BoundedQuery *query, Relids relids);
extern const DegreeList *
carried_list(BoundedQuery *query, CarrierReference *carried, int column);
extern bool is_carried(const CarrierReference *carried, Relids relids);

/* expected.c */
extern double expected_rows(BoundedQuery *query, RelOptInfo *rel);
extern double expected_share(BoundedQuery *query, Relids relids);
extern void expected_init(void);

/* planning.c */
extern BoundedQuery *query_being_planned(PlannerInfo *root);
extern double own_rows(BoundedQuery *query, RelOptInfo *rel);
extern PlannedStmt *
plan_and_store(Query *query, const char *text, List **queries);
extern void planning_init(void);

#endif
