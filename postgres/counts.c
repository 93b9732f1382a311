/* Makes, by counting, the degree lists of a joined column for the values and
   ranges of a filter column. It sorts the rows by the codes of both columns.
 */
#include "counting.h"

#include "miscadmin.h"
#include "port/pg_bitutils.h"
#include "utils/datum.h"
#include "utils/memutils.h"

/* Degrees below this number are counted in an array, without a search. */
#define LOW_DEGREES 32

/* How many keys there are of each degree. */
typedef struct Degrees
{
	uint64 rows;
	uint64 low_keys[LOW_DEGREES]; /* the number of keys of each degree below
									 LOW_DEGREES */
	int length;
	int capacity;
	safebound_run
		*runs; /* the keys of higher degrees, the lowest degree first */
} Degrees;

static void
clear_degrees(Degrees *degrees)
{
	degrees->rows = degrees->length = 0;
	memset(degrees->low_keys, 0, sizeof(degrees->low_keys));
}

/* The place of a degree among the runs, or the place where it would be
 * inserted. */
static int
place_of(const Degrees *degrees, uint64 degree)
{
	int from = 0;
	int to = degrees->length;

	while (from < to)
	{
		int middle = (from + to) / 2;

		if (degrees->runs[middle].degree < degree)
			from = middle + 1;
		else
			to = middle;
	}
	return from;
}

static void
add_high_degree(Degrees *degrees, uint64 degree)
{
	int place = place_of(degrees, degree);

	if (place < degrees->length && degrees->runs[place].degree == degree)
	{
		degrees->runs[place].keys++;
		return;
	}
	if (degrees->length == degrees->capacity)
	{
		degrees->capacity = Max(4, 2 * degrees->capacity);
		degrees->runs = degrees->runs
			? repalloc(degrees->runs,
					   degrees->capacity * sizeof(safebound_run))
			: palloc(degrees->capacity * sizeof(safebound_run));
	}
	memmove(degrees->runs + place + 1, degrees->runs + place,
			(degrees->length - place) * sizeof(safebound_run));
	degrees->runs[place] = (safebound_run){.degree = degree, .keys = 1};
	degrees->length++;
}

/* Degree 0 is skipped, since no key has it. */
static inline void
add_degree(Degrees *degrees, uint64 degree)
{
	if (degree >= LOW_DEGREES)
		add_high_degree(degrees, degree);
	else if (degree > 0)
		degrees->low_keys[degree]++;
}

/* The degrees as a list, the greatest degree first. */
static DegreeList
list_of_degrees(const Degrees *degrees)
{
	DegreeList list = {
		degrees->rows, degrees->length,
		palloc((degrees->length + LOW_DEGREES) * sizeof(safebound_run))};

	for (int i = 0; i < degrees->length; i++)
		list.runs[i] = degrees->runs[degrees->length - 1 - i];
	for (int degree = LOW_DEGREES - 1; degree > 0; degree--)
		if (degrees->low_keys[degree] > 0)
			list.runs[list.length++] = (safebound_run){
				.degree = degree, .keys = degrees->low_keys[degree]};
	return list;
}

/* The lists of one joined column for the values and ranges of one filter
 * column, while they are made. */
typedef struct ListWriter
{
	TableCounting *table_count;
	const Column *joined; /* NULL: only numbers of rows are wanted */
	const Column *filter; /* NULL: only the list of all rows is wanted */
	MemoryContext group;
	DegreeList other;
	DegreeList any;
	StringInfoData bytes;
} ListWriter;

static void
put_kept_value(StringInfo bytes, Form_pg_attribute attribute, Datum value)
{
	Size size = datumGetSize(value, attribute->attbyval, attribute->attlen);

	put_number(bytes, size);
	if (attribute->attbyval)
		appendBinaryStringInfo(bytes, (const char *) &value, sizeof(Datum));
	else
		appendBinaryStringInfo(bytes, DatumGetPointer(value), (int) size);
}

static void
put_kept_list(ListWriter *writer, ListKind kind, const Datum *value,
			  DegreeList list)
{
	DegreeList stored = compressed(list, writer->table_count->accuracy);

	/* The values of a filter column are stored once, with its numbers of rows.
	 */
	appendStringInfoChar(&writer->bytes,
						 value && writer->joined ? VALUE_ELSEWHERE(kind)
												 : (char) kind);
	if (value != NULL && writer->joined == NULL)
		put_kept_value(&writer->bytes, writer->filter->attribute, *value);
	put_list(&writer->bytes, &stored);
	writer->table_count->lists++;
}

/* Raises a list to the greater degree at each rank. The memory of `into`
 * outlives that of the group. */
static void
raise_list(ListWriter *writer, DegreeList *into, const DegreeList *list)
{
	DegreeList both;
	MemoryContext before;

	if (dominates(into, list))
		return;
	before = MemoryContextSwitchTo(MemoryContextGetParent(writer->group));
	both = greater_by_rank(*into, *list);
	if (into->runs)
		pfree(into->runs);
	*into = both;
	MemoryContextSwitchTo(before);
}

/* Takes the list of one group (the rows with one code of the filter column).
   NULL and common values get a list of their own. Otherwise the list that
   stands for all other values is raised to it. */
static void
put_group(ListWriter *writer, uint32 code, const Degrees *degrees,
		  int *next_common)
{
	const Column *filter = writer->filter;
	DegreeList list = list_of_degrees(degrees);

	if (filter == NULL)
		return put_kept_list(writer, LIST_ALL, NULL, list);
	if (code == 0)
		return put_kept_list(writer, LIST_NULL, NULL, list);
	raise_list(writer, &writer->any, &list);
	if (*next_common < filter->common_length &&
		filter->common[*next_common].code == code)
		put_kept_list(writer, LIST_VALUE,
					  &filter->common[(*next_common)++].value, list);
	else
		raise_list(writer, &writer->other, &list);
}

static void
end_group(ListWriter *writer, uint32 code, const Degrees *degrees,
		  int *next_common)
{
	MemoryContext before = MemoryContextSwitchTo(writer->group);

	put_group(writer, code, degrees, next_common);
	MemoryContextSwitchTo(before);
	MemoryContextReset(writer->group);
}

/* How many bits the codes of a column take. */
static int
bits_of(const Column *column)
{
	return column && column->highest
		? pg_leftmost_one_pos32(column->highest) + 1
		: 0;
}

/* The rows of a table, sorted by their codes of a joined column. This order is
 * made once for all filter columns. */
typedef struct RowOrder
{
	const Column *joined;
	uint32 *ends; /* by code: how many rows have this code or a lower one */
	uint32 *rows; /* NULL: the rows don't fit in memory, and are sorted for
					 each pair of columns */
} RowOrder;

static bool
fits_in_half(uint64 numbers)
{
	/* Sorting may take the other half of the memory. */
	return numbers * sizeof(uint32) <=
		(uint64) maintenance_work_mem * 1024 / 2;
}

/* How many rows have each code. */
static uint32 *
count_codes(const TableCounting *table_count, const Column *column)
{
	uint32 *counts = MemoryContextAllocExtended(
		CurrentMemoryContext, ((Size) column->highest + 2) * sizeof(uint32),
		MCXT_ALLOC_HUGE | MCXT_ALLOC_ZERO);

	codes_rewind(column->codes);
	for (uint32 row = 0; row < table_count->rows; row++)
		counts[codes_get(column->codes)]++;
	return counts;
}

/* Replaces the number of rows of each code by the number of rows of all lower
 * codes. */
static void
sum_up(uint32 *counts, uint32 highest)
{
	uint32 sum = 0;

	for (uint32 code = 0; code <= highest; code++)
	{
		uint32 count = counts[code];

		counts[code] = sum;
		sum += count;
	}
}

static RowOrder
order_rows(const TableCounting *table_count, const Column *joined)
{
	RowOrder row_order = {.joined = joined};

	/* The codes of a filter column take memory too. */
	if (joined == NULL ||
		!fits_in_half(2 * (uint64) table_count->rows + joined->highest + 2))
		return row_order;
	row_order.ends = count_codes(table_count, joined);
	sum_up(row_order.ends, joined->highest);
	row_order.rows = MemoryContextAllocHuge(
		CurrentMemoryContext, ((Size) table_count->rows + 1) * sizeof(uint32));
	codes_rewind(joined->codes);
	for (uint32 row = 0; row < table_count->rows; row++)
		row_order.rows[row_order.ends[codes_get(joined->codes)]++] = row;
	return row_order;
}

/* The pairs of codes of both columns, one for each row, in the order of the
 * joined column's codes. */
typedef struct Pairs
{
	const RowOrder *row_order;
	uint32 *filter_codes; /* the filter column's code of each row; NULL if
							 there is no filter column or `sorted` is used */
	uint32 at;
	uint32 code;        /* of the joined column */
	NumberSort *sorted; /* the pairs in a sort; NULL: rows are read by
						   row_order->rows */
	int bits;
} Pairs;

static uint32
next_code(const Column *column)
{
	return column ? codes_get(column->codes) : 0;
}

static void
sort_pairs(Pairs *pairs, const TableCounting *table_count,
		   const Column *joined, const Column *filter)
{
	pairs->bits = bits_of(filter);
	pairs->sorted =
		sorted_begin(table_count->rows, 0, bits_of(joined) + pairs->bits);
	if (joined)
		codes_rewind(joined->codes);
	for (uint32 row = 0; row < table_count->rows; row++)
	{
		uint64 high = next_code(joined);
		/* The joined column may be the filter column too. */
		uint64 low = filter == joined ? high : next_code(filter);

		CHECK_FOR_INTERRUPTS();
		sorted_put(pairs->sorted, (high << pairs->bits) | low);
	}
	sorted_perform(pairs->sorted);
}

static Pairs
pairs_begin(const TableCounting *table_count, const RowOrder *row_order,
			const Column *filter)
{
	Pairs pairs = {.row_order = row_order};

	if (filter)
		codes_rewind(filter->codes);
	if (row_order->rows == NULL)
		sort_pairs(&pairs, table_count, row_order->joined, filter);
	else if (filter)
	{
		pairs.filter_codes = MemoryContextAllocHuge(
			CurrentMemoryContext,
			((Size) table_count->rows + 1) * sizeof(uint32));
		for (uint32 row = 0; row < table_count->rows; row++)
			pairs.filter_codes[row] = codes_get(filter->codes);
	}
	return pairs;
}

static bool
next_pair(Pairs *pairs, uint32 *joined, uint32 *filter)
{
	const RowOrder *row_order = pairs->row_order;
	uint64 number;

	if (pairs->sorted)
	{
		if (!sorted_get(pairs->sorted, &number))
			return false;
		*joined = (uint32) (number >> pairs->bits);
		*filter = (uint32) (number & ((UINT64CONST(1) << pairs->bits) - 1));
		return true;
	}
	while (pairs->at == row_order->ends[pairs->code])
		if (pairs->code++ == row_order->joined->highest)
			return false;
	*joined = pairs->code;
	*filter = pairs->filter_codes
		? pairs->filter_codes[row_order->rows[pairs->at]]
		: 0;
	pairs->at++;
	return true;
}

static void
pairs_end(Pairs *pairs)
{
	if (pairs->sorted)
		sorted_end(pairs->sorted);
	if (pairs->filter_codes)
		pfree(pairs->filter_codes);
}

/* The leaf of the filter column that has this code. */
static int
leaf_of(const Column *filter, uint32 code)
{
	int from = 0;
	int to = filter->leaves_length;

	while (from < to)
	{
		int middle = (from + to) / 2;

		if (filter->leaves[middle].last < code)
			from = middle + 1;
		else
			to = middle;
	}
	return from;
}

/* Ranges of the filter column's values: leaves, and nodes above them. Each
   node has two children of the level below; the last node of a level may have
   only one. */
typedef struct Nodes
{
	int leaves;
	int length;   /* the number of nodes in all levels */
	int *parents; /* the parent of each node; -1 for the root */
	Degrees *degrees;
	uint64 *counts; /* how often the joined value occurs in each node */
	int *touched;   /* the nodes in which the joined value occurs */
	int touched_length;
} Nodes;

static void
touch_leaf(Nodes *nodes, int leaf, uint64 count)
{
	for (int node = leaf; node >= 0; node = nodes->parents[node])
	{
		if (nodes->counts[node] == 0)
			nodes->touched[nodes->touched_length++] = node;
		nodes->counts[node] += count;
	}
}

/* Adds a joined value's degrees to the nodes in which it occurs. NULL is
 * skipped, since it joins with nothing. */
static void
end_joined_value(Nodes *nodes, uint32 joined)
{
	for (int i = 0; i < nodes->touched_length; i++)
	{
		int node = nodes->touched[i];

		if (joined > 0)
			add_degree(&nodes->degrees[node], nodes->counts[node]);
		nodes->counts[node] = 0;
	}
	nodes->touched_length = 0;
}

/* How many rows each node has. */
static void
set_node_rows(Nodes *nodes, const Leaf *leaves)
{
	for (int i = 0; i < nodes->leaves; i++)
		touch_leaf(nodes, i, leaves[i].end - (i ? leaves[i - 1].end : 0));
	for (int i = 0; i < nodes->length; i++)
		nodes->degrees[i].rows = nodes->counts[i];
	end_joined_value(nodes, 0);
}

static Nodes
nodes_of(const Column *filter)
{
	Nodes nodes = {.leaves = filter->leaves ? filter->leaves_length : 0};

	for (int length = nodes.leaves; length > 0;
		 length = length > 1 ? (length + 1) / 2 : 0)
		nodes.length += length;
	nodes.parents = palloc(nodes.length * sizeof(int) + 1);
	nodes.degrees = palloc0(nodes.length * sizeof(Degrees) + 1);
	nodes.counts = palloc0(nodes.length * sizeof(uint64) + 1);
	nodes.touched = palloc(nodes.length * sizeof(int) + 1);
	for (int level = 0, length = nodes.leaves; length > 0;
		 level += length, length = length > 1 ? (length + 1) / 2 : 0)
		for (int i = 0; i < length; i++)
			nodes.parents[level + i] =
				length > 1 ? level + length + i / 2 : -1;
	set_node_rows(&nodes, filter->leaves);
	return nodes;
}

static void
put_nodes(ListWriter *writer, const Nodes *nodes)
{
	for (int i = 0; i < nodes->length; i++)
		put_kept_list(writer, i < nodes->leaves ? LIST_LEAF : LIST_NODE,
					  i < nodes->leaves ? &writer->filter->leaves[i].greatest
										: NULL,
					  list_of_degrees(&nodes->degrees[i]));
}

/* A sort of pairs of codes with their counts. One number has the filter
   column's code in its highest bits, then the joined column's code, then the
   count. A count that needs more bits is split into several numbers. */
typedef struct CountSort
{
	NumberSort *sorted;
	int joined_bits;
	int count_bits;
} CountSort;

static void
put_count(CountSort *count_sort, uint32 joined, uint32 filter, uint32 count)
{
	uint64 most = (UINT64CONST(1) << count_sort->count_bits) - 1;
	uint64 pair = ((((uint64) filter) << count_sort->joined_bits) | joined)
		<< count_sort->count_bits;

	for (; count > most; count -= (uint32) most)
		sorted_put(count_sort->sorted, pair | most);
	sorted_put(count_sort->sorted, pair | count);
}

/* Goes through the rows in the order of the joined column. Adds the count of
   each pair of codes to the nodes that contain the filter column's value, and
   puts it into a sort by the filter column. */
static void
count_pairs(ListWriter *writer, const RowOrder *row_order,
			CountSort *count_sort, Nodes *nodes)
{
	Pairs pairs = pairs_begin(writer->table_count, row_order, writer->filter);
	uint32 joined = 0;
	uint32 filter = 0;
	uint32 last_joined = 0;
	uint32 last_filter = 0;
	uint32 count = 0;
	bool more;

	do
	{
		CHECK_FOR_INTERRUPTS();
		more = next_pair(&pairs, &joined, &filter);
		if (count > 0 &&
			(!more || joined != last_joined || filter != last_filter))
		{
			put_count(count_sort, last_joined, last_filter, count);
			if (nodes->length > 0 && last_filter > 0)
				touch_leaf(nodes, leaf_of(writer->filter, last_filter), count);
			count = 0;
		}
		if (!more || joined != last_joined)
			end_joined_value(nodes, last_joined);
		last_joined = joined;
		last_filter = filter;
		count++;
	} while (more);
	pairs_end(&pairs);
}

/* Makes a list for each group: the rows with one code of the filter column.
   NULL is a group even if no row has NULL. Without a filter column, all rows
   are one group. */
static void
put_groups(ListWriter *writer, CountSort *count_sort)
{
	Degrees degrees = {0};
	uint64 joined_mask = (UINT64CONST(1) << count_sort->joined_bits) - 1;
	uint64 count_mask = (UINT64CONST(1) << count_sort->count_bits) - 1;
	uint64 last = 0;
	uint64 degree = 0;
	uint64 number;
	int next_common = 0;

	while (sorted_get(count_sort->sorted, &number))
	{
		uint64 pair = number >> count_sort->count_bits;

		if (pair != last)
			add_degree(&degrees, (last & joined_mask) == 0 ? 0 : degree);
		if (pair >> count_sort->joined_bits != last >> count_sort->joined_bits)
		{
			end_group(writer, last >> count_sort->joined_bits, &degrees,
					  &next_common);
			clear_degrees(&degrees);
		}
		degree = (pair == last ? degree : 0) + (number & count_mask);
		degrees.rows += number & count_mask;
		last = pair;
	}
	add_degree(&degrees, (last & joined_mask) == 0 ? 0 : degree);
	end_group(writer, last >> count_sort->joined_bits, &degrees, &next_common);
}

static CountSort
count_sort_begin(const ListWriter *writer)
{
	CountSort count_sort = {.joined_bits = bits_of(writer->joined)};
	int bits = bits_of(writer->filter) + count_sort.joined_bits;

	count_sort.count_bits = Min(63 - bits, 31);
	/* Pairs come in the order of their joined codes. */
	count_sort.sorted =
		sorted_begin(writer->table_count->rows,
					 count_sort.count_bits + count_sort.joined_bits,
					 count_sort.count_bits + bits);
	return count_sort;
}

/* Counts the rows of each code of the filter column. Used if there is no
 * joined column. */
static void
put_row_counts(ListWriter *writer)
{
	uint32 *counts = writer->filter
		? count_codes(writer->table_count, writer->filter)
		: NULL;
	uint32 highest = writer->filter ? writer->filter->highest : 0;
	int next_common = 0;

	for (uint32 code = 0; code <= highest; code++)
	{
		Degrees degrees = {.rows = counts ? counts[code]
										  : writer->table_count->rows};

		end_group(writer, code, &degrees, &next_common);
	}
	if (counts)
		pfree(counts);
}

static void
keep_pair(TableCounting *table_count, const RowOrder *row_order,
		  const Column *filter)
{
	MemoryContext pair = AllocSetContextCreate(
		CurrentMemoryContext, "safebound pair", ALLOCSET_DEFAULT_SIZES);
	MemoryContext before = MemoryContextSwitchTo(pair);
	ListWriter writer = {.table_count = table_count,
						 .joined = row_order->joined,
						 .filter = filter};
	Nodes nodes = {0};

	writer.group =
		AllocSetContextCreate(pair, "safebound group", ALLOCSET_DEFAULT_SIZES);
	initStringInfo(&writer.bytes);
	if (filter)
		nodes = nodes_of(filter);
	if (row_order->joined == NULL &&
		(filter == NULL || fits_in_half(filter->highest)))
		put_row_counts(&writer);
	else
	{
		CountSort count_sort = count_sort_begin(&writer);

		count_pairs(&writer, row_order, &count_sort, &nodes);
		sorted_perform(count_sort.sorted);
		put_groups(&writer, &count_sort);
		sorted_end(count_sort.sorted);
	}
	if (filter)
	{
		put_kept_list(&writer, LIST_OTHER, NULL, writer.other);
		put_kept_list(&writer, LIST_ANY, NULL, writer.any);
	}
	put_nodes(&writer, &nodes);
	save_pair(table_count, row_order->joined, filter, &writer.bytes);
	MemoryContextSwitchTo(before);
	MemoryContextDelete(pair);
}

/* Stores the lists of a joined column for all filter columns; if `joined` is
   NULL, only numbers of rows. If `filters` is NULL, stores the list of all
   rows. */
static void
keep_joined(TableCounting *table_count, const Column *joined,
			const Column *filters, int length)
{
	MemoryContext own = AllocSetContextCreate(
		CurrentMemoryContext, "safebound order", ALLOCSET_DEFAULT_SIZES);
	MemoryContext before = MemoryContextSwitchTo(own);
	RowOrder row_order = order_rows(table_count, joined);

	if (filters == NULL)
		keep_pair(table_count, &row_order, NULL);
	for (int i = 0; i < length; i++)
		if (filters[i].is_filter)
			keep_pair(table_count, &row_order, &filters[i]);
	MemoryContextSwitchTo(before);
	MemoryContextDelete(own);
}

void
keep_filters(TableCounting *table_count, const Column *filters, int length)
{
	keep_joined(table_count, NULL, filters, length);
	for (int i = 0; i < table_count->length; i++)
		if (table_count->columns[i].is_joined)
			keep_joined(table_count, &table_count->columns[i], filters,
						length);
}

/* Stores only the list of all rows for each joined column. */
void
keep_whole(TableCounting *table_count)
{
	keep_filters(table_count, NULL, 0);
}
