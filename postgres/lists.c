/* Degree lists: how the library makes them, their bytes in the extension's
 * table, and how conditions combine them. */
#include "statistics.h"

#include "common/int.h"

/* Raises an error if a call of the library failed. All values were checked
 * before, so only too little memory can make it fail. */
void
library_check(safebound_status status, uint64 detail, const char *call)
{
	if (status == SAFEBOUND_NO_MEMORY)
		ereport(ERROR,
				(errcode(ERRCODE_OUT_OF_MEMORY), errmsg("out of memory")));
	if (status != SAFEBOUND_OK)
		elog(ERROR, "%s: %s, at %llu", call, safebound_status_text(status),
			 (unsigned long long) detail);
}

/* The degree sequence of keys. The part of the table from which they come has
 * `rows` rows, NULLs included. */
DegreeList
degrees_of(const uint64 *keys, size_t length, uint64 rows)
{
	DegreeList list = {rows, 0, NULL};
	uint64 detail = 0;
	size_t room = 64;
	safebound_status status;

	list.runs = palloc(room * sizeof(safebound_run));
	while ((status = safebound_degrees(keys, length, list.runs, room,
									   &detail)) == SAFEBOUND_ROOM)
	{
		room = detail;
		list.runs = repalloc(list.runs, room * sizeof(safebound_run));
	}
	library_check(status, detail, "safebound_degrees");
	list.length = detail;
	return list;
}

DegreeList
compressed(DegreeList list, int accuracy)
{
	DegreeList few = {list.rows, 0,
					  palloc((list.length + 1) * sizeof(safebound_run))};
	uint64 detail = 0;

	if (list.length == 0)
		return few;
	library_check(safebound_compress(list.runs, list.length, accuracy,
									 few.runs, list.length + 1, &detail),
				  detail, "safebound_compress");
	few.length = detail;
	return few;
}

/* The list of rows each of which is counted by at least one of two lists. */
DegreeList
summed(DegreeList one, DegreeList other)
{
	size_t room = one.length + other.length + 1;
	DegreeList both = {one.rows + other.rows, 0,
					   palloc(room * sizeof(safebound_run))};
	uint64 detail = 0;

	if (one.length == 0 || other.length == 0)
	{
		DegreeList full = one.length ? one : other;

		full.rows = both.rows;
		return full;
	}
	library_check(safebound_append(one.runs, one.length, other.runs,
								   other.length, both.runs, room, &detail),
				  detail, "safebound_append");
	both.length = detail;
	return both;
}

/* The list of rows that have one of two values, whichever it is: at each rank
   the greater degree. It has runs of its own, since counting frees the memory
   of both arguments. */
DegreeList
greater_by_rank(DegreeList one, DegreeList other)
{
	size_t room = one.length + other.length;
	DegreeList both = {Max(one.rows, other.rows), room,
					   palloc((room + 1) * sizeof(safebound_run))};
	uint64 detail = 0;

	if (one.length == 0 || other.length == 0)
	{
		if (room > 0)
			memcpy(both.runs, one.length ? one.runs : other.runs,
				   room * sizeof(safebound_run));
		return both;
	}
	library_check(safebound_greater(one.runs, one.length, other.runs,
									other.length, both.runs, room, &detail),
				  detail, "safebound_greater");
	both.length = detail;
	return both;
}

/* The list of rows counted by both lists. Each of its running sums is the
 * lesser of theirs. */
DegreeList
lesser(DegreeList one, DegreeList other)
{
	size_t room = 3 * (one.length + other.length);
	DegreeList both = {Min(one.rows, other.rows), 0,
					   palloc((room + 1) * sizeof(safebound_run))};
	uint64 detail = 0;

	if (one.length == 0 || other.length == 0)
		return both;
	library_check(safebound_lesser(one.runs, one.length, other.runs,
								   other.length, both.runs, room, &detail),
				  detail, "safebound_lesser");
	both.length = detail;
	return both;
}

/* A position within a list: how many keys come before it. */
typedef struct Place
{
	const DegreeList *list;
	int run;
	uint64 passed; /* keys of this run */
} Place;

static uint64
degree_at(const Place *place)
{
	return place->run < place->list->length
		? place->list->runs[place->run].degree
		: 0;
}

static uint64
left_at(const Place *place)
{
	return place->run < place->list->length
		? place->list->runs[place->run].keys - place->passed
		: PG_UINT64_MAX;
}

static void
advance(Place *place, uint64 keys)
{
	place->passed += keys;
	if (left_at(place) == 0)
	{
		place->run++;
		place->passed = 0;
	}
}

/* Whether a list has at least the other list's degree at each rank, so that
   greater_by_rank wouldn't change it. Counting calls this for each value. */
bool
dominates(const DegreeList *one, const DegreeList *other)
{
	Place first = {one, 0, 0};
	Place second = {other, 0, 0};

	while (degree_at(&second) > 0)
	{
		uint64 keys = Min(left_at(&first), left_at(&second));

		if (degree_at(&first) < degree_at(&second))
			return false;
		advance(&first, keys);
		advance(&second, keys);
	}
	return one->rows >= other->rows;
}

/* A number as bytes with seven bits each, the lowest bits first. */
void
put_number(StringInfo into, uint64 number)
{
	for (; number >= 128; number >>= 7)
		appendStringInfoCharMacro(into, (char) (128 | (number & 127)));
	appendStringInfoCharMacro(into, (char) number);
}

uint64
get_number(const char **at, const char *end)
{
	uint64 number = 0;
	unsigned char byte = 128;

	for (int shift = 0; byte & 128; shift += 7)
	{
		if (*at >= end || shift > 63)
			ereport(ERROR,
					(errcode(ERRCODE_DATA_CORRUPTED),
					 errmsg("a kept list ends too early")));
		byte = (unsigned char) *(*at)++;
		number |= ((uint64) (byte & 127)) << shift;
	}
	return number;
}

void
put_list(StringInfo into, const DegreeList *list)
{
	put_number(into, list->rows);
	put_number(into, list->length);
	for (int i = 0; i < list->length; i++)
	{
		put_number(into, list->runs[i].degree);
		put_number(into, list->runs[i].keys);
	}
}

DegreeList
get_list(const char **at, const char *end)
{
	DegreeList list;

	list.rows = get_number(at, end);
	list.length = (int) get_number(at, end);
	if (list.length < 0 || list.length > end - *at)
		ereport(ERROR,
				(errcode(ERRCODE_DATA_CORRUPTED),
				 errmsg("a kept list ends too early")));
	list.runs = palloc((list.length + 1) * sizeof(safebound_run));
	for (int i = 0; i < list.length; i++)
	{
		list.runs[i].degree = get_number(at, end);
		list.runs[i].keys = get_number(at, end);
	}
	return list;
}
