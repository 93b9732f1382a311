/* The texts of statuses. */
#include "safebound.h"

#define QUOTED(number) #number
#define TEXT(name) QUOTED(name)

const char *safebound_status_text(safebound_status status) {
    switch (status) {
    case SAFEBOUND_OK: return "all was done";
    case SAFEBOUND_ROOM: return "the room is too small";
    case SAFEBOUND_NO_MEMORY: return "memory is wanting";
    case SAFEBOUND_BUDGET: return "the best plan passes the budget";
    case SAFEBOUND_PAST_BITS: return "the number has more than 64 bits, or each plan has a part without a bound";
    case SAFEBOUND_WORK: return "the work passes the limit";
    case SAFEBOUND_BAD_KEYS: return "there are more than 2^48 keys";
    case SAFEBOUND_BAD_ACCURACY: return "the accuracy isn't from 1 to 64";
    case SAFEBOUND_BAD_RUN: return "a run is empty, rises, or makes a list sum to more than 2^48";
    case SAFEBOUND_BAD_OTHER_RUN: return "a run of the other list is empty, rises, or makes it sum to more than 2^48";
    case SAFEBOUND_BAD_SUM: return "what two lists make sums to more than 2^48";
    case SAFEBOUND_BAD_ENTRIES: return "there are no entries, or too many";
    case SAFEBOUND_BAD_ROWS: return "a row bound is more than 2^48";
    case SAFEBOUND_BAD_EQUALITIES: return "there are more than 256 equalities";
    case SAFEBOUND_BAD_EQUALITY: return "an equality isn't of two entries that are there";
    case SAFEBOUND_BAD_LIST: return "a list is of no entry that is there, has no runs that are there, or is the second one of its column";
    case SAFEBOUND_MISSING_LIST: return "a column of an equality has no list";
    case SAFEBOUND_BAD_BOUNDS: return "there are not as many bounds as sets of 1 to " TEXT(SAFEBOUND_MOST_ENTRIES) " entries";
    case SAFEBOUND_BAD_BUDGET: return "the budget is more than 2^59";
    case SAFEBOUND_BAD_LEVELS: return "there are not as many levels as entries";
    case SAFEBOUND_BAD_LEVEL: return "a level is of an entry that isn't there";
    case SAFEBOUND_BAD_JOINS: return "there is not one join less than entries";
    case SAFEBOUND_BAD_JOIN: return "a join is of a node that doesn't stand before it";
    case SAFEBOUND_BAD_SET: return "the set has an entry that isn't there";
    case SAFEBOUND_BAD_JOIN_KIND: return "no join has this number";
    default: return "no status of this library";
    }
}
