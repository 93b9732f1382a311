"""The library's limits. tools/limits takes their numbers from the crate limits."""

# A query's entries, for bounds and plans; and for the bytes of a plan in SafeBound's own engine.
MOST_ENTRIES = 16
ENGINE_ENTRIES = 12

MOST_EQUALITIES = 256

# In how many turns a set is bounded, at most.
MOST_TURNS = 16

MOST_ACCURACY = 64

# Of a table and of a list.
MOST_ROWS = 2**48

MOST_BUDGET = 2**59
