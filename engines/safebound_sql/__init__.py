"""Row bounds for tables in a database engine: counts a query in the engine's SQL, plans it, and returns SQL.

A query goes through these modules. `tokens` cuts its text, `reading` finds its parts, and `names` finds the columns
that each part names. `nondeterministic` finds whatever may choose other rows at each call. `meaning` makes a
`query` of the parts.

An `engine` has a `dialect`, a catalog and a connection. `postgres` and `sqlite` connect to their engines. For engines
without a connection `unreached` has the dialect, and `schema_file` reads the tables.

`counting` writes the only statement that counts, `kept` keeps counts for later, `levels` calls the proved library, and
`writing` writes the query in the planned order. `planner` calls these modules in turn. For a query with several SELECTs
or with outer joins, `blocks` finds the SELECTs and `block_plans` plans each.

`command`, `output`, `export` and `progress` write what the user sees, and `faults` has the errors. `stops` ends a
command at Ctrl-C and SIGTERM.
"""

import importlib.util
import sys
from pathlib import Path

# The library's package is the installed one, or else that of this repository.
if importlib.util.find_spec("safebound") is None:
    sys.path.append(str(Path(__file__).resolve().parents[2] / "python"))
