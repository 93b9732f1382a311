"""Mutants of the program: each is made by one wrong edit, and a test has to fail, on the engine where that shows."""

from __future__ import annotations

import os
import shutil
import sys
import tempfile
import time
from dataclasses import dataclass
from pathlib import Path

from side_by_side import PASSED_OVER, Done, Result, tests

PACKAGE = Path(__file__).resolve().parents[1] / "safebound_sql"


@dataclass
class Edit:
    """What goes wrong, in which file, by which edit, and the test that fails.

    With `gate` the gate tries it too: a bound could be too low or a row wrong, and no other edit with `gate` is like
    it.
    """

    name: str
    file: str
    old: str
    new: str
    test: str
    gate: bool = False


EDITS = [
    Edit("NULLs are counted as one value", "servers.py", "SELECT COUNT({value}) AS d", "SELECT COUNT(*) AS d",
         "test_meaning.Counted.test_null_is_no_value"),
    Edit("an equality of a number with a text is an edge", "query.py",
         "one.column.kind is None or one.column.kind != other.column.kind", "one.column.kind is None",
         "test_meaning.EdgesOfSqlite.test_numbers_meet_texts", gate=True),
    Edit("columns of different types are an edge", "query.py",
         "one.column.kind is None or one.column.kind != other.column.kind", "one.column.kind is None",
         "test_meaning.EdgesOfPostgres.test_which_columns_meet", gate=True),
    Edit("collations aren't looked at", "sqlite.py",
         "(affinity(declared, strict), collation) if collation", "affinity(declared, strict) if collation",
         "test_meaning.EdgesOfSqlite.test_which_columns_meet", gate=True),
    Edit("ANY of a strict table is numeric", "sqlite.py", ' or (strict and name == "ANY")', "",
         "test_meaning.EdgesOfSqlite.test_any_of_a_strict_table"),
    Edit("the histogram is of values without the entry's own condition", "counting.py",
         "Source(entry, own_conditions(entry))", "Source(entry, [])",
         "test_meaning.Counted.test_own_conditions_come_first"),
    Edit("rows are reduced without the entry's own condition", "reducing.py",
         "own_conditions(query.entries[entry]) if first else []", "[]",
         "test_meaning.Counted.test_rows_without_a_partner_go"),
    Edit("an OR over two entries is an edge", "reading.py",
         '        if word.says("OR"):\n            return [condition]\n',
         '        if word.says("OR"):\n            parts.append([])\n            continue\n',
         "test_meaning.Edges.test_or_over_two_entries", gate=True),
    Edit("OR binds more than AND", "reading.py",
         '        if word.says("OR"):\n            return [condition]\n', "",
         "test_meaning.Edges.test_or_over_two_entries"),
    Edit("an ON condition of an entry is lost", "reading.py",
         "self.statement.conditions += parts\n", "self.statement.conditions += parts[:1]\n",
         "test_meaning.Counted.test_a_condition_of_on_counts"),
    Edit("a self-join's aliases are mixed", "names.py",
         "{entry.name: entry.number for entry in self.entries}",
         "{entry.name: max(other.number for other in self.entries if other.table == entry.table)"
         " for entry in self.entries}",
         "test_meaning.Counted.test_a_table_joined_with_itself", gate=True),
    Edit("the order of the SQL isn't the planned one", "writing.py",
         "joined = writing.below_the_outputs(plan.shape)",
         "joined = writing.below_the_outputs(__import__('functools').reduce("
         "lambda a, b: (a, b), range(len(self.query.entries))))",
         "test_meaning.Orders.test_the_sql_has_the_planned_order"),
    Edit("SQLite chooses the order", "sqlite.py", 'join_word="CROSS JOIN"', 'join_word="JOIN"',
         "test_meaning.Orders.test_the_sql_has_the_planned_order"),
    Edit("PostgreSQL chooses the order", "postgres.py", "join_collapse_limit = 1",
         "join_collapse_limit = 8",
         "test_meaning.OrdersOnPostgres.test_the_sql_has_the_planned_order"),
    Edit("SQLite keeps no tree", "sqlite.py", "keeps_trees=False", "keeps_trees=True",
         "test_meaning.Trees.test_the_engine_joins_so"),
    # Comparing the budget only with the last level refuses the same plans: in 260,000 random queries no other level of
    # a best plan was larger. The tests of the library find this mutant by other bounds.
    Edit("a budget isn't compared with the levels", "levels.py",
         "_levels(query, known.best_order(budget))", "_levels(query, known.best_order(MOST_BUDGET))",
         "test_meaning.Orders.test_a_budget_is_for_every_level"),
    Edit("a column without values has one", "levels.py", "if runs else safebound.NO_VALUES", "if runs else [(1, 1)]",
         "test_meaning.Counted.test_a_column_without_values"),
    Edit("counts of two snapshots, in SQLite", "sqlite.py", '        self.connection.execute("BEGIN")\n', "",
         "test_meaning.Snapshots.test_rows_that_come_between", gate=True),
    Edit("counts of two snapshots, in PostgreSQL", "postgres.py", "IsolationLevel.REPEATABLE_READ",
         "IsolationLevel.READ_COMMITTED",
         "test_meaning.SnapshotsOnPostgres.test_rows_that_come_between", gate=True),
    Edit("rows are joined that weren't counted", "writing.py", "if reduce else Parts()", "if False else Parts()",
         "test_meaning.Reduced.test_the_counted_rows_are_joined", gate=True),
    Edit("functions that answer anew are taken", "meaning.py", "        raise statement.refuse(asked[call], why)\n",
         "        pass\n", "test_refusals.Refusals.test_random", gate=True),
    Edit("views aren't looked into", "meaning.py", "for name, why in _volatile_views(set(tables), engine):",
         "for name, why in ():",
         "test_refusals.Refusals.test_views"),
    Edit("subqueries may name entries", "names.py", "            if reason:\n", "            if False:\n",
         "test_refusals.Refusals.test_subqueries", gate=True),
    Edit("a word of the language is a column", "names.py",
         " or self.dialect.normalized_name(token) in self.dialect.reserved", "",
         "test_meaning.EdgesOfPostgres.test_a_word_of_the_language_is_no_column"),
    Edit("a merged name is any entry's, above the join", "meaning.py", "query.frame = list(_frame_pieces(frame))",
         "query.frame = []",
         "test_corners.NamesOnPostgres.test_aliases_like_columns_over_using", gate=True),
    Edit("USING always takes the left column", "postgres.py",
         "        return 0 if plain[0] else 1 if plain[1] else 0 if common == own[0] else None",
         "        return 0", "test_corners.CornersOfPostgres.test_using_across_types", gate=True),
    Edit("a merged column goes by its name twice, in SQLite", "meaning.py",
         "query.renamed = {named for named in names.merged_away if normalized(named.column.name, True) in bare}",
         "query.renamed = set()",
         "test_corners.Names.test_aliases_like_columns_over_using"),
    Edit("rows of two parts are mixed", "writing.py", " ON {alias}.{numbered} = {part}.{numbered}", "",
         "test_corners.Names.test_aliases_like_columns_in_trees", gate=True),
    Edit("views may number rows that tie", "nondeterministic.py",
         "if frames or not (function and function.says(*WINDOWS_WITH_TIES)):", "if False:",
         "test_corners.ViewsThatChoose.test_they_are_refused", gate=True),
    Edit("DISTINCT ON chooses nothing", "nondeterministic.py", 'token.says("DISTINCT") and after.says("ON")', "False",
         "test_corners.ViewsThatChooseOnPostgres.test_they_are_refused"),
    Edit("arrays have an order of their own", "nondeterministic.py", "not _in_whole_order(pieces, at + 1)", "False",
         "test_corners.ViewsThatChooseOnPostgres.test_they_are_refused"),
    Edit("columns beside GROUP BY choose nothing", "sqlite.py", "takes_bare_columns=True",
         "takes_bare_columns=False",
         "test_corners.ViewsThatChoose.test_they_are_refused"),
    Edit("line ends are those of the file", "command.py", 'return text.read().decode("utf-8-sig")',
         'return text.read().decode("utf-8-sig").replace("\\r\\n", "\\n")',
         "test_corners.Texts.test_line_ends_stay"),
    Edit("settings may be asked for", "postgres.py", "current_setting|pg_settings", "pg_settings",
         "test_corners.CornersOfPostgres.test_the_sessions_settings"),
    Edit("row policies aren't looked at", "postgres.py", "WHERE relrowsecurity AND polqual IS NOT NULL", "WHERE false",
         "test_corners.CornersOfPostgres.test_row_policies"),
    Edit("a name with escapes is a text", "tokens.py", '        if kind == "escaped":\n', "        if False:\n",
         "test_corners.CornersOfPostgres.test_functions_that_hide"),
    Edit("an operator of a schema isn't looked at", "postgres.py", "WHERE oprname = ANY(%(qualified)s)", "WHERE false",
         "test_corners.CornersOfPostgres.test_functions_that_hide"),
    Edit("a user's own = joins as PostgreSQL's", "postgres.py", "AND pg_operator_is_visible(o.oid) AND EXISTS (",
         "AND false AND EXISTS (",
         "test_corners.CornersOfPostgres.test_operators_of_the_users_own"),
    Edit("files are tables like others", "postgres.py", "h.proname IS DISTINCT FROM 'postgres_fdw_handler'", "false",
         "test_corners.CornersOfPostgres.test_tables_without_snapshots"),
    Edit("date functions that may read the clock are taken", "sqlite.py",
         "return not dates or not all(", "return False and not all(",
         "test_corners.CornersOfSqlite.test_dates"),
    Edit("a stored 'now' isn't looked for", "meaning.py", "if named is None or self.catalog.has_text_now(",
         "if named is None or False and self.catalog.has_text_now(",
         "test_corners.CornersOfSqlite.test_dates"),
    Edit("a text in quotes is no alias", "sqlite.py",
         'return self.connection.names(f"SELECT * FROM ({sql}\\n) LIMIT 0")',
         "return []", "test_corners.CornersOfSqlite.test_aliases_as_texts"),
    Edit("a name with a bracket is a text", "sqlite.py", """if token.text[0] == '"'}""",
         """if token.text[0] == '"' and "]" not in token.text}""",
         "test_corners.CornersOfSqlite.test_brackets_in_names"),
    Edit("a primary key groups nothing else", "meaning.py",
         "return clauses[: groups.stop] + more + clauses[groups.stop :]", "return clauses",
         "test_corners.CornersOfPostgres.test_groups_by_a_primary_key"),
    Edit("the planned query isn't looked at before it is admitted", "command.py", "    planner.check(plan)\n", "",
         "test_ends.EndsOfPostgres.test_what_the_engine_refuses_is_told_first"),
    Edit("columns that may not be read are carried", "postgres.py",
         " AND has_column_privilege(a.attrelid, a.attnum, 'SELECT')", "",
         "test_ends.EndsOfPostgres.test_rights_on_columns"),
    Edit("rows above a bound aren't reported", "command.py",
         "        if rows > level.bound:\n            raise AboveBound(f\"level {number}\", rows, level.bound)\n",
         "        pass\n",
         "test_ends.EndsOfPostgres.test_rows_above_a_bound"),
    Edit("rows without a partner aren't counted", "block_bounds.py", '"LEFT": matched + kinds', '"LEFT": matched',
         "test_blocks.Blocks.test_outer_joins", gate=True),
    Edit("the right side's rows are those with a partner", "block_bounds.py", '"RIGHT": matched + own',
         '"RIGHT": matched',
         "test_blocks.Blocks.test_outer_joins"),
    Edit("a condition of WHERE on an outer join's entry is counted as its own", "block.py",
         "settled = entries <= set(self.reorderable) and",
         "settled =",
         "test_blocks.Blocks.test_outer_joins"),
    Edit("a value of a query in FROM stands there once", "block_bounds.py", "[(1, rows) if once else (rows, 1)]",
         "[(1, rows)]",
         "test_blocks.BlocksOnPostgres.test_queries_in_from_and_with", gate=True),
    Edit("a star stays as written", "block_sql.py", 'if len(piece) == 1 and piece[0].says("*"):', "if False:",
         "test_blocks.Blocks.test_stars", gate=True),
    Edit("a SELECT without FROM is one row", "block_plans.py", "rows=None if more else 1, more_rows=more", "rows=1",
         "test_blocks.BlocksOfPostgres.test_selects_without_from", gate=True),
    Edit("sets of rows are looked for among outputs alone", "block_rows.py",
         "return [statement.distinct, *statement.outputs, statement.later_clauses]", "return [*statement.outputs]",
         "test_blocks.BlocksOfPostgres.test_sets_of_rows_anywhere", gate=True),
    Edit("a column is never a function of a row", "postgres.py", "    columns_may_be_calls=True,\n", "",
         "test_blocks.BlocksOfPostgres.test_sets_of_rows_anywhere"),
    Edit("one aggregate of a name makes all functions of it aggregates", "engine.py",
         "all(function.is_aggregate for function in found)", "any(function.is_aggregate for function in found)",
         "test_blocks.BlocksOfPostgres.test_functions_named_like_aggregates", gate=True),
    Edit("an aggregate of the rows outside is the block's own", "block_rows.py",
         "if is_window or block.names_outside(inner):", "if is_window:",
         "test_blocks.BlocksOfPostgres.test_functions_named_like_aggregates"),
    Edit("casts call no function", "postgres.py", "    casts_are_calls=True,\n", "",
         "test_corners.CornersOfPostgres.test_casts_of_the_users_own", gate=True),
    Edit("the time of the statement is one time", "postgres.py", '"statement_timestamp|pg_stat_', '"pg_stat_',
         "test_corners.CornersOfPostgres.test_the_time_of_the_statement", gate=True),
    Edit("long names aren't cut", "postgres.py", "if self.asked is None or (", "if True or (",
         "test_blocks.BlocksOfPostgres.test_names_that_are_cut", gate=True),
    Edit("parts of WITH don't see later ones, in SQLite", "sqlite.py", "parts_see_each_other=True",
         "parts_see_each_other=False", "test_blocks.BlocksOfSqlite.test_later_parts", gate=True),
    Edit("a part that leads back to itself is like others", "blocks.py", "if self._leads_to(part, part):", "if False:",
         "test_blocks.BlocksOfSqlite.test_parts_that_lead_back", gate=True),
    Edit("the rows that come out aren't held", "block_plans.py", "return max(self.rows or 0, *", "return max(0, *",
         "test_blocks.Blocks.test_the_rows_that_come_out_are_held", gate=True),
    Edit("LATERAL has its rows once for all rows before it", "block_bounds.py",
         "matched = [both(some, one) for some in kinds for one in own]",
         "matched = [both(some, one) for some in kinds for one in own] if not lateral else list(own)",
         "test_blocks.BlocksOfPostgres.test_lateral", gate=True),
    Edit("a LIMIT of LATERAL is one for all rows", "block_laterals.py", "Way(a.entries | b.entries, a.times * b.times)",
         "Way(a.entries | b.entries if b.entries else b.entries, a.times * b.times)",
         "test_blocks.BlocksOfPostgres.test_lateral"),
    Edit("UNION has the rows of one side", "block_plans.py", 'total = sum(rows) if first == "UNION"',
         'total = rows[0] if first == "UNION"',
         "test_blocks.BlocksOnPostgres.test_queries_in_from_and_with"),
    Edit("a condition that names a block outside is one of this block alone", "block.py",
         "        outer = self.names_outside(piece)\n        settled", "        outer = False\n        settled",
         "test_blocks.Blocks.test_subqueries"),
    Edit("an anti-join is an inner join", "unreached.py", "for token in _no_inner_joins(pieces):", "for token in ():",
         "test_dialects.RefusedByDialects.test_joins_that_arent_inner"),
    Edit("an array of an entry is a table of a schema", "unreached.py",
         "if self.dialect.normalized_name(source.alias).lower() in schemas:", "if False:",
         "test_dialects.RefusedByDialects.test_joins_that_arent_inner"),
    Edit("QUALIFY is a part of a condition", "unreached.py", '"QUALIFY", ', "",
         "test_dialects.RefusedByDialects.test_rows_that_are_chosen"),
    Edit("columns of any type of a schema file meet", "schema_file.py",
         "return name if EQUAL_AS_GROUPED.fullmatch(name) else None",
         'return "any"', "test_dialects.Edges.test_which_columns_meet", gate=True),
    Edit("whole numbers and texts of a schema file meet", "schema_file.py", 'return "a whole number"',
         'return "a text"',
         "test_dialects.Edges.test_which_columns_meet"),
    Edit("a collation of a schema file isn't looked at", "schema_file.py",
         'any(token.says("COLLATE") for token in item[end:])', "False",
         "test_dialects.Edges.test_which_columns_meet"),
    Edit("a collation of a whole table isn't looked at", "schema_file.py",
         'any("COLLAT" in token.text.upper() for token in pieces[end:])',
         "False", "test_dialects.Edges.test_a_collation_of_a_whole_table"),
    Edit("functions that aren't known are taken", "unreached.py", "call.name.lower() not in CALLED",
         '"rand" in call.name.lower()',
         "test_dialects.RefusedByDialects.test_what_may_answer_anew"),
    Edit("today is a text like others", "unreached.py", '.lower() not in DAYS', '.lower() not in ()',
         "test_dialects.RefusedByDialects.test_what_may_answer_anew"),
    Edit("subqueries name entries where nobody complains", "unreached.py",
         'return f"{token.text} isn\'t known to be its own"', "return None",
         "test_dialects.RefusedByDialects.test_subqueries"),
    Edit("a quote mark after a backslash ends no text", "tokens.py", r"\\(?!{mark})", r"\\.",
         "test_dialects.RefusedByDialects.test_texts_that_engines_read_in_their_own_ways"),
    Edit("comments within comments end at the first end", "tokens.py", r"(?:(?!/\*|\*/).)*\*/)", r".*?\*/)",
         "test_dialects.RefusedByDialects.test_texts_that_engines_read_in_their_own_ways"),
    Edit("Trino chooses the order", "unreached.py", "join_reordering_strategy = 'NONE'",
         "join_reordering_strategy = 'AUTOMATIC'",
         "test_dialects.Written.test_the_way_to_keep_the_order"),
    Edit("levels aren't tables where no setting keeps the order", "writing.py",
         "(self._side if self.dialect.makes_tables else self._from)(left)", "self._from(left)",
         "test_dialects.Written.test_the_way_to_keep_the_order"),
    Edit("counts under a condition are kept", "kept.py", "Source(_renamed_entry(entry, identity), [])",
         "Source(_renamed(entry, identity), own_conditions(entry))",
         "test_kept.Taken.test_whole_tables_are_kept"),
    Edit("kept counts are taken for an entry with a condition", "kept.py", "if table and not entry.own and all(",
         "if table and all(",
         "test_kept.Taken.test_an_entry_with_a_condition_is_counted_now"),
    Edit("counts of a table that was made anew are taken, in SQLite", "sqlite.py", "#{self._schema_version(schema)}",
         "#",
         "test_kept.Taken.test_a_table_that_was_made_anew"),
    Edit("counts of a table that was made anew are taken, in PostgreSQL", "postgres.py",
         "nspname, relname, c.oid)", "nspname, relname, 0)",
         "test_kept.TakenOnPostgres.test_a_table_that_was_made_anew"),
    Edit("counts of another file's table are taken", "sqlite.py", 'f"{self.connection.path} {schema} {stored_name}#',
         'f"{schema} {stored_name}#',
         "test_kept.OtherTables.test_a_table_of_another_file"),
    Edit("counts of a column of another type are taken", "kept.py",
         "return self.types.get(column.name) == type_of(column)", "return column.name in self.types",
         "test_kept.OtherTypesOnPostgres.test_a_column_of_another_type"),
    Edit("rows that came later are forgotten", "planner.py",
         "rows = {entry: degree for entry, column, degree, _ in answer if column == \"\"}",
         "answer = [line for line in answer if self.meaning.names.by_alias[line[0]] not in taken]\n"
         "        answer += [(self.query.entries[number].name, \"\", table.rows, 1)"
         " for number, table in taken.items()]\n"
         "        rows = {entry: degree for entry, column, degree, _ in answer if column == \"\"}",
         "test_kept.Taken.test_rows_that_came_later", gate=True),
    Edit("degrees of new rows stand beside the old ones", "kept.py", "safebound.append(old, new)",
         "sorted(old + new, reverse=True)",
         "test_kept.Taken.test_rows_that_are_appended"),
    Edit("NULLs of several servers are counted as one value", "servers.py", "SELECT COUNT({value}) AS n",
         "SELECT COUNT(*) AS n",
         "test_cluster.OtherTables.test_a_value_of_two_servers"),
    Edit("what two servers say of a value isn't added up", "servers.py",
         "SELECT CAST(SUM(n) AS BIGINT) AS d FROM ({counts}) AS servers GROUP BY v",
         "SELECT n AS d FROM ({counts}) AS servers",
         "test_cluster.OtherTables.test_a_value_of_two_servers"),
    Edit("a server isn't asked", "servers.py", "return spread.parts if spread", "return spread.parts[:1] if spread",
         "test_cluster.OtherTables.test_a_value_of_two_servers", gate=True),
    Edit("the rows of a table are fetched to be counted", "servers.py",
         "            return \"COUNT(*)\", self._rows(*self._tables())\n",
         "            return \"COUNT(*)\", self._rows(*self._tables())\n"
         "        return \"COUNT(*)\", self._rows(self.entry.table)\n",
         "test_cluster.TheShop.test_no_whole_table_is_fetched"),
    Edit("the rows of a table are fetched to be grouped", "servers.py", "spread is None or spread.by == column.name",
         "True",
         "test_cluster.TheShop.test_no_whole_table_is_fetched"),
    Edit("the rows of a table are fetched for a semi-join", "postgres.py",
         "{value} = ANY(ARRAY(SELECT {values} FROM {rows}))",
         "{value} IN (SELECT {values} FROM {rows})", "test_cluster.TheShop.test_no_whole_table_is_fetched"),
    Edit("texts of some length stay where they are", "postgres.py", 'f"CAST({name} AS TEXT)" if', "name if",
         "test_cluster.OtherTables.test_texts_of_any_length_go_along"),
    Edit("entries under no condition send all of their values", "servers.py",
         "for other in others if other in limited]", "for other in others]",
         "test_cluster.TheShop.test_entries_under_no_condition_tell_nothing_at_first"),
    Edit("entries under no condition never send their values", "servers.py",
         "        if some_skipped:\n", "        if False:\n",
         "test_cluster.OtherTables.test_entries_under_no_condition_tell_in_the_end"),
    Edit("the values that were left at first are sent, and not the fewer later ones", "servers.py",
         "self.among[entry][other] = self._among(entry, other, joined[entry][other])",
         "self.among[entry].setdefault(other, self._among(entry, other, joined[entry][other]))",
         "test_cluster.OtherTables.test_entries_under_no_condition_tell_in_the_end"),
    Edit("values of two columns needn't be of one row", "servers.py",
         "return tested if len(tested) == 1 else tested + [exact]", "return tested",
         "test_cluster.OtherTables.test_two_equalities_of_the_same_entries"),
    Edit("an entry sends its values without its own condition", "servers.py",
         "return own_conditions(self.query.entries[entry]) + [", "return [", "test_cluster.OtherTables.test_cycles"),
    Edit("rows that are taken for few are joined by nested loops", "postgres.py",
         "enable_nestloop = off", "enable_nestloop = on",
         "test_cluster.TheShop.test_no_nested_loops"),
    Edit("parts are asked that may not be read", "postgres.py", "bool_and(has_table_privilege(relid, 'SELECT')) AND ",
         "",
         "test_cluster.OtherTables.test_parts_that_may_not_be_read"),
    Edit("parts are asked of which rows are hidden", "postgres.py", " AND NOT bool_or(relrowsecurity)", "",
         "test_cluster.OtherTables.test_policies_of_parts"),
    Edit("appended rows needn't add up", "kept.py", 'if kept.rows + counts.rows["new"] != counts.rows["whole"]:',
         "if False:",
         "test_kept.Taken.test_rows_that_dont_add_up"),
    Edit("counts of both sides are added", "counted.py",
         """product = f"COALESCE(SUM({left.name}.{self.number} * {right.name}""",
         """product = f"COALESCE(SUM({left.name}.{self.number} + {right.name}""",
         "test_counted.Examples.test_counts_multiply", gate=True),
    Edit("equal rows are counted once", "counted.py", '"CAST(COUNT(*) AS NUMERIC)", source',
         '"CAST(1 AS NUMERIC)", source',
         "test_counted.Examples.test_counts_multiply", gate=True),
    Edit("a column is summed away that a condition still names", "factors.py",
         "        for named in conjunct.columns\n", "        if isinstance(conjunct.what, Equality)\n"
         "        for named in conjunct.columns\n",
         "test_counted.Examples.test_a_condition_of_three_entries"),
    Edit("entries are joined by one of two equalities", "counted.py", "' AND '.join(equal)", "equal[0]",
         "test_counted.Examples.test_two_equalities_of_the_same_entries"),
    Edit("what has too many pairs is 0", "counted.py",
         "{made.name}{where(self._within_limit(made.pairs))}", "{made.name}",
         "test_counted.NotCounted.test_past_the_limit_by_equalities_too", gate=True),
    Edit("pairs of one side are forgotten", "counted.py",
         "        pairs = left.pairs + tuple(name for name in right.pairs if name not in left.pairs)\n",
         "        pairs = right.pairs\n",
         "test_counted.NotCounted.test_past_the_limit_by_equalities_too", gate=True),
    Edit("pairs aren't counted before they are made", "counted.py",
         "[] if join.has_few_pairs else [", "[] if True else [",
         "test_counted.NotCounted.test_the_limit_of_pairs"),
    Edit("equal numbers are the same texts", "postgres.py",
         "number in SAME_WHEN_EQUAL or column.type.startswith((\"numeric(\", \"character(\"))",
         "number in SAME_WHEN_EQUAL or column.type.startswith((\"numeric\", \"character(\"))",
         "test_counted.NotCounted.test_equal_values_that_differ", gate=True),
    Edit("texts that are equal in upper and lower case are the same", "postgres.py",
         "column.kind is None or (_collation(column) and self._folds(column))", "column.kind is None",
         "test_counted.NotCounted.test_equal_values_that_differ"),
    Edit("an entry's rows are counted without its condition", "counted.py", "where([] if rows else conditions)",
         "where([])", "test_counted.NotCounted.test_without_semi_joins"),
    Edit("a counted bound takes the place of a lower one", "counted.py", "min(level.bound, choices)",
         "max(level.bound, choices)", "test_counted.Examples.test_cycles"),
    Edit("the budget is looked at before anything is counted", "planner.py",
         "plan = self.plan(accuracy, MOST_BUDGET, tree)", "plan = self.plan(accuracy, budget, tree)",
         "test_counted.Commands.test_budgets"),
    Edit("SQLite counts choices", "command.py", "if count and not engine.dialect.counts_exactly:", "if False:",
         "test_counted.CommandsOfSqlite.test_it_isnt_for_sqlite"),
]


def tried(edit: Edit) -> Done:
    """Whether the edit's test fails. It runs in this process, in which nothing of safebound_sql is loaded."""
    begin = time.monotonic()
    with tempfile.TemporaryDirectory() as folder:
        times = _edited(edit, Path(folder))
        if times != 1:
            return _answer(edit, begin, f"its old text is found {times} times")
        os.environ["SAFEBOUND_SQL_PROGRAM"] = shutil.copy(PACKAGE.parent / "safebound-sql", folder)
        sys.path.insert(0, folder)
        results = tests([edit.test]).results
    said = "\n".join(result.said for result in results)
    if "ImportError" in said or "SyntaxError" in said:
        return _answer(edit, begin, f"doesn't run: {said}")
    if all(result.outcome == PASSED_OVER for result in results):
        return Done([Result(edit.name, 0, 0, PASSED_OVER, said)])
    caught = any(result.outcome == "failed" for result in results)
    return _answer(edit, begin, "" if caught else f"not caught by {edit.test}")


def _edited(edit: Edit, folder: Path) -> int:
    """Makes a package that has the edited file, and all others from the program's own.

    Answers how often the file had the old text.
    """
    text = (PACKAGE / edit.file).read_text()
    package = folder / PACKAGE.name
    package.mkdir()
    (package / edit.file).write_text(text.replace(edit.old, edit.new))
    (package / "__init__.py").write_text(f"__path__.append({str(PACKAGE)!r})\n")
    return text.count(edit.old)


def _answer(edit: Edit, begin: float, wrong: str) -> Done:
    took = time.monotonic() - begin, sum(os.times()[:4])
    return Done([Result(f"mutant: {edit.name}", *took, "failed" if wrong else "ok", wrong)])
