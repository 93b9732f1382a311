"""Puts known bugs into the extension, one at a time, and checks that its tests find them.

    postgres/tests/mutants.py [WORD]

Each bug is an edit of a C file. WORD selects the edits whose name contains it. For each edit the extension is built
again, and the test that has to fail is run on a server of its own. If that test passes, the edit is printed as MISSED,
and the exit status is 1. Without WORD each of these tests is first run without an edit, and has to pass.
"""

from __future__ import annotations

import os
import re
import shutil
import subprocess
import sys
import tempfile
from dataclasses import dataclass
from pathlib import Path

sys.dont_write_bytecode = True
HERE = Path(__file__).resolve().parent
ROOT = HERE.parents[1]
sys.path[:0] = [str(HERE.parent)]
from installed import SETTINGS, TemporaryServer, copy_server


@dataclass
class Edit:
    """A bug: what goes wrong, the C file, pairs of an old and a new text in it, and the test that has to fail.

    The test is the name of a regression or an isolation test. In the names of edits a table is known if its statistics
    are valid for the table as it is now.
    """

    name: str
    file: str
    edits: list[tuple[str, str]]
    test: str


EDITS = [
    Edit("OR has the lesser list of its conditions in place of the sum", "conditions.c",
         [("\t\t*list = summed(*list, one);",
           "\t\t*list = cell == list_head(clauses) ? one : lesser(*list, one);")], "estimates"),
    Edit("a range leaves out its last leaf", "conditions.c",
         [("end = range->last + 1", "end = range->last")], "estimates"),
    Edit("a range ends before its value", "conditions.c",
         [("range->last = Min(range->last, leaf_at(pair, less,",
           "range->last = Min(range->last, -1 + leaf_at(pair, less,")], "estimates"),
    Edit("a common value has the list of those that aren't common", "conditions.c",
         [("kept->kind == LIST_VALUE &&", "false &&")], "estimates"),
    Edit("a parameter has the list of values that aren't common", "conditions.c",
         [("list_of_kind(pair, LIST_ANY)", "list_of_kind(pair, LIST_OTHER)")], "estimates"),
    Edit("a condition under another collation has the column's lists", "conditions.c",
         [("\tif (collation != own && OidIsValid(collation)", "\tif (false && OidIsValid(collation)")], "estimates"),
    Edit("a semi-join is bounded by its right side", "joins.c",
         [("bound_of_ways(query, present, rest), less, UNKNOWN);\n\t\tcase JOIN_LEFT",
           "bound_of_ways(query, join->syn_righthand, rest), less, UNKNOWN);\n\t\tcase JOIN_LEFT")], "estimates"),
    Edit("a condition above an outer join counts as one on the scan below it", "conditions.c",
         [("list = list_of_all(&context, rel->baserestrictinfo, &list)",
           "list = list_of_all(&context, list_concat_copy(rel->baserestrictinfo, rel->joininfo), &list)")],
         "estimates"),
    Edit("the missing side of a full join has no rows", "joins.c",
         [("bound_of_ways(query, bms_difference(present, join->syn_lefthand), rest));", "0);")], "estimates"),
    Edit("the missing side of a left join has no rows", "joins.c",
         [("joined_rows(SAFEBOUND_LEFT_JOIN, bound_of_ways(query, present, rest), less, UNKNOWN)",
           "joined_rows(SAFEBOUND_LEFT_JOIN, bound_of_ways(query, present, rest), 0, UNKNOWN)")], "estimates"),
    Edit("a left join is bounded as a semi-join", "joins.c",
         [("joined_rows(SAFEBOUND_LEFT_JOIN, ", "joined_rows(SAFEBOUND_SEMI_JOIN, ")], "estimates"),
    Edit("a list along a reference is taken though the referred relation isn't joined", "joins.c",
         [("bms_is_member(carried->referring, relids) && bms_is_member(carried->referred, relids)",
           "bms_is_member(carried->referring, relids)")], "estimates"),
    Edit("a list along references is taken in a set with other references", "joins.c",
         [("bms_equal(((NarrowedList *) lfirst(cell))->held, held)", "true")], "estimates"),
    Edit("scans with parameters keep PostgreSQL's numbers of rows", "planning.c",
         [("\tif (first || rel->ppilist != NIL)\n\t\tmake_scan_paths", "\tif (first)\n\t\tmake_scan_paths")],
         "estimates"),
    Edit("expected rows of joins leave out what references tell", "expected.c",
         [("\t\tproduct *= carried->share;", "\t\t;")], "estimates"),
    Edit("numbers of distinct values are those of ANALYZE's sample", "expected.c",
         [("TAKE_HOOK(get_relation_stats_hook, relation_stats_before, on_relation_stats)",
           "(void) on_relation_stats")], "estimates"),
    Edit("a mean takes the whole table's bound though no condition has a list", "planning.c",
         [("entry->used == NULL;", "false;")], "estimates"),
    Edit("a partial index finds all rows", "expected.c",
         [("is_full_index = path->indexinfo->indpred == NIL", "is_full_index = true")], "estimates"),
    Edit("referring rows count once for each value", "columns.c",
         [("coder->weights ? coder->weights[row] : 1", "1")], "estimates"),
    Edit("the last degree of a group is lost", "counts.c",
         [("\tadd_degree(&degrees, (last & joined_mask) == 0 ? 0 : degree);\n\tend_group", "\tend_group")],
         "estimates"),
    Edit("NULLs join", "counts.c",
         [("if (pair != last)\n\t\t\tadd_degree(&degrees, (last & joined_mask) == 0 ? 0 : degree);",
           "if (pair != last)\n\t\t\tadd_degree(&degrees, degree);")], "estimates"),
    Edit("parts of one count count as different values", "counts.c",
         [("(pair == last ? degree : 0) + (number & count_mask)", "number & count_mask")], "estimates"),
    Edit("rows that don't fit into the memory are sorted by the other column", "counts.c",
         [("(high << pairs->bits) | low", "(low << pairs->bits) | high")], "keep"),
    Edit("deltas aren't added to lists", "deltas.c",
         [("table->deltas == NULL || table->deltas->rows == 0", "true")], "rows"),
    Edit("deltas add no rows", "deltas.c",
         [("all.rows = list.rows + table->deltas->rows", "all.rows = list.rows")], "rows"),
    Edit("a delta without a list has different values", "deltas.c",
         [("{.degree = rows, .keys = 1}", "{.degree = 1, .keys = rows}")], "rows"),
    Edit("deltas that can't be read stay in memory", "deltas.c",
         [('(CurrentMemoryContext, "safebound deltas"', '(CacheMemoryContext, "safebound deltas"')], "rows"),
    Edit("lists that can't be read stay in memory", "kept.c",
         [('(CurrentMemoryContext, "safebound statistics"', '(CacheMemoryContext, "safebound statistics"')], "rows"),
    Edit("updates bring no rows", "followed.c", [("!same_values(new, new->slot, old)", "false")], "rows"),
    Edit("a table is known while a statement writes to it", "kept.c",
         [(" || is_being_written(&kept_row)", "")], "rows"),
    Edit("a table with a mark is known", "kept.c", [("table->deltas && table->deltas->not_counted", "false")], "rows"),
    Edit("a table whose triggers were dropped is known", "triggers.c",
         [("(OidIsValid(found[TRIGGER_APPLIED]) || !applies)", "true"),
          ("\treturn OidIsValid(found[TRIGGER_BEGINS]) &&\n\t\tOidIsValid(found[TRIGGER_INSERTED]) &&"
           "\n\t\tOidIsValid(found[TRIGGER_UPDATED]) &&", "\treturn")], "rows"),
    Edit("unwatching a table above drops triggers that tables below need", "watch.c",
         [("drop_triggers(source, !applies, followers == NIL)", "drop_triggers(source, !applies, true)")], "rows"),
    Edit("statements on tables above bring no rows", "watch.c",
         [("list_append_unique_oid(sources, ((Form_pg_inherits) GETSTRUCT(tuple))->inhparent)", "sources")], "rows"),
    Edit("a table is known after its rows were rewritten", "changes.c", [("\t\tmark_rewritten();", "\t\t;")], "rows"),
    Edit("a table is known after a column's collation changed without a rewrite", "changes.c",
         [("\t\tcheck_column_type(&part->address);", "\t\t;")], "rows"),
    Edit("a materialized view is known after a refresh", "changes.c",
         [("tag == CMDTAG_REFRESH_MATERIALIZED_VIEW && is_watched(object)", "false")], "rows"),
    Edit("statistics outlive a table that was dropped", "changes.c",
         [("\tforget_dropped(object);", "")], "rows"),
    Edit("a table is known after ALTER TABLE disabled a trigger", "changes.c",
         [("\tcheck_around(object);\n\tif (!null", "\tif (!null")], "rows"),
    Edit("a table is known after one of its triggers was dropped", "changes.c",
         [("\tif (class == TriggerRelationId && !null)", "\tif (false)")], "rows"),
    Edit("deltas of a referred table aren't looked at", "deltas.c",
         [("state_of_deltas(&now, snapshot) == then->deltas", "true")], "rows"),
    Edit("a referred table may have been counted anew", "deltas.c", [("now.version == then->version", "true")], "rows"),
    Edit("lists along a reference leave out deltas", "conditions.c",
         [("\t*list = with_deltas(table, joined, *list);\n\treturn true;", "\treturn true;")], "rows"),
    Edit("a user may count a table without owning it", "keep.c",
         [("if (!pg_class_ownercheck(relation, GetUserId()))", "if (false)")], "rows"),
    Edit("statistics are the newest ones, not those of the snapshot", "kept.c",
         [("find_kept_row(relation, snapshot, &kept_row)", "find_kept_row(relation, NULL, &kept_row)")], "counting"),
    Edit("statistics in memory are taken for any version", "kept.c",
         [("found && entry->table->version == kept_row->version", "found")], "admission"),
    Edit("counting takes no new snapshot", "watch.c",
         [("\tif (IsolationUsesXactSnapshot())\n\t{\n\t\tPushCopied", "\tif (true)\n\t{\n\t\tPushCopied")], "counting"),
    Edit("counting other columns doesn't wait for writers", "watch.c",
         [("if (*was_followed && !folding)", "if (false)")], "counting"),
    Edit("deltas stay when they are counted", "watch.c",
         [("\tdelete_deltas(id, GetActiveSnapshot());", "")], "counting"),
    Edit("a plan is checked when it is made, and not when it runs", "admit.c",
         [("put_bound_data(plan, joins_of_plan(plan, mine.roots));",
           "put_bound_data(plan, joins_of_plan(plan, mine.roots));\n\tcheck_plan(plan, parameters);"),
          ("static void\non_budget",
           "static void check_plan(PlannedStmt *plan, ParamListInfo parameters);\n\nstatic void\non_budget"),
          ("if (budget > 0 && !exempt && !(flags", "if (false && !exempt && !(flags"),
          ("static void\nadmit(",
           "__attribute__((unused)) static void\nadmit(")], "admission"),
    Edit("a plan is bounded in the snapshot of another statement", "admit.c",
         [("PushActiveSnapshot(query->snapshot)", "PushActiveSnapshot(GetTransactionSnapshot())")], "admission"),
    Edit("a budget takes bounds of tables that aren't watched", "admit.c",
         [("kept_fresh_only = true", "kept_fresh_only = false")], "budget"),
    Edit("EXPLAIN is refused", "admit.c", [("EXEC_FLAG_EXPLAIN_ONLY | ", "")], "budget"),
    Edit("parameters have no value", "bound_data.c",
         [("root->glob->boundParams = parameters", "root->glob->boundParams = NULL")], "budget"),
    Edit("cached plans aren't made anew when a budget is set", "admit.c",
         [("\t\tResetPlanCache();", "\t\t;")], "budget"),
    Edit("joins of subqueries aren't checked", "plan_joins.c",
         [("lappend(list_copy(plan->subplans), plan->planTree)", "list_make1(plan->planTree)")], "budget"),
    Edit("the input of a set operation is read without a look", "planning.c", [("input != NULL && ", "")], "promise"),
    Edit("rights are checked after the bound", "admit.c",
         [("\tExecCheckRTPerms(plan->rtable, true);", "")], "promise"),
    Edit("a stable operator counts", "conditions.c",
         [("op_volatile(operator) == PROVOLATILE_IMMUTABLE", "true")], "promise"),
    Edit("equalities of a class count though their operators are stable", "joins.c",
         [("OidIsValid(equality) && !is_immutable(equality)", "false")], "promise"),
    Edit("the relations of an empty side are lost", "plan_joins.c",
         [("join->relids = match->relids;",
           "for (int i = -1; (i = bms_next_member(scans, i)) >= 0;)\n\t\tjoin->relids = bms_add_member("
           "join->relids, relid_in(match->root, origin_of(search, i)));")], "promise"),
    Edit("a join that isn't matched has the least bound", "bound_data.c", [("unknown_joins++;", ";")], "promise"),
    Edit("a plan without bounds is admitted", "admit.c",
         [("bound_data == NIL ? !has_joins(plan) : is_exempt_data(bound_data)",
           "bound_data == NIL || is_exempt_data(bound_data)")], "promise"),
    Edit("a parallel worker's joins aren't checked", "exempt.c",
         [("IsParallelWorker() && query->dest && query->dest->mydest == DestTupleQueue", "IsParallelWorker()")],
         "promise"),
    Edit("a parallel worker counts what its leader is writing", "admit.c",
         [("TransactionIdIsValid(GetTopTransactionIdIfAny())", "false")], "promise"),
    Edit("functions beside a catalog are admitted", "exempt.c",
         [("return !is_in_system_view(search) && !all_of_catalog(entry, search);", "return false;"),
          ("((FuncExpr *) node)->funcretset &&", "false &&")], "promise"),
    Edit("the mark of a foreign key's check outlives its error", "exempt.c",
         [("static void\non_subtransaction_end(SubXactEvent event, SubTransactionId mine, SubTransactionId parent, "
           "void *argument)\n{\n\tforget_checked_key();",
           "static void\non_subtransaction_end(SubXactEvent event, SubTransactionId mine, SubTransactionId parent, "
           "void *argument)\n{\n")], "promise"),
    Edit("expressions of a refreshed view's index are taken for its comparison", "exempt.c",
         [(" && !has_index_expressions(view)", "")], "promise"),
    Edit("what runs within a refresh is taken for its comparison", "exempt.c",
         [("asking->running == 0 && ", "")], "promise"),
    Edit("a partitioned table is known after a part was attached", "kept.c",
         [(" || !same_parts(&kept_row)", "")], "parts"),
    Edit("statements on parts bring no rows", "watch.c",
         [("sources = list_concat_unique_oid(sources, parts);", "list_free(parts);")], "partitions"),
    Edit("replicas apply rows to the whole alone", "watch.c",
         [("RELKIND_RELATION && (source == relation || is_part_of(source, relation))",
           "RELKIND_RELATION && source == relation")], "partitions"),
    Edit("a partitioned table is known after a part's rows were rewritten", "changes.c",
         [("if (is_part_of(relation, ((KeptRow *) lfirst(cell))->relation))", "if (false)")], "partitions"),
    Edit("new rows of a part are read by the whole's column numbers", "followed.c",
         [("new->written == new->kept_row->relation ? number : name ?", "true ? number : name ?")], "partitions"),
    Edit("rows of a part are read by the whole's column numbers", "rows.c",
         [("rows->map ? execute_attr_map_slot(rows->map, rows->read, rows->mapped) : rows->read", "rows->read")],
         "partitions"),
    Edit("a partitioned table has PostgreSQL's rows of its parts", "planning.c",
         [("set_path_rows(path, path->param_info ? path->param_info->ppi_rows : rel->rows);", ";")], "partitions"),
    Edit("numbers of distinct values of a partitioned table are PostgreSQL's", "expected.c",
         [("BoolGetDatum(asked->inh)", "BoolGetDatum(false)")], "partitions"),
    Edit("a count has the rights of whoever calls", "owner.c",
         [("SetUserIdAndSecContext(owner,", "SetUserIdAndSecContext(caller.user,")], "hostile_roles"),
    Edit("a count leaves its search_path to the session", "owner.c",
         [("AtEOXact_GUC(false, caller->level)", "AtEOXact_GUC(true, caller->level)"),
          ("GUC_ACTION_SAVE", "GUC_ACTION_SET")], "hostile_roles"),
    Edit("a trigger's function doesn't ask who calls", "followed.c",
         [("\tif (kind == TRIGGER_OTHER)", "\tif (false)")], "hostile_roles"),
    Edit("a trigger without its rows is one of ours", "triggers.c",
         [("definitions[kind].new_rows == new_rows", "true")], "hostile_roles"),
    Edit("a trigger that is disabled is one of ours", "triggers.c",
         [("form->tgenabled == definitions[kind].enabled", "true")], "hostile_roles"),
    Edit("any role makes triggers of the extension's function", "safebound--0.4.0.sql",
         [("REVOKE EXECUTE ON FUNCTION safebound.follow(), safebound.on_change() FROM PUBLIC;", "")], "hostile_roles"),
    Edit("tables in a schema of that name are the extension's", "own_tables.c",
         [("\t\tif (OidIsValid(relation) && identity.tables[i] == relation)",
           "\t\tif (get_rel_namespace(relation) == get_namespace_oid(EXTENSION, true))"),
          ("extension_presence() != ABSENT && i < OWN_LENGTH", "i < OWN_LENGTH"),
          ('#include "catalog/indexing.h"', '#include "catalog/indexing.h"\n#include "catalog/namespace.h"')],
         "hostile_roles"),
    Edit("the extension's tables are found by the name of their schema", "own_tables.c",
         [("Oid extension = get_extension_oid(EXTENSION, true);",
           "Oid extension = get_namespace_oid(EXTENSION, true);"),
          ("\t\t\tfind_members(extension, &found);",
           "\t\t\tfor (int i = 0; i < OWN_LENGTH; i++)\n\t\t\t\tfound.tables[i] = "
           "get_relname_relid(definitions[i].name, extension);\n\t\t\tfound.follow = 1;"),
          ("library_fits() ? presence_of(&found) : DIFFERENT", "presence_of(&found)"),
          ('#include "catalog/indexing.h"', '#include "catalog/indexing.h"\n#include "catalog/namespace.h"')],
         "hostile_roles"),
    Edit("columns of the extension's tables aren't looked at", "own_tables.c",
         [("\tif (own->rd_rel->relkind != definition->kind ||\n\t\tdesc->natts != definition->columns)"
           "\n\t\treturn false;", "\tif (desc->natts >= 0)\n\t\treturn true;")], "hostile_roles"),
    Edit("a type's arrays and domains keep their values", "changes.c",
         [("\tif (dependent->classid == TypeRelationId)", "\tif (false)")], "hostile_roles"),
    Edit("deltas before the first one that a merge left are read from the last merge on", "deltas.c",
         [("\t\tkept_row->first_delta = kept_row->merged_delta;\n\tkept_row->merged_delta = next_version();",
           "\t\t;\n\tkept_row->merged_delta = kept_row->first_delta = next_version();")], "test_costs"),
    Edit("a merge leaves no delta", "deltas.c",
         [("\twrite_delta(kept_row->relation, sums->rows, &bytes);", "")], "test_costs"),
    Edit("who writes finds followers in memory though what is stored of the table changed", "followers.c",
         [("\tif (!OidIsValid(relation) || relation == source_table)", "\tif (false)")], "rows"),
    Edit("a pair has the values of another list", "kept.c",
         [("&values->lists[pair->length]", "&values->lists[0]")], "estimates"),
    Edit("any number of pairs is counted", "chosen.c",
         [("if ((joins + 1) * (int64) filters > MOST_PAIRS)", "if (false)")], "keep"),
    Edit("any user changes the budget", "admit.c", [("INT_MAX, PGC_SUSET", "INT_MAX, PGC_USERSET")], "budget"),
]


def as_laid_out(text: str) -> str:
    """A pattern of this text of C, wherever its lines are broken."""
    return r"\s*".join(re.escape(letter) for letter in text if not letter.isspace())


def apply(edit: Edit, folder: Path) -> None:
    file = folder / edit.file
    text = file.read_text()
    for old, new in edit.edits:
        text, found = re.subn(as_laid_out(old), lambda _: new, text)
        if found != 1:
            raise SystemExit(f"{edit.name}: found {found} times in {edit.file}: {old}")
    file.write_text(text)


def passes(folder: Path, test: str) -> bool:
    """Whether one test of the folder passes, on a new server with the extension that was built there."""
    if (folder / "tests" / f"{test}.py").exists():
        command = [sys.executable, "-B", str(folder / "tests" / f"{test}.py")]
        return subprocess.run(command, capture_output=True).returncode == 0
    kind = "ISOLATION" if (folder / "specs" / f"{test}.spec").exists() else "REGRESS"
    other = {"ISOLATION": "REGRESS", "REGRESS": "ISOLATION"}[kind]
    with TemporaryServer(SETTINGS) as server:
        environment = {**os.environ, "PGHOST": server.folder, "PGUSER": "postgres"}
        # The test `keep` creates the extension itself.
        extension = "" if test == "keep" else "--load-extension=safebound "
        words = [f"{kind}={test}", f"{other}=", f"REGRESS_OPTS={extension}--dbname=contrib_regression"]
        command = ["make", "-s", "-C", str(folder), "installcheck", *words]
        return subprocess.run(command, env=environment, capture_output=True).returncode == 0


def build(folder: Path, *targets: str) -> None:
    for target in targets:
        subprocess.run(["make", "-s", "-C", str(folder), target], check=True, capture_output=True)


def main() -> int:
    word = sys.argv[1] if len(sys.argv) > 1 else ""
    missed = 0
    with tempfile.TemporaryDirectory(prefix="safebound-wrong-") as root:
        os.chmod(root, 0o755)
        os.environ["PATH"] = copy_server(root) + os.pathsep + os.environ["PATH"]
        for name in ("include", "dist", "library", "python", "tools", "engines"):
            os.symlink(ROOT / name, Path(root) / name)
        built, folder = Path(root) / "built", Path(root) / "postgres"
        shutil.copytree(HERE.parent, built)
        build(built, "all")
        for edit in [Edit("nothing", "watch.c", [], test) for test in sorted({edit.test for edit in EDITS})] + EDITS:
            if word not in edit.name:
                continue
            shutil.copytree(built, folder)
            apply(edit, folder)
            build(folder, "all", "install")
            caught = not passes(folder, edit.test)
            wrong = caught != bool(edit.edits)
            missed += wrong
            print(f"{'MISSED' if wrong else 'caught' if caught else 'passes'}: {edit.name} ({edit.test})", flush=True)
            shutil.rmtree(folder)
    return 1 if missed else 0


if __name__ == "__main__":
    sys.exit(main())
