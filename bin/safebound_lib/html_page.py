"""A plan as one page of HTML that needs no script and no other file. It has a picture, a tree, and for each step and
entry a section that a click opens.
"""
from __future__ import annotations

from typing import TYPE_CHECKING

from .picture import draw, safe

if TYPE_CHECKING:
    from .lists import Listed
    from .shown import Shown

MOST_RUNS = 12
STYLE = """
body { font: 14px/1.45 "DejaVu Sans", Verdana, sans-serif; color: #222; margin: 16px; }
main { display: grid; grid-template-columns: minmax(0, 3fr) minmax(320px, 2fr); gap: 24px; align-items: start; }
.drawn { overflow-x: auto; } svg a { cursor: pointer; } svg a:hover rect { stroke: #222; }
h2 { font-size: 16px; margin: 0 0 8px; } h3 { font-size: 14px; margin: 12px 0 4px; }
aside { position: sticky; top: 16px; max-height: calc(100vh - 64px); overflow-y: auto; border: 1px solid #ccc;
  border-radius: 4px; padding: 12px 16px; scroll-margin-top: 16px; }
aside section { display: none; } aside section:target { display: block; scroll-margin-top: 1000px; }
.tree, .tree ul { list-style: none; padding-left: 18px; border-left: 1px solid #ccc; } .tree { border: 0; padding: 0; }
.tree a { color: #1d4f80; } .past { color: #c0392b; } table { border-collapse: collapse; margin: 4px 0; }
td, th { text-align: right; padding: 1px 10px 1px 0; font-weight: normal; }
th { color: #555; } code { white-space: pre-wrap; }
@media (max-width: 900px) {
  main { display: block; padding-bottom: 45vh; } aside table { display: block; overflow-x: auto; }
  aside { position: fixed; inset: auto 0 0 0; max-height: 40vh; background: #fff; }
}
"""
HOW_LISTS_MEET = (
    "<p>Of several lists of a column the bound takes the least running sums; of the members of an OR, the sums"
    " together.</p>"
)
NO_LISTS = {
    "--reduce": "With --reduce lists are made of the rows that stay in each scan, and the program doesn't print them.",
    "--count": "With --count there are no lists: what the conditions leave of the entries together is counted.",
    "--keys": (
        "With --keys further lists, of the rows that refer to rows that pass, lower bounds; the program doesn't print"
        " these."
    ),
}


def page(shown: Shown, lists: dict[str, list[Listed]], flags: list[str]) -> str:
    """The HTML page. `lists` has for each entry its lists: the column, a description of the rows that the list counts,
    and the runs. `flags` are options of the run; with some of them there are no lists, and the page says so.
    """
    parts = [entry_part(shown, alias, lists, flags) for alias in shown.plan.entries] + [
        step_part(shown, at) for at in range(steps(shown))
    ]
    return "\n".join(
        [
            "<!DOCTYPE html>",
            '<html lang="en">',
            "<head>",
            '<meta charset="utf-8">',
            '<meta name="viewport" content="width=device-width, initial-scale=1">',
            f"<title>{safe(shown.title)}</title>",
            f"<style>{STYLE}</style>",
            "</head>",
            "<body>",
            "<main>",
            f'<div><div class="drawn">{draw(shown, is_linked=True)}</div>',
            f"<h2>The plan as a tree</h2><ul class=\"tree\">{tree(shown, steps(shown) - 1)}</ul></div>",
            (
                '<aside><p>Click a bar or a line of the tree: here it says what is joined there, by what, and how many'
                ' rows there are at most.</p>'
            ),
            *parts,
            "</aside>",
            "</main>",
            "</body>",
            "</html>",
            "",
        ]
    )


def steps(shown: Shown) -> int:
    return len(shown.plan.nodes) if shown.plan.is_tree else len(shown.plan.levels)


def bound_of(shown: Shown, at: int) -> int:
    return shown.plan.nodes[at].bound if shown.plan.is_tree else shown.plan.levels[at][1]


def bound_and_rows(bound: int, rows: int | None) -> str:
    """A bound, and the true number of rows if an audit has counted them."""
    return f"at most {bound:,} rows" + ("" if rows is None else f", and there are {rows:,}")


def tree(shown: Shown, at: int) -> str:
    """The step at this place and all steps below it, as items of a list. For a plan without joins, its only entry."""
    if at < 0:
        return entry_item(shown, shown.plan.entries[0])
    past = ' class="past"' if shown.is_past(bound_of(shown, at)) else ""
    rows = None if shown.rows is None else shown.rows[at]
    below = "".join(item(shown, number) for number in below_of(shown, at))
    return (
        f'<li><a{past} href="#{shown.step_id(at)}">{safe(shown.step_name(at))}</a>:'
        f' {bound_and_rows(bound_of(shown, at), rows)}<ul>{below}</ul></li>'
    )


def below_of(shown: Shown, at: int) -> list[int | str]:
    """What a step joins: a step by its place, an entry by its name."""
    if not shown.plan.is_tree:
        return ([at - 1] if at else []) + [shown.plan.levels[at][0]]
    leaves, node = len(shown.plan.scans), shown.plan.nodes[at]
    return [shown.plan.entries[number] if number < leaves else number - leaves for number in (node.left, node.right)]


def item(shown: Shown, one: int | str) -> str:
    return tree(shown, one) if isinstance(one, int) else entry_item(shown, one)


def entry_item(shown: Shown, alias: str) -> str:
    return (
        f'<li><a href="#{shown.entry_id(alias)}">{named(shown, alias)}</a>:'
        f' {bound_and_rows(shown.plan.scans[alias], None)}</li>'
    )


def named(shown: Shown, alias: str) -> str:
    table = shown.table(alias)
    return safe(f"scan {alias}" + (f" of {table}" if table != alias else ""))


def step_part(shown: Shown, at: int) -> str:
    bound, rows = bound_of(shown, at), None if shown.rows is None else shown.rows[at]
    past = f'<p class="past">This is past the budget of {shown.budget:,} rows.</p>' if shown.is_past(bound) else ""
    conditions = "".join(f"<li><code>{safe(words)}</code></li>" for words in shown.joined_by(at))
    joined = ", ".join(
        (
            f"<a href=\"#{shown.step_id(one)}\">{safe(shown.step_name(one))}</a>"
            if isinstance(one, int)
            else f'<a href="#{shown.entry_id(one)}">{named(shown, one)}</a>'
        )
        for one in below_of(shown, at)
    )
    return (
        f'<section id="{shown.step_id(at)}"><h2>{safe(shown.step_name(at))}</h2>'
        f'<p>{bound_and_rows(bound, rows).capitalize()}.</p>{past}<p>Joins {joined}.</p>'
        + (f"<h3>Conditions that hold from here on</h3><ul>{conditions}</ul>" if conditions else "") + "</section>"
    )


def entry_part(shown: Shown, alias: str, lists: dict[str, list[Listed]], flags: list[str]) -> str:
    conditions = "".join(f"<li><code>{safe(words)}</code></li>" for words in shown.own.get(alias, []))
    said = (
        f'<section id="{shown.entry_id(alias)}"><h2>{named(shown, alias)}</h2><p>At most'
        f' {shown.plan.scans[alias]:,} rows pass the conditions on it alone.</p>'
        + (f"<h3>Its own conditions</h3><ul>{conditions}</ul>" if conditions else "")
    )
    missing = [words for flag, words in NO_LISTS.items() if flag in flags]
    found = lists.get(alias, [])
    if found or missing:
        said += (
            f"<h3>Lists that bounds are made from</h3>{HOW_LISTS_MEET * (len(found) > 1)}"
            + "".join(one_list(alias, *one) for one in found) + "".join(f"<p>{words}</p>" for words in missing)
        )
    return said + "</section>"


def one_list(alias: str, column: str, of: str, runs: list[tuple[int, int]]) -> str:
    """A list as a table: how often a value repeats, and how many values do so."""
    shown = runs[:MOST_RUNS]
    more = f"<p>and {len(runs) - MOST_RUNS} further lines</p>" if len(runs) > MOST_RUNS else ""
    head = "<tr><th>rows of a value</th>" + "".join(f"<td>{degree:,}</td>" for degree, _ in shown) + "</tr>"
    body = "<tr><th>values with so many</th>" + "".join(f"<td>{count:,}</td>" for _, count in shown) + "</tr>"
    table = f"<table>{head}{body}</table>" if runs else "<p>no rows</p>"
    return f"<p><b>{safe(f'{alias}.{column}')}</b> of {safe(of)}</p>{table}{more}"
