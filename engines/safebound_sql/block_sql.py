"""Writes a block as SQL, with its joins in the planned order."""

from __future__ import annotations

from .block import Block
from .reading import Tokens
from .reducing import bracketed, own_conditions, where
from .tokens import written


def rows_of_levels(block: Block, levels: int) -> str:
    """FROM and WHERE of the first `levels` levels, in the form that is bounded."""
    text, conditions = _join(block, levels)
    return text + where(conditions)


def _join(block: Block, levels: int) -> tuple[str, list[str]]:
    some = frozenset(block.order[:levels])
    text, done = "", list[str]()
    for position, number in enumerate(block.order[:levels]):
        before = frozenset(block.order[:position])
        source = source_text(block, number)
        kind = block.steps[number].kind
        if position == 0:
            text = source
        elif kind != "INNER":
            text += f"\n  {kind} JOIN {source} ON {' AND '.join(map(bracketed, block.on[number]))}"
        else:
            text += _inner_join(block, source, before, before | {number}, done)
    own = [
        condition
        for number in block.reorderable
        if number in some
        for condition in own_conditions(block.query.entries[number])
    ]
    rest = [bracketed(text) for text, entries in block.left_over if entries and entries <= some and text not in done]
    return f"FROM {text}", own + rest


def source_text(block: Block, number: int) -> str:
    """An entry as FROM has it. A table without an alias gets none, so that its name with a schema stays valid."""
    entry, source = block.query.entries[number], block.statement.sources[number]
    if not source.is_query and source.alias is source.table[-1]:
        return entry.table
    lateral = "LATERAL " if source.says_lateral else ""
    return f"{lateral}{entry.table} AS {entry.alias}{written(source.columns)}"


def _output(block: Block, number: int, piece: Tokens) -> str:
    """An output as text. A star of all entries becomes one star for each, in the order that FROM has as written."""
    if len(piece) == 1 and piece[0].says("*"):
        return ", ".join(f"{entry.alias}.*" for entry in block.query.entries)
    return block.names.named_as_written(number, block.text(piece))


def _inner_join(block: Block, source: str, before: frozenset[int], after: frozenset[int], done: list[str]) -> str:
    conditions = (
        block.on[max(after - before)]
        if not after <= set(block.reorderable)
        else [
            text
            for text, entries in block.left_over
            if entries and entries <= after and not entries <= before and len(entries) > 1
        ]
    )
    done += conditions
    if not conditions:
        return f"\n  CROSS JOIN {source}"
    return f"\n  {block.dialect.join_word} {source} ON {' AND '.join(map(bracketed, conditions))}"


def sql_of(block: Block) -> str:
    """The block with its joins in the planned order."""
    joined, conditions = _join(block, len(block.order))
    conditions += [bracketed(text) for text, entries in block.left_over if not entries]
    outputs = ", ".join(_output(block, number, piece) for number, piece in enumerate(block.statement.outputs))
    distinct = block.text(block.statement.distinct)
    later = block.text(block.statement.later_clauses)
    lines = [f"SELECT {distinct and distinct + ' '}{outputs}", joined + where(conditions), *filter(None, [later])]
    return "\n".join(lines)
