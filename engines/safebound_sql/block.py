"""A block: the meaning of one SELECT of a query that has several.

The entries in `reorderable` may be joined in any order; the other entries follow as written. `left_over` has
conditions as text. Each has the entries after which it is tested, or None if it is tested at the end. `not_used` has
the conditions that no bound uses. `order` is the order of all entries, once the block is planned.
"""

from __future__ import annotations

from typing import TYPE_CHECKING

from .block_names import BlockNames
from .blocks import Select, part_named, tables_in
from .dialect import Dialect
from .engine import Catalog, Connection
from .names import alias_of, subqueries
from .nondeterministic import nondeterministic
from .query import Query
from .reading import Statement, Step, Tokens, read
from .tokens import part_of_name

if TYPE_CHECKING:
    from .block_plans import Planner


class Block:
    """One SELECT with its FROM."""

    def __init__(self, plans: Planner, select: Select) -> None:
        self.plans, self.select, self.visible = plans, select, select.visible
        self.dialect: Dialect = plans.dialect
        self.catalog: Catalog = plans.catalog
        self.connection: Connection = plans.connection
        pieces = plans.pieces[select.start : select.end]
        self.statement: Statement = read(plans.text, list(pieces), self.dialect, in_blocks=True)
        if self.statement.usings:
            raise self.statement.refuse(
                self.statement.usings[0].names[0], "USING of one of several blocks isn't read; write it with ON",
                "USING",
            )
        self.outside = plans.aliases_outside(select)
        self.names: BlockNames = BlockNames(self.statement, plans, select, self.outside[0])
        self.query = Query(self.names.entries)
        self.steps = self.statement.steps
        self.has_right_joins = any(step.kind in ("RIGHT", "FULL") for step in self.steps)
        self.reorderable = self._reorderable_entries()
        self.on: dict[int, list[str]] = {
            step.source: [self.text(piece) for piece in step.conditions] for step in self.steps
        }
        self.order: list[int] = []
        self.left_over: list[tuple[str, frozenset[int] | None]] = []
        self.not_used: list[Tokens] = []
        self.outputs = {
            self.dialect.normalized_name(alias) for output in self.statement.outputs if (alias := alias_of(output))
        }
        for piece in self.statement.conditions:
            self._take_condition(piece)
        for step in self.steps:
            for piece in step.conditions:
                if step.source in self.reorderable:
                    self._take_condition(piece, of_on=True)
                else:
                    self._take_step_condition(step, piece)

    def _reorderable_entries(self) -> list[int]:
        """The entries that are joined first, in an order that the plan chooses. They are the entries of inner joins
        before any RIGHT or FULL JOIN and before LATERAL, if the ON names no other entries.
        """
        stop = next(
            (
                at for at, step in enumerate(self.steps)
                if step.kind in ("RIGHT", "FULL") or step.source in self.names.laterals
            ),
            len(self.steps),
        )
        steps = [step for step in self.steps[:stop] if step.kind == "INNER"]
        while True:
            found = [step.source for step in steps]
            kept = [step for step in steps if all(self._entries_in(piece) <= set(found) for piece in step.conditions)]
            if len(kept) == len(steps):
                return found
            steps = kept

    def tested_conditions(self) -> list[Tokens]:
        """The conditions that all rows of the block satisfy."""
        steps = [] if self.has_right_joins else [step for step in self.steps if step.source in self.reorderable]
        return self.statement.conditions + [piece for step in steps for piece in step.conditions]

    def _entries_in(self, piece: Tokens) -> frozenset[int]:
        return frozenset(column.entry for column in self.names.named_columns(piece))

    def text(self, piece: Tokens) -> str:
        """The tokens as text. A block among them has its joins in the planned order."""
        return self.plans.text_of(piece)

    def _take_condition(self, piece: Tokens, of_on: bool = False) -> None:
        """Takes a condition of WHERE or of an inner join's ON. A RIGHT or FULL JOIN may make the first entries NULL.
        Then a condition of WHERE is tested at the end, and a condition of ON after those entries.
        """
        self._check_names(piece)
        entries = self._entries_in(piece)
        outer = self.names_outside(piece) or self._may_name_output(piece)
        settled = entries <= set(self.reorderable) and (of_on or not self.has_right_joins) and not outer
        if settled and self._take_edge(piece):
            self.left_over.append((self.text(piece), entries))
        elif of_on and self.has_right_joins:
            self.left_over.append((self.text(piece), frozenset(self.reorderable)))
            self.not_used.append(piece)
        elif settled and len(entries) == 1 and self._counts(piece):
            self.query.entries[min(entries)].own.append(self.names.spelled(piece))
        else:
            self.left_over.append((self.text(piece), entries if settled and entries else None))
            self.not_used.append(piece)

    def _take_step_condition(self, step: Step, piece: Tokens) -> None:
        """Takes a condition of an ON that isn't moved."""
        self._check_names(piece)
        outer = self.names_outside(piece)
        if not outer and self._take_edge(piece, step.source):
            return
        alone = self._entries_in(piece) == {step.source} and step.kind in ("LEFT", "INNER") and not outer
        if alone and self._counts(piece):
            self.query.entries[step.source].own.append(self.names.spelled(piece))
        else:
            self.not_used.append(piece)

    def _check_names(self, piece: Tokens) -> None:
        if self.dialect.outputs_in_conditions:
            self.names.check_outputs_names(piece, self.outputs)

    def _may_name_output(self, piece: Tokens) -> bool:
        """Whether a subquery in the condition may name an output of the block, as SQLite allows. Only the whole block
        has that name.
        """
        return self.dialect.outputs_in_conditions and any(
            token.is_name and self.dialect.normalized_name(token) in self.outputs and not part_of_name(piece, at)
            for start, end in subqueries(piece)
            for at, token in enumerate(piece[:end])
            if at >= start
        )

    def _take_edge(self, piece: Tokens, of: int | None = None) -> bool:
        """Adds the equality to those that bounds use, if they can use it. With `of`, only if that entry has one of its
        columns. Returns whether it was added.
        """
        sides = self.names.equated_columns(piece)
        return sides is not None and (of is None or of in (sides[0].entry, sides[1].entry)) and (
            self.query.take_equality(*sides) is None
        )

    def names_outside(self, piece: Tokens) -> bool:
        """Whether the condition may name an entry of a block around this one."""
        aliases, columns = self.outside
        for at, token in enumerate(piece):
            after = piece[at + 1 : at + 2]
            behind_dot = at > 0 and piece[at - 1].says(".")
            name = self.dialect.normalized_name(token) if token.is_name else ""
            if not token.is_name or (token.kind == "word" and name in self.dialect.reserved):
                continue
            if after and after[0].says("."):
                # Behind a schema it may be the entry outside, even if the block has one of this name.
                if name in aliases and (behind_dot or name not in self.names.by_alias):
                    return True
            elif behind_dot:
                continue
            elif (name in columns or name in aliases - set(self.names.by_alias) or token.kind == "quoted") and not any(
                name in entry.about.by_name for entry in self.query.entries
            ):
                return True
        return False

    def _counts(self, piece: Tokens) -> bool:
        """Whether the rows that satisfy the condition may be counted. Its subqueries may not join, choose rows, name a
        part of WITH, or name anything of the query around them. Behind IN and TABLE a name may be such a part too.
        """
        if any(part_named(token, self.visible, self.dialect) for token in tables_in(piece)):
            return False
        for start, end in subqueries(piece):
            inner = piece[start + 1 : end - 1]
            if any(token.is_name and part_named(token, self.visible, self.dialect) for token in inner):
                return False
            if any(nondeterministic(inner, self.dialect)):
                return False
            if self.plans.joins_within(inner) or self.catalog.why_not_alone(inner):
                return False
        return True
