"""Random queries of several blocks over small random tables: queries in FROM, WITH, set operations, chains of outer
joins, subqueries, grouping, and stars at every level; in PostgreSQL also LATERAL and set-returning functions.

Every query has the same rows however the engine evaluates it: LIMIT stands only behind an ORDER BY of all outputs.
"""

from __future__ import annotations

import random
from dataclasses import dataclass, field, replace
from typing import Any

from safebound_sql.query import Row

# The columns of each table, each with i for a whole number or t for a text. The first of a table in KEYED is its key.
TABLES = {
    "a": (("id", "i"), ("x", "i"), ("t", "t")),
    "b": (("id", "i"), ("a", "i"), ("x", "i"), ("z", "i")),
    "c": (("id", "i"), ("k", "i"), ("Two Words", "t")),
    "tiny": (("x", "i"), ("k", "i")),
    "none": (("x", "i"), ("y", "i"), ("t", "t")),
    "keyed": (("x", "i"), ("y", "i")),
    "Odd Name": (("x", "i"), ("select", "i"), ("t", "t")),
}
KEYED = ("a", "keyed")
ROWS = {"tiny": (1,), "none": (0,)}
SIMPLE = set("abcdefghijklmnopqrstuvwxyz_0123456789")
RESERVED = {"select", "order", "group"}
OUTPUT_NAMES = ("x", "id", "k", "n", "t", "select", "Two Words", "total", "a")


def name_text(name: str) -> str:
    """A name as it is written: in quotes where it needs them."""
    return name if set(name) <= SIMPLE and name not in RESERVED else f'"{name}"'


@dataclass(frozen=True)
class Column:
    """An output or a column, and whether it is a number or a text. Some outputs have no name that one could write."""

    name: str | None
    kind: str


@dataclass(frozen=True)
class Entry:
    """An entry of FROM. `key` is its table's key, if it has one."""

    alias: str
    columns: tuple[Column, ...]
    key: str | None = None

    def named(self) -> list[Column]:
        """The columns that one can name."""
        names = [(column.name or "").lower() for column in self.columns]
        return [column for column in self.columns if column.name and names.count(column.name.lower()) == 1]


@dataclass
class From:
    """What a FROM has: its text, its entries, the columns that USING merged, and what a star gives."""

    text: str = ""
    entries: list[Entry] = field(default_factory=list)
    merged: list[Column] = field(default_factory=list)
    star: list[Column] = field(default_factory=list)
    # The first entry behind the last comma. ON can't name the entries before it.
    joined_from: int = 0


@dataclass(frozen=True)
class Scope:
    """What a query can name: the entries of the queries around it, the parts of WITH, tables that a part hides, and how
    deep queries may still go.
    """

    place: str
    depth: int
    outer: tuple[Entry, ...] = ()
    parts: tuple[tuple[str, tuple[Column, ...]], ...] = ()
    hidden: frozenset[str] = frozenset()

    def within(self, place: str, outer: tuple[Entry, ...] | list[Entry] = ()) -> Scope:
        return replace(self, place=place, depth=self.depth - 1, outer=(*self.outer, *outer))


class RandomBlocks:
    """Tables and queries that a number determines."""

    def __init__(self, number: int, engine: str) -> None:
        self.random = random.Random(f"blocks {number} {engine}")
        self.postgres = engine == "postgres"
        self.has: set[str] = set()
        self.aliases = self.selects = 0

    # ---- tables

    def lay(self, base: Any) -> None:
        """Makes the tables in a test database, and fills them."""
        for table, columns in TABLES.items():
            types = [f"{name_text(name)} {'INTEGER' if kind == 'i' else 'TEXT'}" for name, kind in columns]
            types[0] += " PRIMARY KEY" if table in KEYED else ""
            written = name_text(table)
            base.script(f"DROP TABLE IF EXISTS {written}; CREATE TABLE {written} ({', '.join(types)})")
            base.fill(written, self.rows(table))

    def rows(self, table: str) -> list[Row]:
        count = self.random.choice(ROWS.get(table, (0, 3, 5, 7, 10)))
        rows = [tuple(self._value(kind) for _, kind in TABLES[table]) for _ in range(count)]
        if table in KEYED:
            return [(key, *row[1:]) for key, row in enumerate(rows)]
        # Some rows stand twice.
        return rows[: count - count // 4] + rows[: count // 4]

    def _value(self, kind: str) -> object:
        if self.random.random() < 0.15:
            return None
        skewed = int(6 * self.random.random() ** 2)
        return skewed if kind == "i" else "aAb'c"[skewed % 5]

    # ---- queries

    def query(self) -> str:
        """A query. `has` says what is in it."""
        self.has, self.aliases, self.selects = set(), 0, 0
        return self._query(Scope("at the top", self.random.choice((1, 1, 1, 2, 2, 3))), None)[0]

    def _chance(self, of: float) -> bool:
        return self.random.random() < of

    def _query(self, scope: Scope, kinds: tuple[str, ...] | None) -> tuple[str, list[Column]]:
        """A query with outputs of these kinds, or of any, and its outputs."""
        words = ""
        if scope.depth > 0 and scope.place != "of a part of WITH" and self._chance(0.3):
            words, scope = self._with(scope)
        text, outputs = self._together(scope, kinds) if self._chance(0.2) else self._select(scope, kinds)
        return words + text + self._order(len(outputs), text), outputs

    def _order(self, count: int, text: str) -> str:
        """ORDER BY, by numbers of outputs. Only where it is of all outputs, LIMIT may follow."""
        if self._chance(0.7):
            return ""
        places = self.random.sample(range(1, count + 1), count)
        limits = ["", f" LIMIT {self.random.randrange(1, 9)}", " LIMIT 3 OFFSET 1", " LIMIT 0"]
        limits += [" FETCH FIRST 2 ROWS ONLY", " OFFSET 2"] if self.postgres else [" LIMIT -1"]
        limit = self.random.choice(limits)
        if self._chance(0.3):
            places, limit = places[:1], ""
        single = not any(word in text for word in ("UNION", "EXCEPT", "INTERSECT", "DISTINCT"))
        if self.postgres and single and self._chance(0.15) and not limit:
            return f" ORDER BY {self._set_returning()}"
        return f" ORDER BY {', '.join(map(str, places))}{limit}"

    def _with(self, scope: Scope) -> tuple[str, Scope]:
        """WITH, and the scope behind it. In SQLite all parts see each other, so their order doesn't matter there."""
        self.has.add("part of WITH")
        names = self.random.sample(("w0", "w1", "W two", "tiny", "keyed", "c"), self.random.choice((1, 1, 2, 3)))
        inner = replace(scope, hidden=scope.hidden | set(names)) if not self.postgres else scope
        texts = []
        for name in names:
            text, outputs = self._query(replace(inner.within("of a part of WITH"), outer=()), None)
            given = ""
            if self._chance(0.3) or any(column.name is None for column in outputs):
                outputs = [Column(f"c{at}", column.kind) for at, column in enumerate(outputs)]
                given = f"({', '.join(f'c{at}' for at in range(len(outputs)))})"
            kept = self.random.choice(("", "", "", "MATERIALIZED ", "NOT MATERIALIZED "))
            texts.append(f"{name_text(name)}{given} AS {kept}({text})")
            inner = replace(inner, parts=(*inner.parts, (name, tuple(outputs))), hidden=inner.hidden | {name})
        if not self.postgres:
            self.random.shuffle(texts)
        return f"WITH {', '.join(texts)} ", replace(inner, place=scope.place)

    def _together(self, scope: Scope, kinds: tuple[str, ...] | None) -> tuple[str, list[Column]]:
        """UNION, INTERSECT and EXCEPT of a few queries."""
        self.has.add("set operation")
        kinds = kinds or tuple(self.random.choice("iit") for _ in range(self.random.choice((1, 2, 3))))
        scope = replace(scope, place="under a set operation")
        text, outputs = self._member(scope, kinds)
        for _ in range(self.random.choice((1, 1, 2))):
            words = ["UNION", "UNION ALL", "UNION ALL", "INTERSECT", "EXCEPT"]
            word = self.random.choice(words + ["INTERSECT ALL", "EXCEPT ALL"] * self.postgres)
            text += f" {word} {self._member(scope, kinds)[0]}"
        return text, outputs

    def _member(self, scope: Scope, kinds: tuple[str, ...]) -> tuple[str, list[Column]]:
        if not self.postgres or self._chance(0.6):
            return self._select(scope, kinds)
        if scope.depth > 0 and self._chance(0.4):
            text, outputs = self._together(scope.within(scope.place), kinds)
        else:
            text, outputs = self._select(scope, kinds)
        return f"({text}{self._order(len(outputs), text)})", outputs

    # ---- SELECT

    def _select(self, scope: Scope, kinds: tuple[str, ...] | None) -> tuple[str, list[Column]]:
        self.selects += 1
        if self.selects > 7:
            scope = replace(scope, depth=0)
        if self._chance(0.04):
            outputs = [(self._constant(kind), kind) for kind in kinds or ("i", "t")]
            return self._written("SELECT ", outputs, "")
        pieces = self._pieces(kinds) if kinds and self._chance(0.5) and scope.depth > 0 else None
        found = self._from(scope, pieces)
        scope = self._visible(found, scope)
        where = self._where(found, scope)
        if pieces:
            return self._pieces_starred(found, scope, where, len(pieces))
        if kinds is None and self._chance(0.45):
            return self._starred(found, scope, where)
        if self._chance(0.25):
            return self._grouped(found, scope, where, kinds)
        count = self.random.choice((1, 2, 3))
        wanted = kinds or tuple(self.random.choice("iit") for _ in range(count))
        outputs = [(self._output(found, scope, kind), kind) for kind in wanted]
        return self._written(f"SELECT {self._distinct()}", outputs, f" FROM {found.text}{where}")

    def _visible(self, found: From, scope: Scope) -> Scope:
        """The scope without the outer entries that entries of this FROM hide."""
        hidden = {entry.alias for entry in found.entries}
        return replace(scope, outer=tuple(entry for entry in scope.outer if entry.alias not in hidden))

    def _distinct(self) -> str:
        """What stands behind SELECT, now and then a comment that looks like SQL."""
        comment = self.random.choice(("/* UNION SELECT * FROM b */ ", "-- FROM (\n ")) if self._chance(0.03) else ""
        return comment + ("DISTINCT " if self._chance(0.12) else "ALL " if self._chance(0.03) else "")

    def _pieces_starred(self, found: From, scope: Scope, where: str, count: int) -> tuple[str, list[Column]]:
        """Stars over the first entries, which have outputs of the kinds that are wanted."""
        self.has.add(f"star {scope.place}")
        entries = found.entries[:count]
        stars = ", ".join(f"{name_text(entry.alias)}.*" for entry in entries)
        if len(found.entries) == count and self._chance(0.7):
            stars = "*"
        columns = [column for entry in entries for column in entry.columns]
        return f"SELECT {self._distinct()}{stars} FROM {found.text}{where}", columns

    def _pieces(self, kinds: tuple[str, ...]) -> list[tuple[str, ...]]:
        """The kinds in one or two pieces, each of which an entry gives to a star."""
        cut = self.random.randrange(len(kinds) + 1)
        return [piece for piece in (kinds[:cut], kinds[cut:]) if piece]

    def _starred(self, found: From, scope: Scope, where: str) -> tuple[str, list[Column]]:
        self.has.add(f"star {scope.place}")
        entry = self.random.choice(found.entries)
        all_of, of_one = ("*", found.star), (f"{name_text(entry.alias)}.*", list(entry.columns))
        forms: list[tuple[str, list[Column]]] = [all_of, all_of, of_one]
        more = self._output(found, scope, "i")
        forms.append((f"{of_one[0]}, {more} AS n", [*of_one[1], Column("n", "i")]))
        last = found.entries[-1]
        forms.append((f"{name_text(last.alias)}.*, {of_one[0]}", [*last.columns, *of_one[1]]))
        text, columns = self.random.choice(forms)
        return f"SELECT {self._distinct()}{text} FROM {found.text}{where}", list(columns)

    def _grouped(
        self, found: From, scope: Scope, where: str, kinds: tuple[str, ...] | None
    ) -> tuple[str, list[Column]]:
        """Aggregates, with GROUP BY and HAVING or without."""
        keyed = [entry for entry in found.entries if entry.key]
        if self.postgres and keyed and kinds is None and self._chance(0.3):
            # The other columns of the table depend on its key.
            entry = self.random.choice(keyed)
            alias = name_text(entry.alias)
            rest = [(f"{alias}.{name_text(column.name or '')}", column.kind) for column in entry.columns]
            outputs = [*self.random.sample(rest, 2), (self._total(found, "i"), "i")]
            return self._written("SELECT ", outputs, f" FROM {found.text}{where} GROUP BY {alias}.{entry.key}")
        wanted = kinds or ("i",) * self.random.choice((1, 2))
        keys: list[tuple[str, str]] = []
        for kind in self.random.choice(((), ("i",), ("i", "t"), (wanted[0],))):
            text = self._reference(found, kind)
            keys += [(text, kind)] if text else []
        outputs = []
        for kind in wanted:
            same = [text for text, other in keys if other == kind]
            outputs.append((self.random.choice(same) if same and self._chance(0.5) else self._total(found, kind), kind))
        by = f" GROUP BY {', '.join(text for text, _ in keys)}" if keys else ""
        if keys and self.postgres and self._chance(0.08):
            by += f", {self._set_returning()}"
        having = f" HAVING {self._total(found, 'i')} > {self.random.randrange(3)}" if self._chance(0.3) else ""
        return self._written("SELECT ", outputs, f" FROM {found.text}{where}{by}{having}")

    def _total(self, found: From, kind: str) -> str:
        column = self._reference(found, kind)
        if kind == "t":
            return f"min({column})" if column else "CAST(count(*) AS TEXT)"
        forms = ["count(*)", f"count(*) FILTER (WHERE {self._plain_condition(found)})"]
        if column:
            forms += [f"count({column})", f"max({column})", f"sum({column})", f"count(DISTINCT {column})"]
        return self.random.choice(forms)

    def _written(self, head: str, outputs: list[tuple[str, str]], tail: str) -> tuple[str, list[Column]]:
        """SELECT with these outputs, most of them with a name of their own."""
        texts, columns = [], []
        for text, kind in outputs:
            plain = set(text) <= SIMPLE | {"."} and not text[0].isdigit()
            if plain and self._chance(0.5):
                texts.append(text)
                columns.append(Column(text.rpartition(".")[2], kind))
            elif self.postgres and self._chance(0.1):
                texts.append(text)
                columns.append(Column(None, kind))
            else:
                name = self.random.choice(OUTPUT_NAMES)
                texts.append(f"{text} AS {name_text(name)}")
                columns.append(Column(name, kind))
        return head + ", ".join(texts) + tail, columns

    # ---- FROM

    def _from(self, scope: Scope, pieces: list[tuple[str, ...]] | None) -> From:
        """FROM. Where there are pieces, the first entries are queries with outputs of these kinds."""
        found = From()
        given = list(pieces or ())
        count = max(len(given), self.random.choice((1, 1, 2, 2, 3)))
        for at in range(count):
            self._join(found, scope, given[at] if at < len(given) else None)
        return found

    def _join(self, found: From, scope: Scope, kinds: tuple[str, ...] | None) -> None:
        lateral = bool(self.postgres and found.entries and scope.depth > 0 and not kinds and self._chance(0.12))
        text, entry = self._lateral(found, scope) if lateral else self._item(found, scope, kinds)
        if not found.entries:
            found.text, found.entries, found.star = text, [entry], list(entry.columns)
            return
        words = [",", "CROSS JOIN", "JOIN", "JOIN", "JOIN", "LEFT JOIN", "LEFT JOIN"]
        words += [] if lateral else ["RIGHT JOIN", "FULL JOIN"]
        word = self.random.choice(words)
        if not lateral and not kinds and not found.merged and self._chance(0.05) and self._using(found, text, entry):
            return
        if word == ",":
            found.joined_from = len(found.entries)
        elif len(found.entries) > 1 and not found.joined_from and self._chance(0.1):
            found.text = f"({found.text})"
        behind = replace_entries(found, found.entries[found.joined_from :])
        found.entries.append(entry)
        found.star += entry.columns
        if word == ",":
            found.text += f", {text}"
            return
        self.has |= {"outer join"} if word.split()[0] in ("LEFT", "RIGHT", "FULL") else set()
        on = "" if word == "CROSS JOIN" else f" ON {self._on(behind, entry, scope, word)}"
        found.text += f" {word} {text}{on}"

    def _on(self, behind: From, entry: Entry, scope: Scope, word: str) -> str:
        equal = self._equality(behind, entry)
        if word == "FULL JOIN":
            # PostgreSQL takes no other condition there.
            return equal or "1 = 1"
        if not equal or self._chance(0.05):
            return self.random.choice(("1 = 1", "true" if self.postgres else "1", "1 = 0"))
        own = self._plain_condition(From(entries=[self.random.choice([*behind.entries, entry])]), qualified=True)
        return f"{equal} AND {own}" if self._chance(0.3) else equal

    def _equality(self, behind: From, entry: Entry) -> str | None:
        for _ in range(4):
            kind = self.random.choice("iiit")
            left, right = self._reference(behind, kind, True), self._reference(From(entries=[entry]), kind, True)
            if left and right:
                return f"{left} = {right}" if self._chance(0.5) else f"{right} = {left}"
        return None

    def _using(self, found: From, text: str, entry: Entry) -> bool:
        """Joins with USING or NATURAL, if both sides have one column of the same name and kind."""
        left = [column.name for column in found.star]
        both = [
            column for column in entry.named() if left.count(column.name) == 1 and column in found.star
            and sum(column in other.named() for other in found.entries) == 1
        ]
        common = [column for column in entry.columns if column.name in left]
        if not both:
            return False
        natural = len(common) == len(both) and self._chance(0.3)
        merged = both if natural else [self.random.choice(both)]
        word = self.random.choice(("JOIN", "LEFT JOIN"))
        self.has |= {"USING or NATURAL"} | ({"outer join"} if word == "LEFT JOIN" else set())
        names = ", ".join(name_text(column.name or "") for column in merged)
        found.text += f" NATURAL {word} {text}" if natural else f" {word} {text} USING ({names})"
        rest = [column for column in entry.columns if column not in merged]
        if self.postgres:
            merged = [column for column in found.star if column in merged] if natural else merged
            found.star = merged + [column for column in found.star if column not in merged] + rest
        else:
            found.star += rest
        found.entries.append(entry)
        found.merged += merged
        return True

    def _alias(self, found: From) -> str:
        """An alias that no other entry of this FROM has. Other queries may have it."""
        self.aliases += 1
        used = {entry.alias for entry in found.entries}
        names = ["e1", "e2", "e3"] * 3 + ["a", "b", "tiny", "order", "Odd Name", "w0", "select", "x"]
        free = [name for name in names if name not in used]
        return self.random.choice(free) if self._chance(0.4) else f"e{self.aliases + 3}"

    def _item(self, found: From, scope: Scope, kinds: tuple[str, ...] | None) -> tuple[str, Entry]:
        """An entry: a table, a part of WITH, a query, or a function."""
        alias = self._alias(found)
        if kinds or (scope.depth > 0 and self._chance(0.25)):
            text, columns = self._query(replace(scope.within("in FROM"), outer=()), kinds)
            return self._aliased(f"({text})", alias, columns)
        if scope.parts and self._chance(0.6):
            name, outputs = self.random.choice(scope.parts)
            return self._aliased(name_text(name), alias, list(outputs), given=0.03)
        if self.postgres and self._chance(0.02):
            function = self._set_returning()
            return f"{function} AS {name_text(alias)}(n)", Entry(alias, (Column("n", "i"),))
        # With its schema, a table is meant even where a part of WITH has its name.
        schema = self.random.choice(("", "", "", "public." if self.postgres else "main."))
        hidden = frozenset() if schema else scope.hidden
        table = self.random.choice([table for table in TABLES if table not in hidden])
        key = TABLES[table][0][0] if table in KEYED else None
        entry = Entry(alias, tuple(Column(*column) for column in TABLES[table]), key)
        if self._chance(0.15) and not any(other.alias == table for other in found.entries):
            return schema + name_text(table), replace(entry, alias=table)
        return f"{schema}{name_text(table)} {self.random.choice(('AS ', ''))}{name_text(alias)}", entry

    def _aliased(self, text: str, alias: str, columns: list[Column], given: float = 0.15) -> tuple[str, Entry]:
        """An entry with its alias, which in PostgreSQL may give its columns other names."""
        names = ""
        if self.postgres and self._chance(given):
            columns = [Column(f"c{at}", column.kind) for at, column in enumerate(columns)]
            names = f"({', '.join(f'c{at}' for at in range(len(columns)))})"
        word = self.random.choice(("AS ", "")) if not names else "AS "
        return f"{text} {word}{name_text(alias)}{names}", Entry(alias, tuple(columns))

    def _lateral(self, found: From, scope: Scope) -> tuple[str, Entry]:
        self.has.add("LATERAL")
        inner = replace(scope.within("in FROM"), outer=tuple(found.entries))
        text, columns = self._query(inner, None)
        made, entry = self._aliased(f"({text})", self._alias(found), columns)
        return f"LATERAL {made}", entry

    # ---- values and conditions

    def _reference(self, found: From, kind: str, qualified: bool = False) -> str | None:
        """A column of this kind, or None. If its name is of one entry alone, the entry is left out at times."""
        merged = [column.name for column in found.merged]
        choices = [
            (entry, column) for entry in found.entries for column in entry.named()
            if column.kind == kind and column.name not in merged
        ]
        if not choices:
            return None
        entry, column = self.random.choice(choices)
        assert column.name
        names = [(other.name or "").lower() for one in found.entries for other in one.columns]
        if not qualified and names.count(column.name.lower()) == 1 and self._chance(0.3):
            return name_text(column.name)
        text = f"{name_text(entry.alias)}.{name_text(column.name)}"
        return text.upper() if self._chance(0.03) and '"' not in text else text

    def _outer_reference(self, scope: Scope, kind: str) -> str | None:
        if not scope.outer:
            return None
        return self._reference(From(entries=list(scope.outer)), kind, qualified=True)

    def _constant(self, kind: str) -> str:
        if kind == "t":
            return "CAST('a' AS TEXT)"
        return self._set_returning() if self.postgres and self._chance(0.05) else str(self.random.randrange(5))

    def _set_returning(self) -> str:
        self.has.add("set-returning function")
        return self.random.choice(
            ("generate_series(1, 3)", "generate_series(1, 2)", "unnest(ARRAY[1, 1, 2])", "generate_series(2, 1)")
        )

    def _output(self, found: From, scope: Scope, kind: str) -> str:
        column = self._reference(found, kind)
        if not column:
            return self._constant(kind)
        outer = self._outer_reference(scope, kind)
        if outer and self._chance(0.15):
            return outer
        if kind == "i" and scope.depth > 0 and self._chance(0.08):
            self.has.add("scalar subquery")
            return f"({self._scalar(found, scope)})"
        if self.postgres and kind == "i" and self._chance(0.04):
            self.has.add("set-returning function")
            return f"generate_series(1, {column})" if self._chance(0.4) else self._set_returning()
        if kind == "t" or self._chance(0.7):
            other = "0" if kind == "i" else "'b'"
            return f"coalesce({column}, {other})" if self._chance(0.15) else column
        forms = [f"{column} + 1", f"CASE WHEN {self._condition(found, scope)} THEN {column} END"]
        forms += [f"count(*) OVER (PARTITION BY {column})", f"max({column}) OVER ()"]
        return self.random.choice(forms)

    def _scalar(self, found: From, scope: Scope) -> str:
        """A query with one row: an aggregate without GROUP BY."""
        inner = scope.within("of a scalar subquery", found.entries)
        own = self._from(inner, None)
        where = self._where(own, self._visible(own, inner))
        return f"SELECT {self._total(own, 'i')} FROM {own.text}{where}"

    def _where(self, found: From, scope: Scope) -> str:
        texts = []
        for _ in range(self.random.choice((0, 0, 1, 1, 2))):
            texts.append(self._condition(found, scope))
        outer = self._correlated(found, scope) if scope.outer and self._chance(0.6) else None
        texts += [outer] if outer else []
        if len(found.entries) > 1 and "," in found.text and self._chance(0.7):
            equal = self._equality(From(entries=found.entries[:-1]), found.entries[-1])
            texts += [equal] if equal else []
        self.random.shuffle(texts)
        return f" WHERE {' AND '.join(texts)}" if texts else ""

    def _correlated(self, found: From, scope: Scope) -> str | None:
        kind = self.random.choice("iit")
        own, outer = self._reference(found, kind), self._outer_reference(scope, kind)
        return f"{own} {self.random.choice(('=', '=', '=', '<>', '<'))} {outer}" if own and outer else None

    def _plain_condition(self, found: From, qualified: bool = False) -> str:
        number, text = self._reference(found, "i", qualified), self._reference(found, "t", qualified)
        forms = []
        if number:
            constant = self.random.randrange(5)
            forms += [f"{number} < {constant}", f"{number} IS NOT NULL", f"{number} IS NULL", f"{number} <> {constant}"]
            same = "IS NOT DISTINCT FROM" if self.postgres else "IS"
            forms += [f"{number} IN (0, {constant})", f"coalesce({number}, 0) < 4", f"{number} {same} {constant}"]
        if text:
            forms += [f"{text} LIKE 'a%'", f"{text} <> 'b'"]
        return self.random.choice(forms or ["1 = 1"])

    def _condition(self, found: From, scope: Scope) -> str:
        if scope.depth > 0 and self._chance(0.45):
            return self._with_subquery(found, scope)
        if self._chance(0.15):
            return f"({self._plain_condition(found)} OR {self._plain_condition(found)})"
        return self._plain_condition(found)

    def _with_subquery(self, found: From, scope: Scope) -> str:
        """EXISTS, IN or a comparison with a subquery, correlated at times."""
        outer = found.entries if self._chance(0.6) else []
        form = self.random.choice(("EXISTS", "NOT EXISTS", "IN", "IN", "NOT IN", "IN two", "scalar"))
        if form in ("EXISTS", "NOT EXISTS"):
            self.has.add("EXISTS")
            return f"{form} ({self._query(scope.within('under EXISTS', outer), None)[0]})"
        kinds = tuple(self.random.choice("iit") for _ in range(2 if form == "IN two" else 1))
        left = [self._reference(found, kind) or self._plain_constant(kind) for kind in kinds]
        if form == "scalar":
            self.has.add("scalar subquery")
            number = self._reference(found, "i") or "1"
            return f"{number} {self.random.choice('<>=')} ({self._scalar(replace_entries(found, outer), scope)})"
        self.has.add("IN")
        text = self._query(scope.within("under IN", outer), kinds)[0]
        word = "NOT IN" if form == "NOT IN" else "IN"
        return f"{f'({chr(44).join(left)})' if len(left) > 1 else left[0]} {word} ({text})"

    def _plain_constant(self, kind: str) -> str:
        return "1" if kind == "i" else "'a'"


def replace_entries(found: From, entries: list[Entry]) -> From:
    """The same FROM with some of its entries alone."""
    return From(entries=list(entries), merged=found.merged)
