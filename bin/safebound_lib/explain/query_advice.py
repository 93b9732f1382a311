"""What to write in place of SQL that the language of queries doesn't have."""
from __future__ import annotations

import re
from typing import TYPE_CHECKING

from safebound.sql_texts import RESERVED, text_of, written_text

from .texts import NO_ARITHMETIC_THERE, is_in_select
from ..near import nearest
from ..spot import plain
from ..tokens import Token

if TYPE_CHECKING:
    from .texts import Place

THERE = "over the same tables in SQLite or PostgreSQL (docs/ENGINES.md)."
ELSEWHERE, MORE = f"safebound-sql takes such queries, {THERE}", f"safebound-sql takes more SQL, {THERE}"
SUBQUERY = f"Subqueries aren't part of the language. {ELSEWHERE}"
SETS = f"isn't part of the language: a query text is one SELECT. {ELSEWHERE}"
OUTER = (
    "Outer joins aren't part of the language: only JOIN .. ON and commas, which leave out rows that have no partner."
    f" {ELSEWHERE}"
)
LIKE = "isn't part of the language. Texts are compared whole, with = <> < <= > >= BETWEEN and IN."
FIRST_ROWS = "isn't part of the language. For the first rows, send the output on: safebound run .. |"
DATES = (
    "Dates aren't part of the language: store them as texts of the form YYYY-MM-DD, VARCHAR(10), and compare those: DAY"
    " >= '2024-01-01'."
)
AGGREGATE = (
    "Functions and aggregates aren't part of the language: take the columns alone, and give the rows to another"
    f" program. {ELSEWHERE}"
)
COUNT = (
    "Functions and aggregates aren't part of the language. Take a column in the place of COUNT(*), and leave GROUP BY"
    " out. Then `safebound audit` prints how many rows there are, and this counts those of each group:"
    f" `safebound run .. | tail -n +2 | sort | uniq -c`. {ELSEWHERE}"
)
FUNCTION = (
    "Functions and aggregates aren't part of the language: store the value that you compare, or compute it behind the"
    f" command. {MORE}"
)
ARITHMETIC = (
    "There is no arithmetic in conditions: move it to the literal, as X > 99 in the place of X + 1 > 100, or store the"
    f" sum as a column. {ELSEWHERE}"
)
DECIMALS = (
    "Numbers are integers. Store the smallest unit, as cents in the place of euros, and compare with that: 6050 in the"
    " place of 60.50."
)
CLOCKS = (
    "CURRENT_DATE", "CURRENT_TIME", "CURRENT_TIMESTAMP", "LOCALTIME", "LOCALTIMESTAMP", "NOW", "TODAY", "SYSDATE",
    "GETDATE", "CURDATE",
)
# The rows of LIMIT, OFFSET, FETCH and TOP, by the words in upper case with blanks between.
FORMS_OF_ROWS = tuple(
    re.compile(form + "$") for form in (
        r"LIMIT (?P<most>\d{1,9})", r"TOP (?P<most>\d{1,9})(?! PERCENT| WITH)(?: .*)?",
        r"LIMIT (?P<most>\d{1,9}) OFFSET (?P<left_out>\d{1,9})(?: ROWS?)?",
        r"OFFSET (?P<left_out>\d{1,9})(?: ROWS?)? LIMIT (?P<most>\d{1,9})",
        r"LIMIT (?P<left_out>\d{1,9}) , (?P<most>\d{1,9})", r"OFFSET (?P<left_out>\d{1,9})(?: ROWS?)?",
        r"(?:OFFSET (?P<left_out>\d{1,9}) ROWS? )?FETCH (?:FIRST|NEXT) (?P<most>\d{1,9}) ROWS? ONLY",
    )
)
READS_ONLY = "A query only reads: SELECT .. FROM .. WHERE .. Rows are changed in the table files."
AGGREGATES = ("COUNT", "SUM", "MIN", "MAX", "AVG")
OF_DATES = ("DATE", "TIME", "TIMESTAMP", "INTERVAL")
ROWS = ("LIMIT", "OFFSET", "FETCH", "TOP")
AS_ALIAS = (
    *ROWS, "ILIKE", "REGEXP", "WINDOW", "QUALIFY", "STRAIGHT_JOIN", "ASOF", "SEMI", "ANTI",
)
WORDS = {
    "ORDER": (
        f"ORDER BY isn't part of the language: rows come in the order of the plan. {ELSEWHERE} Where no field has a"
        " comma or a line end, sort them behind the command, and leave the header where it is:"
        " safebound run .. | (sed -u 1q; sort -t, -k1,1)"
    ),
    "GROUP": (
        "GROUP BY isn't part of the language: give the rows to another program and group them there."
        f" {ELSEWHERE}"
    ),
    "HAVING": (
        "HAVING isn't part of the language, as GROUP BY isn't: give the rows to another program and group them there."
        f" {ELSEWHERE}"
    ),
    "DISTINCT": (
        "DISTINCT isn't part of the language: each row comes as often as it is there. This leaves each once, below the"
        " header: safebound run .. | (sed -u 1q; sort -u)"
    ),
    "UNION": "UNION " + SETS,
    "INTERSECT": "INTERSECT " + SETS,
    "EXCEPT": "EXCEPT " + SETS,
    "LEFT": OUTER,
    "RIGHT": OUTER,
    "FULL": OUTER,
    "OUTER": OUTER,
    "NATURAL": (
        "NATURAL JOIN isn't part of the language: only JOIN .. ON and commas. Write each common column: A JOIN B ON B.X"
        " = A.X."
    ),
    "CROSS": "CROSS JOIN isn't part of the language: only JOIN .. ON and commas. Write FROM A, B.",
    "USING": "USING isn't part of the language: write ON. For USING (X) it is A JOIN B ON B.X = A.X.",
    "LIKE": f"LIKE {LIKE} {ELSEWHERE}",
    **{word: f"{word} {LIKE} {MORE}" for word in ("ILIKE", "REGEXP", "GLOB", "SIMILAR")},
    "IS": f"IS isn't part of the language. {MORE}",
    "EXISTS": "EXISTS isn't part of the language. " + SUBQUERY,
    "ANY": SUBQUERY,
    "ALL": SUBQUERY,
    **{word: f"{word} {FIRST_ROWS} head -n 11 takes ten, since the first line is the header." for word in ROWS},
    "CASE": (
        "CASE isn't part of the language: store the value as a column, or compute it behind the command."
        f" {ELSEWHERE}"
    ),
    "CAST": f"CAST isn't part of the language: a column has the type that the schema gives it. {ELSEWHERE}",
    "INSERT": READS_ONLY,
    "UPDATE": READS_ONLY,
    "DELETE": READS_ONLY,
    "DROP": READS_ONLY,
    "ALTER": READS_ONLY,
    "VALUES": READS_ONLY,
    "WITH": f"WITH isn't part of the language: a query text is one SELECT. {ELSEWHERE}",
    "BY": f"ORDER BY and GROUP BY aren't part of the language. {ELSEWHERE}",
}


def swapped_texts(place: Place) -> str | None:
    if place.at == 0 and place.word() == "CREATE":
        return "This looks like a schema: the command takes SCHEMA first and then QUERY."
    return None


def second_query(place: Place) -> str | None:
    if place.token(-1).is_one(";"):
        return "A query text holds one query, and a ; ends it. Put the next query into a file of its own."
    return None


def subquery(place: Place) -> str | None:
    if (
        place.word() == "SELECT" and place.token(-1).is_one("(") or place.token().is_one("(")
        and place.word(1) == "SELECT"
    ):
        return SUBQUERY
    return None


def no_clock(word: str) -> str:
    """What to write in place of a name such as CURRENT_DATE."""
    return (
        f"{word} isn't part of the language: a query doesn't know the day or the time. Write it as a text, in the form"
        " that the column has, as '2024-12-31'."
    )


def call(place: Place) -> str | None:
    """A name followed by a parenthesis."""
    before = place.token(-1)
    if place.token().is_one("(") and before.is_name:
        is_count = before.word == "COUNT" and place.token(1).is_one("*")
        if before.word in CLOCKS:
            return no_clock(before.word)
        advice = COUNT if is_count else AGGREGATE if before.word in AGGREGATES else FUNCTION
        return f"This is read as a call of {plain(before.source)}. {advice}"
    return None


def date_literal(place: Place) -> str | None:
    if place.word(-1) in OF_DATES and place.token().kind == "text" or place.word() in OF_DATES:
        return DATES
    return None


def decimal_literal(place: Place) -> str | None:
    if place.token().is_one(".") and (place.token(-1).kind == "number" or place.token(1).kind == "number"):
        return DECIMALS
    if place.token(-1).kind == "number" and re.fullmatch(r"[eE][0-9]*", place.token().source):
        return "A number is written in digits alone, without an exponent."
    return None


def alias_word(place: Place) -> str | None:
    """A word that was read as an alias or a name, but was meant as something else."""
    before, earlier = place.token(-1), place.token(-2)
    if before.word in AS_ALIAS and not place.token().is_one(".", ","):
        read_as = f"an alias of {plain(earlier.source)}" if earlier.is_name else "a name"
        known = some_rows(place.tokens[place.at - 1:]) or WORDS.get(before.word)
        return f"{before.word} was read as {read_as}. {known or f'{before.word} is not part of the language. {MORE}'}"
    return None


def some_rows(tokens: list[Token]) -> str:
    """For LIMIT, OFFSET, FETCH or TOP, which begins these tokens: the command that keeps the rows which are wanted."""
    if not tokens or tokens[0].word not in ROWS:
        return ""
    kept = kept_lines(tokens)
    return f"{tokens[0].word} {FIRST_ROWS} {kept} (the first line is the header)." if kept else ""


def kept_lines(tokens: list[Token]) -> str:
    """The command that keeps the header and the rows of LIMIT and OFFSET, or "" where their numbers aren't plain."""
    said = " ".join(token.source.upper() for token in tokens if not token.is_one(";"))
    found = next((found for form in FORMS_OF_ROWS for found in [form.match(said)] if found), None)
    if found is None:
        return ""
    numbers = {name: int(digits) for name, digits in found.groupdict().items() if digits}
    most, left_out = numbers.get("most"), numbers.get("left_out", 0)
    if most is None:
        return f"(sed -u 1q; tail -n +{left_out + 1})"
    return f"(sed -u 1q; sed -n '{left_out + 1},{left_out + most}p')" if left_out and most else f"head -n {most + 1}"


def null_test(place: Place) -> str | None:
    """IS NULL, IS NOT NULL and their like: the comparison with the empty text that says the same."""
    word, is_not = place.word(), place.word(1) == "NOT"
    if word not in ("IS", "NULL", "ISNULL", "NOTNULL") or word == "IS" and place.word(1 + is_not) != "NULL":
        return None
    is_not = is_not or word == "NOTNULL" or word == "NULL" and place.token(-1).is_one("<>", "NOT")
    called = column_before(place, 2 if word == "NULL" and place.token(-1).is_one("=", "<>", "NOT") else 1) or "X"
    return (
        "Tables have no nulls, so there is no NULL, and no IS NULL. An empty field of a text is the empty text:"
        f" {called} {'<>' if is_not else '='} ''. A number is never empty."
    )


def column_before(place: Place, back: int) -> str:
    """The column, with its entry if that is written, whose last token stands so many tokens before the place; or ""."""
    if not place.token(-back).is_name:
        return ""
    first = place.at - back - (2 if place.token(-back - 1).is_one(".") else 0)
    return plain("".join(token.source for token in place.tokens[max(first, 0):place.at - back + 1]))


def like(place: Place) -> str | None:
    """LIKE with a text that has no sign but one % at its end: the comparisons that say the same."""
    text, is_not = place.token(1), place.word(-1) == "NOT"
    called = column_before(place, 2 if is_not else 1)
    if place.word() != "LIKE" or text.kind != "text" or not called or place.word(2) == "ESCAPE":
        return None
    start = text_of(text.source)
    whole = start.removesuffix("%")
    if any(sign in whole for sign in "%_\\") or not whole or not "!" <= whole[-1] < "~":
        return None
    end = whole[:-1] + chr(ord(whole[-1]) + 1)
    said = (
        f"{called} {'<>' if is_not else '='} {written_text(whole)}" if whole == start
        else f"({called} < {written_text(whole)} OR {called} >= {written_text(end)})" if is_not
        else f"({called} >= {written_text(whole)} AND {called} < {written_text(end)})"
    )
    return f"LIKE {LIKE} Where upper and lower case count, this is the same: {plain(said)}. {ELSEWHERE}"


def name_with_a_sign(place: Place) -> str | None:
    """A table's name with a - or a point and a digit in it, as the name of its file may have."""
    before, sign = place.token(-1), place.token()
    if "an alias" not in place.expected or not before.is_name or not place.token(-2).is_one("FROM", "JOIN", ","):
        return None
    if not sign.is_one("-") and not (sign.is_one(".") and place.token(1).kind == "number"):
        return None
    name, end = before.source, before.end
    for token in place.tokens[place.at:]:
        if token.start != end or not (token.kind in ("word", "number") or token.is_one("-", ".")):
            break
        name, end = name + token.source, token.end
    if end == before.end:
        return None
    better = re.sub("[-.]+", "_", name.lower())
    return (
        f"{plain(name)} is no table's name, which has letters from A to Z, digits and _ alone. Rename the file, as to"
        f" {plain(better)}.csv, and write FROM {plain(better)}."
    )


def two_nots(place: Place) -> str | None:
    if place.word() == "NOT" and place.word(-1) == "NOT":
        return (
            "A condition has one NOT before it. A second one stands in parentheses, NOT (NOT X = 1); two of them are"
            " none, so leave both out."
        )
    return None


def wrong_quotes(place: Place) -> str | None:
    """A text in the place of a name, or a name in the place of a text."""
    token, expected = place.token(), place.expected
    wants_name = [what for what in expected if what in ("a table", "a column", "an alias", "a name for it")]
    if token.kind == "text" and wants_name and token.source.lower().endswith(".csv'"):
        return of_file(token.source[1:-1])
    if token.kind == "text" and wants_name:
        return (
            f"In single quotes stands a text, and here {wants_name[0]} has to stand: write"
            f" {plain(token.source[1:-1])} without quotes."
        )
    if "a text in single quotes" in expected and token.word in CLOCKS:
        return no_clock(token.word)
    if "a text in single quotes" in expected and "a column" not in expected and token.is_name:
        text = plain(token.name if token.kind == "quoted" else token.source).replace("'", "''")
        return (
            f"Here a text or a number has to stand, and {plain(token.source)} is a"
            f" name{' in double quotes' if token.kind == 'quoted' else ''}. A text takes single quotes: '{text}'."
        )
    return None


def order_by(place: Place) -> str | None:
    """For ORDER BY: the options with which `sort` sorts by its columns."""
    if place.word() != "ORDER" or place.word(1) != "BY":
        return None
    keys, item = [], []
    behind = place.tokens[place.at + 2:]
    end = next((i for i, token in enumerate(behind) if token.word in ROWS), len(behind))
    cut = kept_lines(behind[end:])
    if end < len(behind) and not cut:
        return f"ORDER BY and {behind[end].word} aren't part of the language. {ELSEWHERE}"
    for token in [*behind[:end], Token("symbol", -1, -1, ";")]:
        if not token.is_one(",", ";"):
            item.append(token)
            continue
        keys.append(sort_key(item, place.outs))
        item = []
    missing = next((name for name, key in keys if not key), None)
    if missing:
        return (
            f"ORDER BY isn't part of the language: rows come in the order of the plan. {ELSEWHERE} Take"
            f" {plain(missing)} into SELECT, and sort by it behind the command: safebound run .. | (sed -u 1q; sort -t,"
            f" -kN,N){f' | {cut}' if cut else ''}, where N counts the columns."
        )
    sorted_rows = WORDS["ORDER"].replace("-k1,1", " ".join(key for _, key in keys))
    return f"{sorted_rows} | {cut}" if cut else sorted_rows


def sort_key(item: list[Token], outs: tuple[tuple[set[str], bool], ...]) -> tuple[str, str]:
    """The name in ORDER BY, and the option of `sort` for it. The option is "" if no output column has this name."""
    down = any(token.word == "DESC" for token in item)
    named = [token for token in item if token.is_name or token.kind == "number"]
    if not named:
        return "the column", ""
    last = named[-1]
    at = (
        int(last.source) - 1 if last.kind == "number" and len(last.source) < 5
        else next((i for i, (names, _) in enumerate(outs) if last.is_name and last.name in names), -1)
    )
    if not 0 <= at < len(outs):
        return last.source, ""
    return last.source, f"-k{at + 1},{at + 1}{'n' * outs[at][1]}{'r' * down}"


def sql_word(place: Place) -> str | None:
    """A word of SQL that isn't part of the language. ORDER and GROUP without BY are taken for names."""
    if place.word() in ("ORDER", "GROUP") and place.word(1) != "BY":
        return None
    if place.word() == "DISTINCT" and place.word(1) == "ON":
        return f"DISTINCT ON isn't part of the language. {ELSEWHERE}"
    return some_rows(place.tokens[place.at:]) or WORDS.get(place.word())


def grouped_digits(place: Place) -> str | None:
    """A comma within a number: `5,000`."""
    if (
        place.token().is_one(",") and place.token(-1).kind == "number" and place.token(1).kind == "number"
        and "AND" in place.expected
    ):
        if len(place.token(1).source) != 3:
            return DECIMALS.replace(
                "6050 in the place of 60.50",
                (
                    f"{place.token(-1).source}{place.token(1).source} in the place of"
                    f" {place.token(-1).source},{place.token(1).source}"
                ),
            )
        return f"A number is written in digits alone: {place.token(-1).source}{place.token(1).source}."
    return None


def half_a_comparison(place: Place) -> str | None:
    """`X = 'A' OR 'B'`, and an operand in parentheses."""
    if place.word(-2) in ("OR", "AND") and "=" in str(place.expected) and place.token(-1).kind in ("text", "number"):
        return (
            f"Each side of {place.word(-2)} is a whole comparison, as X = 1 {place.word(-2)} X = 2. Several values of"
            " one column can stand in a list: X IN (1, 2)."
        )
    if place.token().is_one("(") and place.token(-1).is_one("=", "<>", "<", "<=", ">", ">="):
        return "What is compared is a column or a literal, without parentheses."
    return None


def qualified_name(place: Place) -> str | None:
    """A table's name with the name of a schema or a database before it."""
    if place.token().is_one(".") and place.word(1) == "CSV":
        return of_file(f"{place.token(-1).source}.{place.token(1).source}")
    if place.token().is_one(".") and "an alias" in place.expected and place.token(-2).is_one("FROM", "JOIN", ","):
        return "A table has one name: there are no names of schemas or databases before it."
    return None


def of_file(name: str) -> str:
    """What to write in place of the name of a table's file."""
    return f"{plain(name)} is a file's name, and a query names the table: FROM {plain(name[:-4].upper())}."


def doubled_sign(place: Place) -> str | None:
    if place.token().is_one("=") and place.token(-1).is_one("="):
        return "Equal is written with one =."
    if place.token().is_one(">", "<", "=") and place.token(-1).is_one("<", ">", "=", "<=", ">="):
        return "The comparisons are = <> < <= > >=."
    return None


def unquoted_value(place: Place) -> str | None:
    """A date or a code that begins with a digit, without its quotes."""
    token, before = place.token(), place.token(-1)
    if before.kind == "number" and token.kind == "word" and token.start == before.end:
        return f"A text takes single quotes: '{plain(before.source + token.source)}'."
    parts = [place.token(ahead).source for ahead in range(-1, 4)]
    if token.is_one("-") and re.fullmatch("[0-9]{4}-[0-9]{2}-[0-9]{2}", "".join(parts)):
        return f"This is read as a number less another. A date is a text, and takes single quotes: '{''.join(parts)}'."
    return None


def arithmetic(place: Place) -> str | None:
    if place.token().is_one("+", "-", "*") and (
        place.token(-1).is_name or place.token(-1).kind in ("number", "text") or place.token(-1).is_one(")")
    ):
        return NO_ARITHMETIC_THERE if is_in_select(place) else ARITHMETIC
    return None


def star(place: Place) -> str | None:
    if place.token().is_one(",") and place.token(-1).is_one("*") and place.word(-2) == "SELECT":
        return "A * stands alone. Beside columns each entry has its own: SELECT A.*, B.X."
    return None


def reserved_word(place: Place) -> str | None:
    """A reserved word in the place of a name."""
    wants_name = any(what.startswith("a ") and what != "a number" for what in place.expected)
    if (
        place.word() in RESERVED and wants_name
        and place.word() not in ("FROM", "WHERE", "SELECT", "AND", "OR", "ON", "JOIN")
    ):
        return f'{place.word()} is a reserved word. As a name it stands in double quotes: "{place.word()}".'
    return None


def comma_too_many(place: Place) -> str | None:
    if place.token(-1).is_one(",") and place.word() in ("FROM", "WHERE"):
        return f"A comma too many stands before {place.word()}."
    return None


def misspelled(place: Place) -> str | None:
    """A misspelled word of the language that was read as a name: `FORM BOOK`, `BOOK WHRE X = 1`."""
    wanted = ["SELECT", "FROM", "WHERE", "JOIN", "INNER", "AND", "OR", "BETWEEN", "IN", "NOT", "AS", "ON"]
    for token, how in ((place.token(), ""), (place.token(-1), " was read as a name.")):
        near = nearest(token.word, wanted, 0.74) if token.word and token.is_name else None
        if near:
            return f"{plain(token.source)}{how or ' is no word of the language.'} Did you mean {near}?"
    return None


def comma_missing(place: Place) -> str | None:
    """Two or more names in a row, without commas, in a list."""
    token, before = place.token(), place.token(-1)
    if token.is_name and (before.is_name or before.is_one("*")) and "," in place.expected:
        return f"Is a comma missing before {plain(token.source)}?"
    if token.is_one(".") and before.is_name and (place.token(-2).is_name or place.token(-2).is_one("AS")):
        return (
            f"{plain(before.source)} was read as another name for what stands before it. Is a comma missing before"
            f" {plain(before.source)}?"
        )
    if token.is_one(".") and before.is_name and place.token(-2).is_one("."):
        return "A column has at most two parts, as BOOK.TITLE: there are no names of schemas or databases."
    return None


def no_condition(place: Place) -> str | None:
    if place.word() in ("WHERE", "ON") and place.word(-1) == "WHERE":
        return "WHERE stands once; conditions are joined by AND."
    if "ON" in place.expected and place.word() != "ON":
        return "Each JOIN has its condition: JOIN B ON B.X = A.X."
    return None


CERTAIN = (
    swapped_texts, second_query, subquery, call, date_literal, name_with_a_sign, decimal_literal, unquoted_value,
    alias_word, two_nots, wrong_quotes, order_by, null_test, like, sql_word, doubled_sign, grouped_digits,
    half_a_comparison, qualified_name, arithmetic, star,
)
GUESSES = (comma_too_many, reserved_word, no_condition, misspelled, comma_missing)
