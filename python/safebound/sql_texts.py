"""Names, texts and numbers in schema and query texts (docs/DEFINITIONS.md, "Tokens"), and the limits of these texts.

>>> written_name("price"), written_name("order"), written_name("Unit price")
('PRICE', '"order"', '"Unit price"')
>>> name_of('"Unit price"'), name_of("price")
('Unit price', 'PRICE')
>>> written_text("it's"), text_of("'it''s'")
("'it''s'", "it's")
"""

from __future__ import annotations

import re

__all__ = [
    "LEAST_NUMBER", "MOST_CHARACTERS", "MOST_NUMBER", "MOST_ROWS", "MOST_TABLE_BYTES", "MOST_TEXT_BYTES", "RESERVED",
    "folded", "name_of", "number_of", "text_of", "typed_name", "written_name", "written_text",
]

RESERVED = frozenset("""
ALL AND ANY AS ASC BETWEEN BIGINT BY CASE CAST CHAR CHARACTER CHECK CONSTRAINT CREATE CROSS DEFAULT DELETE DESC
DISTINCT EXCEPT EXISTS FOREIGN FROM FULL GROUP HAVING IN INNER INT INTEGER INTERSECT IS JOIN LEFT LIKE NATURAL NOT
NULL ON OR ORDER OUTER PRIMARY REFERENCES RIGHT SELECT SET SMALLINT TABLE UNION UNIQUE UPDATE USING VALUES VARCHAR
VARYING WHERE
""".split())
LEAST_NUMBER, MOST_NUMBER = -2**63, 2**63 - 1
# Limits of a schema or query text in bytes, of a table's file in bytes and in rows, and of a VARCHAR in characters.
MOST_TEXT_BYTES, MOST_TABLE_BYTES, MOST_ROWS, MOST_CHARACTERS = 1_048_576, 67_108_864, 4_000_000, 1_000_000

_WORD = re.compile(r"[A-Za-z][A-Za-z0-9_]*")


def folded(name: str) -> str:
    """A name in the form in which headers and words are compared: ASCII letters in upper case."""
    return "".join(c.upper() if c.isascii() else c for c in name)


def typed_name(name: str) -> str:
    """A name for a query text. A word that isn't reserved is unchanged; any other name is put in double quotes."""
    is_plain = _WORD.fullmatch(name) and name.upper() not in RESERVED
    return name if is_plain else '"' + name.replace('"', '""') + '"'


def written_name(name: str) -> str:
    """A name for a proposed schema: as `typed_name` gives it, but words are in upper case."""
    typed = typed_name(name)
    return typed if typed != name else name.upper()


def name_of(source: str) -> str:
    """The name that a word or a name in double quotes spells: a word in upper case, a quoted name as written."""
    return source[1:-1].replace('""', '"') if source.startswith('"') else source.upper()


def written_text(text: str) -> str:
    return "'" + text.replace("'", "''") + "'"


def text_of(source: str) -> str:
    """The text between single quotes, with each doubled quote written once."""
    return source[1:-1].replace("''", "'")


def number_of(source: str) -> int:
    """The number that a sign and digits spell. More than forty digits give a number outside every range."""
    digits = source.lstrip("+-0")
    value = int(digits or 0) if len(digits) <= 40 else 10**40
    return -value if source.startswith("-") else value
