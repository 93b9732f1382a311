"""Takes the line of a fault apart. docs/ERRORS.md lists the forms of these lines."""
from __future__ import annotations

import re
from dataclasses import dataclass
from typing import Any

# What can be wrong with a table's file. Its name has no blank; the name of a file of new rows (`append`) may have
# blanks.
OF_TABLES = (
    r"(?P<cause>utf8) (?P<at>\d+)",
    r"(?P<cause>header) (?P<column>.*)",
    r"(?P<cause>width) (?P<record>\d+) (?P<found>\d+)",
    r"(?P<cause>field) (?P<record>\d+) (?P<column>.*)",
    r"(?P<cause>key) (?P<record>\d+) (?P<earlier>\d+)",
)
FORMS = [
    re.compile(form, re.DOTALL)
    for form in (
        r"error (?P<kind>usage)",
        r"error (?P<kind>read) (?P<file>.*)",
        r"error (?P<kind>schema|query) (?P<cause>\w+) (?P<at>\d+)",
        r"error (?P<kind>stats) (?P<cause>syntax|rule|missing) (?P<at>\d+)",
        *(rf"error (?P<kind>table) (?P<file>{name}) {form}" for name in (r"\S+", r".+?") for form in OF_TABLES),
        r"error (?P<kind>limit) (?P<cause>file-bytes|rows) (?P<file>.*) (?P<found>\d+)",
        r"error (?P<kind>limit) (?P<cause>[\w-]+) (?P<found>\d+)",
        r"error (?P<kind>budget) (?P<least>\d+)",
        r"error (?P<kind>past-bits)",
        r"error (?P<kind>write) (?P<cause>out|notes)",
        r"error (?P<kind>memory)",
        r"error (?P<kind>memory-limit) (?P<found>\d+)",
    )
]
NUMBERS = {"at", "record", "found", "earlier", "least"}


@dataclass
class Fault:
    """The words of a fault's line. A word that this kind of fault doesn't have is "", or 0 if it is a number."""
    kind: str
    cause: str = ""
    file: str = ""
    column: str = ""
    at: int = 0
    record: int = 0
    earlier: int = 0
    found: int = 0
    least: int = 0


def fault_of(notes: bytes) -> Fault | None:
    """The fault that standard error reports, or None. Its line is the only line, or follows the plan if a write failed.
    """
    text = notes.decode("utf-8", "surrogateescape")
    line = text if text.startswith("error ") else text[text.rstrip("\n").rfind("\n") + 1:]
    match = next((match for form in FORMS for match in [form.fullmatch(line.removesuffix("\n"))] if match), None)
    if not match:
        return None
    words: dict[str, Any] = match.groupdict()
    return Fault(**{name: int(value) if name in NUMBERS else value for name, value in words.items()})
