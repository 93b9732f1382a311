"""Tables out of the archive's indexes, as CSV files: whole, and as the program takes them."""

from __future__ import annotations

import csv
import itertools
import os
import re
import shutil
from typing import Iterable, Iterator, Sequence, Union

from . import fetching, places

COLUMNS = {
    "maintainer": ("ID", "NAME"),
    "package": ("ID", "NAME", "SOURCE", "MAINTAINER", "SECTION", "PRIORITY", "SIZE", "INSTALLED"),
    "dependency": ("PACKAGE", "KIND", "TARGET"),
    "tag": ("PACKAGE", "FACET", "NAME"),
    "directory": ("ID", "PATH", "PARENT"),
    "file": ("PACKAGE", "DIRECTORY", "NAME"),
}
KINDS = ("Pre-Depends", "Depends", "Recommends", "Suggests", "Enhances", "Conflicts", "Breaks", "Replaces")
FIELDS = ("Package", "Source", "Maintainer", "Section", "Priority", "Size", "Installed-Size", "Tag", *KINDS)
PACKAGE_NAME = re.compile(r"\s*([a-z0-9][a-z0-9+.-]+)")
BRACES = re.compile(r"(.*)\{(.*)\}")
Row = Sequence[Union[int, str]]
# The 7,400,000 files of the whole archive are more than the program accepts in one table. So its tables leave out the
# files below this folder, mostly documents, icons and data.
LEFT_OUT = "usr/share/"


def paragraphs(lines: Iterable[str]) -> Iterator[dict[str, str]]:
    """For each package the fields in FIELDS. An empty line ends a package."""
    for is_full, paragraph in itertools.groupby(lines, bool):
        if is_full and (found := fields_of(paragraph)):
            yield found


def fields_of(paragraph: Iterable[str]) -> dict[str, str]:
    """The fields of a paragraph. A line that begins with a blank continues the field before it."""
    found: dict[str, str] = {}
    name = ""
    for line in paragraph:
        if line[0] not in " \t":
            name, _, value = line.partition(":")
            found[name] = value.strip()
        elif name:
            found[name] += line
    return {name: value for name, value in found.items() if name in FIELDS}


def numbered(values: Iterable[str]) -> dict[str, int]:
    return {value: number for number, value in enumerate(sorted(set(values)), 1)}


def without_address(maintainer: str) -> str:
    return maintainer.partition("<")[0].strip(' "') or "unnamed"


def tags_of(field: str) -> list[str]:
    """The tags of a field: `a::{b, c}` is short for `a::b, a::c`."""
    found: list[str] = []
    for part in re.findall(r"[^,{]+(?:\{[^}]*\})?", field):
        short = BRACES.match(part)
        found += [short[1] + end for end in short[2].split(",")] if short else [part]
    return sorted({tag.strip() for tag in found if "::" in tag})


def targets_of(field: str, ids: dict[str, int]) -> list[int]:
    """The packages that a field names, each once. A name that isn't a package (a virtual one) is left out."""
    names = [PACKAGE_NAME.match(part) for part in re.split(r"[,|]", field)]
    return list(dict.fromkeys(ids[name[1]] for name in names if name and name[1] in ids))


def package_tables(found: dict[str, dict[str, str]]) -> dict[str, list[Row]]:
    """All tables except those of files and folders, from the fields of each package, by its name."""
    ids = numbered(found)
    people = numbered(without_address(fields["Maintainer"]) for fields in found.values())
    packages: list[Row] = []
    dependencies: list[Row] = []
    tags: list[Row] = []
    for name, number in ids.items():
        fields = found[name]
        source = fields.get("Source", name).partition(" ")[0]
        maintainer = people[without_address(fields["Maintainer"])]
        sizes = (int(fields["Size"]), int(fields.get("Installed-Size", 0)))
        packages.append((number, name, source, maintainer, fields["Section"], fields["Priority"], *sizes))
        dependencies += [(number, kind, target) for kind in KINDS for target in targets_of(fields.get(kind, ""), ids)]
        tags += [(number, tag.partition("::")[0], tag) for tag in tags_of(fields.get("Tag", ""))]
    maintainers: list[Row] = [(number, name) for name, number in people.items()]
    return {"maintainer": maintainers, "package": packages, "dependency": dependencies, "tag": tags}


def paths(lines: Iterable[str], ids: dict[str, int]) -> Iterator[tuple[str, str, int]]:
    """The folder, name and package of each file. A file of several packages comes once for each."""
    for line in lines:
        path, _, owners = line.rpartition(" ")
        folder, _, name = path.rstrip().rpartition("/")
        for owner in owners.split(","):
            number = ids.get(owner.rpartition("/")[2])
            if number and name:
                yield folder, name, number


class Directories:
    """Folders by path, numbered in the order in which they first occur. Folder 1 is the root, which is its own parent.
    """

    def __init__(self) -> None:
        self.numbers = {"": 1}
        self.rows: list[Row] = [(1, "/", 1)]

    def number(self, path: str) -> int:
        if path not in self.numbers:
            parent = self.number(path.rpartition("/")[0])
            self.numbers[path] = len(self.rows) + 1
            self.rows.append((len(self.rows) + 1, "/" + path, parent))
        return self.numbers[path]


def write(folder: str, table: str, rows: Iterable[Row]) -> None:
    with open(os.path.join(folder, table + ".csv"), "w", encoding="utf-8", newline="") as f:
        out = csv.writer(f)
        out.writerow(COLUMNS[table])
        out.writerows(rows)


def write_files(ids: dict[str, int]) -> None:
    """Writes the tables of files and folders. The files that the program accepts come first, so that their folders have
    the same numbers in both sets of tables.
    """
    found = sorted(paths(fetching.lines("Contents-deb"), ids))
    within = [one for one in found if not (one[0] + "/").startswith(LEFT_OUT)]
    others = [one for one in found if (one[0] + "/").startswith(LEFT_OUT)]
    directories = Directories()
    for folder, part in ((places.TABLES, within), (places.WHOLE, within + others)):
        write(folder, "file", ((number, directories.number(path), name) for path, name, number in part))
        write(folder, "directory", directories.rows)


def make() -> None:
    """Writes the tables of both folders."""
    for folder in (places.TABLES, places.WHOLE):
        os.makedirs(folder, exist_ok=True)
        shutil.copy(os.path.join(places.QUERIES, "schema.sql"), folder)
    found: dict[str, dict[str, str]] = {}
    for fields in paragraphs(fetching.lines("Packages")):
        found.setdefault(fields["Package"], fields)
    for table, rows in package_tables(found).items():
        for folder in (places.TABLES, places.WHOLE):
            write(folder, table, rows)
    write_files(numbered(found))


def is_made() -> bool:
    """Whether the last file that `make` writes exists."""
    return os.path.exists(os.path.join(places.WHOLE, "directory.csv"))
