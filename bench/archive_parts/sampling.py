"""A sample of the archive that is small enough to be kept in the repository."""

from __future__ import annotations

import csv
import os
import re
import shutil

from . import making, places

PACKAGES = 2_000
FIRST = "mutt"
TEAM = re.compile(r"team|group|maintainers|developers|project|openstack|debian", re.IGNORECASE)
# The folders whose files are in the sample, besides those below /etc.
FOLDERS = ("/bin", "/sbin", "/usr/bin", "/usr/sbin", "/usr/games", "/lib/systemd/system")


def read(table: str) -> list[list[str]]:
    with open(os.path.join(places.TABLES, table + ".csv"), encoding="utf-8", newline="") as f:
        return list(csv.reader(f))[1:]


def reached(dependencies: list[list[str]], first: str, most: int) -> set[str]:
    """At most `most` packages: the first one, and packages that dependencies of any kind reach from it, nearest first.
    """
    targets: dict[str, list[str]] = {}
    for package, _, target in dependencies:
        targets.setdefault(package, []).append(target)
    found, at = [first], 0
    while at < len(found) < most:
        new = dict.fromkeys([*found, *targets.get(found[at], ())])
        found, at = list(new)[:most], at + 1
    return set(found)


def is_kept(path: str) -> bool:
    return path in FOLDERS or path == "/etc" or path.startswith("/etc/")


def sample(folder: str, most: int = PACKAGES) -> None:
    """Writes the rows of `most` packages. A maintainer who is a person and not a team gets a number as name."""
    packages, dependencies = read("package"), read("dependency")
    kept = reached(dependencies, next(row[0] for row in packages if row[1] == FIRST), most)
    directories = {row[0]: row for row in read("directory")}
    rows = {
        "package": [row for row in packages if row[0] in kept],
        "dependency": [row for row in dependencies if row[0] in kept and row[2] in kept],
        "tag": [row for row in read("tag") if row[0] in kept],
        "file": [row for row in read("file") if row[0] in kept and is_kept(directories[row[1]][1])],
    }
    people = {row[3] for row in rows["package"]}
    rows["maintainer"] = [
        [n, name if TEAM.search(name) else "person " + n] for n, name in read("maintainer") if n in people
    ]
    rows["directory"] = [
        directories[n] for n in sorted(with_parents({row[1] for row in rows["file"]}, directories), key=int)
    ]
    os.makedirs(folder, exist_ok=True)
    shutil.copy(os.path.join(places.QUERIES, "schema.sql"), folder)
    for table, found in rows.items():
        making.write(folder, table, found)


def with_parents(numbers: set[str], directories: dict[str, list[str]]) -> set[str]:
    """The numbers of directories, and of all directories that contain them."""
    found: set[str] = set()
    for number in numbers:
        while number not in found:
            found.add(number)
            number = directories[number][2]
    return found
