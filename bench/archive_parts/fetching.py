"""The package index and the list of contents of Debian's archive, as apt fetches them, in a folder of their own."""

from __future__ import annotations

import os
import subprocess
import sys
from typing import Iterator

from . import places

SOURCES = ("/etc/apt/sources.list.d/debian.sources", "/etc/apt/sources.list")
CONTENTS = "Acquire::IndexTargets::deb::Contents-deb::"
DOWNLOAD_TEXT = "the package index (9 MB) and the list of contents (46 MB) of Debian's archive"


def options() -> list[str]:
    """Options with which apt reads only the machine's own Debian sources and keeps its lists in our folder. apt's own
    lists are unchanged.
    """
    source = next((path for path in SOURCES if os.path.exists(path)), None)
    if source is None:
        sys.exit("archive: apt has no sources of Debian here: neither of " + ", ".join(SOURCES))
    said = {
        "Dir::State::Lists": places.LISTS,
        "Dir::Cache": os.path.join(places.MADE, "cache"),
        "Dir::Etc::SourceParts": "-",
        "Dir::Etc::SourceList": source,
        CONTENTS + "MetaKey": "$(COMPONENT)/Contents-$(ARCHITECTURE)",
        CONTENTS + "ShortDescription": "Contents-$(ARCHITECTURE)",
        CONTENTS + "Description": "$(RELEASE)/$(COMPONENT) $(ARCHITECTURE) Contents (deb)",
    }
    return [word for name, value in said.items() for word in ("-o", f"{name}={value}")]


def fetch() -> None:
    """Fetches what has changed in the archive since the last time; the first time, all of it."""
    os.makedirs(os.path.join(places.LISTS, "partial"), exist_ok=True)
    os.makedirs(os.path.join(places.MADE, "cache"), exist_ok=True)
    print(f"apt-get update fetches {DOWNLOAD_TEXT} into {places.LISTS}", file=sys.stderr, flush=True)
    subprocess.run(["apt-get", "update", "-q", *options()], check=True, stdout=sys.stderr)


def indexes(kind: str) -> list[str]:
    """The files of one kind, Packages or Contents-deb, of the first release of the sources: the archive itself, without
    its updates."""
    said = subprocess.run(
        ["apt-get", "indextargets", *options(), "--format", "$(CREATED_BY) $(RELEASE) $(COMPONENT) $(FILENAME)"],
        check=True, text=True, stdout=subprocess.PIPE,
    ).stdout.splitlines()
    found = [line.split(" ", 3) for line in said]
    releases = [release for _, release, _, _ in found]
    return [
        path for made, release, component, path in found if (made, release, component) == (kind, releases[0], "main")
    ]


def lines(kind: str) -> Iterator[str]:
    """The lines of all indexes of one kind, unpacked by apt's own helper."""
    for path in indexes(kind):
        with subprocess.Popen(["/usr/lib/apt/apt-helper", "cat-file", path], stdout=subprocess.PIPE) as unpacked:
            for line in unpacked.stdout or ():
                yield line.decode("utf-8", "replace").rstrip("\n")
        if unpacked.returncode:
            sys.exit(f"archive: {path} isn't there, or can't be read")
